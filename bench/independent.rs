//! The independent implementation behind the interface of include/glowenzo.h, under names of its own, for the benchmark.

use independent::{regroup, verdict, Age, Profile, Regroup, Verdict, LEAST_NUMBERS, NUMBERS_EACH};

/// Number, element, offset, blocks, payments, cents; or whose, number, element, offset, k, field.
#[repr(C)]
pub struct Answer([u64; 6]);

/// # Safety
/// The pointers are of parts of these lengths that nothing else uses, or null with length 0.
unsafe fn part<'a>(start: *const u8, length: u64) -> &'a [u8] {
    if length == 0 {
        return &[];
    }
    std::slice::from_raw_parts(start, length as usize)
}

/// # Safety
/// As of `part`.
#[no_mangle]
pub unsafe extern "C" fn independent_verdict(
    profile: u64,
    archived: u64,
    message: *const u8,
    message_len: u64,
    table: *mut u8,
    table_len: u64,
) -> Answer {
    let message = part(message, message_len);
    let table = if table_len == 0 { &mut [] } else { std::slice::from_raw_parts_mut(table, table_len as usize) };
    let mut numbers = [0; LEAST_NUMBERS];
    let lent = table.len() / 4;
    match verdict(Profile::numbered(profile), Age::numbered(archived), message, &mut numbers[..LEAST_NUMBERS.min(lent)]) {
        Verdict::Accepted { blocks, payments, cents } => {
            for (bytes, number) in table.chunks_exact_mut(4).zip(&numbers[..NUMBERS_EACH * payments as usize]) {
                bytes.copy_from_slice(&number.to_be_bytes());
            }
            Answer([0, 0, 0, blocks.into(), payments.into(), cents])
        }
        Verdict::Refused { number, element, offset } => Answer([number.into(), element.into(), offset as u64, 0, 0, 0]),
    }
}

/// # Safety
/// As of `part`.
#[no_mangle]
pub unsafe extern "C" fn independent_regroup(
    profile: u64,
    archived: u64,
    first: *const u8,
    first_len: u64,
    second: *const u8,
    second_len: u64,
    list: *const u8,
    list_len: u64,
) -> Answer {
    let (first, second, list) = (part(first, first_len), part(second, second_len), part(list, list_len));
    Answer(match regroup(Profile::numbered(profile), Age::numbered(archived), first, second, list) {
        Regroup::Accepted => [0; 6],
        Regroup::Message { whose, refusal } => {
            [whose.into(), refusal.number.into(), refusal.element.into(), refusal.offset as u64, 0, 0]
        }
        Regroup::Refused { number, k, field } => [0, number.into(), 0, 0, k.into(), field.into()],
    })
}
