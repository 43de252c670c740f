//! The table after acceptance: twenty numbers for each payment.

use crate::counts::amount;
use crate::form::Part;
use crate::order::{part, Order, Payment};

pub const NUMBERS_EACH: usize = 20;
/// Room for the most payments; a shorter table is refused, whatever the message.
pub const LEAST_NUMBERS: usize = 1280;

pub fn fill(order: &Order, table: &mut [u32]) {
    for (payment, numbers) in order.payments().iter().zip(table.chunks_exact_mut(NUMBERS_EACH)) {
        numbers.copy_from_slice(&numbers_of(order, payment));
    }
}

fn numbers_of(order: &Order, payment: &Payment) -> [u32; NUMBERS_EACH] {
    let cents = amount(order, payment.own);
    let mut numbers = [0; NUMBERS_EACH];
    numbers[0] = payment.block_ordinal as u32;
    for (at, part) in parts_of(payment) {
        numbers[at] = part.start as u32;
        numbers[at + 1] = part.len as u32;
    }
    numbers[13] = (cents / 100) as u32;
    numbers[14] = (cents % 100) as u32;
    numbers[15] = payment.own.offset as u32;
    numbers
}

/// The pairs, each with the place of its start in the payment's numbers.
fn parts_of(payment: &Payment) -> [(usize, Part); 8] {
    let own = |path: &[u32]| part(payment.own.down(path));
    let ultimate_debtor = payment.own_or_inherited(34).and_then(|party| party.down(&[35]));
    let plain = payment.own.down(&[48, 49]);
    let remittance = plain.or_else(|| payment.own.down(&[48, 50, 51, 55]));
    [
        (1, own(&[38, 40])),
        (3, own(&[45, 27, 28])),
        (5, own(&[44, 25])),
        (7, part(ultimate_debtor)),
        (9, part(payment.own_or_inherited(16))),
        (11, part(payment.block.down(&[26, 27, 28]))),
        (16, own(&[43, 30, 31])),
        (18, part(remittance)),
    ]
}

#[cfg(test)]
mod tests {
    use super::*;
    use crate::usage::MOST_PAYMENTS;

    #[test]
    fn the_least_table_has_room_for_the_most_payments_and_no_more() {
        assert_eq!(LEAST_NUMBERS, NUMBERS_EACH * MOST_PAYMENTS);
    }
}
