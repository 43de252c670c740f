//! The seventeen fields of a payment, with what it takes from its block.

use crate::counts::amount;
use crate::order::{part, Order, Payment};
use crate::rows::Node;
use crate::{read, Age, Profile};

pub const FIELDS: std::ops::RangeInclusive<u32> = 1..=17;

/// Where a field's text stands in the message, and how long it is; the empty
/// part at 0 where there is none.
pub fn field(
    profile: Profile,
    age: Age,
    message: &[u8],
    payment: usize,
    field: usize,
) -> (usize, usize) {
    let Ok(accepted) = read(profile, age, message) else { return (0, 0) };
    let payments = accepted.order.payments();
    let known = payments.get(payment).zip(u32::try_from(field).ok());
    let part = part(known.and_then(|(payment, field)| element(payment, field)));
    (part.start, part.len)
}

/// The element whose text is the field's.
fn element<'o>(payment: &Payment<'o>, field: u32) -> Option<&'o Node> {
    let Payment { block, own, .. } = *payment;
    let inherited = |row, path| payment.own_or_inherited(row).and_then(|node| node.down(path));
    match field {
        1 => block.down(&[13]),
        2 => inherited(16, &[17]),
        3 => inherited(16, &[20, 21]),
        4 => block.down(&[22, 23]).or_else(|| block.down(&[22, 58])),
        5 => block.down(&[24, 25]),
        6 => block.down(&[26, 27, 28]),
        7 => block.down(&[29, 30, 31]).or_else(|| block.down(&[29, 30, 32, 33])),
        8 => inherited(34, &[35]),
        9 => own.down(&[38, 39]),
        10 => own.down(&[38, 40]),
        11 => own.down(&[41, 42]),
        12 => own.down(&[43, 30, 31]),
        13 => own.down(&[44, 25]),
        14 => own.down(&[45, 27, 28]),
        15 => own.down(&[46, 35]),
        16 => own.down(&[47, 21]),
        17 => own.down(&[48, 49]).or_else(|| own.down(&[48, 50, 51, 55])),
        _ => None,
    }
}

/// What a field says, as it is compared.
#[derive(PartialEq, Eq)]
enum Said<'m> {
    Nothing,
    Text(&'m [u8]),
    Cents(u64),
    Reference { issuer: Option<&'m [u8]>, reference: &'m [u8] },
}

fn said<'m>(order: &Order<'m>, payment: &Payment, field: u32) -> Said<'m> {
    let bytes = |node: &Node| node.content.of(order.message);
    if field == 11 {
        return Said::Cents(amount(order, payment.own));
    }
    let Some(element) = element(payment, field) else { return said_by_absence(field) };
    if element.row != 55 {
        return Said::Text(bytes(element));
    }
    let issuer = payment.own.down(&[48, 50, 51, 52, 54]).map(bytes);
    Said::Reference { issuer, reference: bytes(element) }
}

fn said_by_absence(field: u32) -> Said<'static> {
    match field {
        1 => Said::Text(b"true"),
        2 => Said::Text(b"NORM"),
        _ => Said::Nothing,
    }
}

/// The lowest field in which two payments differ.
pub(crate) fn lowest_difference(
    (first_order, first): (&Order, &Payment),
    (second_order, second): (&Order, &Payment),
) -> Option<u32> {
    FIELDS
        .into_iter()
        .find(|field| said(first_order, first, *field) != said(second_order, second, *field))
}
