//! Refusals 12 and 13: the counts and control sums against the truth.

use crate::order::{offset, Order};
use crate::rows::Node;
use crate::values;
use crate::Refusal;

/// The total in cents of a message whose counts and sums are true.
pub fn check(order: &Order) -> Result<u64, Refusal> {
    let payments: Vec<&Node> = order.payments().iter().map(|payment| payment.own).collect();
    let total = sum(order, &payments);
    agree(order, order.header(), [6, 7], payments.len(), total)?;
    for block in order.blocks() {
        let payments: Vec<&Node> = block.all(37).collect();
        agree(order, Some(block), [14, 15], payments.len(), sum(order, &payments))?;
    }
    Ok(total)
}

pub fn amount(order: &Order, payment: &Node) -> u64 {
    values::cents(order.text(payment.down(&[41, 42]))).unwrap_or(0)
}

/// In cents: by refusals 5 and 8 at most 64 times 99,999,999,999, which is below 2^43.
fn sum(order: &Order, payments: &[&Node]) -> u64 {
    payments.iter().map(|payment| amount(order, payment)).sum()
}

/// The count and the sum of the header or of a block.
fn agree(
    order: &Order,
    group: Option<&Node>,
    [count_row, sum_row]: [u32; 2],
    payments: usize,
    cents: u64,
) -> Result<(), Refusal> {
    let count = group.and_then(|group| group.down(&[count_row]));
    let sum = group.and_then(|group| group.down(&[sum_row]));
    if values::number(order.text(count)) != Some(payments as u64) {
        return Err(Refusal::new(12, count_row, offset(count)));
    }
    if values::cents(order.text(sum)) != Some(cents) {
        return Err(Refusal::new(13, sum_row, offset(sum)));
    }
    Ok(())
}
