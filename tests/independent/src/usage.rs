//! Refusal 5, and the usage rules 9, 10 and 11.

use crate::order::{offset, Order, Payment};
use crate::rows::Node;
use crate::Refusal;

const MOST_BLOCKS: usize = 16;
pub const MOST_PAYMENTS: usize = 64;

/// 5: the 17th block or the 65th payment, whichever comes first.
pub fn limits(order: &Order) -> Result<(), Refusal> {
    let mut payments = 0;
    for (ordinal, block) in order.blocks().into_iter().enumerate() {
        if ordinal == MOST_BLOCKS {
            return Err(Refusal::new(5, 10, block.offset));
        }
        for payment in block.all(37) {
            if payments == MOST_PAYMENTS {
                return Err(Refusal::new(5, 37, payment.offset));
            }
            payments += 1;
        }
    }
    Ok(())
}

/// 9 and 10: one walk over the payments.
pub fn inheritance(order: &Order) -> Result<(), Refusal> {
    order.payments().iter().try_for_each(|payment| {
        required_once(payment)?;
        at_most_once(payment, 16)?;
        at_most_once(payment, 36)?;
        at_most_once(payment, 34)
    })
}

fn required_once(payment: &Payment) -> Result<(), Refusal> {
    match payment.own_or_inherited(16) {
        None => Err(Refusal::new(10, 16, payment.own.offset)),
        Some(_) => Ok(()),
    }
}

fn at_most_once(payment: &Payment, row: u32) -> Result<(), Refusal> {
    match (payment.own.down(&[row]), payment.block.down(&[row])) {
        (Some(own), Some(_)) => Err(Refusal::new(9, row, own.offset)),
        _ => Ok(()),
    }
}

/// 11: a block id equal to an earlier block's.
pub fn block_ids(order: &Order) -> Result<(), Refusal> {
    let ids: Vec<Option<&Node>> =
        order.blocks().into_iter().map(|block| block.down(&[11])).collect();
    for (ordinal, id) in ids.iter().enumerate() {
        if ids[..ordinal].iter().any(|earlier| order.text(*earlier) == order.text(*id)) {
            return Err(Refusal::new(11, 11, offset(*id)));
        }
    }
    Ok(())
}
