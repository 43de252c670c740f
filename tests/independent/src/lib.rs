//! An independent reading of the rules: the verdict on one pain.001.001.09
//! message under a profile, read as new or as archived, the seventeen fields of
//! its payments, and the regrouping of one message by another. Written from the
//! rules alone.

pub mod age;
pub mod counts;
pub mod fields;
pub mod form;
pub mod generate;
pub mod order;
pub mod profile;
pub mod regroup;
pub mod rows;
pub mod table;
pub mod usage;
pub mod values;

pub use age::Age;
pub use fields::field;
pub use form::{form, Tree};
pub use profile::Profile;
pub use regroup::{differing, regroup, Regroup};
pub use table::{LEAST_NUMBERS, NUMBERS_EACH};

use order::Order;
use std::fmt;

pub const LONGEST_MESSAGE: usize = 32_768;

/// A message's refusal: its number, element (row) and offset.
#[derive(Clone, Copy, Debug, PartialEq, Eq)]
pub struct Refusal {
    pub number: u32,
    pub element: u32,
    pub offset: usize,
}

impl Refusal {
    pub fn new(number: u32, element: u32, offset: usize) -> Self {
        Refusal { number, element, offset }
    }
}

#[derive(Clone, Copy, Debug, PartialEq, Eq)]
pub enum Verdict {
    Accepted { blocks: u32, payments: u32, cents: u64 },
    Refused { number: u32, element: u32, offset: usize },
}

impl fmt::Display for Refusal {
    fn fmt(&self, out: &mut fmt::Formatter) -> fmt::Result {
        let Refusal { number, element, offset } = self;
        write!(out, "REFUSED {number} element={element} offset={offset}")
    }
}

impl fmt::Display for Verdict {
    fn fmt(&self, out: &mut fmt::Formatter) -> fmt::Result {
        match *self {
            Verdict::Accepted { blocks, payments, cents } => {
                write!(out, "ACCEPTED blocks={blocks} payments={payments} cents={cents}")
            }
            Verdict::Refused { number, element, offset } => {
                Refusal { number, element, offset }.fmt(out)
            }
        }
    }
}

/// The verdict on a message; the lent table is filled only on acceptance.
pub fn verdict(profile: Profile, age: Age, message: &[u8], table: &mut [u32]) -> Verdict {
    match judge(profile, age, message, table) {
        Ok(accepted) => {
            table::fill(&accepted.order, table);
            Verdict::Accepted {
                blocks: accepted.order.blocks().len() as u32,
                payments: accepted.order.payments().len() as u32,
                cents: accepted.cents,
            }
        }
        Err(Refusal { number, element, offset }) => Verdict::Refused { number, element, offset },
    }
}

fn judge<'m>(
    profile: Profile,
    age: Age,
    message: &'m [u8],
    table: &[u32],
) -> Result<Accepted<'m>, Refusal> {
    if table.len() < LEAST_NUMBERS {
        return Err(Refusal::new(14, 0, 0));
    }
    read(profile, age, message)
}

pub(crate) struct Accepted<'m> {
    pub order: Order<'m>,
    pub cents: u64,
}

/// All stages but the table's, in their order.
pub(crate) fn read(profile: Profile, age: Age, message: &[u8]) -> Result<Accepted<'_>, Refusal> {
    if message.len() > LONGEST_MESSAGE {
        return Err(Refusal::new(1, 0, LONGEST_MESSAGE));
    }
    let tree = form(message).map_err(|offset| Refusal::new(2, 0, offset))?;
    let order = Order { message, root: rows::place(profile, message, &tree)? };
    usage::limits(&order)?;
    values::check(age, &order)?;
    usage::inheritance(&order)?;
    usage::block_ids(&order)?;
    let cents = counts::check(&order)?;
    Ok(Accepted { order, cents })
}
