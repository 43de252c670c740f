//! A message whose elements stand in their rows: its blocks and payments.

use crate::form::Part;
use crate::rows::Node;

pub struct Order<'m> {
    pub message: &'m [u8],
    pub root: Node,
}

/// A payment and the block it stands in.
#[derive(Clone, Copy)]
pub struct Payment<'o> {
    pub block_ordinal: usize,
    pub block: &'o Node,
    pub own: &'o Node,
}

impl Order<'_> {
    pub fn header(&self) -> Option<&Node> {
        self.root.down(&[2, 3])
    }

    pub fn blocks(&self) -> Vec<&Node> {
        self.root.down(&[2]).map_or(Vec::new(), |message| message.all(10).collect())
    }

    pub fn payments(&self) -> Vec<Payment<'_>> {
        let mut payments = Vec::new();
        for (block_ordinal, block) in self.blocks().into_iter().enumerate() {
            payments.extend(block.all(37).map(|own| Payment { block_ordinal, block, own }));
        }
        payments
    }

    pub fn text(&self, node: Option<&Node>) -> &[u8] {
        part(node).of(self.message)
    }
}

impl<'o> Payment<'o> {
    /// Row 16, 34 or 36 of the payment or else of its block.
    pub fn own_or_inherited(&self, row: u32) -> Option<&'o Node> {
        self.own.down(&[row]).or_else(|| self.block.down(&[row]))
    }
}

/// An element's contents; the empty part at 0 where there is no such element.
pub fn part(node: Option<&Node>) -> Part {
    node.map_or(Part::EMPTY, |node| node.content)
}

pub fn offset(node: Option<&Node>) -> usize {
    node.map_or(0, |node| node.offset)
}
