//! Whether a message is archived, as the caller says.

#[derive(Clone, Copy, Debug, PartialEq, Eq, PartialOrd, Ord)]
pub enum Age {
    /// Row 32 is withdrawn.
    New,
    /// Row 32 may stand under the debtor's agent; nothing else is other than in a new message.
    Archived,
}

impl Age {
    pub const BOTH: [Age; 2] = [Age::New, Age::Archived];

    /// As C says it: 0 is new, any other number archived.
    pub fn numbered(number: u64) -> Age {
        if number == 0 {
            Age::New
        } else {
            Age::Archived
        }
    }

    pub fn number(self) -> u64 {
        u64::from(self == Age::Archived)
    }

    pub fn other(self) -> Age {
        match self {
            Age::New => Age::Archived,
            Age::Archived => Age::New,
        }
    }
}
