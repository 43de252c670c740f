//! The profile that the caller names: by which rows a message is read.

#[derive(Clone, Copy, Debug, PartialEq, Eq)]
pub struct Profile {
    /// Rows 56 to 58 are there: an instant transfer.
    pub instant: bool,
}

impl Profile {
    pub const FIRST: Profile = Profile { instant: false };
    pub const INSTANT: Profile = Profile { instant: true };
    pub const BOTH: [Profile; 2] = [Profile::FIRST, Profile::INSTANT];

    /// As C names it: 1 is the instant one, any other number the first.
    pub fn numbered(number: u64) -> Profile {
        Profile { instant: number == 1 }
    }

    pub fn number(self) -> u64 {
        u64::from(self.instant)
    }

    pub fn other(self) -> Profile {
        Profile { instant: !self.instant }
    }
}
