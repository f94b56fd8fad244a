//! The refusals and their numbers, after document 01, "Numbers given back".

#[derive(Clone, Copy, Debug, PartialEq, Eq)]
pub enum Refusal {
    Length = 1,
    Short = 2,
    Version = 3,
    Header = 4,
    Profile = 5,
    Element = 6,
    Large = 7,
    Room = 8,
    Stream = 9,
    Order = 10,
    Worn = 11,
    Old = 12,
    Repeat = 13,
    Tag = 14,
    Keys = 15,
    Policy = 16,
    Twice = 17,
    Full = 18,
    Absent = 19,
}

impl Refusal {
    pub fn number(self) -> u64 {
        self as u64
    }

    /// The name in document 01's table.
    pub fn name(self) -> &'static str {
        match self {
            Refusal::Length => "LENGTH",
            Refusal::Short => "SHORT",
            Refusal::Version => "VERSION",
            Refusal::Header => "HEADER",
            Refusal::Profile => "PROFILE",
            Refusal::Element => "ELEMENT",
            Refusal::Large => "LARGE",
            Refusal::Room => "ROOM",
            Refusal::Stream => "STREAM",
            Refusal::Order => "ORDER",
            Refusal::Worn => "WORN",
            Refusal::Old => "OLD",
            Refusal::Repeat => "REPEAT",
            Refusal::Tag => "TAG",
            Refusal::Keys => "KEYS",
            Refusal::Policy => "POLICY",
            Refusal::Twice => "TWICE",
            Refusal::Full => "FULL",
            Refusal::Absent => "ABSENT",
        }
    }
}

/// A call's number as it is given back: 0 for a result, else the refusal's.
pub fn number<T>(result: &Result<T, Refusal>) -> u64 {
    match result {
        Ok(_) => 0,
        Err(refusal) => refusal.number(),
    }
}

/// Gives the refusal where its condition holds, so that a call reads as its list of checks.
pub fn refuse_if(condition: bool, refusal: Refusal) -> Result<(), Refusal> {
    if condition {
        Err(refusal)
    } else {
        Ok(())
    }
}
