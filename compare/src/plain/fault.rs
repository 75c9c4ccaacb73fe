//! What can be wrong, and where.

/// The layer that raised a refusal.
#[derive(Clone, Copy, Debug, PartialEq, Eq)]
pub enum Layer {
    Net = 1,
    Reader = 2,
    Book = 3,
    Session = 4,
}

/// A refusal: its number, the layer that raised it, the byte where the refused command or step
/// starts, and how many came before it.
#[derive(Clone, Copy, Debug, PartialEq, Eq)]
pub struct Refusal {
    pub number: u32,
    pub layer: Layer,
    pub byte: usize,
    pub count: usize,
}

/// The reason of a refusal, without its place. The values are the numbers of the refusals.
#[derive(Clone, Copy, Debug, PartialEq, Eq)]
pub enum Fault {
    WrongSize = 1,
    Short = 2,
    Unknown = 3,
    TooManyPlaces = 5,
    BadFlag = 6,
    TooManyTransitions = 7,
    NoTransition = 8,
    NoPlace = 9,
    BadWeight = 10,
    ArcExists = 11,
    BadQuestion = 12,
    NotServed = 13,
    NotDistinct = 14,
    Nothing = 15,
    Support = 16,
    Arcs = 17,
    Marks = 18,
    TooManyPairs = 19,
    TooManyRows = 20,
    PastLimit = 21,
}

impl Fault {
    pub fn at(self, layer: Layer, byte: usize, count: usize) -> Refusal {
        Refusal {
            number: self as u32,
            layer,
            byte,
            count,
        }
    }

    /// Whether the fault is one of the bytes, and not of what they say.
    pub fn is_of_bytes(self) -> bool {
        matches!(self, Fault::Short | Fault::Unknown)
    }
}

/// The fault, unless the condition holds.
pub fn ensure(condition: bool, fault: Fault) -> Result<(), Fault> {
    if condition {
        Ok(())
    } else {
        Err(fault)
    }
}
