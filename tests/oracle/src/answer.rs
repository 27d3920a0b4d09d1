//! The answers of all calls, and the faults that a reading or a settling finds.

/// Names no input: answers 0, 3, 9 and 38 to 42.
pub const NEITHER: u8 = 0;
/// Names the request.
pub const REQUEST: u8 = 1;
/// Names the derivation.
pub const DERIVATION: u8 = 2;
/// Names the index: answer 45.
pub const INDEX: u8 = 3;

/// What a call returns: the number, the input its place is in, the place, the count.
#[derive(Clone, Copy, Debug, PartialEq, Eq)]
pub struct Answer {
    pub number: u8,
    pub input: u8,
    pub place: u32,
    pub count: u32,
}

impl Answer {
    /// An answer that names neither input; its place is 0.
    pub fn neither(number: u8, count: u32) -> Self {
        Answer {
            number,
            input: NEITHER,
            place: 0,
            count,
        }
    }

    /// A refusal of one input; every refusal carries count 0.
    pub fn refusal(input: u8, fault: Fault) -> Self {
        Answer {
            number: fault.number,
            input,
            place: narrow(fault.place),
            count: 0,
        }
    }

    /// An answer of the walk that names a place of the request.
    pub fn of_walk(number: u8, place: usize, count: u64) -> Self {
        Answer {
            number,
            input: REQUEST,
            place: narrow(place),
            count: narrow_count(count),
        }
    }
}

impl std::fmt::Display for Answer {
    fn fmt(&self, out: &mut std::fmt::Formatter<'_>) -> std::fmt::Result {
        write!(
            out,
            "{} {} {} {}",
            self.number, self.input, self.place, self.count
        )
    }
}

/// Whether an answer with this number writes the lent state.
pub fn writes_state(number: u8) -> bool {
    matches!(number, 1 | 2 | 43)
}

/// A number of the table of answers together with a place in the input at hand.
#[derive(Clone, Copy, Debug, PartialEq, Eq)]
pub struct Fault {
    pub number: u8,
    pub place: usize,
}

impl Fault {
    pub fn new(number: u8, place: usize) -> Self {
        Fault { number, place }
    }
}

/// Places lie within inputs of at most 32,768 bytes, or are the length of a shorter one.
pub(crate) fn narrow(place: usize) -> u32 {
    u32::try_from(place).expect("a place fits in 32 bits")
}

/// A count that is returned is never above the budget, so it fits.
pub fn narrow_count(count: u64) -> u32 {
    u32::try_from(count).expect("a returned count is within the budget")
}
