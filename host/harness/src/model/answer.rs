//! What the calls answer, laid out as in C.

/// A refusal number and the number beside it. Refusal 0 is success.
#[repr(C)]
#[derive(Clone, Copy, Debug, PartialEq, Eq)]
pub struct Answer {
    pub refusal: u8,
    pub value: usize,
}

impl Answer {
    pub fn success(value: usize) -> Answer {
        Answer { refusal: 0, value }
    }
}

/// A block's numbers. Beside a refusal all are 0.
#[repr(C)]
#[derive(Clone, Copy, Debug, Default, PartialEq, Eq)]
pub struct Fields {
    pub site: u8,
    pub sequence: u16,
    pub references: usize,
    pub requests: usize,
}

#[repr(C)]
#[derive(Clone, Copy, Debug, PartialEq, Eq)]
pub struct Reading {
    pub answer: Answer,
    pub fields: Fields,
}

/// The sites that the watch names. Beside a refusal mask and count are 0, and they aren't said to be few.
#[repr(C)]
#[derive(Clone, Copy, Debug, Default, PartialEq, Eq)]
pub struct ForkedSites {
    pub refusal: u8,
    /// A mask: bit i is site i.
    pub sites: u16,
    pub count: u32,
    pub at_most_f: bool,
}

/// The ancestors of a place. Beside a refusal mask and count are 0.
#[repr(C)]
#[derive(Clone, Copy, Debug, Default, PartialEq, Eq)]
pub struct AncestorPlaces {
    pub refusal: u8,
    /// A mask: bit i is place i.
    pub places: u64,
    pub count: u32,
}

/// What an arrival is answered, and how many blocks that waited were let in or dropped by it.
#[repr(C)]
#[derive(Clone, Copy, Debug, PartialEq, Eq)]
pub struct ArrivalAnswer {
    pub answer: Answer,
    pub ended: usize,
}

impl ArrivalAnswer {
    /// A refused arrival ends none.
    pub fn refused(answer: Answer) -> ArrivalAnswer {
        ArrivalAnswer { answer, ended: 0 }
    }
}
