//! Answers and log lines ("The result").

/// "Codes: 0 not yet, 1 found, 2 none, 3 stored, 4 already there, 5 deleted,
/// 6 absent, 7 no depth, 8 no page", and "9, 'differs'".
#[derive(Clone, Copy, Debug, PartialEq, Eq)]
pub enum Code {
    NotYet,
    Found,
    None,
    Stored,
    AlreadyThere,
    Deleted,
    Absent,
    NoDepth,
    NoPage,
    Differs,
}

/// The codes in the order of their numbers.
pub const CODES: [Code; 10] = [
    Code::NotYet,
    Code::Found,
    Code::None,
    Code::Stored,
    Code::AlreadyThere,
    Code::Deleted,
    Code::Absent,
    Code::NoDepth,
    Code::NoPage,
    Code::Differs,
];

impl Code {
    /// The number in the answer's first byte.
    pub fn number(self) -> usize {
        CODES.iter().position(|code| *code == self).unwrap()
    }

    /// The answer in words, as an `op` line prints it.
    pub fn word(self) -> &'static str {
        match self {
            Code::NotYet => "not yet",
            Code::Found => "found",
            Code::None => "none",
            Code::Stored => "stored",
            Code::AlreadyThere => "already there",
            Code::Deleted => "deleted",
            Code::Absent => "absent",
            Code::NoDepth => "no depth",
            Code::NoPage => "no page",
            Code::Differs => "differs",
        }
    }
}

/// An operation's answer: code, the page behind it, "turns used without
/// waiting", and a charge that is "the record's for 1, 3, 4 and 5", for 9 "the
/// file's charge", "else 0".
#[derive(Clone, Copy, Debug, PartialEq, Eq)]
pub struct Answer {
    pub code: Code,
    /// "The page last read by a search, the page that holds the call at a
    /// stored insert's moment, the page read in turn (d) by the rest"; none
    /// for code 0.
    pub page: Option<usize>,
    pub turns: usize,
    pub charge: u32,
}

/// A line of the log. The derived order is the log's: "by moment, then
/// operation".
#[derive(Clone, Copy, Debug, PartialEq, Eq, PartialOrd, Ord)]
pub struct Line {
    pub moment: usize,
    pub operation: usize,
}
