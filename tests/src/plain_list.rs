//! The plain list ("The plain list"): calls with charges and nothing else.

use std::collections::BTreeMap;

use crate::answer::Code;
use crate::job::{Kind, Operation};
use crate::page::Record;

/// "The plain list holds calls with charges, no call twice."
#[derive(Clone, Debug, PartialEq, Eq)]
pub struct PlainList(BTreeMap<u32, u32>);

impl PlainList {
    /// The list of what a file holds, or the call that stands there twice.
    pub fn of(held: &[Record]) -> Result<PlainList, String> {
        let mut list = BTreeMap::new();
        for record in held {
            if list.insert(record.call, record.charge).is_some() {
                return Err(format!("call {} is held twice", record.call));
            }
        }
        Ok(PlainList(list))
    }

    /// Feeds one operation. "Of the answers it is told only which inserts got
    /// 7 or 8."
    pub fn feed(&mut self, operation: &Operation, told: Option<Code>) -> (Code, u32) {
        let Operation { kind, call, charge } = *operation;
        match (kind, self.0.get(&call).copied(), told) {
            (Kind::Search, Some(there), _) => (Code::Found, there),
            (Kind::Search, None, _) => (Code::None, 0),
            (Kind::Insert, Some(there), _) => (Code::AlreadyThere, there),
            (Kind::Insert, None, Some(code)) => (code, 0),
            (Kind::Insert, None, None) => {
                self.0.insert(call, charge);
                (Code::Stored, charge)
            }
            // "Where the call is there at another charge, the answer is 9,
            // 'differs', with the file's charge, ... and nothing changes."
            (Kind::Delete, Some(there), _) if charge != 0 && charge != there => {
                (Code::Differs, there)
            }
            (Kind::Delete, Some(there), _) => {
                self.0.remove(&call);
                (Code::Deleted, there)
            }
            (Kind::Delete, None, _) => (Code::Absent, 0),
        }
    }
}

/// What the list is told of an operation's answer.
pub fn told(operation: &Operation, code: Code) -> Option<Code> {
    let refused = matches!(code, Code::NoDepth | Code::NoPage);
    (operation.kind == Kind::Insert && refused).then_some(code)
}
