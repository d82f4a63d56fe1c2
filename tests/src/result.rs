//! The result and its bytes ("The result").

use crate::answer::{Answer, Code, Line, CODES};
use crate::little_endian::{four_at, push_four, push_offset, push_two, two_at};

/// "The result's version is 2."
pub const RESULT_VERSION: usize = 2;
/// "Header, 24 bytes".
pub const RESULT_HEADER_LENGTH: usize = 24;
/// "Answer, 8 bytes".
pub const ANSWER_LENGTH: usize = 8;
/// "Log, 4 bytes a line".
pub const LINE_LENGTH: usize = 4;

/// What a result says. The charge file is there unless an operation is begun
/// but unfinished.
#[derive(Clone, Debug, PartialEq, Eq)]
pub struct Contents {
    /// "Operations begun but unfinished".
    pub under_way: usize,
    pub answers: Vec<Answer>,
    pub log: Vec<Line>,
    pub charge_file: Option<Vec<u8>>,
}

/// The result's bytes, answers, log and charge file "in that order with no
/// gap".
pub fn to_bytes(contents: &Contents) -> Vec<u8> {
    let log_offset = RESULT_HEADER_LENGTH + ANSWER_LENGTH * contents.answers.len();
    let log_end = log_offset + LINE_LENGTH * contents.log.len();
    let charge_file = contents.charge_file.as_deref();
    let mut bytes = Vec::new();
    push_two(&mut bytes, RESULT_VERSION);
    push_two(&mut bytes, contents.answers.len());
    push_two(&mut bytes, contents.log.len());
    push_two(&mut bytes, contents.under_way);
    push_offset(&mut bytes, RESULT_HEADER_LENGTH);
    push_offset(&mut bytes, log_offset);
    push_offset(&mut bytes, charge_file.map_or(0, |_| log_end));
    push_offset(&mut bytes, log_end + charge_file.map_or(0, <[u8]>::len));
    for answer in &contents.answers {
        bytes.extend([answer.code.number() as u8, page_byte(answer)]);
        push_two(&mut bytes, answer.turns);
        push_four(&mut bytes, answer.charge);
    }
    for line in &contents.log {
        push_two(&mut bytes, line.moment);
        push_two(&mut bytes, line.operation);
    }
    bytes.extend(charge_file.unwrap_or_default());
    bytes
}

/// The byte behind the code: "the page number less one ... For code 0 it stays
/// zero."
fn page_byte(answer: &Answer) -> u8 {
    let less_one = |page: usize| u8::try_from(page - 1).expect("pages are 1 to 256");
    answer.page.map_or(0, less_one)
}

/// The eight bytes of each answer, as they stand in the result of so many
/// operations.
pub fn answer_bytes(result: &[u8], operations: usize) -> impl Iterator<Item = &[u8]> {
    let end = RESULT_HEADER_LENGTH + ANSWER_LENGTH * operations;
    result[RESULT_HEADER_LENGTH..end].chunks(ANSWER_LENGTH)
}

/// Reads a result, and says what is wrong with one that is not laid out as
/// the document has it. `bytes` ends where the result's total says.
pub fn from_bytes(bytes: &[u8]) -> Result<Contents, String> {
    let wrong = |what: &str| Err(format!("result: {what}"));
    if bytes.len() < RESULT_HEADER_LENGTH || two_at(bytes, 0) != RESULT_VERSION {
        return wrong(&format!("no header of version {RESULT_VERSION}"));
    }
    let (m, lines) = (two_at(bytes, 2), two_at(bytes, 4));
    let log_offset = RESULT_HEADER_LENGTH + ANSWER_LENGTH * m;
    let log_end = log_offset + LINE_LENGTH * lines;
    let offsets = [8, 12, 16, 20].map(|place| four_at(bytes, place) as usize);
    let under_way = two_at(bytes, 6);
    let file_offset = if under_way == 0 { log_end } else { 0 };
    if offsets[..3] != [RESULT_HEADER_LENGTH, log_offset, file_offset] {
        return wrong("an offset is not as computed");
    }
    if offsets[3] != bytes.len() || bytes.len() < log_end {
        return wrong("the total is not the length");
    }
    if under_way > 0 && bytes.len() != log_end {
        return wrong("bytes after the log, but no charge file");
    }
    let answers: Result<_, _> = answer_bytes(bytes, m).map(answer).collect();
    let rows = bytes[log_offset..log_end].chunks(LINE_LENGTH);
    let line = |row: &[u8]| Line {
        moment: two_at(row, 0),
        operation: two_at(row, 2),
    };
    Ok(Contents {
        under_way,
        answers: answers?,
        log: rows.map(line).collect(),
        charge_file: (under_way == 0).then(|| bytes[log_end..].to_vec()),
    })
}

fn answer(bytes: &[u8]) -> Result<Answer, String> {
    let wrong = || format!("result: answer {bytes:?}");
    let code = CODES.get(usize::from(bytes[0])).copied();
    let code = code.ok_or_else(wrong)?;
    let page = match (code, usize::from(bytes[1])) {
        (Code::NotYet, 0) => None,
        (Code::NotYet, _) => return Err(wrong()),
        (_, less_one) => Some(less_one + 1),
    };
    Ok(Answer {
        code,
        page,
        turns: two_at(bytes, 2),
        charge: four_at(bytes, 4),
    })
}
