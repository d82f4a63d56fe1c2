//! The stored cases of vectors/, each with what is lent and what is wanted of
//! it. They came with the documents and were not made here.
//!
//! One case is all files of one name, and the suffix says what each is. There
//! are four kinds, each in folders of its own: jobs to be run, charge files to
//! be tidied, jobs to be dealt turns, and switch's logs to be priced. All have
//! `room`, what is lent, as text (without it, enough), and `out`, the whole
//! output, or in its place `refused`, number and place as text.
//!
//! - Of a job to be run: `job`, and `print`, what `chargelog` prints, which lends
//!   enough itself.
//! - Of a file to be tidied: `file`, and `depth`, the wanted depth as text.
//! - Of a job to be dealt turns: `job`.
//! - Of a log to be priced: `tariff` and `log`.

use std::collections::{BTreeMap, BTreeSet};
use std::ffi::OsStr;
use std::fs;
use std::io::ErrorKind;
use std::path::{Path, PathBuf};

use crate::check::WORKING_MEMORY;
use crate::run::Outcome;

/// How many jobs there are: a test of no vectors would always pass.
const JOBS: usize = 389;

/// How many files to be tidied, jobs to be dealt turns, and logs to be priced.
const TO_BE_TIDIED: usize = 163;
const TO_BE_DEALT: usize = 123;
const TO_BE_PRICED: usize = 79;

/// What is to be done with a case.
#[derive(Clone, Copy, PartialEq, Eq)]
enum Call {
    Run,
    Tidy,
    Deal,
    Price,
}

impl Call {
    /// The folders of the files to be tidied, of the jobs to be dealt turns and of
    /// the logs to be priced are known; every other one has jobs to be run.
    fn of(name: &str) -> Call {
        match name.split('/').next() {
            Some("12-tidy") => Call::Tidy,
            Some("14-deal") => Call::Deal,
            Some("02-tariff") => Call::Price,
            _ => Call::Run,
        }
    }

    /// The suffixes that its cases can have.
    fn suffixes(self) -> &'static [&'static str] {
        match self {
            Call::Run => &["job", "room", "out", "refused", "print"],
            Call::Tidy => &["file", "depth", "room", "out", "refused"],
            Call::Deal => &["job", "room", "out", "refused"],
            Call::Price => &["tariff", "log", "room", "out", "refused"],
        }
    }

    /// The names of its cases, with their folders.
    fn names(self) -> impl Iterator<Item = String> {
        let mine = move |name: &String| Call::of(name) == self;
        suffixes().into_keys().filter(mine)
    }
}

/// Enough for every job: bytes of the output, rows, and bytes of other working
/// memory.
pub const ENOUGH: (usize, usize, usize) = (1_048_576, 256, WORKING_MEMORY);

/// One stored job.
pub struct Vector {
    /// Its folder and name.
    pub name: String,
    pub job: Vec<u8>,
    /// What is lent: bytes of the result buffer, rows, and bytes of other
    /// working memory.
    pub room: (usize, usize, usize),
    /// What a run with that much lent comes to.
    pub wanted: Outcome,
    /// What `chargelog` prints.
    pub print: Vec<u8>,
}

impl Vector {
    /// What a check of the job says: `chargelog` prints it, since it lends
    /// enough for every job and so never refuses with 11.
    pub fn checked(&self) -> Option<(u32, u32)> {
        let text = std::str::from_utf8(&self.print).expect("text");
        let mut words = text.strip_prefix("refused ")?.split_whitespace();
        let mut number = || words.next().expect("a number").parse().expect("a number");
        Some((number(), number()))
    }
}

/// One stored charge file to be tidied.
pub struct ToBeTidied {
    /// Its folder and name.
    pub name: String,
    pub file: Vec<u8>,
    /// The wanted depth.
    pub depth: u64,
    /// What is lent: bytes of the output.
    pub room: usize,
    pub wanted: Outcome,
}

/// One stored job to be dealt turns.
pub struct ToBeDealt {
    /// Its folder and name.
    pub name: String,
    pub job: Vec<u8>,
    /// What is lent: bytes of the output, rows, and bytes of other working memory.
    pub room: (usize, usize, usize),
    pub wanted: Outcome,
}

/// One stored log of a switch, to be priced by its tariff.
pub struct ToBePriced {
    /// Its folder and name.
    pub name: String,
    pub tariff: Vec<u8>,
    pub log: Vec<u8>,
    /// What is lent: bytes of the output.
    pub room: usize,
    pub wanted: Outcome,
}

/// The folder of all vectors.
pub fn folder() -> PathBuf {
    Path::new(env!("CARGO_MANIFEST_DIR")).join("vectors")
}

/// All stored jobs to be run, by name.
pub fn all() -> Vec<Vector> {
    let vectors: Vec<Vector> = Call::Run.names().map(|name| read(&name)).collect();
    assert!(vectors.len() >= JOBS, "only {} vectors", vectors.len());
    vectors
}

/// All stored files to be tidied, by name.
pub fn to_be_tidied() -> Vec<ToBeTidied> {
    let names = Call::Tidy.names();
    let vectors: Vec<ToBeTidied> = names.map(|name| read_to_be_tidied(&name)).collect();
    assert!(vectors.len() >= TO_BE_TIDIED, "only {}", vectors.len());
    vectors
}

/// All stored jobs to be dealt turns, by name.
pub fn to_be_dealt() -> Vec<ToBeDealt> {
    let names = Call::Deal.names();
    let vectors: Vec<ToBeDealt> = names.map(|name| read_to_be_dealt(&name)).collect();
    assert!(vectors.len() >= TO_BE_DEALT, "only {}", vectors.len());
    vectors
}

/// All stored logs to be priced, by name.
pub fn to_be_priced() -> Vec<ToBePriced> {
    let names = Call::Price.names();
    let vectors: Vec<ToBePriced> = names.map(|name| read_to_be_priced(&name)).collect();
    assert!(vectors.len() >= TO_BE_PRICED, "only {}", vectors.len());
    vectors
}

/// The suffixes that a case can have, by its folder and name.
pub fn known_suffixes(name: &str) -> &'static [&'static str] {
    Call::of(name).suffixes()
}

/// The suffixes that each name has.
pub fn suffixes() -> BTreeMap<String, BTreeSet<String>> {
    let mut names: BTreeMap<String, BTreeSet<String>> = BTreeMap::new();
    for inner in in_folder(&folder()) {
        for file in in_folder(&inner) {
            let case = file.with_extension("");
            let case = case.strip_prefix(folder()).expect("a file of the folder");
            let suffixes = names.entry(in_words(case.as_os_str())).or_default();
            suffixes.insert(in_words(file.extension().expect("a suffix")));
        }
    }
    names
}

fn in_folder(folder: &Path) -> impl Iterator<Item = PathBuf> {
    let files = fs::read_dir(folder).unwrap_or_else(|why| panic!("{}: {why}", folder.display()));
    files.map(|file| file.expect("a file of vectors").path())
}

fn in_words(name: &OsStr) -> String {
    name.to_str().expect("a plain name").to_string()
}

/// The stored job to be run of one name, its folder before it.
pub fn read(name: &str) -> Vector {
    Vector {
        name: name.to_string(),
        job: job(name),
        room: room(name),
        wanted: wanted(name),
        print: input(name, "print"),
    }
}

/// The stored job to be dealt turns of one name, its folder before it.
fn read_to_be_dealt(name: &str) -> ToBeDealt {
    ToBeDealt {
        name: name.to_string(),
        job: job(name),
        room: room(name),
        wanted: wanted(name),
    }
}

fn job(name: &str) -> Vec<u8> {
    input(name, "job")
}

/// What a run or dealing is lent: three numbers.
fn room(name: &str) -> (usize, usize, usize) {
    numbers(name, "room").map_or(ENOUGH, |lent| match lent[..] {
        [output, rows, memory] => (output, rows, memory),
        _ => panic!("{name}.room: {lent:?}"),
    })
}

/// The stored file to be tidied of one name, its folder before it.
fn read_to_be_tidied(name: &str) -> ToBeTidied {
    let depth = one_number(name, "depth");
    ToBeTidied {
        name: name.to_string(),
        file: input(name, "file"),
        depth: depth.unwrap_or_else(|| panic!("no {name}.depth")) as u64,
        room: one_number(name, "room").unwrap_or(ENOUGH.0),
        wanted: wanted(name),
    }
}

/// The stored log to be priced of one name, its folder before it.
fn read_to_be_priced(name: &str) -> ToBePriced {
    ToBePriced {
        name: name.to_string(),
        tariff: input(name, "tariff"),
        log: input(name, "log"),
        room: one_number(name, "room").unwrap_or(ENOUGH.0),
        wanted: wanted(name),
    }
}

/// The bytes of a file that every case of its kind has.
fn input(name: &str, suffix: &str) -> Vec<u8> {
    bytes(name, suffix).unwrap_or_else(|| panic!("no {name}.{suffix}"))
}

/// The number of a text that has one only.
fn one_number(name: &str, suffix: &str) -> Option<usize> {
    match numbers(name, suffix)?[..] {
        [number] => Some(number),
        _ => panic!("{name}.{suffix} has one number"),
    }
}

/// A result, or a refusal, but not both.
fn wanted(name: &str) -> Outcome {
    match (bytes(name, "out"), numbers(name, "refused").as_deref()) {
        (Some(result), None) => Outcome::Done { result },
        (None, Some([number, place])) => Outcome::Refused {
            number: *number as u32,
            place: *place as u32,
        },
        (out, refused) => panic!("{name}: out {}, refused {refused:?}", out.is_some()),
    }
}

/// The bytes of a file, if the case has one with this suffix.
fn bytes(name: &str, suffix: &str) -> Option<Vec<u8>> {
    match fs::read(folder().join(format!("{name}.{suffix}"))) {
        Ok(bytes) => Some(bytes),
        Err(why) if why.kind() == ErrorKind::NotFound => None,
        Err(why) => panic!("{name}.{suffix}: {why}"),
    }
}

/// The numbers of a text, with blanks between them.
fn numbers(name: &str, suffix: &str) -> Option<Vec<usize>> {
    let text = String::from_utf8(bytes(name, suffix)?).expect("text");
    let number = |word: &str| word.parse().unwrap_or_else(|_| panic!("{name}: {text}"));
    Some(text.split_whitespace().map(number).collect())
}
