//! Every stored job comes to what is stored beside it, to the byte, and prints its text; every stored file is tidied, every stored job without turns is
//! dealt some, and every stored log is priced, as is stored beside it. They came with the documents and were not made here: `marked-` are the marked jobs
//! and `full-` the largest; others are named by their fault, by their refusal, or by a number only.

use std::collections::BTreeMap;

use chargefile_tests::damage::NUMBERS;
use chargefile_tests::tally::Tally;
use chargefile_tests::vectors::{
    all, known_suffixes, suffixes, to_be_dealt, to_be_priced, to_be_tidied,
};
use chargefile_tests::{check, deal, price, report, run, tidy, Outcome};

/// No stored case is said to differ.
fn none_differ(wrong: &[String]) {
    assert!(
        wrong.is_empty(),
        "{} differ:\n{}",
        wrong.len(),
        wrong.join("\n")
    );
}

#[test]
fn every_vector_is_run_or_refused() {
    let mut wrong = Vec::new();
    for vector in all() {
        let (result, rows, memory) = vector.room;
        let outcome = run(&vector.job, result, rows, memory);
        if outcome != vector.wanted {
            let (name, wanted) = (vector.name, vector.wanted);
            wrong.push(format!("{name}: {outcome:?}, wanted: {wanted:?}"));
        }
    }
    none_differ(&wrong);
}

#[test]
fn every_vector_prints_its_text() {
    let mut wrong = Vec::new();
    for vector in all() {
        let printed = report(&vector.job);
        if printed != vector.print {
            let texts = [&printed, &vector.print].map(|text| String::from_utf8_lossy(text));
            wrong.push(format!(
                "{}:\n{}wanted:\n{}",
                vector.name, texts[0], texts[1]
            ));
        }
    }
    none_differ(&wrong);
}

#[test]
fn every_vector_is_tidied_or_refused() {
    let mut wrong = Vec::new();
    for vector in to_be_tidied() {
        let outcome = tidy(&vector.file, vector.depth, vector.room);
        if outcome != vector.wanted {
            let (name, wanted) = (vector.name, vector.wanted);
            wrong.push(format!("{name}: {outcome:?}, wanted: {wanted:?}"));
        }
    }
    none_differ(&wrong);
}

#[test]
fn every_vector_is_dealt_turns_or_refused() {
    let mut wrong = Vec::new();
    for vector in to_be_dealt() {
        let outcome = deal(&vector.job, vector.room);
        if outcome != vector.wanted {
            let (name, wanted) = (vector.name, vector.wanted);
            wrong.push(format!("{name}: {outcome:?}, wanted: {wanted:?}"));
        }
    }
    none_differ(&wrong);
}

/// Each refusal of pricing is met, and so is none.
#[test]
fn every_vector_is_priced_or_refused() {
    let (mut wrong, mut tally) = (Vec::new(), Tally::default());
    for vector in to_be_priced() {
        let outcome = price(&vector.tariff, &vector.log, vector.room);
        tally.count(match outcome {
            Outcome::Refused { number, .. } => number,
            Outcome::Done { .. } => 0,
        });
        if outcome != vector.wanted {
            let (name, wanted) = (vector.name, vector.wanted);
            wrong.push(format!("{name}: {outcome:?}, wanted: {wanted:?}"));
        }
    }
    none_differ(&wrong);
    assert_eq!(tally.total(), 79);
    tally.all_met([0, 1, 16, 9, 14, 15, 11], 5);
}

/// The job's own refusals come first, and are those of the check; after them no other is told than 21 and 11.
#[test]
fn a_job_to_be_dealt_turns_is_refused_as_a_job_first() {
    let mut tally = Tally::default();
    for vector in to_be_dealt() {
        let number = refused_as_a_job_first(&vector.name, &vector.job, &vector.wanted);
        assert!(NUMBERS.contains(&number) || [0, 21, 11].contains(&number));
        tally.count(number);
    }
    tally.all_met(NUMBERS.into_iter().chain([0, 21, 11]), 1);
}

/// The file's own refusals come first, and are those of a job; after them no other is told than 18, 19 and 11.
#[test]
fn a_file_to_be_tidied_is_refused_as_a_job_first() {
    let mut tally = Tally::default();
    for vector in to_be_tidied() {
        let number = refused_as_a_job_first(&vector.name, &vector.file, &vector.wanted);
        assert!(NUMBERS.contains(&number) || [0, 18, 19, 11].contains(&number));
        tally.count(number);
    }
    tally.all_met(NUMBERS.into_iter().chain([0, 18, 19, 11]), 1);
}

/// The check tells the refusal that is wanted, where it is one of a job's own, and else none. Gives back its number, 0 for none.
fn refused_as_a_job_first(name: &str, bytes: &[u8], wanted: &Outcome) -> u32 {
    let told = match *wanted {
        Outcome::Done { .. } => None,
        Outcome::Refused { number, place } => Some((number, place)),
    };
    let own = told.filter(|(number, _)| NUMBERS.contains(number));
    assert_eq!(check(bytes), own, "{name}");
    told.map_or(0, |(number, _)| number)
}

/// Each folder has as many as came, and no file that nothing reads.
#[test]
fn the_vectors_are_all_there() {
    let mut folders: BTreeMap<String, usize> = BTreeMap::new();
    for (name, suffixes) in suffixes() {
        let known = known_suffixes(&name);
        let unknown = suffixes
            .iter()
            .find(|suffix| !known.contains(&suffix.as_str()));
        assert_eq!(unknown, None, "{name}");
        let (folder, _) = name.split_once('/').expect("a folder");
        *folders.entry(folder.to_string()).or_default() += 1;
    }
    let wanted = [
        ("00-base", 177),
        ("01-page-faults", 62),
        ("02-tariff", 79),
        ("03-page-byte", 23),
        ("04-key", 38),
        ("09-delete-at", 30),
        ("10-rising", 45),
        ("11-bounds", 14),
        ("12-tidy", 163),
        ("14-deal", 123),
    ];
    let wanted = wanted.map(|(folder, vectors)| (folder.to_string(), vectors));
    assert_eq!(folders, BTreeMap::from(wanted));
}
