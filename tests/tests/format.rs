//! docs/FORMAT.md: its dumps are the bytes, its worked pseudo key is the key, its worked refusals are what is printed, and the sums beside them come out.

use std::fs;
use std::iter::Peekable;
use std::path::Path;
use std::str::Chars;

use chargefile_tests::damage::NUMBERS;
use chargefile_tests::examples::example;
use chargefile_tests::examples_priced::{bands, inn_log, inn_tariff, slips};
use chargefile_tests::key::pseudo_key;
use chargefile_tests::run::result_bytes;
use chargefile_tests::tariff::{class, Logged};
use chargefile_tests::{check, deal, price, report, tidy, Outcome};

fn document() -> String {
    let path = Path::new(env!("CARGO_MANIFEST_DIR")).join("../docs/FORMAT.md");
    fs::read_to_string(path).expect("docs/FORMAT.md")
}

/// The lines between a heading and the next.
fn section<'a>(text: &'a str, heading: &str) -> Vec<&'a str> {
    let lines = text.lines().skip_while(|line| *line != heading).skip(1);
    let section: Vec<&str> = lines.take_while(|line| !line.starts_with('#')).collect();
    assert!(!section.is_empty(), "no section {heading}");
    section
}

fn hex(text: &str) -> Vec<u8> {
    let byte = |digits: &str| u8::from_str_radix(digits, 16).expect("two hexadecimal digits");
    text.split(' ').map(byte).collect()
}

/// The bytes of a section's dump. A line has an offset, bytes and words, two or more blanks between them; a line that begins with a blank is a heading.
fn dump(text: &str, heading: &str) -> Vec<u8> {
    let mut bytes = Vec::new();
    let lines = section(text, heading).into_iter();
    let dump = lines.skip_while(|line| *line != "```").skip(1);
    for line in dump.take_while(|line| *line != "```") {
        if let Some((offset, rest)) = line.split_once("  ").filter(|(at, _)| !at.is_empty()) {
            let offset = usize::from_str_radix(offset, 16).expect("an offset");
            assert_eq!(offset, bytes.len(), "{line}");
            bytes.extend(hex(rest.split("  ").next().expect("bytes")));
        }
    }
    bytes
}

fn job_e() -> Vec<u8> {
    example("job-e").bytes()
}

#[test]
fn the_dump_of_job_e() {
    assert_eq!(dump(&document(), "## Job E, byte by byte"), job_e());
}

#[test]
fn the_dump_of_its_result() {
    let result = result_bytes(&job_e());
    assert_eq!(dump(&document(), "### Its result"), result);
}

/// The numbers of a line of a table, if all of them are hexadecimal.
fn numbers(line: &str) -> Option<Vec<u64>> {
    let cells = line.strip_prefix("| ")?.strip_suffix(" |")?.split(" | ");
    cells
        .map(|cell| u64::from_str_radix(cell, 16).ok())
        .collect()
}

/// The pseudo key of call 6, byte after byte: each line goes on from the one before, and the last has the key.
#[test]
fn the_worked_pseudo_key() {
    let text = document();
    let lines = section(&text, "## A job").into_iter();
    let worked: Vec<Vec<u64>> = lines.filter_map(numbers).filter(|n| n[1] > 255).collect();
    let bytes: Vec<u64> = worked.iter().map(|line| line[0]).collect();
    assert_eq!(bytes, 6u32.to_le_bytes().map(u64::from));
    let mut key = 2_166_136_261;
    for line in worked {
        let mixed = key ^ line[0];
        assert_eq!(line[1..3], [key, mixed]);
        key = mixed * 0x100_0193 % (1 << 32);
        assert_eq!(line[3], key);
    }
    assert_eq!(key, u64::from(pseudo_key(6)));
}

/// The bytes with the change that a line of a table describes.
fn changed(mut whole: Vec<u8>, words: &str) -> Vec<u8> {
    if let Some(length) = words.strip_prefix("cut to ") {
        let length = length.strip_suffix(" bytes").expect("a length in bytes");
        whole.truncate(length.parse().expect("a length"));
        return whole;
    }
    let words = words.strip_prefix("at ").expect("'cut to' or 'at'");
    let (place, bytes) = words.split_once(" write ").expect("what is written");
    let place: usize = place.parse().expect("a place");
    let bytes = hex(bytes.trim_matches('`'));
    whole[place..][..bytes.len()].copy_from_slice(&bytes);
    whole
}

/// What a table of worked refusals says of a call.
fn told(outcome: Outcome) -> String {
    match outcome {
        Outcome::Done { result } => format!("0 0, length {}", result.len()),
        Outcome::Refused { number, place } => format!("{number} {place}, length 0"),
    }
}

#[test]
fn the_dumps_of_a_tidied_file() {
    let text = document();
    let before = dump(&text, "### A charge file with thin pages");
    let after = dump(&text, "### The same file, tidied at depth 1");
    assert_eq!(check(&before), None);
    assert_eq!(tidy(&before, 1, 200), Outcome::Done { result: after });
}

#[test]
fn the_worked_refusals_of_tidying() {
    let text = document();
    let file = dump(&text, "### A charge file with thin pages");
    let lines = section(&text, "### Worked refusals of that file");
    let rows: Vec<&&str> = lines.iter().filter(|line| line.starts_with('|')).collect();
    for line in &rows[2..] {
        let cells: Vec<&str> = line.split('|').map(str::trim).collect();
        let depth = cells[1].parse().expect("a depth");
        let told = told(tidy(&file, depth, cells[2].parse().expect("a length")));
        assert_eq!(cells[3], told);
    }
    assert_eq!(rows.len(), 2 + 8, "all lines");
}

/// Job E without its turns.
fn unturned() -> Vec<u8> {
    example("job-e").job.with_list(&[]).to_bytes()
}

#[test]
fn the_list_of_job_e_dealt() {
    let text = document();
    let lines = section(&text, "### Job E, dealt");
    let list = lines.split(|line| *line == "```").nth(1).expect("a dump");
    let mut wanted = unturned();
    wanted[10..12].copy_from_slice(&hex("16 00"));
    wanted[28..32].copy_from_slice(&hex("a0 00 00 00"));
    wanted.extend(hex(&list.join(" ")));
    let told = deal(&unturned(), (40_988, 256, 24_576));
    assert_eq!(told, Outcome::Done { result: wanted });
}

#[test]
fn the_worked_refusals_of_dealing() {
    let text = document();
    let lines = section(&text, "### Worked refusals of dealing");
    let rows: Vec<&&str> = lines.iter().filter(|line| line.starts_with('|')).collect();
    for line in &rows[2..] {
        let cells: Vec<&str> = line.split('|').map(str::trim).collect();
        let job = [unturned(), job_e()]
            .into_iter()
            .find(|job| job.len().to_string() == cells[1]);
        let lent: Vec<usize> = cells[2]
            .split(", ")
            .map(|n| n.parse().expect("a length"))
            .collect();
        let told = told(deal(
            &job.expect("one of the two"),
            (lent[0], lent[1], lent[2]),
        ));
        assert_eq!(cells[3], told);
    }
    assert_eq!(rows.len(), 2 + 7, "all lines");
}

#[test]
fn the_dumps_of_the_inn() {
    let text = document();
    let tariff = dump(&text, "### The tariff of an inn");
    let log = dump(&text, "### The log of its switch");
    assert_eq!((&tariff, &log), (&inn_tariff(), &inn_log()));
    let result = dump(&text, "### The inserts");
    assert_eq!(price(&tariff, &log, 60), Outcome::Done { result });
}

/// A line of the table of charges, up to the sum: call, band, hours since the month began, hour, class, seconds talked, those beyond the free ones, units.
fn worked(record: &Logged) -> String {
    let band = bands().into_iter().find(|band| band.code == record.band);
    let (band, hours) = (band.expect("a band"), record.start / 3_600);
    let class = format!("{:?}", class(hours % 24)).to_lowercase();
    let (mut beyond, mut units) = (String::new(), String::new());
    if record.talked > 0 {
        let seconds = record.talked.saturating_sub(u32::from(band.free));
        beyond = seconds.to_string();
        units = seconds.div_ceil(u32::from(band.unit)).to_string();
    }
    let (call, code, hour, talked) = (record.call, record.band, hours % 24, record.talked);
    format!("{call}|{code}|{hours}|{hour}|{class}|{talked}|{beyond}|{units}")
}

/// The charge stands at the end of each line of the table, behind the sum that it comes of.
#[test]
fn the_worked_charges_of_the_inn() {
    let text = document();
    let lines = section(&text, "### The log of its switch");
    let rows: Vec<&&str> = lines.iter().filter(|line| line.starts_with('|')).collect();
    let told: Vec<String> = rows[2..]
        .iter()
        .map(|line| {
            let cells: Vec<&str> = line.split('|').map(str::trim).collect();
            let charge = cells[9].rsplit(' ').next().expect("a charge");
            format!("{} {charge}", cells[1..9].join("|"))
        })
        .collect();
    let wanted = slips().map(|slip| format!("{} {}", worked(&slip.record), slip.charge));
    assert_eq!(told, wanted);
}

#[test]
fn the_worked_refusals_of_pricing() {
    let text = document();
    let lines = section(&text, "### Worked refusals of that tariff and log");
    let rows: Vec<&&str> = lines.iter().filter(|line| line.starts_with('|')).collect();
    for line in &rows[2..] {
        let cells: Vec<&str> = line.split('|').map(str::trim).collect();
        let (mut tariff, mut log) = (inn_tariff(), inn_log());
        match cells[2] {
            "tariff" => tariff = changed(tariff, cells[1]),
            "log" => log = changed(log, cells[1]),
            other => panic!("neither tariff nor log: {other}"),
        }
        let told = told(price(&tariff, &log, cells[3].parse().expect("a length")));
        assert_eq!(cells[4], told, "{line}");
    }
    assert_eq!(rows.len(), 2 + 10, "all lines");
}

#[test]
fn the_worked_refusals() {
    let text = document();
    let lines = section(&text, "### Worked refusals, made of job E");
    let mut numbers = Vec::new();
    for line in lines.iter().filter(|line| line.starts_with('|')).skip(2) {
        let cells: Vec<&str> = line.split('|').map(str::trim).collect();
        let printed = format!("{}\n", cells[2].trim_matches('`'));
        let told = String::from_utf8(report(&changed(job_e(), cells[1]))).expect("text");
        assert_eq!(told, printed, "{line}");
        numbers.push(told.split(' ').nth(1).expect("a number").to_string());
    }
    numbers.dedup();
    let all = NUMBERS.map(|number| number.to_string());
    assert_eq!(
        numbers, all,
        "each row about a job's bytes alone, in the order of the checks"
    );
}

/// What a sum comes to, `x` and `/` before `+` and `-`. Its characters, without blanks.
fn sum(text: &mut Peekable<Chars>) -> usize {
    let mut value = product(text);
    while let Some(sign) = text.next_if(|c| "+-".contains(*c)) {
        let next = product(text);
        value = if sign == '+' {
            value + next
        } else {
            value - next
        };
    }
    value
}

fn product(text: &mut Peekable<Chars>) -> usize {
    let mut value = factor(text);
    while let Some(sign) = text.next_if(|c| "x/".contains(*c)) {
        let next = factor(text);
        value = if sign == 'x' {
            value * next
        } else {
            value / next
        };
    }
    value
}

fn factor(text: &mut Peekable<Chars>) -> usize {
    if text.next_if_eq(&'(').is_some() {
        let value = sum(text);
        assert_eq!(text.next(), Some(')'));
        return value;
    }
    let mut value = None;
    while let Some(digit) = text.next_if(char::is_ascii_digit) {
        let digit = digit.to_digit(10).expect("a digit") as usize;
        value = Some(10 * value.unwrap_or(0) + digit);
    }
    value.expect("a number")
}

/// Every `SUM = NUMBER` of a line: what the sum comes to, and the number.
fn sums(line: &str) -> Vec<(usize, usize)> {
    let of_a_sum = |c: char| c.is_ascii_digit() || " ()+-/x".contains(c);
    let mut found = Vec::new();
    for (at, _) in line.match_indices(" = ") {
        let before = &line[..at];
        let start = before.rfind(|c| !of_a_sum(c)).map_or(0, |last| last + 1);
        let told = line[at + 3..].chars().take_while(char::is_ascii_digit);
        if !before[start..].trim().is_empty() {
            let (text, told) = (before[start..].replace(' ', ""), String::from_iter(told));
            let mut rest = text.chars().peekable();
            found.push((sum(&mut rest), told.parse().expect("a number")));
            assert_eq!(rest.next(), None, "{line}");
        }
    }
    found
}

#[test]
fn the_worked_sums() {
    let text = document();
    let mut lines = section(&text, "### Worked refusals, made of job E");
    lines.extend(section(&text, "### The log of its switch"));
    let found: Vec<(usize, usize)> = lines.iter().flat_map(|line| sums(line)).collect();
    for (comes_to, told) in &found {
        assert_eq!(comes_to, told, "{found:?}");
    }
    assert!(found.len() >= 25, "only {} sums", found.len());
}
