//! docs/TURNS.md: its two tables of turns are what the turns do, its table of the most turns has what is reached (most_turns.rs), and its tables of rounds
//! have how many are enough, and how many a hotel's forty operations take (rounds_by_hand.rs).

use std::fs;
use std::path::Path;

use chargefile_tests::bounds::{reached, DEPTHS};
use chargefile_tests::file::ChargeFile;
use chargefile_tests::job::{Job, Kind, Operation, MAX_TURNS};
use chargefile_tests::make_rounds::hotel_of_forty;
use chargefile_tests::page::{Page, Record};
use chargefile_tests::rounds::{deal_rounds, enough, DEALERS};
use chargefile_tests::run::Run;

/// The cells of each line of a table, from the turn to the turns used.
fn table(head: &str) -> Vec<Vec<String>> {
    let path = Path::new(env!("CARGO_MANIFEST_DIR")).join("../docs/TURNS.md");
    let text = fs::read_to_string(path).expect("docs/TURNS.md");
    let from_head = text.lines().skip_while(|line| !line.starts_with(head));
    let rows = from_head.skip(2).take_while(|line| line.starts_with('|'));
    let cells = |line: &str| {
        let inner = line.trim_matches('|').split('|');
        inner.map(|cell| cell.trim().to_string()).collect()
    };
    rows.map(cells).collect()
}

/// The file of both tables, with some operations. The pseudo keys of calls 3 and 5 begin with 10, and that of call 8, which is inserted, with 11.
fn start(operations: &[(Kind, u32, u32)]) -> Run {
    let mut file = ChargeFile::empty(2, 2, 3);
    for (call, charge) in [(3, 10), (5, 20)] {
        file.page_mut(1).records.push(Record { call, charge });
    }
    let operation = |&(kind, call, charge)| Operation { kind, call, charge };
    Run::new(&Job {
        file,
        operations: operations.iter().map(operation).collect(),
        turns: vec![],
    })
}

fn spaced(numbers: impl IntoIterator<Item = usize>) -> String {
    let words: Vec<String> = numbers.into_iter().map(|n| n.to_string()).collect();
    words.join(" ")
}

/// Directory, locked pages, pages in use, and an operation's answer and turns used, as the tables word them.
fn told(run: &Run, operation: usize) -> Vec<String> {
    let locked = spaced((1..=3).filter(|page| run.shared.locked(*page)));
    let answer = run.answers()[operation];
    let charge = match answer.charge {
        0 => String::new(),
        cents => format!(" {cents}"),
    };
    vec![
        spaced(run.shared.file.directory.iter().copied()),
        if locked.is_empty() {
            "none".to_string()
        } else {
            locked
        },
        run.shared.file.in_use.to_string(),
        format!("{}{charge}", answer.code.word()),
        answer.turns.to_string(),
    ]
}

/// The words for a page that is written.
fn written(number: usize, page: &Page) -> String {
    let record = |r: &Record| format!("{}={}", r.call, r.charge);
    let records: Vec<String> = page.records.iter().map(record).collect();
    let records = match records.is_empty() {
        true => "no record".to_string(),
        false => records.join(" "),
    };
    format!(
        "page {number}: depth {}, pattern {}, {records}",
        page.depth, page.pattern
    )
}

/// Deals a turn and compares: the cells behind the step are what it does, and what there is afterwards.
fn follow(run: &mut Run, operation: usize, cells: &[String]) {
    let before = run.shared.file.clone();
    run.deal(operation);
    assert_eq!(cells[1..], told(run, operation), "{cells:?}");
    for number in 1..=3 {
        let page = run.shared.file.page(number);
        if page != before.page(number) {
            assert_eq!(cells[0], written(number, page));
        }
    }
}

#[test]
fn a_split() {
    let mut run = start(&[(Kind::Insert, 8, 30)]);
    let table = table("| Turn | Step |");
    for (turn, line) in table.iter().enumerate() {
        assert_eq!(line[0], turn.to_string());
        follow(&mut run, 0, &line[2..]);
    }
    assert_eq!(table.len(), 11);
    assert_eq!((run.under_way(), run.log()[0].moment), (0, 7));
}

#[test]
fn three_operations() {
    let operations = [
        (Kind::Insert, 8, 30),
        (Kind::Delete, 5, 0),
        (Kind::Search, 5, 0),
    ];
    let mut run = start(&operations);
    let table = table("| Turn | Operation |");
    let mut used = [0; 3];
    for (turn, line) in table.iter().enumerate() {
        let operation: usize = line[1].parse().expect("an operation's number");
        assert_eq!(line[0], turn.to_string());
        follow(&mut run, operation, &line[3..]);
        // a step has its name in slanted letters; a turn that is not one is not counted
        used[operation] += usize::from(line[2].starts_with('*'));
        assert_eq!(line[8], used[operation].to_string(), "turn {turn}");
    }
    assert_eq!(table.len(), 27);
    let log: Vec<_> = run.log().iter().map(|l| (l.moment, l.operation)).collect();
    assert_eq!((run.under_way(), log), (0, vec![(10, 0), (23, 2), (24, 1)]));
}

#[test]
fn the_most_turns() {
    let table = table("| | in general |");
    let kinds = [
        ("search", Kind::Search),
        ("delete", Kind::Delete),
        ("insert", Kind::Insert),
    ];
    assert_eq!(table.len(), kinds.len());
    for (row, (name, kind)) in table.iter().zip(kinds) {
        let numbers = DEPTHS.map(|depth| reached(kind, depth).to_string());
        assert_eq!(row[0], name);
        assert_eq!(row[2..], numbers, "{name}");
    }
}

/// Without the comma of a thousand.
fn number(cell: &str) -> usize {
    cell.replace(',', "").parse().expect("a number")
}

/// A job of this depth with so many operations.
fn with_operations(depth: u32, count: usize) -> Job {
    let operation = Operation {
        kind: Kind::Insert,
        call: 8,
        charge: 30,
    };
    Job {
        file: ChargeFile::empty(depth, 2, 3),
        operations: vec![operation; count],
        turns: vec![],
    }
}

/// For one operation, for forty; and the most for which rounds of all of them fit into a job.
#[test]
fn rounds_that_are_enough() {
    let table = table("| | g = 0 | 1 | 2 |");
    assert_eq!(table.len(), 3);
    for depth in DEPTHS {
        let cell = |row: usize| number(&table[row][1 + depth as usize]);
        let rounds = |count| enough(&with_operations(depth, count));
        let fits = |count: &usize| count * rounds(*count) <= MAX_TURNS;
        assert_eq!((cell(0), cell(1)), (rounds(1), rounds(40)));
        assert_eq!(cell(2), (1..).take_while(fits).count());
    }
}

/// A row for each dealer, in their order.
#[test]
fn rounds_of_the_hotel() {
    let table = table("| Each round names |");
    assert_eq!(table.len(), DEALERS.len());
    for (row, dealer) in table.iter().zip(DEALERS) {
        let dealt = deal_rounds(&hotel_of_forty(), dealer, Run::deal).unwrap();
        let told = (number(&row[1]), number(&row[2]));
        assert_eq!(told, (dealt.rounds, dealt.turns.len()), "{dealer:?}");
    }
}
