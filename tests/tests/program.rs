//! `chargelog` itself: every vector on its standard input, and what it prints; input in pieces, input and output that fail, arguments. It ends with
//! status 0 whatever happens, since a program of Rattle has no other; what went wrong it says on standard error.

use std::fs::File;
use std::io::Write;
use std::path::{Path, PathBuf};
use std::process::{Command, Output, Stdio};
use std::thread;
use std::time::Duration;

use chargefile_tests::vectors;

/// Where job E stands.
fn job_e() -> PathBuf {
    vectors::folder().join("00-base/marked-b.job")
}

/// `chargelog`, to be started.
fn program() -> Command {
    Command::new(Path::new(env!("CARGO_MANIFEST_DIR")).join("../target/bin/chargelog"))
}

/// That it ended with status 0, and said this on standard error.
fn ended_saying(output: &Output, said: &str) {
    assert_eq!(output.status.code(), Some(0));
    assert_eq!(String::from_utf8_lossy(&output.stderr), said);
}

/// What `chargelog` prints for a job that is handed over in pieces, with a pause between two. It says nothing on standard error.
fn chargelog_in_pieces(pieces: &[&[u8]]) -> Vec<u8> {
    let mut child = program()
        .stdin(Stdio::piped())
        .stdout(Stdio::piped())
        .stderr(Stdio::piped())
        .spawn()
        .expect("chargelog, as .ci/build leaves it");
    let mut input = child.stdin.take().expect("its standard input");
    for (i, piece) in pieces.iter().enumerate() {
        if i > 0 {
            thread::sleep(Duration::from_millis(50));
        }
        // a program that has read enough may close its input before all is written
        let _ = input.write_all(piece);
    }
    drop(input);
    let output = child.wait_with_output().expect("what it printed");
    ended_saying(&output, "");
    output.stdout
}

fn chargelog(job: &[u8]) -> Vec<u8> {
    chargelog_in_pieces(&[job])
}

#[test]
fn every_vector() {
    for vector in vectors::all() {
        assert!(chargelog(&vector.job) == vector.print, "{}", vector.name);
    }
}

#[test]
fn a_job_that_goes_on_for_ever_is_refused() {
    let job = vectors::read("00-base/full-0").job;
    for more in [1, 2, 100, 100_000] {
        let longer = [job.clone(), vec![0; more]].concat();
        assert_eq!(chargelog(&longer), b"refused 4 28\n");
    }
}

#[test]
fn no_input_is_refused() {
    assert_eq!(chargelog(b""), b"refused 1 0\n");
}

#[test]
fn a_job_of_another_version_is_refused() {
    let job = vectors::read("00-base/marked-b").job;
    for version in [0u16, 1, 3, 257, 258] {
        let other = [&version.to_le_bytes()[..], &job[2..]].concat();
        assert_eq!(chargelog(&other), b"refused 2 0\n", "version {version}");
    }
}

#[test]
fn a_job_in_pieces_is_read_whole() {
    let vector = vectors::read("00-base/marked-b");
    let job = vector.job;
    assert_eq!(
        chargelog_in_pieces(&[&job[..1], &job[1..40], &job[40..]]),
        vector.print
    );
    assert_eq!(chargelog_in_pieces(&[&job, &[0]]), b"refused 4 28\n");
}

#[test]
fn input_that_cannot_be_read_is_said() {
    let output = program()
        .stdin(File::open(vectors::folder()).expect("a folder, which cannot be read as a file"))
        .output()
        .expect("what it said");
    assert_eq!(output.stdout, b"");
    ended_saying(&output, "chargelog: standard input cannot be read\n");
}

#[test]
fn output_that_cannot_be_written_is_said() {
    let full = File::options().write(true).open("/dev/full");
    let output = program()
        .stdin(File::open(job_e()).expect("job E"))
        .stdout(full.expect("a device that takes nothing"))
        .output()
        .expect("what it said");
    ended_saying(&output, "chargelog: standard output cannot be written\n");
}

#[test]
fn an_argument_is_told_how_the_program_is_used() {
    let job = job_e();
    for argument in ["--help", job.to_str().expect("a path in words"), ""] {
        let output = program()
            .arg(argument)
            .stdin(File::open(&job).expect("job E"))
            .output()
            .expect("what it said");
        assert_eq!(output.stdout, b"");
        ended_saying(&output, "usage: chargelog < JOB\n");
    }
}
