//! Writes the example jobs and what `chargelog` is to print of them: NAME.job
//! and NAME.txt for each, into the folder that is named; and the tariff and the log
//! of the inn.
//!
//! The texts come from this crate's own implementation. `.ci/examples` holds
//! the proved program to them.

use std::path::Path;
use std::process::ExitCode;
use std::{env, fs, io};

use chargefile_tests::examples::examples;
use chargefile_tests::examples_priced::{inn_log, inn_tariff};
use chargefile_tests::report;

fn main() -> ExitCode {
    let Some(folder) = env::args_os().nth(1) else {
        eprintln!("usage: write_examples FOLDER");
        return ExitCode::FAILURE;
    };
    match write_all(Path::new(&folder)) {
        Ok(()) => ExitCode::SUCCESS,
        Err(why) => {
            eprintln!("write_examples: {}: {why}", Path::new(&folder).display());
            ExitCode::FAILURE
        }
    }
}

fn write_all(folder: &Path) -> io::Result<()> {
    fs::create_dir_all(folder)?;
    for example in examples() {
        let job = example.bytes();
        let text = report(&job);
        fs::write(folder.join(format!("{}.job", example.name)), &job)?;
        fs::write(folder.join(format!("{}.txt", example.name)), &text)?;
        println!("{}: {} bytes", example.name, job.len());
    }
    fs::write(folder.join("inn.tariff"), inn_tariff())?;
    fs::write(folder.join("inn.log"), inn_log())
}
