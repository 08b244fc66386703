//! Runs the case lines of tests/host: `function inputs = answer`, from the file that QUAY_CASES names, or from standard input.
//!
//! Each case goes across as it stands, field by field. Where the crate's own types can say its inputs it goes through them too, and
//! what they answer has to tell the same.
mod line_cases;
mod log_cases;
mod message_cases;
#[path = "../../src/raw.rs"]
mod raw;
mod weight_cases;
mod words;

use std::env;
use std::fs::File;
use std::io::{self, BufRead, BufReader};
use std::process::ExitCode;

use words::{Malformed, Words};

const DIFFERENCES_SHOWN: u64 = 10;

/// What a case was answered: by the raw call, and by the crate's own types where they can say its inputs.
struct Told {
    raw: String,
    crate_own: Option<String>,
}

#[derive(Default)]
struct Counts {
    cases: u64,
    crate_own: u64,
    differ: u64,
}

fn main() -> ExitCode {
    match run() {
        Ok(true) => ExitCode::SUCCESS,
        Ok(false) => ExitCode::FAILURE,
        Err(reason) => {
            eprintln!("cases: {reason}");
            ExitCode::FAILURE
        }
    }
}

fn run() -> Result<bool, String> {
    let counts = match env::var_os("QUAY_CASES") {
        None => run_lines(io::stdin().lock())?,
        Some(name) => {
            let file = File::open(&name).map_err(|why| format!("{}: {why}", name.to_string_lossy()))?;
            run_lines(BufReader::new(file))?
        }
    };
    println!("{} of them also by the crate's own types", counts.crate_own);
    println!("{} cases, {} differ", counts.cases, counts.differ);
    Ok(counts.cases != 0 && counts.differ == 0)
}

fn run_lines(lines: impl BufRead) -> Result<Counts, String> {
    let mut counts = Counts::default();
    for line in lines.lines() {
        counts.cases += 1;
        let place = counts.cases;
        let line = line.map_err(|why| format!("line {place}: {why}"))?;
        run_line(&line, &mut counts).map_err(|why| format!("line {place}: {why}"))?;
    }
    Ok(counts)
}

fn run_line(line: &str, counts: &mut Counts) -> Result<(), Malformed> {
    let (asked, wanted) = line.split_once(" = ").ok_or("there is no ' = ' in it")?;
    let mut words = Words::new(asked);
    let function = words.word("function")?;
    let told = answer(function, &mut words)?;
    words.end()?;
    counts.crate_own += u64::from(told.crate_own.is_some());
    let by_crate = told.crate_own.as_deref().unwrap_or(wanted);
    if told.raw == wanted && by_crate == wanted {
        return Ok(());
    }
    counts.differ += 1;
    if counts.differ > DIFFERENCES_SHOWN {
        return Ok(());
    }
    let place = counts.cases;
    if told.raw != wanted {
        println!("line {place}: {function}: wanted {wanted}, given {}", told.raw);
        return Ok(());
    }
    println!("line {place}: {function}: wanted {wanted}, given by the crate's own types {by_crate}");
    Ok(())
}

fn answer(function: &str, words: &mut Words<'_>) -> Result<Told, Malformed> {
    match function {
        "listen" => line_cases::listen(words),
        "list_event" => line_cases::list_event(words),
        "list_total" => line_cases::list_total(words),
        "write_frame" => message_cases::write_frame(words),
        "write_message" => message_cases::write_message(words),
        "read_message" => message_cases::read_message(words),
        "read_weight" => weight_cases::read_weight(words),
        "value" => weight_cases::value(words),
        "difference" => weight_cases::difference(words),
        "kilograms" => weight_cases::kilograms(words),
        "write_record" => log_cases::write_record(words),
        "read_record" => log_cases::read_record(words),
        "step" => log_cases::step(words),
        "record_heard" => log_cases::record_heard(words),
        _ => Err(format!("there is no function {function:?}")),
    }
}
