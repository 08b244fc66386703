//! Lists what a terminal said, as `bin/quay list` does: a poller that has a file, or standard input, where others have a port.
//!
//!     poll FILE                  the capture in FILE, to its end
//!     poll -                     standard input
//!     poll --family 001 FILE     the same, for a line of terminals of family 001: 000, 001 or 002
//!
//! Without a family it is 002, as with `bin/quay list`.
//!
//! It streams: one block, the lines on their way out and the reader are all it holds. What cannot be read or written is said on
//! standard error, and then there is no total line: a cut listing never looks whole.
use std::env;
use std::ffi::{OsStr, OsString};
use std::fs::File;
use std::io::{self, BufWriter, ErrorKind, Read, Write};
use std::process::ExitCode;

use quay::{list_event, list_total, Family, Reader, Total, LONGEST_LINE};

const BLOCK: usize = 65_536;

const FAMILY_NOT_SAID: Family = Family::Of002;

fn main() -> ExitCode {
    let words: Vec<OsString> = env::args_os().skip(1).collect();
    let Some((family, name)) = asked(&words) else {
        eprintln!("poll: give the capture's file, or - for standard input; ahead of it --family 000, 001 or 002");
        return ExitCode::FAILURE;
    };
    match poll(family, name) {
        Ok(()) => ExitCode::SUCCESS,
        Err(reason) => {
            eprintln!("poll: {reason}");
            ExitCode::FAILURE
        }
    }
}

/// The line's family and the capture's name.
fn asked(words: &[OsString]) -> Option<(Family, &OsStr)> {
    match words {
        [name] if name != "--family" => Some((FAMILY_NOT_SAID, name)),
        [option, document, name] if option == "--family" => Some((family_of(document)?, name)),
        _ => None,
    }
}

/// The family of a document's number. No line is of the plain family, which is that of old records.
fn family_of(document: &OsStr) -> Option<Family> {
    match document.to_str()? {
        "000" => Some(Family::Of000),
        "001" => Some(Family::Of001),
        "002" => Some(Family::Of002),
        _ => None,
    }
}

fn poll(family: Family, name: &OsStr) -> Result<(), String> {
    let shown = name.to_string_lossy();
    if name == "-" {
        return list(family, &mut io::stdin().lock(), "standard input");
    }
    let mut capture = File::open(name).map_err(|why| format!("{shown}: {why}"))?;
    list(family, &mut capture, &shown)
}

/// The whole listing. Lines of what was heard before a failure still go out.
fn list(family: Family, line: &mut impl Read, name: &str) -> Result<(), String> {
    let mut out = BufWriter::new(io::stdout().lock());
    let heard = list_blocks(family, line, name, &mut out);
    let total = match heard {
        Ok(total) => total,
        Err(reason) => {
            // The reason that is told is the first one.
            let _ = out.flush();
            return Err(reason);
        }
    };
    let mut room = [0; LONGEST_LINE];
    let length = list_total(total, &mut room).map_err(|why| why.to_string())?;
    out.write_all(&room[..length]).and_then(|()| out.flush()).map_err(unwritten)
}

fn list_blocks(family: Family, line: &mut impl Read, name: &str, out: &mut impl Write) -> Result<Total, String> {
    let mut reader = Reader::new();
    let mut total = Total::default();
    let mut block = vec![0; BLOCK];
    loop {
        let count = match line.read(&mut block) {
            Ok(0) => return Ok(total),
            Ok(count) => count,
            Err(why) if why.kind() == ErrorKind::Interrupted => continue,
            Err(why) => return Err(format!("{name}: {why}")),
        };
        list_block(family, &mut reader, &block[..count], &mut total, out)?;
        // A read that came back short shows all there is: the line may be silent for long.
        if count < block.len() {
            out.flush().map_err(unwritten)?;
        }
    }
}

fn list_block(family: Family, reader: &mut Reader, block: &[u8], total: &mut Total, out: &mut impl Write) -> Result<(), String> {
    let mut room = [0; LONGEST_LINE];
    let mut events = reader.feed(block);
    while let Some(event) = events.next() {
        let number = total.events.wrapping_add(1);
        let listed = list_event(number, family, event, &mut room).map_err(|why| why.to_string())?;
        total.count(listed.entry);
        out.write_all(&room[..listed.length]).map_err(unwritten)?;
    }
    Ok(())
}

fn unwritten(why: io::Error) -> String {
    format!("standard output: {why}")
}
