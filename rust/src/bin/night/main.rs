//! The program `night`: every cylinder of a list or a folder, a row each, and the totals by the proved code. `HELP`
//! says how it is called, and docs/NIGHT.md how many machines share the work.

#![forbid(unsafe_code)]

mod cylinder;
mod dates;
mod folder;
mod list;
mod page;
mod picture;
mod pipeline;
mod progress;
mod readable;
mod row;
mod rows;
mod sums;
mod words;

use list::{Entries, Entry};
use progress::Progress;
use row::Row;
use rows::Rows;
use std::io::{self, stderr, stdout, IsTerminal, Write};
use std::process::ExitCode;
use sums::Sums;
use words::Words;

const HELP: &str = include_str!("help.txt");
const WRONG_USE: u8 = 2;
const NOT_DONE: u8 = 3;

fn main() -> ExitCode {
    let given: Vec<_> = std::env::args_os().skip(1).collect();
    if given.first().is_some_and(|word| word == "--help" || word == "-h") {
        return say(HELP.as_bytes()).map_or_else(|why| stop(&why, NOT_DONE), |()| ExitCode::SUCCESS);
    }
    let words = match words::read(given) {
        Ok(words) => words,
        Err(why) => return stop(&format!("{why} (--help says what it takes)"), WRONG_USE),
    };
    match night(&words) {
        Ok(true) => ExitCode::SUCCESS,
        Ok(false) => ExitCode::FAILURE,
        Err(why) => stop(&why, NOT_DONE),
    }
}

fn stop(why: &str, status: u8) -> ExitCode {
    tell(why);
    ExitCode::from(status)
}

/// The whole night, and whether every cylinder has a forecast.
fn night(words: &Words) -> Result<bool, String> {
    let told = |error: io::Error| format!("{}: {error}", words.source.display());
    let mut entries = list::entries(&words.source, words.shard).map_err(told)?;
    let mut sums = Sums::new();
    let rows = match &words.rows {
        None => Rows::Shown(stdout()),
        Some(path) if words.resume => rows::resumed(path, &mut entries, |row| sums.take(row))?,
        Some(path) => rows::new(path)?,
    };
    if !elchepur::IS_PROVED {
        say(b"unproved\n")?;
    }
    work(words, entries, rows, &mut sums)?;
    say(&sums.printed())?;
    if let (Some(page), Some(rows)) = (&words.html, &words.rows) {
        page::write(words, rows, page, &sums)?;
    }
    tell(&sums.in_words());
    Ok(sums.forecasts == sums.rows)
}

/// A line for people. Whoever reads it may be gone; the rows and the exit status are there all the same.
fn tell(words: &str) {
    let _ = writeln!(stderr(), "night: {words}");
}

fn say(bytes: &[u8]) -> Result<(), String> {
    let mut out = stdout().lock();
    out.write_all(bytes).and_then(|()| out.flush()).map_err(|error| format!("standard output: {error}"))
}

/// Makes the rows that are missing, and sums them.
fn work(words: &Words, entries: Entries, mut rows: Rows, sums: &mut Sums) -> Result<(), String> {
    let is_apart = words.rows.is_some() || !stdout().is_terminal();
    let count = || list::count(&words.source, words.shard);
    let mut progress = is_apart.then(|| Progress::new(sums.rows, count)).flatten();
    let ended = pipeline::in_order(entries, words.jobs, made, |line: io::Result<String>| {
        let line = line.map_err(|error| format!("{}: {error}", words.source.display()))?;
        rows.write(&line).map_err(|error| format!("the rows can't be written: {error}"))?;
        sums.take(&Row::read(line.trim_end_matches('\n')).expect("a row that was just made"));
        progress.iter_mut().for_each(|progress| progress.tell(sums.rows));
        Ok(())
    });
    progress::clear(&progress);
    ended
}

fn made(entry: io::Result<Entry>) -> io::Result<String> {
    entry.map(|entry| row::written(entry.place, &entry.name, &cylinder::told(&entry.cylinder)))
}
