//! Every sheet of crates/replay_sheet/stdin, with the answer stored there: its forecast has what was stored, those that
//! are refused too; and every well-formed one runs through `solve` with the same status, counts, point and amounts,
//! which are the Rust's bit for bit.

#[path = "shared/model.rs"]
mod model;
mod shared;

use elchepur::prelude::*;
use model::Model;
use shared::{bits, bytes};

/// Each sheet with its answer. A record is a line with the bytes of both, and the two.
fn records(mut left: &[u8]) -> Vec<(&[u8], &str)> {
    let text = |bytes| std::str::from_utf8(bytes).expect("a text");
    let count = |digits| text(digits).parse::<usize>().expect("digits");
    let mut found = Vec::new();
    while !left.is_empty() {
        let (head, rest) = left.split_at(10);
        let (sheet, rest) = rest.split_at(count(&head[..4]));
        let (answer, rest) = rest.split_at(count(&head[5..9]));
        found.push((sheet, text(answer)));
        left = rest;
    }
    found
}

fn told(status: u64, evals: Evals, steps: Steps, strides: Strides, x: f64, y: &[f64]) -> String {
    let Steps { total, accepted, rejected } = steps;
    let Evals { ode, jac, lu } = evals;
    let amounts: String = y.iter().map(|amount| format!(" {:016x}", bits(*amount))).collect();
    let counts = format!("accepted {accepted} rejected {rejected} total {total} ode {ode} jac {jac} lu {lu}");
    let ends = format!("h {:016x} {:016x}", bits(strides.smallest), bits(strides.largest));
    format!("status {status} {counts}\nx {:016x}\ny{amounts}\n{ends}\n", bits(x))
}

/// What the program `decay` prints of a sheet, by the forecast of this crate.
fn forecast_of(sheet: &[u8]) -> String {
    match forecast(sheet) {
        Ok(run) => told(0, run.evals, run.steps, run.strides, run.x, &run.y),
        Err(NoForecast::BrokenOff(broken)) => {
            let Reached { x, y, .. } = broken.reached();
            told(broken.status().number(), broken.evals(), broken.steps(), broken.strides(), *x, y)
        }
        Err(NoForecast::Refused(refused)) => format!("refused {}\n", refused.number()),
        Err(NoForecast::Malformed { line }) => format!("refused 20 {line}\n"),
        Err(NoForecast::TooLong) => "refused 21\n".to_string(),
        Err(other) => panic!("{other}"),
    }
}

/// The same of a well-formed sheet, by `solve`.
fn solved(sheet: &str) -> String {
    let model = Model::read(sheet).expect("a sheet");
    match model.solve(&model.solver(), None::<&mut NoSolOut>) {
        Ok(run) => told(0, run.evals, run.steps, run.strides, run.x, &run.y),
        Err(Error::BrokenOff(broken)) => {
            let Reached { x, y, .. } = broken.reached();
            told(broken.status().number(), broken.evals(), broken.steps(), broken.strides(), *x, y)
        }
        Err(Error::Refused(refused)) => format!("refused {}\n", refused.number()),
        Err(other) => panic!("{other}"),
    }
}

#[test]
fn every_forecast_is_the_stored_answer() {
    let stored = bytes("crates/replay_sheet/stdin");
    let records = records(&stored);
    for (sheet, wanted) in &records {
        assert_eq!(forecast_of(sheet), *wanted, "of the sheet\n{}", String::from_utf8_lossy(sheet));
    }
    let count = |word: &str| records.iter().filter(|(_, wanted)| wanted.starts_with(word)).count();
    assert_eq!((count("status"), count("refused")), (355, 528));
    assert!(["refused 20", "refused 21", "status 2", "status 3", "status 5"].iter().all(|word| count(word) > 0));
}

#[test]
fn every_well_formed_sheet_is_solved_to_the_stored_answer() {
    let stored = bytes("crates/replay_sheet/stdin");
    let (mut ran, mut refused) = (0, 0);
    for (sheet, wanted) in records(&stored) {
        if wanted.starts_with("refused 20") || wanted.starts_with("refused 21") {
            continue;
        }
        let sheet = std::str::from_utf8(sheet).expect("a sheet");
        assert_eq!(solved(sheet), wanted, "of the sheet\n{sheet}");
        if wanted.starts_with("status") {
            ran += 1;
        } else {
            refused += 1;
        }
    }
    assert_eq!((ran, refused), (355, 56));
}

#[test]
fn how_a_sheet_without_a_forecast_reads() {
    let read = |sheet: &[u8]| forecast(sheet).expect_err("no forecast").to_string();
    assert_eq!(read(b"7\n"), "refused (20): line 1 is not as a sheet has it");
    assert_eq!(read(&[b'6'; 4097]), "refused (21): the sheet is longer than 4,096 bytes");
    assert_eq!(read(&bytes("rust/tests/night/no_steps.sheet")), "refused (4): max_steps is not 1 to 1,000,000");
    let broken = read(&bytes("cylinders/broken_off.sheet"));
    assert!(broken.starts_with("broken off at x = 331.8"), "{broken}");
    assert!(broken.ends_with(": max_steps is used up (status 2, NeedLargerNMax)"), "{broken}");
}

#[test]
fn every_sheet_comes_back_byte_for_byte() {
    let stored = bytes("crates/replay_sheet/stdin");
    let mut back = 0;
    for (sheet, wanted) in records(&stored) {
        match Sheet::read(sheet) {
            Ok(model) => {
                assert_eq!(model.write().as_deref(), Ok(sheet));
                back += 1;
            }
            Err(NoSheet::Malformed { line }) => assert_eq!(format!("refused 20 {line}\n"), wanted),
            Err(other) => assert_eq!((other, wanted), (NoSheet::TooLong, "refused 21\n")),
        }
    }
    assert_eq!(back, 411);
}

#[test]
fn what_no_sheet_reads_to_is_refused() {
    let sheet = Sheet::read(&bytes("cylinders/nitric_oxide.sheet")).expect("a sheet");
    let refused = |edit: fn(&mut Sheet)| {
        let mut other = sheet.clone();
        edit(&mut other);
        assert_eq!(other.write(), Err(NoSheet::NoModel));
    };
    refused(|sheet| sheet.amounts.clear());
    refused(|sheet| sheet.amounts.resize(33, 0));
    refused(|sheet| sheet.reactions.resize(65, Reaction { rate: 0, reactants: [0; 2], products: [0; 2] }));
    refused(|sheet| sheet.reactions[0].products[1] = 33);
    refused(|sheet| sheet.max_steps = 10_000_000_000);
    refused(|sheet| sheet.rule = 2);
}

/// What README.md says of the two rules.
#[test]
fn only_under_the_rust_rule_an_attempt_counts_twice() {
    let stored = bytes("crates/replay_sheet/stdin");
    let mut twice = [0; 2];
    let mut shown = false;
    for (sheet, _) in records(&stored) {
        let Ok(run) = forecast(sheet) else { continue };
        let rule = usize::from(sheet.split(|byte| *byte == b'\n').nth(6) == Some(b"1"));
        twice[rule] += usize::from(run.steps.accepted + run.steps.rejected > run.steps.total);
        shown |= rule == 0 && (run.steps.accepted, run.steps.rejected, run.steps.total) == (6, 2, 7);
    }
    assert!(twice[0] > 0 && twice[1] == 0 && shown, "{twice:?}");
}
