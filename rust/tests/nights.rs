//! The stored night of crates/totals in pieces of any length: what is printed of it is what is stored; and what has no
//! totals. Joined totals are those of the lines one after the other.

mod shared;

use elchepur::prelude::*;
use elchepur::totals;
use shared::bytes;

const LINE: &str = "status 5 accepted 1 rejected 2 total 3 ode 4 jac 5 lu 10000000000\n";

fn in_pieces(lines: &[u8], length: usize) -> Night {
    let mut night = Night::new();
    for piece in lines.chunks(length) {
        night.feed(piece);
    }
    night
}

#[test]
fn pieces_do_not_show() {
    let (lines, wanted) = (bytes("crates/totals/stdin"), bytes("crates/totals/stdout"));
    let whole = totals(&lines).expect("totals");
    for length in (1..70).chain([1000, lines.len()]) {
        let night = in_pieces(&lines, length);
        assert_eq!(night.printed(), wanted, "pieces of {length} bytes");
        assert_eq!(night.totals(), Ok(whole));
    }
    assert_eq!(whole.runs.iter().sum::<u64>(), whole.lines);
}

#[test]
fn each_number_stands_at_its_place() {
    let two = LINE.repeat(2);
    let found = totals(two.as_bytes()).expect("totals");
    let wanted = Totals {
        lines: 2,
        runs: [0, 0, 0, 0, 2, 0],
        accepted: 2,
        rejected: 4,
        total: 6,
        ode: 8,
        jac: 10,
        lu: 20_000_000_000,
        largest: 4,
        place: 1,
    };
    assert_eq!(found, wanted);
    assert_eq!(totals(b""), Ok(Totals::default()));
}

#[test]
fn what_has_no_totals() {
    let refused = |lines: &str| totals(lines.as_bytes()).expect_err("a refusal");
    assert_eq!(refused(&format!("{LINE}x")), NoTotals::Malformed { line: 2 });
    assert_eq!(refused(&LINE.replace("status 5", "status 4")), NoTotals::Malformed { line: 1 });
    assert_eq!(refused(&LINE.replace("10000000000", "10000000001")), NoTotals::Malformed { line: 1 });
    assert_eq!(refused(LINE.trim_end()), NoTotals::Malformed { line: 1 });
    let most = LINE.repeat(65_535);
    assert_eq!(totals(most.as_bytes()).map(|found| found.lines), Ok(65_535));
    assert_eq!(refused(&format!("{most}\n")), NoTotals::TooMany);
    assert_eq!(refused(&format!("{LINE}\n{most}")), NoTotals::Malformed { line: 2 });
    assert_eq!(NoTotals::TooMany.to_string(), "refused (26): there are more than 65,535 lines");
    assert_eq!(in_pieces(LINE.trim_end().as_bytes(), 9).printed(), b"refused 20 1\n");
}

#[test]
fn joined_totals_are_those_of_the_lines() {
    let lines = bytes("crates/totals/stdin");
    let rows: Vec<&[u8]> = lines.split_inclusive(|byte| *byte == b'\n').collect();
    let whole = totals(&lines).expect("totals");
    let of = |rows: &[&[u8]]| totals(&rows.concat()).expect("totals");
    for cut in [0, 1, 2, 391, 392, 393, 999, 1000] {
        let (first, second) = (of(&rows[..cut]), of(&rows[cut..]));
        assert_eq!(first.join(&second), Ok(whole), "cut behind {cut} lines");
        let exchanged = second.join(&first).expect("totals");
        assert_eq!(Totals { place: 0, ..exchanged }, Totals { place: 0, ..whole });
    }
    let third = |k: usize| of(&rows[k * 300..k * 300 + 300]);
    let left = third(0).join(&third(1)).and_then(|two| two.join(&third(2)));
    let right = third(1).join(&third(2)).and_then(|two| third(0).join(&two));
    assert_eq!(left, right);
}

#[test]
fn what_is_not_joined() {
    let one = totals(LINE.as_bytes()).expect("totals");
    let refused = |edit: fn(&mut Totals)| {
        let mut other = one;
        edit(&mut other);
        assert_eq!(one.join(&other), Err(NoTotals::Unfit));
        assert_eq!(other.join(&one), Err(NoTotals::Unfit));
    };
    refused(|totals| totals.lines = 65_536);
    refused(|totals| totals.runs[5] = u64::MAX);
    refused(|totals| totals.lu += 1);
    refused(|totals| totals.largest += 1);
    refused(|totals| totals.place = 0);
    refused(|totals| totals.place = 2);
    let most = totals(LINE.repeat(65_535).as_bytes()).expect("totals");
    assert_eq!(most.join(&one), Err(NoTotals::TooMany));
    assert_eq!(most.join(&Totals::default()), Ok(most));
}
