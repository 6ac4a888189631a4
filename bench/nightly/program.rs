// Many sheets, each forecast by ours and solved by the Rust, in one program. bench/run builds and calls it.
//
//     nightly agree FILE                      of every sheet ours and the Rust with document 01's powers print the same
//                                             bytes before the strides; how many sheets ended with each status
//     nightly times FILE                      of each contestant the median time of a sheet and the least, in ns of the
//                                             processor's time
//     nightly turns FILE CONTESTANT COUNT     all sheets so often, for callgrind to count
//
// FILE is one sheet after the other, each behind a line with the number of its bytes.
mod model;
#[path = "../../tests/support/powers.rs"]
mod powers;
mod rust;

use model::Model;
use std::hint::black_box;

// Where the Rust's text with document 01's powers finds them (tests/support/rust_solve.py).
pub use powers::{four_fifths, inverse_root, power, quarter, two_thirds};

const PRINTED: usize = 1024;

extern "C" {
    fn elchepur_forecast(sheet: *const u8, count: usize, printed: *mut u8) -> u64;
    fn clock_gettime(clock: i32, time: &mut Timespec) -> i32;
}

struct Sheet {
    bytes: Vec<u8>,
    model: Model,
}

// The bytes of a sheet in, those that `decay` prints out.
fn forecast(sheet: &Sheet, printed: &mut [u8; PRINTED]) -> usize {
    unsafe { elchepur_forecast(sheet.bytes.as_ptr(), sheet.bytes.len(), printed.as_mut_ptr()) as usize }
}

fn read(path: &str) -> Vec<Sheet> {
    let all = std::fs::read(path).expect("a file of sheets");
    let (mut sheets, mut at) = (Vec::new(), 0);
    while at < all.len() {
        let line = at + all[at..].iter().position(|&byte| byte == b'\n').expect("a line with a number");
        let count: usize = std::str::from_utf8(&all[at..line]).expect("digits").parse().expect("a number");
        let bytes = all[line + 1..line + 1 + count].to_vec();
        at = line + 1 + count;
        sheets.push(Sheet { model: Model::read(&bytes), bytes });
    }
    sheets
}

fn agree(sheets: &[Sheet]) {
    let (mut printed, mut ended) = ([0; PRINTED], [0; 7]);
    for (k, sheet) in sheets.iter().enumerate() {
        let count = forecast(sheet, &mut printed);
        let end = rust::solved_with_our_powers(&sheet.model);
        let ours = String::from_utf8_lossy(&printed[..count]);
        let (told, strides) = ours.split_at(ours.find("h ").expect("the line of the strides"));
        assert_eq!((told, strides.lines().count()), (&*end.printed(), 1), "sheet {k} ends otherwise");
        ended[end.status] += 1;
    }
    println!("{}", ended.map(|count| count.to_string()).join(" "));
}

type Contestant = fn(&[Sheet]);

#[inline(never)]
fn ours(sheets: &[Sheet]) {
    let mut printed = [0; PRINTED];
    for sheet in sheets {
        black_box(forecast(black_box(sheet), &mut printed));
    }
}

#[inline(never)]
fn the_rust(sheets: &[Sheet]) {
    for sheet in sheets {
        black_box(rust::solved(black_box(&sheet.model)));
    }
}

const CONTESTANTS: [(&str, Contestant); 2] = [("ours", ours), ("rust", the_rust)];

#[repr(C)]
struct Timespec {
    seconds: i64,
    nanoseconds: i64,
}

// The processor's time of this process, in ns.
fn now() -> f64 {
    const PROCESS: i32 = 2;
    let mut time = Timespec { seconds: 0, nanoseconds: 0 };
    assert_eq!(unsafe { clock_gettime(PROCESS, &mut time) }, 0);
    time.seconds as f64 * 1e9 + time.nanoseconds as f64
}

const SAMPLES: usize = 15;

fn times(sheets: &[Sheet]) {
    let mut samples = [const { Vec::new() }; CONTESTANTS.len()];
    // The contestants take turns.
    for _ in 0..SAMPLES {
        for (k, (_, contestant)) in CONTESTANTS.iter().enumerate() {
            let start = now();
            contestant(sheets);
            samples[k].push((now() - start) / sheets.len() as f64);
        }
    }
    for ((name, _), mut kept) in CONTESTANTS.iter().zip(samples) {
        kept.sort_by(f64::total_cmp);
        println!("{name} {:.1} {:.1}", kept[SAMPLES / 2], kept[0]);
    }
}

fn turns(sheets: &[Sheet], words: &[String]) {
    let (_, contestant) = CONTESTANTS.iter().find(|(name, _)| *name == words[0]).expect("a contestant");
    let count: usize = words[1].parse().expect("a count");
    (0..count).for_each(|_| contestant(sheets));
}

pub fn run() {
    let words: Vec<String> = std::env::args().skip(1).collect();
    let sheets = read(&words[1]);
    match words[0].as_str() {
        "agree" => agree(&sheets),
        "times" => times(&sheets),
        "turns" => turns(&sheets, &words[2..]),
        _ => panic!("usage: see the head of bench/nightly/program.rs"),
    }
}
