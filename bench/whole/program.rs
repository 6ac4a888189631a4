// Whole runs of the contestants on the same models, in one program. bench/run builds and calls it.
//
//     whole list                             each model with its n
//     whole ends MODEL JACOBIAN DENSE        how the run of each contestant ended; ours and the Rust with our powers
//                                            must have the same bits
//     whole flops MODEL JACOBIAN DENSE       of our run the decompositions and their operations on doubles; then of
//                                            rounds, attempts, acceptances and derivatives how often each came, and the
//                                            operations that one needs
//     whole times MODEL JACOBIAN DENSE       of each contestant the median time of a run and the least, in ns of the
//                                            processor's time
//     whole turns MODEL JACOBIAN DENSE CONTESTANT COUNT
//                                            so many runs, for callgrind to count; at the end the most memory
//                                            that was resident, in kB
//
// JACOBIAN is host or differences, DENSE is none or dense.
#[cfg(fortran)]
mod fortran;
mod flops;
mod models;
mod ours;
mod outcome;
mod points;
mod rust;

use crate::interface::{elchepur_four_fifths, elchepur_inverse_root, elchepur_power, elchepur_quarter,
    elchepur_two_thirds};
use flops::Flops;
use models::{Chain, Decay, Hires, Mixed, Model, NitricOxide, Robertson};
use outcome::{Outcome, Way};
use std::hint::black_box;

// Where the Rust's text with our powers finds them (tests/support/rust_solve.py).
pub fn two_thirds(v: f64) -> f64 {
    elchepur_two_thirds(v)
}

pub fn four_fifths(v: f64) -> f64 {
    elchepur_four_fifths(v)
}

pub fn quarter(v: f64) -> f64 {
    elchepur_quarter(v)
}

pub fn power(k: usize, x: f64) -> f64 {
    elchepur_power(k as u8, x)
}

pub fn inverse_root(m: usize, v: f64) -> f64 {
    elchepur_inverse_root(m as u64, v)
}

type Solver = fn(Way) -> Outcome;

struct Entry {
    name: &'static str,
    n: usize,
    xend: f64,
    contestants: Vec<(&'static str, Solver)>,
    flops: fn(Way) -> Flops,
    of_derivative: u64,
}

fn entry<M: Model>() -> Entry {
    let contestants: Vec<(&'static str, Solver)> = vec![
        ("ours", ours::run::<M>),
        ("rust", rust::run::<M>),
        ("rust_with_our_powers", rust::run_with_our_powers::<M>),
        #[cfg(fortran)]
        ("fortran", fortran::run::<M>),
    ];
    Entry { name: M::NAME, n: M::N, xend: M::XEND, contestants, flops: flops::counted::<M>,
        of_derivative: M::OPERATIONS }
}

fn entries() -> Vec<Entry> {
    vec![
        entry::<Decay>(),
        entry::<Robertson>(),
        entry::<NitricOxide>(),
        entry::<Hires>(),
        entry::<Mixed<8>>(),
        entry::<Chain<16>>(),
        entry::<Mixed<16>>(),
        entry::<Chain<32>>(),
        entry::<Mixed<32>>(),
    ]
}

fn named(name: &str) -> Entry {
    entries().into_iter().find(|entry| entry.name == name).expect("a model")
}

const RTOL: f64 = 1e-6;
const ATOL: f64 = 1e-10;
const UROUND: f64 = 2.3e-16;

fn way(entry: &Entry, words: &[String]) -> Way {
    let (host_jacobian, dense) = (words[0] == "host", words[1] == "dense");
    Way { xend: entry.xend, rtol: RTOL, atol: ATOL, lists: true, uround: UROUND, host_jacobian, dense, book: false }
}

fn ends(entry: &Entry, way: Way) {
    let outcomes: Vec<(&str, Outcome)> = entry.contestants.iter().map(|(name, solver)| (*name, solver(way))).collect();
    let (ours, same) = (&outcomes[0].1, &outcomes[2].1);
    assert_eq!(ours.status, same.status, "{} ends otherwise", entry.name);
    assert_eq!(ours.counts(), same.counts(), "{} has other counts", entry.name);
    assert_eq!(ours.bits(), same.bits(), "{} has other bits", entry.name);
    for (name, outcome) in &outcomes {
        let counts = outcome.counts().map(|count| count.to_string()).join(" ");
        println!("{name} {} {counts} {}", outcome.status, outcome.rounds);
    }
}

fn needed(entry: &Entry, way: Way) {
    let (f, n) = ((entry.flops)(way), entry.n as u64);
    println!("{} {}", f.decompositions, f.of_decompositions);
    println!("{} {}", f.rounds, flops::of_round(n));
    println!("{} {}", f.attempts, flops::of_attempt(n));
    println!("{} {}", f.acceptances, flops::of_acceptance(n));
    println!("{} {}", f.derivatives, entry.of_derivative);
}

#[inline(never)]
fn take_turns(turns: u32, solver: Solver, way: Way) {
    for _ in 0..turns {
        black_box(solver(black_box(way)));
    }
}

#[repr(C)]
struct Timespec {
    seconds: i64,
    nanoseconds: i64,
}

extern "C" {
    fn clock_gettime(clock: i32, time: &mut Timespec) -> i32;
}

// The processor's time of this process, in ns.
fn now() -> f64 {
    const PROCESS: i32 = 2;
    let mut time = Timespec { seconds: 0, nanoseconds: 0 };
    assert_eq!(unsafe { clock_gettime(PROCESS, &mut time) }, 0);
    time.seconds as f64 * 1e9 + time.nanoseconds as f64
}

// The time of one run, in ns, over as many as fill a sample.
fn sample(turns: u32, solver: Solver, way: Way) -> f64 {
    let start = now();
    take_turns(turns, solver, way);
    (now() - start) / turns as f64
}

const SAMPLES: usize = 31;
const SAMPLE: f64 = 2e6;

fn times(entry: &Entry, way: Way) {
    let solvers = &entry.contestants;
    let turns: Vec<u32> = solvers.iter().map(|(_, solver)| (SAMPLE / sample(2, *solver, way)) as u32 + 1).collect();
    let mut samples = vec![Vec::new(); solvers.len()];
    // The contestants take turns.
    for _ in 0..SAMPLES {
        for (k, (_, solver)) in solvers.iter().enumerate() {
            samples[k].push(sample(turns[k], *solver, way));
        }
    }
    for ((name, _), mut kept) in solvers.iter().zip(samples) {
        kept.sort_by(f64::total_cmp);
        println!("{name} {:.1} {:.1}", kept[SAMPLES / 2], kept[0]);
    }
}

// The most memory of this process that was resident, in kB.
fn resident() -> String {
    let told = std::fs::read_to_string("/proc/self/status").expect("the process's own status");
    let line = told.lines().find(|line| line.starts_with("VmHWM:")).expect("a peak");
    line.split_whitespace().nth(1).expect("a number").to_string()
}

fn turns(entry: &Entry, words: &[String]) {
    let (_, solver) = *entry.contestants.iter().find(|(name, _)| *name == words[2]).expect("a contestant");
    take_turns(words[3].parse().expect("a count"), solver, way(entry, words));
    println!("{}", resident());
}

pub fn run() {
    let words: Vec<String> = std::env::args().skip(1).collect();
    if words[0] == "list" {
        return entries().iter().for_each(|entry| println!("{} {}", entry.name, entry.n));
    }
    let entry = named(&words[1]);
    let way = way(&entry, &words[2..]);
    match words[0].as_str() {
        "ends" => ends(&entry, way),
        "flops" => needed(&entry, way),
        "times" => times(&entry, way),
        "turns" => turns(&entry, &words[2..]),
        _ => panic!("usage: see the head of bench/whole/program.rs"),
    }
}
