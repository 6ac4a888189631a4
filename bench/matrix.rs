// The matrix routines of the port beside the Rust's own, on the same matrices, in one program.
// bench/run builds and calls it.
//
//     matrix times                         sees first, at every order from 1 to 32, that both sides leave the same
//                                          bits; then writes the time of each routine, a line each: routine, n, ours,
//                                          the Rust's, in ns
//     matrix count ROUTINE SIDE N TURNS    takes so many turns with one routine, for callgrind to count; SIDE is ours,
//                                          rust or nothing
//
// Every call starts from a fresh copy.
use crate::matrix::base::Matrix;
use crate::matrix::linear::{lin_solve, lin_solve_complex};
use crate::matrix::lu::{lu_decomp, lu_decomp_complex};
use std::hint::black_box;
use std::time::Instant;

// A slice crosses as a pointer and a count.
extern "C" {
    fn elchepur_lu_decomp(
        n: usize,
        a: *mut f64,
        an: usize,
        ip: *mut usize,
        ipn: usize,
        column: *mut usize,
    ) -> u64;
    fn elchepur_lu_decomp_complex(
        n: usize,
        ar: *mut f64,
        arn: usize,
        ai: *mut f64,
        ain: usize,
        ip: *mut usize,
        ipn: usize,
        column: *mut usize,
    ) -> u64;
    fn elchepur_lin_solve(
        n: usize,
        a: *const f64,
        an: usize,
        b: *mut f64,
        bn: usize,
        ip: *const usize,
        ipn: usize,
    ) -> u64;
    fn elchepur_lin_solve_complex(
        n: usize,
        ar: *const f64,
        arn: usize,
        ai: *const f64,
        ain: usize,
        br: *mut f64,
        brn: usize,
        bi: *mut f64,
        bin: usize,
        ip: *const usize,
        ipn: usize,
    ) -> u64;
}

#[derive(Clone, Copy, PartialEq)]
enum Routine {
    Decompose,
    DecomposeComplex,
    Solve,
    SolveComplex,
}

const ROUTINES: [(Routine, &str); 4] = [
    (Routine::Decompose, "lu_decomp"),
    (Routine::DecomposeComplex, "lu_decomp_complex"),
    (Routine::Solve, "lin_solve"),
    (Routine::SolveComplex, "lin_solve_complex"),
];
const ORDERS: [usize; 5] = [1, 3, 8, 16, 32];

// What a routine works on. For a solve the matrix is decomposed already.
#[derive(Clone)]
struct Work {
    n: usize,
    ar: Matrix,
    ai: Matrix,
    br: Vec<f64>,
    bi: Vec<f64>,
    ip: Vec<usize>,
}

// SplitMix64, as a double above -1 and below 1.
fn drawn(state: &mut u64) -> f64 {
    *state = state.wrapping_add(0x9e37_79b9_7f4a_7c15);
    let mut z = *state;
    z = (z ^ (z >> 30)).wrapping_mul(0xbf58_476d_1ce4_e5b9);
    z = (z ^ (z >> 27)).wrapping_mul(0x94d0_49bb_1331_11eb);
    z ^= z >> 31;
    (z >> 11) as f64 / (1u64 << 52) as f64 - 1.0
}

impl Work {
    fn new(routine: Routine, n: usize) -> Work {
        let mut state = 7;
        let mut some = |count: usize| -> Vec<f64> { (0..count).map(|_| drawn(&mut state)).collect() };
        let mut work = Work {
            n,
            ar: Matrix::from_vec(n, n, some(n * n)),
            ai: Matrix::from_vec(n, n, some(n * n)),
            br: some(n),
            bi: some(n),
            ip: vec![0; n],
        };
        match routine {
            Routine::Solve => lu_decomp(&mut work.ar, &mut work.ip).expect("a regular matrix"),
            Routine::SolveComplex => {
                lu_decomp_complex(&mut work.ar, &mut work.ai, &mut work.ip).expect("a regular matrix")
            }
            _ => {}
        }
        work
    }

    // What the routine writes is put back. Nothing is allocated.
    fn restore(&mut self, routine: Routine, from: &Work) {
        match routine {
            Routine::Decompose => self.ar.data.copy_from_slice(&from.ar.data),
            Routine::DecomposeComplex => {
                self.ar.data.copy_from_slice(&from.ar.data);
                self.ai.data.copy_from_slice(&from.ai.data);
            }
            Routine::Solve => self.br.copy_from_slice(&from.br),
            _ => {
                self.br.copy_from_slice(&from.br);
                self.bi.copy_from_slice(&from.bi);
            }
        }
    }

    fn bits(&self) -> Vec<u64> {
        let doubles = self.ar.data.iter().chain(&self.ai.data).chain(&self.br).chain(&self.bi);
        doubles.map(|x| x.to_bits()).chain(self.ip.iter().map(|&pivot| pivot as u64)).collect()
    }
}

fn rust(routine: Routine, w: &mut Work) -> u64 {
    match routine {
        Routine::Decompose => lu_decomp(&mut w.ar, &mut w.ip).is_err() as u64,
        Routine::DecomposeComplex => lu_decomp_complex(&mut w.ar, &mut w.ai, &mut w.ip).is_err() as u64,
        Routine::Solve => {
            lin_solve(&w.ar, &mut w.br, &w.ip);
            0
        }
        _ => {
            lin_solve_complex(&w.ar, &w.ai, &mut w.br, &mut w.bi, &w.ip);
            0
        }
    }
}

fn ours(routine: Routine, w: &mut Work) -> u64 {
    let (n, nn) = (w.n, w.n * w.n);
    let (ar, ai) = (w.ar.data.as_mut_ptr(), w.ai.data.as_mut_ptr());
    let (br, bi, ip) = (w.br.as_mut_ptr(), w.bi.as_mut_ptr(), w.ip.as_mut_ptr());
    let mut column = 0;
    unsafe {
        match routine {
            Routine::Decompose => elchepur_lu_decomp(n, ar, nn, ip, n, &mut column),
            Routine::DecomposeComplex => elchepur_lu_decomp_complex(n, ar, nn, ai, nn, ip, n, &mut column),
            Routine::Solve => elchepur_lin_solve(n, ar, nn, br, n, ip, n),
            _ => elchepur_lin_solve_complex(n, ar, nn, ai, nn, br, n, bi, n, ip, n),
        }
    }
}

// What all but a routine itself costs is measured by a call of this.
fn nothing(_: Routine, _: &mut Work) -> u64 {
    0
}

type Call = fn(Routine, &mut Work) -> u64;

// A turn restores the work and calls.
#[inline(never)]
fn take_turns(turns: u32, routine: Routine, work: &mut Work, from: &Work, call: Call) {
    for _ in 0..turns {
        work.restore(routine, from);
        black_box(call(black_box(routine), black_box(work)));
    }
}

// The time of one turn, in ns, over as many turns as fill a sample.
fn sample(turns: u32, routine: Routine, work: &mut Work, from: &Work, call: Call) -> f64 {
    let start = Instant::now();
    take_turns(turns, routine, work, from, call);
    start.elapsed().as_nanos() as f64 / turns as f64
}

fn median(mut samples: Vec<f64>) -> f64 {
    samples.sort_by(|a, b| a.total_cmp(b));
    samples[samples.len() / 2]
}

fn see_same_bits(routine: Routine, n: usize) {
    let from = Work::new(routine, n);
    let (mut left, mut right) = (from.clone(), from.clone());
    assert_eq!(ours(routine, &mut left), rust(routine, &mut right));
    assert_eq!(left.bits(), right.bits(), "a routine of order {n} differs");
}

fn times() {
    for (routine, name) in ROUTINES {
        for n in ORDERS {
            let from = Work::new(routine, n);
            let mut work = from.clone();
            // A sample takes about a millisecond, and the sides take turns.
            let once = sample(1000, routine, &mut work, &from, rust).max(1.0);
            let turns = (1e6 / once) as u32 + 1;
            let mut kinds = [Vec::new(), Vec::new(), Vec::new()];
            for _ in 0..41 {
                for (kept, call) in kinds.iter_mut().zip([ours, rust, nothing] as [Call; 3]) {
                    kept.push(sample(turns, routine, &mut work, &from, call));
                }
            }
            let [ours, rust, restoring] = kinds.map(median);
            println!("{name} {n} {:.1} {:.1}", ours - restoring, rust - restoring);
        }
    }
}

fn count(words: &[String]) {
    let (routine, _) = *ROUTINES.iter().find(|known| known.1 == words[0]).expect("a routine");
    let call = match words[1].as_str() {
        "ours" => ours,
        "rust" => rust,
        _ => nothing,
    };
    let (n, turns): (usize, u32) = (words[2].parse().expect("an order"), words[3].parse().expect("a count"));
    let from = Work::new(routine, n);
    take_turns(turns, routine, &mut from.clone(), &from, call);
}

pub fn run() {
    let words: Vec<String> = std::env::args().skip(1).collect();
    match words.first().map(String::as_str) {
        Some("times") => {
            for (routine, _) in ROUTINES {
                for n in 1..=32 {
                    see_same_bits(routine, n);
                }
            }
            times();
        }
        Some("count") => count(&words[1..]),
        _ => panic!("usage: matrix times | matrix count ROUTINE SIDE N TURNS"),
    }
}
