// The scalar routines beside definitions written plainly here or the processor's own, and the four matrix
// routines beside the Rust's.
use super::draw::{signals, Draw};
use super::memory::{bits, difference};
use super::plain;
use super::stop::{insist, none};
use super::tally::count;
use crate::interface::*;
use crate::matrix::{lin_solve, lin_solve_complex, lu_decomp, lu_decomp_complex, Matrix, MatrixStorage};

const SCALARS_A_CASE: usize = 40;
const MATRICES_A_CASE: usize = 4;

// Document 01: a NaN yields the other; of two that compare equal the first.
fn greater(a: f64, b: f64) -> f64 {
    if a.is_nan() || b > a { b } else { a }
}

fn lesser(a: f64, b: f64) -> f64 {
    if a.is_nan() || b < a { b } else { a }
}

fn clamped(x: f64, low: f64, high: f64) -> f64 {
    match x {
        _ if x < low => low,
        _ if x > high => high,
        _ => x,
    }
}

// Document 01: NaN for an order outside 1 to 17.
fn root(m: u64, v: f64) -> f64 {
    if (1..=17).contains(&m) { plain::root(m as u32, v) } else { f64::NAN }
}

// A double for a scalar routine: any, or a power that a root makes whole.
fn argument(d: &mut Draw) -> f64 {
    match d.below(6) {
        0 => plain::power(d.from_to(1, 17), d.from_to(1, 9) as f64),
        1 => f64::from_bits(d.word() >> 12),
        2 => f64::from_bits(d.word() & 0x7fff_ffff_ffff_ffff),
        _ => d.any(),
    }
}

fn same(name: &str, arguments: &[f64], ours: f64, wanted: f64) {
    let given = || arguments.iter().map(|x| format!("{:016x}", x.to_bits())).collect::<Vec<String>>().join(", ");
    insist(bits(ours) == bits(wanted), || format!("{name} of {}: ours {:016x}, is to be {:016x}", given(),
        ours.to_bits(), wanted.to_bits()));
}

fn scalar(d: &mut Draw) {
    let (x, a, b) = (argument(d), argument(d), argument(d));
    let most = d.one_of(&[20, 20, 20, 256]);
    let (m, k) = (d.from_to(0, 19) as u64, d.below(most) as u8);
    match d.below(13) {
        0 => same("sqrt", &[x], elchepur_sqrt(x), x.sqrt()),
        1 => same(&format!("root {m}"), &[x], elchepur_root(m, x), root(m, x)),
        2 => same(&format!("power {k}"), &[x], elchepur_power(k, x), plain::power(k as usize, x)),
        3 => same("two_thirds", &[x], elchepur_two_thirds(x), plain::two_thirds(x)),
        4 => same("four_fifths", &[x], elchepur_four_fifths(x), plain::four_fifths(x)),
        5 => same("quarter", &[x], elchepur_quarter(x), plain::quarter(x)),
        6 => same(&format!("inverse_root {m}"), &[x], elchepur_inverse_root(m, x), 1.0 / root(m, x)),
        7 => same("abs", &[x], elchepur_abs(x), x.abs()),
        8 => same("max", &[a, b], elchepur_max(a, b), greater(a, b)),
        9 => same("min", &[a, b], elchepur_min(a, b), lesser(a, b)),
        10 => same("clamp", &[x, a, b], elchepur_clamp(x, a, b), clamped(x, a, b)),
        11 => same("signum", &[x], elchepur_signum(x), x.signum()),
        _ => coefficient(d.below(40)),
    }
    // Where the Rust's own order is settled, it agrees with 01's words.
    let zeros = a == 0.0 && b == 0.0;
    if !zeros && !signals(a) && !signals(b) {
        same("max, the Rust's", &[a, b], elchepur_max(a, b), a.max(b));
        same("min, the Rust's", &[a, b], elchepur_min(a, b), a.min(b));
    }
    if a <= b {
        same("clamp, the Rust's", &[x, a, b], elchepur_clamp(x, a, b), x.clamp(a, b));
    }
}

// Entry k of the table, beside the constants of radau.rs in the order of its text.
fn coefficient(k: usize) {
    let constants = crate::radau_rust::CONSTANTS;
    let mut value = 7.0;
    let said = elchepur_coefficient(k, &mut value);
    let (number, wanted) = if k < constants.len() { (0, constants[k]) } else { (30, 7.0) };
    insist(said == number, || format!("coefficient {k} is answered by {said}"));
    same(&format!("coefficient {k}"), &[], value, wanted);
}

// The default settings are the Rust's; an absent one is 0.
pub fn compare_defaults() {
    let rust = crate::radau_rust::RADAU::default();
    let (mut numbers, mut floats) = ([7; 17], [7.0; 8]);
    elchepur_default_settings(&mut numbers, &mut floats);
    let absent = [rust.max_step, rust.min_step, rust.newton_tol, rust.first_step];
    let unparted = [rust.nind1, rust.nind2, rust.nind3];
    insist(absent == [None; 4] && unparted == [None; 3], || "a default of the Rust's is given".to_string());
    let full = (rust.mass_storage == MatrixStorage::Full) as u64;
    let head = [rust.max_steps as u64, rust.newton_maxiter as u64, rust.predictive as u64, rust.dense_output as u64,
        full, 1, 0];
    insist(numbers[..7] == head && numbers[7..] == [0; 10],
        || format!("default numbers: ours {numbers:?}, the Rust's {head:?}"));
    none(difference("default floats", &floats[..4],
        &[rust.uround, rust.safety_factor, rust.scale_min, rust.scale_max]));
    none(difference("absent floats", &floats[4..], &[0.0; 4]));
}

// Entries of one sort: modest, small whole numbers (often singular), any at all, or modest with a few others between.
fn entries(count: usize, sort: usize, d: &mut Draw) -> Vec<f64> {
    d.list(count, |d| match sort {
        0 | 1 => d.between(-1.0, 1.0),
        2 => d.below(3) as f64 - 1.0,
        3 => d.any(),
        4 => d.pattern(),
        5 if d.percent(40) => d.one_of(&[0.0, -0.0]),
        6 if d.percent(5) => d.edge(),
        _ => {
            let size = d.sized(-20, 20);
            d.signed(size)
        }
    })
}

// A column that no decomposition tells.
const UNWRITTEN: usize = 77;

struct System {
    n: usize,
    ar: Vec<f64>,
    ai: Vec<f64>,
    br: Vec<f64>,
    bi: Vec<f64>,
    ip: Vec<usize>,
}

impl System {
    fn draw(d: &mut Draw) -> System {
        let n = if d.percent(85) { d.from_to(1, 6) } else { d.from_to(7, 32) };
        let (sort, other) = (d.below(8), d.below(8));
        let imaginary = if d.percent(15) { vec![0.0; n * n] } else { entries(n * n, other, d) };
        System {
            n,
            ar: entries(n * n, sort, d),
            ai: imaginary,
            br: entries(n, sort, d),
            bi: entries(n, other, d),
            ip: (0..n).map(|_| d.below(n)).collect(),
        }
    }

    // The identity with a zero at a place of its diagonal, its rows in another order: singular at that column.
    fn stopping(&mut self, d: &mut Draw) {
        let (n, at) = (self.n, d.below(self.n));
        let turn = d.below(n);
        self.ar.fill(0.0);
        self.ai.fill(0.0);
        for k in (0..n).filter(|&k| k != at) {
            self.ar[(k + turn) % n * n + k] = d.one_of(&[1.0, -2.0, 0.5]);
        }
    }

    fn matrices(&self) -> (Matrix, Matrix) {
        (Matrix::from_vec(self.n, self.n, self.ar.clone()), Matrix::from_vec(self.n, self.n, self.ai.clone()))
    }

    fn same(&self, name: &str, said: u64, wanted: u64, theirs: &System) {
        insist(said == wanted, || format!("{name} of order {}: answered by {said}, is to be {wanted}", self.n));
        none(difference(&format!("{name}: a"), &self.ar, &theirs.ar));
        none(difference(&format!("{name}: ai"), &self.ai, &theirs.ai));
        none(difference(&format!("{name}: b"), &self.br, &theirs.br));
        none(difference(&format!("{name}: bi"), &self.bi, &theirs.bi));
        insist(self.ip == theirs.ip, || format!("{name}: pivots: ours {:?}, the Rust's {:?}", self.ip, theirs.ip));
    }

    // Ours and the Rust's, from one start.
    fn decompose(mut self, complex: bool) -> System {
        let (mut ar, mut ai) = self.matrices();
        let mut ip = self.ip.clone();
        let mut column = UNWRITTEN;
        let (said, failed) = if complex {
            (
                elchepur_lu_decomp_complex(self.n, &mut self.ar, &mut self.ai, &mut self.ip, &mut column),
                lu_decomp_complex(&mut ar, &mut ai, &mut ip).is_err(),
            )
        } else {
            (elchepur_lu_decomp(self.n, &mut self.ar, &mut self.ip, &mut column), lu_decomp(&mut ar, &mut ip).is_err())
        };
        let stopped = (complex as u64 + 1, column as u64);
        insist(if failed { stopped == crate::stopped::latest() } else { column == UNWRITTEN },
            || format!("a decomposition of order {}: column {column}", self.n));
        let theirs = System { ar: ar.data, ai: ai.data, ip, br: self.br.clone(), bi: self.bi.clone(), ..self };
        self.same(if complex { "lu_decomp_complex" } else { "lu_decomp" }, said, if failed { 17 } else { 0 }, &theirs);
        self
    }

    fn solve(mut self, complex: bool) {
        let (ar, ai) = self.matrices();
        let (mut br, mut bi) = (self.br.clone(), self.bi.clone());
        let said = if complex {
            lin_solve_complex(&ar, &ai, &mut br, &mut bi, &self.ip);
            elchepur_lin_solve_complex(self.n, &self.ar, &self.ai, &mut self.br, &mut self.bi, &self.ip)
        } else {
            lin_solve(&ar, &mut br, &self.ip);
            elchepur_lin_solve(self.n, &self.ar, &mut self.br, &self.ip)
        };
        let theirs = System { ar: ar.data, ai: ai.data, br, bi, ip: self.ip.clone(), ..self };
        self.same(if complex { "lin_solve_complex" } else { "lin_solve" }, said, 0, &theirs);
    }

    // Called as it should not be: 1 for an order, 16 for a length, 18 for a pivot; and nothing is written.
    fn misuse(mut self, d: &mut Draw) {
        let (mut n, wanted) = (self.n, d.one_of(&[1, 16, 18]));
        match wanted {
            1 => n = d.one_of(&[0, 33, usize::MAX]),
            16 => self.br.resize(d.one_of(&[n - 1, n + 1]), 1.0),
            _ if n == 1 => return,
            _ => self.ip[d.below(n - 1)] = d.one_of(&[n, usize::MAX]),
        }
        let before = self.br.clone();
        let said = elchepur_lin_solve(n, &self.ar, &mut self.br, &self.ip);
        insist(said == wanted, || format!("lin_solve is answered by {said} and is to be refused by {wanted}"));
        none(difference("lin_solve, refused: b", &self.br, &before));
    }
}

// Decomposed and then solved, or solved with a matrix that never was.
fn matrix(d: &mut Draw) {
    let mut system = System::draw(d);
    if d.percent(20) {
        system.stopping(d);
    }
    let complex = d.percent(50);
    match d.below(10) {
        0 => system.misuse(d),
        1 | 2 => system.solve(complex),
        _ => system.decompose(complex).solve(complex),
    }
}

pub fn compare(d: &mut Draw) {
    for _ in 0..SCALARS_A_CASE {
        scalar(d);
    }
    for _ in 0..MATRICES_A_CASE {
        matrix(d);
    }
    count(|t| {
        t.scalars += SCALARS_A_CASE as u64;
        t.matrices += MATRICES_A_CASE as u64;
    });
}
