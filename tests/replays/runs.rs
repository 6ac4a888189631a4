// Runs of the Rust's own `solve`, traced call by call for tests/replays/runs.py, which says how the answers are laid
// out. Ours is what stands here: the trace, and what a host replies.
#[path = "../support/branches.rs"]
mod branches;
#[path = "../support/powers.rs"]
mod powers;

use crate::branch_names::BRANCHES;
use crate::dense::StepInterpolant;
use crate::ivp::FirstOrderSystem;
use crate::matrix::{Matrix, MatrixStorage};
use crate::methods::{Evals, Steps, Tolerance};
use crate::solout::{ControlFlag, SolOut};
use crate::status::Status;
use crate::stopped;
use crate::strides;
pub use branches::{hit, note, noted, taken};
pub use powers::{four_fifths, inverse_root, power, quarter, two_thirds};
use std::cell::{Cell, RefCell};
use std::io::{Read, Write};

// --- The trace -----------------------------------------------------------------------------------

fn pattern(x: f64) -> u64 {
    if x.is_nan() {
        0x7ff8_0000_0000_0000
    } else {
        x.to_bits()
    }
}

// The number of a part in the order in which an advance takes them.
pub const NAMES: [&str; 22] = [
    "y",
    "f0",
    "scal",
    "cont",
    "z1",
    "z2",
    "z3",
    "f1",
    "f2",
    "f3",
    "rtol",
    "atol",
    "mass",
    "jac",
    "e1",
    "e2r",
    "e2i",
    "ip1",
    "ip2",
    "y_perturbed",
    "f_perturbed",
    "f_origin",
];
const MASS: usize = 12;
const JAC: usize = 13;
const Y_PERTURBED: usize = 19;

// The parts as patterns; pivots are numbers.
pub type Parts = Vec<Vec<u64>>;

// Takes up one word after the other; each bit of one moves bits above and below it in all that follow.
pub fn hash(parts: &Parts) -> u64 {
    let mut h = 0u64;
    for &word in parts.iter().flatten() {
        h = h.wrapping_add(word);
        h = h.wrapping_add(h << 25);
        h = h.wrapping_add(h >> 31);
    }
    h
}

// A request as it is stored: its head, the hash of all parts, its floats, and the reply's words. The parts are kept
// for a comparison at hand.
#[derive(Clone)]
pub struct Asked {
    pub words: Vec<u64>,
    pub reply: Vec<u64>,
    pub parts: Parts,
}

#[derive(Default)]
pub struct Trace {
    pub asked: Vec<Asked>,
    pub parts: Parts,
    pub place: u64,
}

thread_local! {
    pub static TRACE: RefCell<Trace> = RefCell::default();
}

pub fn with<T>(act: impl FnOnce(&mut Trace) -> T) -> T {
    TRACE.with(|t| act(&mut t.borrow_mut()))
}

// The kinds of request and of reply.
pub const DERIVATIVE: u64 = 1;
pub const JACOBIAN: u64 = 2;
pub const REPORT: u64 = 3;
const ENDED: u64 = 4;
const NO_REPLY: u64 = 0;
const FILLED: u64 = 1;
pub const CONTINUE: u64 = 2;
pub const INTERRUPT: u64 = 3;
pub const MODIFIED: u64 = 4;
pub const MARK: u64 = 5;

impl Trace {
    // A request is asked with the parts as they stand. `flag` is the offer of coefficients or the status.
    fn ask(&mut self, kind: u64, flag: u64, floats: &[f64], reply: u64, said: Vec<u64>) {
        let place = if kind == DERIVATIVE { self.place } else { 0 };
        let mut words = vec![
            kind << 12 | place << 8 | flag << 4 | reply,
            hash(&self.parts),
        ];
        words.extend(floats.iter().map(|&x| pattern(x)));
        self.asked.push(Asked {
            words,
            reply: said,
            parts: self.parts.clone(),
        });
    }
}

pub fn patterns(part: &[f64]) -> Vec<u64> {
    part.iter().map(|&x| pattern(x)).collect()
}

// A list that is not given is +0.
fn tolerances(tolerance: &Tolerance, n: usize) -> Vec<u64> {
    match tolerance {
        Tolerance::Scalar(_) => vec![0; n],
        Tolerance::Vector(list) => patterns(list),
    }
}

// The parts at a call of the host; mass and the difference parts stay. `place` is that of a derivative.
#[allow(clippy::too_many_arguments)]
pub fn snap(
    place: u64,
    y: &[f64],
    f0: &[f64],
    scal: &[f64],
    cont: &[f64],
    z1: &[f64],
    z2: &[f64],
    z3: &[f64],
    f1: &[f64],
    f2: &[f64],
    f3: &[f64],
    rtol: &Tolerance,
    atol: &Tolerance,
    jac: &Matrix,
    e1: &Matrix,
    e2r: &Matrix,
    e2i: &Matrix,
    ip1: &[usize],
    ip2: &[usize],
) {
    let n = y.len();
    with(|t| {
        let mut parts: Parts = [y, f0, scal, cont, z1, z2, z3, f1, f2, f3]
            .iter()
            .map(|part| patterns(part))
            .collect();
        parts.push(tolerances(rtol, n));
        parts.push(tolerances(atol, n));
        parts.push(t.parts[MASS].clone());
        parts.extend(
            [jac, e1, e2r, e2i]
                .iter()
                .map(|matrix| patterns(&matrix.data)),
        );
        parts.extend(
            [ip1, ip2]
                .iter()
                .map(|pivots| pivots.iter().map(|&p| p as u64).collect::<Vec<u64>>()),
        );
        parts.extend(t.parts[Y_PERTURBED..].iter().cloned());
        t.parts = parts;
        t.place = place;
    });
}

// What a difference Jacobian holds at a call of the host, and when it is made.
pub fn differences(
    place: u64,
    y_perturbed: &[f64],
    f_perturbed: &[f64],
    f_origin: &[f64],
    jac: &Matrix,
) {
    with(|t| {
        t.parts[JAC] = patterns(&jac.data);
        t.parts.truncate(Y_PERTURBED);
        t.parts.extend(
            [y_perturbed, f_perturbed, f_origin]
                .iter()
                .map(|part| patterns(part)),
        );
        t.place = place;
    });
}

// The mass matrix that the Rust works with is the one that stands in the trace.
pub fn mass_made(mass: &Matrix) {
    with(|t| {
        if mass.storage == MatrixStorage::Full {
            assert!(patterns(&mass.data) == t.parts[MASS]);
        }
    });
}

fn number_of(status: &Status) -> u64 {
    match status {
        Status::Success => 0,
        Status::UserInterrupt => 1,
        Status::NeedLargerNMax => 2,
        Status::StepSizeTooSmall => 3,
        Status::ProbablyStiff => 4,
        Status::SingularMatrix => 5,
        Status::PoorConvergence => 6,
    }
}

// The routine that stopped latest and its column, which only a status 5 tells.
fn blamed(status: &Status) -> [u64; 2] {
    let (routine, column) = if *status == Status::SingularMatrix { stopped::latest() } else { (0, 0) };
    [routine, column]
}

// The end of a run: the request, then the result.
pub fn end(h: f64, x: f64, status: Status, evals: &Evals, steps: &Steps) {
    let name = format!("status {}", number_of(&status));
    hit(BRANCHES.iter().position(|&known| known == name).expect("a status that comes"));
    let counts = [
        evals.ode,
        evals.jac,
        evals.lu,
        steps.total,
        steps.accepted,
        steps.rejected,
    ];
    let mut said = vec![pattern(h), pattern(x)];
    said.extend(counts.iter().map(|&count| count as u64));
    said.extend(blamed(&status));
    said.extend(strides::ends().map(pattern));
    with(|t| t.ask(ENDED, number_of(&status), &[], NO_REPLY, said));
}

// --- The host ------------------------------------------------------------------------------------

// What a host replies to a report.
#[derive(Clone, Copy)]
enum Told {
    Continue,
    Interrupt,
    // x rises by this much, amounts are multiplied by that much.
    Modified(f64, f64),
    // x becomes this, whatever it was.
    Moved(f64),
    Mark(f64),
}

pub struct Host {
    model: String,
    p: Vec<f64>,
    // The Jacobian that the host makes is multiplied by this.
    factor: f64,
    // Derivatives, counted from 0, whose first entry is written as another pattern; the second
    // number is how many in a row.
    spoiled: Vec<(usize, usize, f64)>,
    mass: Option<Vec<f64>>,
    reports: Vec<Told>,
    calls: Cell<usize>,
    jacobians: Cell<usize>,
    told: Cell<usize>,
}

// Numbers drawn by SplitMix64.
fn drawn(seed: u64) -> u64 {
    let z = seed.wrapping_mul(0x9e37_79b9_7f4a_7c15);
    let z = (z ^ (z >> 30)).wrapping_mul(0xbf58_476d_1ce4_e5b9);
    let z = (z ^ (z >> 27)).wrapping_mul(0x94d0_49bb_1331_11eb);
    z ^ (z >> 31)
}

const ALPH: f64 = 2.681_082_873_627_752_3;
const BETA: f64 = 3.050_430_199_247_410_5;

impl Host {
    // The derivative of the model: no operation but + - * / and comparisons, so that every machine has the same bits.
    pub fn formula(&self, x: f64, y: &[f64], d: &mut [f64]) {
        let (n, p) = (y.len(), &self.p);
        match self.model.as_str() {
            "zero" => d.fill(0.0),
            "silent" => {}
            "linear" => {
                for i in 0..n {
                    d[i] = (0..n).fold(0.0, |sum, j| sum + p[i * n + j] * y[j]);
                }
            }
            // Each amount is drawn to x + 1 at a rate of its own.
            "forced" => {
                for i in 0..n {
                    d[i] = -p[0] * (i + 1) as f64 * (y[i] - x - 1.0) + 1.0;
                }
            }
            "vdp" => {
                d[0] = y[1];
                d[1] = ((1.0 - y[0] * y[0]) * y[1] - y[0]) * p[0];
            }
            "robertson" => {
                d[0] = -0.04 * y[0] + 1e4 * y[1] * y[2];
                d[1] = 0.04 * y[0] - 1e4 * y[1] * y[2] - 3e7 * y[1] * y[1];
                d[2] = if p[0] == 0.0 {
                    3e7 * y[1] * y[1]
                } else {
                    y[0] + y[1] + y[2] - 1.0
                };
            }
            "square" => {
                for i in 0..n {
                    d[i] = p[0] * y[i] * y[i];
                }
            }
            "cubic" => {
                for i in 0..n {
                    d[i] = -p[0] * (y[i] * y[i] * y[i] - x);
                }
            }
            "steep" => {
                for i in 0..n {
                    d[i] = if y[i] > p[1] { -p[0] } else { p[0] };
                }
            }
            "chain" => {
                for i in 0..n {
                    let left = if i == 0 { 0.0 } else { y[i - 1] };
                    let right = if i + 1 == n { 0.0 } else { y[i + 1] };
                    d[i] = p[0] * (left - 2.0 * y[i] + right);
                }
            }
            // y0 = x * x with the algebraic y1.
            "index2" => {
                d[0] = y[1];
                d[1] = y[0] - x * x;
            }
            // y0 = x * x * x.
            "index3" => {
                d[0] = y[1];
                d[1] = y[2];
                d[2] = y[0] - x * x * x;
            }
            // One value whatever is asked.
            "constant" => {
                for i in 0..n {
                    d[i] = p[i % p.len()];
                }
            }
            "rotation" => {
                d[0] = p[0] * (ALPH * y[0] - BETA * y[1]);
                d[1] = p[0] * (BETA * y[0] + ALPH * y[1]);
            }
            // Document 01's reactions, five numbers each: the rate, two reactants, two products;
            // species from 1, 0 is none.
            "reactions" => {
                d.fill(0.0);
                for reaction in p.chunks(5) {
                    let (used, made) = (&reaction[1..3], &reaction[3..5]);
                    let present = |side: &[f64]| -> Vec<usize> {
                        side.iter()
                            .filter(|&&species| species != 0.0)
                            .map(|&species| species as usize - 1)
                            .collect()
                    };
                    let v = present(used).iter().fold(reaction[0], |v, &i| v * y[i]);
                    present(used).iter().for_each(|&i| d[i] -= v);
                    present(made).iter().for_each(|&i| d[i] += v);
                }
            }
            // Any pattern at all, or any of a modest size.
            "noise" | "mild_noise" => {
                for i in 0..n {
                    let bits = drawn(p[0] as u64 + (self.calls.get() * n + i) as u64);
                    let small = (bits >> 12) as f64 / (1u64 << 52) as f64 - 0.5;
                    d[i] = if self.model == "noise" {
                        f64::from_bits(bits)
                    } else {
                        small * p[1]
                    };
                }
            }
            other => panic!("{other} is no model"),
        }
    }

    fn spoil(&self, d: &mut [f64]) {
        let call = self.calls.get();
        for &(from, count, value) in &self.spoiled {
            if (from..from + count).contains(&call) {
                d[0] = value;
            }
        }
    }

    fn answer(&self, x: f64, y: &[f64], dydx: &mut [f64]) {
        self.formula(x, y, dydx);
        self.spoil(dydx);
        self.calls.set(self.calls.get() + 1);
        let said = patterns(dydx);
        with(|t| t.ask(DERIVATIVE, 0, &[x], FILLED, said));
    }

    // Differences of the model, with a step of the host's own.
    fn jacobian(&self, x: f64, y: &[f64], j: &mut Matrix) {
        let n = y.len();
        let (mut here, mut there) = (vec![0.0; n], vec![0.0; n]);
        self.formula(x, y, &mut here);
        for c in 0..n {
            let mut moved = y.to_vec();
            moved[c] += 1.0 / 1_048_576.0;
            self.formula(x, &moved, &mut there);
            for r in 0..n {
                j[(r, c)] = (there[r] - here[r]) * 1_048_576.0 * self.factor;
            }
        }
        if self.model == "rotation" {
            let scale = power(self.jacobians.get(), 2.0) * self.p[0];
            j[(0, 0)] = ALPH * scale;
            j[(0, 1)] = -BETA * scale;
            j[(1, 0)] = BETA * scale;
            j[(1, 1)] = ALPH * scale;
        }
        self.jacobians.set(self.jacobians.get() + 1);
    }

    fn fill_mass(&self, m: &mut Matrix) {
        if let Some(entries) = &self.mass {
            m.data.copy_from_slice(entries);
        }
    }
}

// A host that leaves the Jacobian to the Rust's differences.
struct Plain<'a>(&'a Host);

impl FirstOrderSystem for Plain<'_> {
    fn derivative(&self, x: f64, y: &[f64], dydx: &mut [f64]) {
        self.0.answer(x, y, dydx);
    }

    fn mass(&self, m: &mut Matrix) {
        self.0.fill_mass(m);
    }
}

// A host that makes it.
struct Making<'a>(&'a Host);

impl FirstOrderSystem for Making<'_> {
    fn derivative(&self, x: f64, y: &[f64], dydx: &mut [f64]) {
        self.0.answer(x, y, dydx);
    }

    fn jac(&self, x: f64, y: &[f64], j: &mut Matrix) {
        self.0.jacobian(x, y, j);
        let said = patterns(&j.data);
        with(|t| t.ask(JACOBIAN, 0, &[x], FILLED, said));
    }

    fn mass(&self, m: &mut Matrix) {
        self.0.fill_mass(m);
    }
}

struct Reports<'a>(&'a Host);

impl SolOut for Reports<'_> {
    fn solout(
        &mut self,
        xold: f64,
        x: &mut f64,
        y: &mut [f64],
        interpolant: Option<&StepInterpolant<'_>>,
    ) -> ControlFlag {
        let host = self.0;
        let told = host
            .reports
            .get(host.told.get())
            .copied()
            .unwrap_or(Told::Continue);
        host.told.set(host.told.get() + 1);
        let flag = interpolant.is_some() as u64;
        let reached = *x;
        let (reply, said, control) = match told {
            Told::Continue => (CONTINUE, vec![], ControlFlag::Continue),
            Told::Interrupt => (INTERRUPT, vec![], ControlFlag::Interrupt),
            Told::Modified(rise, factor) => {
                *x += rise;
                y.iter_mut().for_each(|amount| *amount *= factor);
                (MODIFIED, vec![*x], ControlFlag::ModifiedSolution)
            }
            Told::Moved(to) => {
                *x = to;
                (MODIFIED, vec![*x], ControlFlag::ModifiedSolution)
            }
            Told::Mark(xo) => (MARK, vec![xo], ControlFlag::XOut(xo)),
        };
        let mut said = patterns(&said);
        if reply == MODIFIED {
            said.extend(patterns(y));
        }
        with(|t| t.ask(REPORT, flag, &[xold, reached], reply, said));
        control
    }
}

// --- A run ---------------------------------------------------------------------------------------

// The opening as it is stored: 20 words, then amounts, a Full mass, and lists of tolerances.
pub struct Opening {
    pub words: Vec<u64>,
}

impl Opening {
    pub fn n(&self) -> usize {
        self.words[0] as usize
    }

    pub fn float(&self, place: usize) -> f64 {
        f64::from_bits(self.words[place])
    }

    pub fn chosen(&self, bit: u32) -> bool {
        self.words[3] >> bit & 1 == 1
    }

    fn number(&self, bit: u32, place: usize) -> Option<f64> {
        self.chosen(bit).then(|| self.float(place))
    }

    fn whole(&self, bit: u32, place: usize) -> Option<usize> {
        self.chosen(bit).then(|| self.words[place] as usize)
    }

    pub fn full(&self) -> bool {
        self.chosen(9)
    }

    pub fn lists(&self) -> bool {
        self.chosen(12)
    }

    pub fn floats(&self, from: usize, count: usize) -> Vec<f64> {
        self.words[from..from + count]
            .iter()
            .map(|&word| f64::from_bits(word))
            .collect()
    }

    pub fn y(&self) -> Vec<f64> {
        self.floats(20, self.n())
    }

    pub fn mass(&self) -> Option<Vec<f64>> {
        self.full()
            .then(|| self.floats(20 + self.n(), self.n() * self.n()))
    }

    pub fn list(&self, side: usize) -> Vec<f64> {
        let from = 20 + self.n() + if self.full() { self.n() * self.n() } else { 0 };
        self.floats(from + side * self.n(), self.n())
    }

    fn tolerance(&self, side: usize) -> Tolerance {
        if self.lists() {
            Tolerance::Vector(self.list(side))
        } else {
            Tolerance::Scalar(self.float(14 + side))
        }
    }
}

macro_rules! solver {
    ($module:ident, $o:expr) => {
        crate::$module::RADAU {
            max_steps: $o.words[4] as usize,
            newton_maxiter: $o.words[5] as usize,
            uround: $o.float(6),
            safety_factor: $o.float(7),
            scale_min: $o.float(8),
            scale_max: $o.float(9),
            max_step: $o.number(0, 10),
            min_step: $o.number(1, 11),
            newton_tol: $o.number(2, 12),
            first_step: $o.number(3, 13),
            nind1: $o.whole(4, 16),
            nind2: $o.whole(5, 17),
            nind3: $o.whole(6, 18),
            predictive: $o.chosen(7),
            dense_output: $o.chosen(8),
            jac_storage: MatrixStorage::Full,
            mass_storage: if $o.full() {
                MatrixStorage::Full
            } else {
                MatrixStorage::Identity
            },
        }
    };
}

macro_rules! solved {
    ($module:ident, $o:expr, $system:expr, $reports:expr) => {{
        let solver = solver!($module, $o);
        let (rtol, atol) = ($o.tolerance(0), $o.tolerance(1));
        let reports = Some($reports);
        let done = solver.solve($system, $o.float(1), &$o.y(), $o.float(2), rtol, atol, reports);
        done.expect("an opening that the Rust takes");
    }};
}

// The Rust's `solve`, under the Rust rule or changed to the book rule.
pub fn solve<F: FirstOrderSystem, S: SolOut>(opening: &Opening, system: &F, reports: &mut S) {
    if opening.chosen(11) {
        solved!(radau_book, opening, system, reports);
    } else {
        solved!(radau_rust, opening, system, reports);
    }
}

fn told_of(word: &str) -> Told {
    let floats: Vec<f64> = word[1..]
        .split(',')
        .filter(|w| !w.is_empty())
        .map(|w| f64::from_bits(u64::from_str_radix(w, 16).unwrap()))
        .collect();
    match &word[..1] {
        "c" => Told::Continue,
        "i" => Told::Interrupt,
        "m" => Told::Modified(floats[0], floats[1]),
        "t" => Told::Moved(floats[0]),
        "x" => Told::Mark(floats[0]),
        other => panic!("{other} is no reply"),
    }
}

// A line: the opening | model and its numbers | factor | replies to reports | spoiled derivatives.
pub fn read_line(line: &str) -> (Opening, Host) {
    let sections: Vec<Vec<&str>> = line
        .split('|')
        .map(|section| section.split_whitespace().collect())
        .collect();
    let bits = |word: &str| u64::from_str_radix(word, 16).expect("a word");
    let float = |word: &str| f64::from_bits(bits(word));
    let opening = Opening {
        words: sections[0].iter().map(|w| bits(w)).collect(),
    };
    let spoiled = sections[4]
        .chunks(3)
        .map(|c| (bits(c[0]) as usize, bits(c[1]) as usize, float(c[2])))
        .collect();
    let host = Host {
        model: sections[1][0].to_string(),
        p: sections[1][1..].iter().map(|w| float(w)).collect(),
        factor: float(sections[2][0]),
        spoiled,
        mass: opening.mass(),
        reports: sections[3].iter().map(|w| told_of(w)).collect(),
        calls: Cell::new(0),
        jacobians: Cell::new(0),
        told: Cell::new(0),
    };
    (opening, host)
}

// A new trace, in which nothing was asked yet.
pub fn begin(opening: &Opening) {
    stopped::forget();
    strides::forget();
    let (n, square) = (opening.n(), opening.n() * opening.n());
    branches::forget();
    with(|t| {
        t.asked.clear();
        t.parts = NAMES
            .iter()
            .map(|name| vec![0; if *name == "mass" { square } else { n }])
            .collect();
        t.parts[MASS] = opening
            .mass()
            .map_or(vec![0; square], |mass| patterns(&mass));
    });
}

// Runs the Rust's `solve`, and gives what was asked.
pub fn traced(opening: &Opening, host: &Host) -> Vec<Asked> {
    begin(opening);
    if opening.chosen(10) {
        solve(opening, &Making(host), &mut Reports(host));
    } else {
        solve(opening, &Plain(host), &mut Reports(host));
    }
    with(|t| std::mem::take(&mut t.asked))
}

// Standard input has a line for each run; standard output gets for each run the words of its requests, on one line, and
// at the end a line for each branch that was taken.
pub fn run() {
    let mut text = String::new();
    std::io::stdin()
        .read_to_string(&mut text)
        .expect("the runs");
    let mut out = String::new();
    for line in text.lines() {
        let (opening, host) = read_line(line);
        let words: Vec<String> = traced(&opening, &host)
            .iter()
            .flat_map(|asked| asked.words.iter().chain(&asked.reply))
            .map(|word| format!("{word:016x}"))
            .collect();
        out.push_str(&words.join(" "));
        out.push('\n');
    }
    for (name, count) in taken() {
        out.push_str(&format!("{count} {name}\n"));
    }
    std::io::stdout()
        .write_all(out.as_bytes())
        .expect("room for the answers");
}
