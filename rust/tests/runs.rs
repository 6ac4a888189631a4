//! The Rust's runs through this crate: the 477 of crates/replay_run/stdin (laid out as tests/replays/replay_run.py
//! says). The system and the `SolOut` answer each call as the Rust's host did, and see that it is the call that the
//! Rust made: which function, at which x, with an interpolant or not. All settings, masses, lists of tolerances,
//! Jacobians of the system's own, marks, modified points and interrupts come there.

mod shared;

use elchepur::prelude::*;
use shared::{bits, file};
use std::cell::{Cell, RefCell};

// The bits of a run's choices.
const MAX_STEP: u64 = 1;
const MIN_STEP: u64 = 1 << 1;
const NEWTON_TOL: u64 = 1 << 2;
const FIRST_STEP: u64 = 1 << 3;
const NIND1: u64 = 1 << 4;
const NIND2: u64 = 1 << 5;
const NIND3: u64 = 1 << 6;
const PREDICTIVE: u64 = 1 << 7;
const DENSE_OUTPUT: u64 = 1 << 8;
const FULL: u64 = 1 << 9;
const OF_THE_SYSTEM: u64 = 1 << 10;
const BOOK: u64 = 1 << 11;
const LISTS: u64 = 1 << 12;

// The kinds of requests, and the replies to a report.
const DERIVATIVE: u64 = 1;
const JACOBIAN: u64 = 2;
const REPORT: u64 = 3;
const ENDED: u64 = 4;
const CONTINUE: u64 = 2;
const INTERRUPT: u64 = 3;
const MODIFIED: u64 = 4;
const MARK: u64 = 5;

// The words that a stored ending tells: h, x, the six counts, the kind of the singular matrix and its column, and the
// two strides.
const RESULT_WORDS: usize = 12;

/// The stored words, in order.
struct Stored<'a>(std::iter::Peekable<std::str::SplitWhitespace<'a>>);

impl Stored<'_> {
    fn word(&mut self) -> u64 {
        u64::from_str_radix(self.0.next().expect("a word"), 16).expect("a word")
    }

    fn float(&mut self) -> f64 {
        f64::from_bits(self.word())
    }

    fn floats(&mut self, count: usize) -> Vec<f64> {
        (0..count).map(|_| self.float()).collect()
    }

    fn request(&mut self, n: usize) -> Request {
        let (head, _hash) = (self.word(), self.word());
        let (kind, reply) = (head >> 12, head & 15);
        let at = self.floats([0, 1, 1, 2, 0][kind as usize]);
        let told = match (kind, reply) {
            (ENDED, _) => RESULT_WORDS,
            (JACOBIAN, _) => n * n,
            (DERIVATIVE, _) => n,
            (_, MODIFIED) => 1 + n,
            (_, MARK) => 1,
            _ => 0,
        };
        let told = self.floats(told);
        Request { kind, flag: head >> 4 & 15, reply, at, told }
    }

    /// The settings, and the scalar tolerances behind them; how many requests there are comes last.
    fn settings(&mut self, choices: u64) -> (RADAU, (f64, f64), u64) {
        let (max_steps, newton_maxiter) = (self.word() as usize, self.word() as usize);
        let floats = self.floats(8);
        let tolerances = (self.float(), self.float());
        let counts = [self.word(), self.word(), self.word()];
        let is = |choice: u64| choices & choice != 0;
        let float = |choice: u64, at: usize| is(choice).then_some(floats[at]);
        let count = |choice: u64, at: usize| is(choice).then_some(counts[at] as usize);
        let settings = RADAU {
            max_steps,
            uround: floats[0],
            safety_factor: floats[1],
            scale_min: floats[2],
            scale_max: floats[3],
            max_step: float(MAX_STEP, 4),
            min_step: float(MIN_STEP, 5),
            newton_maxiter,
            newton_tol: float(NEWTON_TOL, 6),
            predictive: is(PREDICTIVE),
            nind1: count(NIND1, 0),
            nind2: count(NIND2, 1),
            nind3: count(NIND3, 2),
            mass_storage: if is(FULL) { MatrixStorage::Full } else { MatrixStorage::Identity },
            first_step: float(FIRST_STEP, 7),
            dense_output: is(DENSE_OUTPUT),
            rule: if is(BOOK) { Rule::Book } else { Rule::Rust },
        };
        (settings, tolerances, self.word())
    }

    fn run(&mut self) -> Run {
        let n = self.word() as usize;
        let (ends, choices) = ((self.float(), self.float()), self.word());
        let (settings, (rtol, atol), requests) = self.settings(choices);
        let is = |choice: u64| choices & choice != 0;
        let y = self.floats(n);
        let mass = self.floats(if is(FULL) { n * n } else { 0 });
        let lists = is(LISTS).then(|| (self.floats(n).into(), self.floats(n).into()));
        let tolerances = lists.unwrap_or((rtol.into(), atol.into()));
        let requests = (0..requests).map(|_| self.request(n)).collect::<Vec<_>>();
        Run {
            settings,
            ends,
            y,
            mass,
            tolerances,
            of_the_system: is(OF_THE_SYSTEM),
            requests: RefCell::new(requests.into_iter()),
            shortened: Cell::new(0),
        }
    }
}

struct Request {
    kind: u64,
    flag: u64,
    reply: u64,
    at: Vec<f64>,
    // What the host wrote, or the result.
    told: Vec<f64>,
}

struct Run {
    settings: RADAU,
    ends: (f64, f64),
    y: Vec<f64>,
    mass: Vec<f64>,
    tolerances: (Tolerance, Tolerance),
    of_the_system: bool,
    requests: RefCell<std::vec::IntoIter<Request>>,
    // The reports whose step was shortened after its end was fixed.
    shortened: Cell<usize>,
}

impl Run {
    fn next(&self, kind: u64, at: &[f64]) -> Request {
        let request = self.requests.borrow_mut().next().expect("a request more");
        let same = request.at.iter().map(|x| bits(*x)).eq(at.iter().map(|x| bits(*x)));
        assert!(
            request.kind == kind && same,
            "a call of kind {kind} at {at:?}; the Rust's is {} at {:?}",
            request.kind,
            request.at
        );
        request
    }

    fn solve(&self) -> Result<IntegrationResult, Error> {
        let (rtol, atol) = self.tolerances.clone();
        let (x0, xend) = self.ends;
        if self.of_the_system {
            self.settings.solve(&WithJacobian(self), x0, &self.y, xend, rtol, atol, Some(&mut Reports(self)))
        } else {
            self.settings.solve(self, x0, &self.y, xend, rtol, atol, Some(&mut Reports(self)))
        }
    }
}

impl FirstOrderSystem for Run {
    fn derivative(&self, x: f64, y: &[f64], dydx: &mut [f64]) {
        assert_eq!(y.len(), self.y.len());
        dydx.copy_from_slice(&self.next(DERIVATIVE, &[x]).told);
    }

    fn mass(&self, m: &mut Matrix) {
        for (place, entry) in self.mass.iter().enumerate() {
            m[(place / self.y.len(), place % self.y.len())] = *entry;
        }
    }
}

struct WithJacobian<'a>(&'a Run);

impl FirstOrderSystem for WithJacobian<'_> {
    fn derivative(&self, x: f64, y: &[f64], dydx: &mut [f64]) {
        self.0.derivative(x, y, dydx);
    }

    fn jac(&self, x: f64, y: &[f64], j: &mut Matrix) {
        let entries = self.0.next(JACOBIAN, &[x]).told;
        *j = Matrix::from_vec(y.len(), y.len(), entries);
    }

    fn mass(&self, m: &mut Matrix) {
        self.0.mass(m);
    }
}

struct Reports<'a>(&'a Run);

impl SolOut for Reports<'_> {
    fn solout(
        &mut self,
        xold: f64,
        x: &mut f64,
        y: &mut [f64],
        interpolant: Option<&StepInterpolant<'_>>,
    ) -> ControlFlag {
        let Request { flag, reply, told, .. } = self.0.next(REPORT, &[xold, *x]);
        assert_eq!(interpolant.is_some(), flag == 1, "whether there is an interpolant");
        if let Some((from, h)) = interpolant.map(|step| step.step_params()) {
            assert_eq!(bits(from), bits(xold));
            // Of a slow attempt that was accepted all the same the Rust has shortened the step, and left its end.
            let is_short = h.abs() < 0.99 * (*x - xold).abs();
            assert!(is_short || bits(from + h) == bits(*x), "the step by {h} from {xold} to {x}");
            self.0.shortened.set(self.0.shortened.get() + usize::from(is_short));
        }
        match reply {
            CONTINUE => ControlFlag::Continue,
            INTERRUPT => ControlFlag::Interrupt,
            MARK => ControlFlag::XOut(told[0]),
            _ => {
                *x = told[0];
                y.copy_from_slice(&told[1..]);
                ControlFlag::ModifiedSolution
            }
        }
    }
}

/// How a run ended: its status, and h, x, the counts, the singular matrix and the strides as the file has them.
fn ended(answer: Result<IntegrationResult, Error>) -> (u64, Vec<u64>) {
    let (status, h, x, evals, steps, strides, singular) = match answer {
        Ok(run) => (0, run.h, run.x, run.evals, run.steps, run.strides, None),
        Err(Error::Interrupted(run)) => (1, run.h, run.x, run.evals, run.steps, run.strides, None),
        Err(Error::BrokenOff(run)) => {
            let (status, x, singular) = (run.status().number(), run.reached().x, run.singular());
            (status, run.h(), x, run.evals(), run.steps(), run.strides(), singular)
        }
        Err(other) => panic!("{other}"),
    };
    assert_eq!(singular.is_some(), status == 5);
    let (kind, column) = match singular {
        None | Some(Singular::Never) => (0, 0),
        Some(Singular::Real(column)) => (1, column),
        Some(Singular::Complex(column)) => (2, column),
    };
    let counts = [evals.ode, evals.jac, evals.lu, steps.total, steps.accepted, steps.rejected, kind, column];
    let words = [bits(h), bits(x)].into_iter().chain(counts.map(|count| count as u64));
    (status, words.chain([bits(strides.smallest), bits(strides.largest)]).collect())
}

#[test]
fn every_run_makes_the_rusts_calls_and_ends_as_it_did() {
    let text = file("crates/replay_run/stdin");
    let mut stored = Stored(text.split_whitespace().peekable());
    let (mut runs, mut statuses, mut shortened) = (0, [0; 6], 0);
    while stored.0.peek().is_some() {
        let run = stored.run();
        let (status, words) = ended(run.solve());
        let last = run.next(ENDED, &[]);
        let wanted: Vec<u64> = last.told.iter().map(|word| word.to_bits()).collect();
        assert_eq!((status, words), (last.flag, wanted), "run {runs}");
        runs += 1;
        statuses[status as usize] += 1;
        shortened += run.shortened.get();
    }
    assert_eq!(runs, 477);
    assert!(shortened > 0, "no step was shortened");
    assert!([0, 1, 2, 3, 5].iter().all(|status| statuses[*status] > 0), "{statuses:?}");
}
