// The operations on doubles that a run needs, counted as it goes. bench/README.md has the formulas.
//
// A decomposition passes over a column where the pivot row has a zero. What it took is read off the decomposed
// matrices, which stand in lent memory: the entries above the diagonal are the multipliers of the updates.
use super::models::Model;
use super::ours::Run;
use super::outcome::Way;
use super::points::Points;

// How often each part of a run came, and what the decompositions took together.
#[derive(Default)]
pub struct Flops {
    pub decompositions: u64,
    pub of_decompositions: u64,
    pub rounds: u64,
    pub attempts: u64,
    pub acceptances: u64,
    pub derivatives: u64,
}

// Of the updates of one decomposed matrix: `cost` is that of an entry whose multiplier stands at this place.
fn updates(n: usize, cost: impl Fn(usize) -> u64) -> u64 {
    let row = |k: usize| (k + 1..n).map(|j| cost(k * n + j)).sum::<u64>() * (n - 1 - k) as u64;
    (0..n).map(row).sum()
}

fn of_real(n: usize, e1: &[f64]) -> u64 {
    let columns: u64 = (1..n as u64).map(|below| 1 + below).sum();
    columns + updates(n, |place| if e1[place] == 0.0 { 0 } else { 2 })
}

fn of_complex(n: usize, e2r: &[f64], e2i: &[f64]) -> u64 {
    let columns: u64 = (1..n as u64).map(|below| 5 + 6 * below).sum();
    columns
        + updates(n, |place| match (e2r[place] == 0.0, e2i[place] == 0.0) {
            (true, true) => 0,
            (false, false) => 8,
            _ => 4,
        })
}

// E1 and the real part of E2 are the Jacobian's entries negated, with a sum on the diagonal; and three divisions by h.
fn of_making(n: u64) -> u64 {
    2 * n + 3
}

pub fn of_round(n: u64) -> u64 {
    let (real, complex) = (2 * n * n - n, 8 * n * n + 3 * n);
    let (stages, products, right_sides, norm, update) = (3 * n, 15 * n, 10 * n, 9 * n, 15 * n);
    real + complex + stages + products + right_sides + norm + update
}

pub fn of_attempt(n: u64) -> u64 {
    let (starts, products, estimate, solve, error) = (15 * n, 15 * n, 6 * n, 2 * n * n - n, 3 * n);
    starts + products + estimate + solve + error
}

pub fn of_acceptance(n: u64) -> u64 {
    13 * n
}

pub fn counted<M: Model>(way: Way) -> Flops {
    let n = M::N as u64;
    let mut points = Points::new(M::N, way);
    let mut run = Run::open::<M>(way);
    let mut flops = Flops::default();
    let mut decomposed = Vec::new();
    loop {
        let first_stage = run.told[0] == 1 && run.told[1] == 2;
        if first_stage {
            flops.rounds += 1;
            if decomposed != run.e1 {
                decomposed.clone_from(&run.e1);
                flops.decompositions += 1;
                flops.of_decompositions += of_making(n) + of_real(M::N, &run.e1) + of_complex(M::N, &run.e2r, &run.e2i);
            }
        }
        if !run.answer::<M>(&mut points) {
            break;
        }
    }
    let outcome = run.outcome(&points);
    Flops { attempts: outcome.total, acceptances: outcome.accepted, derivatives: outcome.ode, ..flops }
}
