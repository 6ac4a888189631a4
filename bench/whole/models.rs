// The systems that are run: derivatives and Jacobians by + - * / alone, the same functions for every
// contestant. A Jacobian is written into n n entries, row by row or, for the Fortran, column by column: `at`
// says where row and column meet.

pub trait Model {
    const NAME: &'static str;
    const N: usize;
    const XEND: f64;
    // On doubles, of a derivative.
    const OPERATIONS: u64;
    fn start() -> Vec<f64>;
    fn derivative(y: &[f64], out: &mut [f64]);
    fn jacobian(y: &[f64], j: &mut [f64], at: impl Fn(usize, usize) -> usize);
}

// Exponential decay.
pub struct Decay;

impl Model for Decay {
    const NAME: &'static str = "decay";
    const N: usize = 1;
    const XEND: f64 = 10.0;
    const OPERATIONS: u64 = 1;

    fn start() -> Vec<f64> {
        vec![1.0]
    }

    fn derivative(y: &[f64], out: &mut [f64]) {
        out[0] = -2.0 * y[0];
    }

    fn jacobian(_: &[f64], j: &mut [f64], at: impl Fn(usize, usize) -> usize) {
        j[at(0, 0)] = -2.0;
    }
}

// Robertson's three reactions.
pub struct Robertson;

impl Model for Robertson {
    const NAME: &'static str = "Robertson";
    const N: usize = 3;
    const XEND: f64 = 1e4;
    const OPERATIONS: u64 = 7;

    fn start() -> Vec<f64> {
        vec![1.0, 0.0, 0.0]
    }

    fn derivative(y: &[f64], out: &mut [f64]) {
        out[0] = -0.04 * y[0] + 1e4 * y[1] * y[2];
        out[2] = 3e7 * y[1] * y[1];
        out[1] = -out[0] - out[2];
    }

    fn jacobian(y: &[f64], j: &mut [f64], at: impl Fn(usize, usize) -> usize) {
        j[at(0, 0)] = -0.04;
        j[at(0, 1)] = 1e4 * y[2];
        j[at(0, 2)] = 1e4 * y[1];
        j[at(1, 0)] = 0.04;
        j[at(1, 1)] = -1e4 * y[2] - 6e7 * y[1];
        j[at(1, 2)] = -1e4 * y[1];
        j[at(2, 0)] = 0.0;
        j[at(2, 1)] = 6e7 * y[1];
        j[at(2, 2)] = 0.0;
    }
}

// Nitric oxide in a cylinder (cylinders/nitric_oxide.txt): free in the gas, free sites of the wall, held, lost.
pub struct NitricOxide;

impl Model for NitricOxide {
    const NAME: &'static str = "nitric_oxide";
    const N: usize = 4;
    const XEND: f64 = 730.0;
    const OPERATIONS: u64 = 9;

    fn start() -> Vec<f64> {
        vec![10.0, 0.25, 0.0, 0.0]
    }

    fn derivative(y: &[f64], out: &mut [f64]) {
        let (taken, left, lost) = (120.0 * y[0] * y[1], 300.0 * y[2], 0.002 * y[2]);
        out[0] = left - taken;
        out[1] = left - taken + lost;
        out[2] = taken - left - lost;
        out[3] = lost;
    }

    fn jacobian(y: &[f64], j: &mut [f64], at: impl Fn(usize, usize) -> usize) {
        j.fill(0.0);
        for (row, sign) in [(0, -1.0), (1, -1.0), (2, 1.0)] {
            j[at(row, 0)] = sign * 120.0 * y[1];
            j[at(row, 1)] = sign * 120.0 * y[0];
            j[at(row, 2)] = -sign * 300.0;
        }
        j[at(1, 2)] = 300.002;
        j[at(2, 2)] = -300.002;
        j[at(3, 2)] = 0.002;
    }
}

// High irradiance responses of plants: eight reactions of Schaefer's, of the test set of stiff problems.
pub struct Hires;

impl Model for Hires {
    const NAME: &'static str = "HIRES";
    const N: usize = 8;
    const XEND: f64 = 321.8122;
    const OPERATIONS: u64 = 36;

    fn start() -> Vec<f64> {
        vec![1.0, 0.0, 0.0, 0.0, 0.0, 0.0, 0.0, 0.0057]
    }

    fn derivative(y: &[f64], out: &mut [f64]) {
        let met = 280.0 * y[5] * y[7];
        out[0] = -1.71 * y[0] + 0.43 * y[1] + 8.32 * y[2] + 0.0007;
        out[1] = 1.71 * y[0] - 8.75 * y[1];
        out[2] = -10.03 * y[2] + 0.43 * y[3] + 0.035 * y[4];
        out[3] = 8.32 * y[1] + 1.71 * y[2] - 1.12 * y[3];
        out[4] = -1.745 * y[4] + 0.43 * y[5] + 0.43 * y[6];
        out[5] = -met + 0.69 * y[3] + 1.71 * y[4] - 0.43 * y[5] + 0.69 * y[6];
        out[6] = met - 1.81 * y[6];
        out[7] = -out[6];
    }

    fn jacobian(y: &[f64], j: &mut [f64], at: impl Fn(usize, usize) -> usize) {
        let constant = [
            (0, 0, -1.71), (0, 1, 0.43), (0, 2, 8.32), (1, 0, 1.71), (1, 1, -8.75), (2, 2, -10.03), (2, 3, 0.43),
                (2, 4, 0.035),
            (3, 1, 8.32), (3, 2, 1.71), (3, 3, -1.12), (4, 4, -1.745), (4, 5, 0.43), (4, 6, 0.43), (5, 3, 0.69),
                (5, 4, 1.71),
            (5, 6, 0.69), (6, 6, -1.81), (7, 6, 1.81),
        ];
        j.fill(0.0);
        for (row, column, value) in constant {
            j[at(row, column)] = value;
        }
        let (met_by, met_with) = (280.0 * y[7], 280.0 * y[5]);
        j[at(5, 5)] = -met_by - 0.43;
        j[at(5, 7)] = -met_with;
        j[at(6, 5)] = met_by;
        j[at(6, 7)] = met_with;
        j[at(7, 5)] = -met_by;
        j[at(7, 7)] = -met_with;
    }
}

// Rates from 1e4 down to about 1.
const fn rates<const N: usize>() -> [f64; N] {
    let factor = if N == 8 { 0.3 } else if N == 16 { 0.55 } else { 0.75 };
    let mut list = [1e4; N];
    let mut i = 1;
    while i < N {
        list[i] = list[i - 1] * factor;
        i += 1;
    }
    list
}

const MEETING: f64 = 50.0;

// What passes from species i to the next: it decays, and is drawn by what is there.
fn passing<const N: usize>(y: &[f64], i: usize) -> f64 {
    Chain::<N>::RATES[i] * y[i] + MEETING * y[i] * y[i + 1]
}

const SUPPLY: f64 = 1.0;

// The first species is supplied, the last one gathers.
fn chain<const N: usize>(y: &[f64], out: &mut [f64]) {
    let mut before = SUPPLY;
    for i in 0..N - 1 {
        let after = passing::<N>(y, i);
        out[i] = before - after;
        before = after;
    }
    out[N - 1] = before;
}

fn add_chain<const N: usize>(y: &[f64], j: &mut [f64], at: impl Fn(usize, usize) -> usize) {
    for i in 0..N - 1 {
        let (by, with) = (Chain::<N>::RATES[i] + MEETING * y[i + 1], MEETING * y[i]);
        j[at(i, i)] -= by;
        j[at(i, i + 1)] -= with;
        j[at(i + 1, i)] += by;
        j[at(i + 1, i + 1)] += with;
    }
}

// A chain of reactions: its Jacobian has three diagonals, and most of a decomposition is passed over.
pub struct Chain<const N: usize>;

impl<const N: usize> Chain<N> {
    const RATES: [f64; N] = rates::<N>();
}

impl<const N: usize> Model for Chain<N> {
    const NAME: &'static str = if N == 16 { "chain16" } else { "chain32" };
    const N: usize = N;
    const XEND: f64 = 1.0;
    const OPERATIONS: u64 = 5 * (N as u64 - 1);

    fn start() -> Vec<f64> {
        let mut y = vec![0.0; N];
        y[0] = 1.0;
        y
    }

    fn derivative(y: &[f64], out: &mut [f64]) {
        chain::<N>(y, out);
    }

    fn jacobian(y: &[f64], j: &mut [f64], at: impl Fn(usize, usize) -> usize) {
        j.fill(0.0);
        add_chain::<N>(y, j, at);
    }
}

const EXCHANGE: f64 = 0.5;

// The same chain, with every species drawn to the mean of all: its Jacobian is full.
pub struct Mixed<const N: usize>;

impl<const N: usize> Model for Mixed<N> {
    const NAME: &'static str = if N == 8 { "mixed8" } else if N == 16 { "mixed16" } else { "mixed32" };
    const N: usize = N;
    const XEND: f64 = Chain::<N>::XEND;
    const OPERATIONS: u64 = Chain::<N>::OPERATIONS + 4 * N as u64;

    fn start() -> Vec<f64> {
        Chain::<N>::start()
    }

    fn derivative(y: &[f64], out: &mut [f64]) {
        chain::<N>(y, out);
        let mean = y.iter().sum::<f64>() / N as f64;
        for i in 0..N {
            out[i] += EXCHANGE * (mean - y[i]);
        }
    }

    fn jacobian(y: &[f64], j: &mut [f64], at: impl Fn(usize, usize) -> usize) {
        j.fill(EXCHANGE / N as f64);
        (0..N).for_each(|i| j[at(i, i)] -= EXCHANGE);
        add_chain::<N>(y, j, at);
    }
}
