// How a run is asked for, and how it ended, in whichever solver.

#[derive(Clone, Copy)]
pub struct Way {
    pub xend: f64,
    pub rtol: f64,
    pub atol: f64,
    // The tolerances are lists of n equal numbers, else scalars.
    pub lists: bool,
    pub uround: f64,
    pub host_jacobian: bool,
    pub dense: bool,
    pub book: bool,
}

#[derive(Default)]
pub struct Outcome {
    pub status: i64,
    pub accepted: u64,
    pub rejected: u64,
    pub total: u64,
    pub ode: u64,
    pub jac: u64,
    pub lu: u64,
    // Rounds of Newton's iteration, which the Fortran alone counts.
    pub rounds: u64,
    pub y: Vec<f64>,
    pub sum: f64,
}

impl Outcome {
    pub fn counts(&self) -> [u64; 6] {
        [self.accepted, self.rejected, self.total, self.ode, self.jac, self.lu]
    }

    pub fn bits(&self) -> Vec<u64> {
        self.y.iter().chain([&self.sum]).map(|x| x.to_bits()).collect()
    }
}
