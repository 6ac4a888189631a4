// The Rust's `solve`, called with a host whose every reply is made by the comparison.
use super::called::with;
use super::host::Told;
use super::opening::{Opening, Tolerances};
use crate::dense::StepInterpolant;
use crate::error::{ConfigError, Error};
use crate::ivp::FirstOrderSystem;
use crate::matrix::{Matrix, MatrixStorage};
use crate::methods::{IntegrationResult, Tolerance};
use crate::solout::{ControlFlag, SolOut};

fn fill_mass(m: &mut Matrix) {
    if m.storage == MatrixStorage::Full {
        with(|side| m.data.copy_from_slice(&side.theirs.mass));
    }
}

// A host that leaves the Jacobian to the Rust's differences.
struct Plain;

impl FirstOrderSystem for Plain {
    fn derivative(&self, x: f64, y: &[f64], dydx: &mut [f64]) {
        with(|side| side.derivative(x, y, dydx));
    }

    fn mass(&self, m: &mut Matrix) {
        fill_mass(m);
    }
}

// A host that makes it.
struct Making;

impl FirstOrderSystem for Making {
    fn derivative(&self, x: f64, y: &[f64], dydx: &mut [f64]) {
        with(|side| side.derivative(x, y, dydx));
    }

    fn jac(&self, x: f64, y: &[f64], j: &mut Matrix) {
        with(|side| side.jacobian(x, y, &mut j.data));
    }

    fn mass(&self, m: &mut Matrix) {
        fill_mass(m);
    }
}

struct Reports;

impl SolOut for Reports {
    fn solout(&mut self, xold: f64, x: &mut f64, y: &mut [f64],
        interpolant: Option<&StepInterpolant<'_>>) -> ControlFlag {
        match with(|side| side.report(xold, x, y, interpolant)) {
            Told::Continue => ControlFlag::Continue,
            Told::Interrupt => ControlFlag::Interrupt,
            Told::Modified(_) => ControlFlag::ModifiedSolution,
            Told::Mark(mark) => ControlFlag::XOut(mark),
        }
    }
}

// The `solve` of a module: radau_rust has the Rust's text, radau_book has it with the book rule's changes.
macro_rules! solved {
    ($module:ident, $opening:expr) => {{
        let (o, s) = ($opening, &$opening.settings);
        let solver = crate::$module::RADAU {
            max_steps: s.max_steps,
            uround: s.uround,
            safety_factor: s.safety_factor,
            scale_min: s.scale_min,
            scale_max: s.scale_max,
            max_step: s.max_step,
            min_step: s.min_step,
            newton_maxiter: s.newton_maxiter,
            newton_tol: s.newton_tol,
            predictive: s.predictive,
            nind1: s.nind1,
            nind2: s.nind2,
            nind3: s.nind3,
            jac_storage: MatrixStorage::Full,
            mass_storage: if o.mass.is_some() { MatrixStorage::Full } else { MatrixStorage::Identity },
            first_step: s.first_step,
            dense_output: s.dense_output,
        };
        let (rtol, atol) = match &o.tolerances {
            Tolerances::Scalars(rtol, atol) => (Tolerance::Scalar(*rtol), Tolerance::Scalar(*atol)),
            Tolerances::Lists(rtol, atol) => (Tolerance::Vector(rtol.clone()), Tolerance::Vector(atol.clone())),
        };
        if s.host_jacobian {
            solver.solve(&Making, o.x0, &o.y, o.xend, rtol, atol, Some(&mut Reports))
        } else {
            solver.solve(&Plain, o.x0, &o.y, o.xend, rtol, atol, Some(&mut Reports))
        }
    }};
}

pub fn solve(opening: &Opening) -> Result<IntegrationResult, Error> {
    if opening.settings.book {
        solved!(radau_book, opening)
    } else {
        solved!(radau_rust, opening)
    }
}

// Document 01's number of an error of the Rust's, or 0.
pub fn number_of(error: &Error) -> u64 {
    match error {
        Error::Config(ConfigError::MustBePositive { parameter: "max_steps", .. }) => 4,
        Error::Config(ConfigError::OutOfRange { parameter: "uround", .. }) => 5,
        Error::Config(ConfigError::OutOfRange { parameter: "safety_factor", .. }) => 6,
        Error::Config(ConfigError::InvalidScaleFactors { .. }) => 7,
        Error::Config(ConfigError::MustBePositive { parameter: "newton_maxiter", .. }) => 8,
        Error::Config(ConfigError::InvalidDAEPartition { .. }) => 10,
        Error::Config(ConfigError::InvalidStepSize { .. }) => 11,
        _ => 0,
    }
}
