// The Rust's `solve` of a model, with its defaults, as document 01's program asks for it.
use super::model::Model;
use crate::dense::StepInterpolant;
use crate::ivp::FirstOrderSystem;
use crate::matrix::MatrixStorage;
use crate::methods::Tolerance;
use crate::solout::{ControlFlag, SolOut};
use crate::status::Status;

impl FirstOrderSystem for Model {
    fn derivative(&self, _: f64, y: &[f64], dydx: &mut [f64]) {
        Model::derivative(self, y, dydx);
    }
}

// `solve` keeps x and the amounts to itself, so a report has to hand them on.
struct Reached {
    x: f64,
    y: Vec<f64>,
}

impl SolOut for Reached {
    fn solout(&mut self, _: f64, x: &mut f64, y: &mut [f64], _: Option<&StepInterpolant<'_>>) -> ControlFlag {
        self.x = *x;
        self.y.copy_from_slice(y);
        ControlFlag::Continue
    }
}

pub struct End {
    pub status: usize,
    counts: [usize; 6],
    pub x: f64,
    pub y: Vec<f64>,
}

fn pattern(x: f64) -> u64 {
    if x.is_nan() {
        0x7ff8_0000_0000_0000
    } else {
        x.to_bits()
    }
}

impl End {
    pub fn first_line(&self) -> String {
        let [accepted, rejected, total, ode, jac, lu] = self.counts;
        let status = self.status;
        format!("status {status} accepted {accepted} rejected {rejected} total {total} ode {ode} jac {jac} lu {lu}")
    }

    // As `decay` prints it, but for the last line: the Rust tells no strides.
    pub fn printed(&self) -> String {
        let amounts: Vec<String> = self.y.iter().map(|&amount| format!("{:016x}", pattern(amount))).collect();
        format!("{}\nx {:016x}\ny {}\n", self.first_line(), pattern(self.x), amounts.join(" "))
    }
}

fn number_of(status: Status) -> usize {
    match status {
        Status::Success => 0,
        Status::UserInterrupt => 1,
        Status::NeedLargerNMax => 2,
        Status::StepSizeTooSmall => 3,
        Status::SingularMatrix => 5,
        _ => unreachable!("solve gives no other"),
    }
}

// The `solve` of a module: radau_libm has the Rust's text, radau_ours has its powers directed to document 01's.
macro_rules! solver {
    ($name:ident, $module:ident) => {
        pub fn $name(model: &Model) -> End {
            let solver = crate::$module::RADAU { mass_storage: MatrixStorage::Identity, max_steps: model.max_steps,
                ..Default::default() };
            let mut reached = Reached { x: model.x0, y: model.amounts.clone() };
            let (rtol, atol) = (Tolerance::Scalar(model.rtol), Tolerance::Scalar(model.atol));
            let result = solver
                .solve(model, model.x0, &model.amounts, model.xend, rtol, atol, Some(&mut reached))
                .expect("a sheet that is permitted");
            let (steps, evals) = (result.steps, result.evals);
            End {
                status: number_of(result.status),
                counts: [steps.accepted, steps.rejected, steps.total, evals.ode, evals.jac, evals.lu],
                x: reached.x,
                y: reached.y,
            }
        }
    };
}

solver!(solved, radau_libm);
solver!(solved_with_our_powers, radau_ours);
