// The two types of the Rust's file solout.rs that `solve` names. That file is not among those at hand.
use crate::dense::StepInterpolant;

pub enum ControlFlag {
    Continue,
    Interrupt,
    ModifiedSolution,
    XOut(f64),
}

pub trait SolOut {
    fn solout(
        &mut self,
        xold: f64,
        x: &mut f64,
        y: &mut [f64],
        interpolant: Option<&StepInterpolant<'_>>,
    ) -> ControlFlag;
}
