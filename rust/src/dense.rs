//! Dense output: the amounts within a step.

use crate::c;

/// The step that a report tells of, at any point of it.
///
/// Under [`Rule::Rust`](crate::methods::Rule::Rust) an attempt may have been shortened after its end was fixed: then
/// [`bounds`](StepInterpolant::bounds) is not the way from the report's old x to the new. It is so in ivp.
#[derive(Clone, Copy, Debug)]
pub struct StepInterpolant<'a> {
    cont: &'a [f64],
    xold: f64,
    h: f64,
}

impl<'a> StepInterpolant<'a> {
    pub(crate) fn new(cont: &'a [f64], xold: f64, h: f64) -> StepInterpolant<'a> {
        StepInterpolant { cont, xold, h }
    }

    /// Writes the amounts at xi into `yi`, from its first entry on. xi should lie within
    /// [`bounds`](StepInterpolant::bounds); beyond them the polynomial is followed further.
    ///
    /// # Panics
    /// Where `yi` is shorter than y, as in ivp; nothing is written then.
    pub fn interpolate(&self, xi: f64, yi: &mut [f64]) {
        interpolate(xi, yi, self.cont, self.xold, self.h);
    }

    /// The ends of the step, the lower first.
    pub fn bounds(&self) -> (f64, f64) {
        c::bounds(self.xold, self.h)
    }

    /// The x that it begins at, and its length with its sign.
    pub fn step_params(&self) -> (f64, f64) {
        (self.xold, self.h)
    }

    /// What a shelf keeps of it.
    pub(crate) fn parts(&self) -> (&[f64], f64, f64) {
        (self.cont, self.xold, self.h)
    }

    /// The same step with its coefficients copied, to be kept.
    pub fn to_segment(&self) -> DenseSegment {
        DenseSegment { cont: self.cont.to_vec(), xold: self.xold, h: self.h }
    }
}

/// A step that was kept: [`StepInterpolant::to_segment`].
#[derive(Clone, Debug, PartialEq)]
pub struct DenseSegment {
    cont: Vec<f64>,
    xold: f64,
    h: f64,
}

impl DenseSegment {
    /// See [`StepInterpolant::interpolate`].
    pub fn interpolate(&self, xi: f64, yi: &mut [f64]) {
        self.as_interpolant().interpolate(xi, yi);
    }

    /// See [`StepInterpolant::bounds`].
    pub fn bounds(&self) -> (f64, f64) {
        self.as_interpolant().bounds()
    }

    /// The step as a report has it.
    pub fn as_interpolant(&self) -> StepInterpolant<'_> {
        StepInterpolant::new(&self.cont, self.xold, self.h)
    }
}

/// The amounts at xi from the coefficients of a step. A short target is refused by the solver with 19, and nothing is
/// written.
pub(crate) fn interpolate(xi: f64, yi: &mut [f64], cont: &[f64], xold: f64, h: f64) {
    if let Err(number) = c::interpolate(xi, yi, cont, xold, h) {
        panic!("refused ({number}): the target is shorter than a quarter of the coefficients");
    }
}
