//! Up to 48 recent steps of a run, kept for questions about past points.

use crate::c;
use crate::dense::StepInterpolant;
use crate::numbers::{REFUSED_POINT, SHELF, SHELF_ENDS, SHELF_STEPS};
use crate::solout::{ControlFlag, SolOut};

/// A shelf of recent steps: as the `SolOut` of a run it keeps each step that was accepted, up to 48, `dense_output` on
/// or off; where all are taken the oldest gives up its room.
///
/// ```
/// use elchepur::prelude::*;
///
/// struct Decay;
/// impl FirstOrderSystem for Decay {
///     fn derivative(&self, _x: f64, y: &[f64], dydx: &mut [f64]) {
///         dydx[0] = -y[0] / 365.0;
///     }
/// }
///
/// let mut shelf = Shelf::new();
/// let solver = RADAU::builder().mass_storage(MatrixStorage::Identity).build();
/// solver.solve(&Decay, 0.0, &[10.0], 730.0, 1e-6.into(), 1e-9.into(), Some(&mut shelf))?;
/// for day in [14.0, 90.0, 365.0] {
///     let amounts = shelf.at(day).expect("a kept step holds it");
///     assert!((amounts[0] - 10.0 * (-day / 365.0_f64).exp()).abs() < 1e-3);
/// }
/// assert_eq!(shelf.at(731.0), None);
/// assert_eq!(shelf.at(f64::NAN), None);
/// # Ok::<(), Error>(())
/// ```
#[derive(Clone, Debug)]
pub struct Shelf {
    state: [usize; SHELF],
    coefficients: Vec<f64>,
    ends: [f64; SHELF_ENDS],
}

impl Shelf {
    /// A shelf without steps.
    pub fn new() -> Shelf {
        let mut shelf = Shelf { state: [0; SHELF], coefficients: Vec::new(), ends: [0.0; SHELF_ENDS] };
        shelf.empty();
        shelf
    }

    /// How many steps are kept.
    pub fn len(&self) -> usize {
        self.state[0]
    }

    /// Whether none is.
    pub fn is_empty(&self) -> bool {
        self.len() == 0
    }

    /// Forgets all steps, as a modified point asks; [`Shelved`] does so by itself.
    pub fn empty(&mut self) {
        c::empty_shelf(&mut self.state);
    }

    /// Keeps a step.
    ///
    /// # Panics
    /// Where the step has another number of amounts than those that are kept.
    pub fn put(&mut self, step: &StepInterpolant<'_>) {
        if self.is_empty() {
            self.coefficients.resize(SHELF_STEPS * step.parts().0.len(), 0.0);
        }
        if let Err(number) = c::put_on_shelf(&mut self.state, step.parts(), &mut self.coefficients, &mut self.ends) {
            panic!("refused ({number}): the step has other amounts than the shelf");
        }
    }

    /// The amounts at x, from the newest kept step whose bounds hold x, ends included; none where no kept step does.
    pub fn at(&self, x: f64) -> Option<Vec<f64>> {
        let mut amounts = vec![0.0; self.coefficients.len() / (4 * SHELF_STEPS)];
        match c::ask_shelf(&self.state, x, &mut amounts, &self.coefficients, &self.ends) {
            Ok(()) => Some(amounts),
            Err(REFUSED_POINT) => None,
            Err(number) => unreachable!("refused ({number}): the shelf has its room"),
        }
    }
}

impl Default for Shelf {
    fn default() -> Shelf {
        Shelf::new()
    }
}

impl SolOut for Shelf {
    fn solout(
        &mut self,
        _xold: f64,
        _x: &mut f64,
        _y: &mut [f64],
        _interpolant: Option<&StepInterpolant<'_>>,
    ) -> ControlFlag {
        ControlFlag::Continue
    }

    fn held(&mut self, step: Option<&StepInterpolant<'_>>) {
        match step {
            Some(step) => self.put(step),
            None => self.empty(),
        }
    }
}

/// A `SolOut` with a shelf beside it: a step is kept before the other is told of it, and where that one modifies the
/// point the shelf is emptied.
#[derive(Clone, Debug, Default)]
pub struct Shelved<S> {
    /// The steps that are kept.
    pub shelf: Shelf,
    /// The one that answers the reports.
    pub other: S,
}

impl<S: SolOut> SolOut for Shelved<S> {
    fn solout(
        &mut self,
        xold: f64,
        x: &mut f64,
        y: &mut [f64],
        interpolant: Option<&StepInterpolant<'_>>,
    ) -> ControlFlag {
        let flag = self.other.solout(xold, x, y, interpolant);
        if flag == ControlFlag::ModifiedSolution {
            self.shelf.empty();
        }
        flag
    }

    fn held(&mut self, step: Option<&StepInterpolant<'_>>) {
        self.shelf.held(step);
        self.other.held(step);
    }
}
