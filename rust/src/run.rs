//! A run from its opening to its end: each request of the solver becomes a call of the system or of the `SolOut`, in
//! ivp's order.

use crate::c::{self, Opening};
use crate::dense::StepInterpolant;
use crate::error::{BrokenOff, Error, Interrupted, Reached, Refused, RefusedOpening};
use crate::matrix::{Matrix, MatrixStorage};
use crate::memory::Memory;
use crate::numbers::*;
use crate::outcome::{Evals, IntegrationResult, Steps, Strides};
use crate::settings::RADAU;
use crate::solout::{ControlFlag, SolOut};
use crate::status::{Singular, Status};
use crate::system::FirstOrderSystem;
use crate::tolerance::Tolerance;

// Where a run has its Jacobian from.
const OF_THE_SYSTEM: u64 = 0;
const BY_DIFFERENCES: u64 = 1;

impl RADAU {
    /// Solves a system from x0 and y0 to xend. A result is a run that succeeded, and nothing else is: how else it can
    /// end stands in [`Error`].
    ///
    /// The system and the `SolOut` are called in ivp's order and with its bits, but for `mass`, which is asked for
    /// before the run.
    ///
    /// # Panics
    /// Where the system or the `SolOut` does; where `jac` leaves the Jacobian to the solver after it has made one.
    #[allow(clippy::too_many_arguments)]
    pub fn solve<F, S>(
        &self,
        f: &F,
        x0: f64,
        y0: &[f64],
        xend: f64,
        rtol: Tolerance,
        atol: Tolerance,
        solout: Option<&mut S>,
    ) -> Result<IntegrationResult, Error>
    where
        F: FirstOrderSystem + ?Sized,
        S: SolOut + ?Sized,
    {
        let given = Given::new(self, f, (x0, xend), y0, (rtol, atol))?;
        let talk = given.opened(OF_THE_SYSTEM).map_err(Error::Refused)?;
        let jac = Matrix::zeros(y0.len(), y0.len());
        let solving =
            Solving { given: &given, f, solout, talk, jac, made_jac: false, first_reply: (REPLY_CONTINUE, 0.0) };
        solving.ended()?.result(&given)
    }
}

/// All that a run is opened with, so that it can be opened a second time.
pub(crate) struct Given {
    pub opening: Opening,
    pub memory: Memory,
}

impl Given {
    fn new<F: FirstOrderSystem + ?Sized>(
        settings: &RADAU,
        f: &F,
        (x0, xend): (f64, f64),
        y0: &[f64],
        tolerances: (Tolerance, Tolerance),
    ) -> Result<Given, Error> {
        let n = y0.len();
        let (mut numbers, floats) = settings.words();
        let mut memory = Memory::of(y0);
        if n <= MOST {
            let mut mass = Matrix::of_storage(n, settings.mass_storage);
            f.mass(&mut mass);
            numbers[NUMBER_MASS] = u64::from(mass.storage() == MatrixStorage::Full);
            mass.write_to(n, &mut memory.mass);
        }
        let (lists, rtol, atol) = match tolerances {
            (Tolerance::Scalar(rtol), Tolerance::Scalar(atol)) => (0, rtol, atol),
            (Tolerance::Vector(rtol), Tolerance::Vector(atol)) => {
                (memory.rtol, memory.atol) = (rtol, atol);
                (1, 0.0, 0.0)
            }
            _ => return Err(Error::MixedTolerances),
        };
        let opening = Opening { numbers, floats, n, x0, xend, lists, rtol, atol };
        Ok(Given { opening, memory })
    }

    fn has_zero_mass(&self) -> bool {
        self.opening.numbers[NUMBER_MASS] != 0 && self.memory.mass.iter().all(|entry| *entry == 0.0)
    }

    fn opened(&self, source: u64) -> Result<Talk, RefusedOpening> {
        let (mut opening, mut memory) = (self.opening.clone(), self.memory.clone());
        opening.numbers[NUMBER_SOURCE] = source;
        match c::open(&opening, &mut memory) {
            Ok(run) => Ok(Talk { run, memory }),
            Err(number) => {
                let refused = Refused::of(number).expect("an opening refuses with 1 to 12");
                Err(RefusedOpening { refused, found: self.found(refused) })
            }
        }
    }
}

/// A run with its memory.
struct Talk {
    run: c::Run,
    memory: Memory,
}

impl Talk {
    /// That no advance is refused before the end is a theorem for hosts that reply as they are asked, as this one does.
    fn advance(&mut self, reply: u64, value: f64) {
        let answer = c::advance(&mut self.run, reply, value, &mut self.memory);
        answer.expect("the solver takes every reply of the kind that it asked for");
    }

    fn result(self, given: &Given) -> Result<IntegrationResult, Error> {
        let (numbers, floats) = c::result(&self.run).expect("a run that has ended has a result");
        let count = |at: usize| numbers[at] as usize;
        let evals = Evals { ode: count(RESULT_ODE), jac: count(RESULT_JAC), lu: count(RESULT_LU) };
        let steps =
            Steps { total: count(RESULT_TOTAL), accepted: count(RESULT_ACCEPTED), rejected: count(RESULT_REJECTED) };
        let strides = Strides { smallest: floats[RESULT_SMALLEST], largest: floats[RESULT_LARGEST] };
        let (x, y, h, xend) = (floats[RESULT_X], self.memory.y, floats[RESULT_H], given.opening.xend);
        match numbers[RESULT_STATUS] {
            STATUS_SUCCESS => Ok(IntegrationResult { x, y, h, evals, steps, strides }),
            STATUS_USER_INTERRUPT => Err(Error::Interrupted(Interrupted { x, y, xend, h, evals, steps, strides })),
            status => Err(Error::BrokenOff(BrokenOff {
                status: Status::of(status).expect("a status is 0, 1, 2, 3 or 5"),
                singular: singular_of(&numbers),
                reached: Box::new(Reached { x, y }),
                xend,
                h,
                evals,
                steps,
                strides,
                has_zero_mass: given.has_zero_mass(),
            })),
        }
    }
}

/// What a result blames, which only a status 5 tells.
fn singular_of(numbers: &[u64; RESULT_NUMBERS]) -> Option<Singular> {
    if numbers[RESULT_STATUS] != STATUS_SINGULAR_MATRIX {
        return None;
    }
    let told = Singular::of(numbers[RESULT_SINGULAR], numbers[RESULT_COLUMN] as usize);
    Some(told.expect("a singular matrix is none, real or complex"))
}

/// A run with those who answer it.
struct Solving<'a, F: ?Sized, S: ?Sized> {
    given: &'a Given,
    f: &'a F,
    solout: Option<&'a mut S>,
    talk: Talk,
    jac: Matrix,
    made_jac: bool,
    first_reply: (u64, f64),
}

impl<F: FirstOrderSystem + ?Sized, S: SolOut + ?Sized> Solving<'_, F, S> {
    fn ended(mut self) -> Result<Talk, Error> {
        let (mut reply, mut value) = self.report_after_derivative()?;
        self.first_reply = (reply, value);
        loop {
            self.talk.advance(reply, value);
            (reply, value) = match self.talk.run.told[TOLD_KIND] {
                KIND_DERIVATIVE => self.derivative(),
                KIND_JACOBIAN => self.jacobian(),
                KIND_REPORT => self.report(true)?,
                KIND_ENDED => return Ok(self.talk),
                kind => unreachable!("there is no request of kind {kind}"),
            };
        }
    }

    /// The first two requests: the derivative at the start, and the report of it.
    fn report_after_derivative(&mut self) -> Result<(u64, f64), Error> {
        let (reply, value) = self.derivative();
        self.talk.advance(reply, value);
        self.report(false)
    }

    fn derivative(&mut self) -> (u64, f64) {
        let Talk { run, memory } = &mut self.talk;
        let (y, dydx) = memory.asked(run.told[TOLD_PLACE]);
        self.f.derivative(run.at[0], y, dydx);
        (REPLY_FILLED, 0.0)
    }

    fn jacobian(&mut self) -> (u64, f64) {
        let Talk { run, memory } = &mut self.talk;
        self.f.jac(run.at[0], &memory.y, &mut self.jac);
        if self.jac.is_left_to_solver() {
            assert!(!self.made_jac, "`jac` left the Jacobian to the solver after it had made one");
            self.begin_by_differences();
            return self.derivative();
        }
        self.made_jac = true;
        self.jac.write_to(memory.y.len(), &mut memory.jac);
        (REPLY_FILLED, 0.0)
    }

    /// Whether a system leaves its Jacobian to the solver shows when it is first asked for one; and a run is opened
    /// with that. So here it is opened anew and is told what it was told before, which ends at the same point.
    fn begin_by_differences(&mut self) {
        let opened = self.given.opened(BY_DIFFERENCES);
        let mut other = opened.expect("what was accepted is accepted");
        let Memory { y, f0, .. } = &self.talk.memory;
        let (reply, value) = self.first_reply;
        other.memory.f0.copy_from_slice(f0);
        other.advance(REPLY_FILLED, 0.0);
        other.memory.y.copy_from_slice(y);
        other.advance(reply, value);
        if reply == REPLY_MODIFIED {
            other.advance(REPLY_FILLED, 0.0);
        }
        self.talk = other;
    }

    fn report(&mut self, has_step: bool) -> Result<(u64, f64), Error> {
        let Talk { run, memory } = &mut self.talk;
        let Some(solout) = self.solout.as_deref_mut() else {
            return Ok((REPLY_CONTINUE, 0.0));
        };
        let ([xold, here], mut y) = (run.at, memory.y.clone());
        let mut x = here;
        let step = StepInterpolant::new(&memory.cont, xold, c::held_step(run));
        let offered = (run.told[TOLD_FLAG] != 0).then_some(&step);
        solout.held(has_step.then_some(&step));
        let flag = solout.solout(xold, &mut x, &mut y, offered);
        let kept =
            x.to_bits() == here.to_bits() && y.iter().zip(&memory.y).all(|(new, old)| new.to_bits() == old.to_bits());
        match flag {
            ControlFlag::ModifiedSolution => {
                memory.y.copy_from_slice(&y);
                Ok((REPLY_MODIFIED, x))
            }
            ControlFlag::Interrupt => Ok((REPLY_INTERRUPT, 0.0)),
            _ if !kept => Err(Error::Altered { x: here }),
            ControlFlag::Continue => Ok((REPLY_CONTINUE, 0.0)),
            ControlFlag::XOut(mark) => Ok((REPLY_MARK, mark)),
        }
    }
}
