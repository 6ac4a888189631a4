//! How a run can end other than well, and what a system and a `SolOut` see of it.

use elchepur::prelude::*;
use std::cell::{Cell, RefCell};

/// y' = -y, which notes what is asked of it.
#[derive(Default)]
struct Decay(RefCell<Vec<String>>);

impl Decay {
    fn note(&self, call: &str, x: f64) {
        self.0.borrow_mut().push(format!("{call} {x}"));
    }
}

impl FirstOrderSystem for Decay {
    fn derivative(&self, x: f64, y: &[f64], dydx: &mut [f64]) {
        self.note("derivative", x);
        dydx[0] = -y[0];
    }
}

/// The same with a Jacobian of its own.
struct Own(Decay);

impl FirstOrderSystem for Own {
    fn derivative(&self, x: f64, y: &[f64], dydx: &mut [f64]) {
        self.0.derivative(x, y, dydx);
    }

    fn jac(&self, x: f64, _y: &[f64], j: &mut Matrix) {
        self.0.note("jac", x);
        j[(0, 0)] = -1.0;
    }
}

/// Answers each report by a function of how many there were, x and y.
struct Answering<A>(usize, A);

impl<A: FnMut(usize, &mut f64, &mut [f64]) -> ControlFlag> SolOut for Answering<A> {
    fn solout(&mut self, _xold: f64, x: &mut f64, y: &mut [f64], _step: Option<&StepInterpolant<'_>>) -> ControlFlag {
        self.0 += 1;
        (self.1)(self.0 - 1, x, y)
    }
}

fn solver() -> RADAU {
    RADAU::builder().mass_storage(MatrixStorage::Identity).build()
}

fn solve<A: FnMut(usize, &mut f64, &mut [f64]) -> ControlFlag>(
    solver: &RADAU,
    answer: A,
) -> Result<IntegrationResult, Error> {
    solver.solve(&Decay::default(), 0.0, &[1.0], 1.0, 1e-6.into(), 1e-6.into(), Some(&mut Answering(0, answer)))
}

#[test]
fn an_interrupt_is_its_own_case() {
    let answer =
        solve(&solver(), |count, _, _| if count == 3 { ControlFlag::Interrupt } else { ControlFlag::Continue });
    let Err(Error::Interrupted(run)) = answer else { panic!("{answer:?}") };
    assert_eq!(run.steps.accepted, 3);
    assert!(run.x > 0.0 && run.x < 1.0 && run.y[0] < 1.0);
    assert_eq!(run.to_string(), format!("interrupted at x = {}, on the way to 1", run.x));
}

#[test]
fn too_few_steps_break_a_run_off() {
    let few = RADAU { max_steps: 2, ..solver() };
    let answer = solve(&few, |_, _, _| ControlFlag::Continue);
    let Err(Error::BrokenOff(run)) = answer else { panic!("{answer:?}") };
    assert_eq!((run.status(), run.steps().accepted, run.steps().total), (Status::NeedLargerNMax, 2, 3));
    assert_eq!(run.singular(), None);
    assert_eq!(
        run.to_string(),
        format!(
            "broken off at x = {}, on the way to 1: max_steps is used up (status 2, NeedLargerNMax), \
             with 2 steps accepted and 0 rejected",
            run.reached().x
        )
    );
}

#[test]
fn a_step_too_small_breaks_a_run_off() {
    let answer = solver().solve(&Decay::default(), 1.0, &[1.0], 1.0, 1e-6.into(), 1e-6.into(), None::<&mut NoSolOut>);
    let Err(Error::BrokenOff(run)) = answer else { panic!("{answer:?}") };
    assert_eq!((run.status(), run.reached().x, &run.reached().y[..]), (Status::StepSizeTooSmall, 1.0, &[1.0][..]));
}

#[test]
fn a_full_mass_that_nobody_fills_is_zero_as_in_the_rust() {
    struct Constant;
    impl FirstOrderSystem for Constant {
        fn derivative(&self, _x: f64, _y: &[f64], dydx: &mut [f64]) {
            dydx[0] = 0.0;
        }
    }
    let answer = RADAU::default().solve(&Constant, 0.0, &[1.0], 1.0, 1e-6.into(), 1e-6.into(), None::<&mut NoSolOut>);
    let Err(Error::BrokenOff(run)) = answer else { panic!("{answer:?}") };
    let (evals, steps) = (run.evals(), run.steps());
    // Document 01 has these counts.
    assert_eq!((run.status(), steps.total, evals.ode, evals.jac, evals.lu), (Status::SingularMatrix, 0, 1, 6, 6));
    assert_eq!(run.singular(), Some(Singular::Real(0)));
    let hint = " rejected; species 1: the real matrix had no pivot in column 0; the mass is all zeros: \
                for y' = f(x, y) choose MatrixStorage::Identity";
    assert!(run.to_string().ends_with(hint), "{run}");
}

#[test]
fn where_the_mass_is_not_to_blame_no_hint_is_given() {
    // A derivative with which Newton's iteration can't converge, and a mass that is not zero.
    struct Wild(Cell<f64>);
    impl FirstOrderSystem for Wild {
        fn derivative(&self, _x: f64, _y: &[f64], dydx: &mut [f64]) {
            self.0.set(-3.0 * self.0.get());
            dydx[0] = self.0.get();
        }

        fn mass(&self, m: &mut Matrix) {
            if m.storage() == MatrixStorage::Full {
                m[(0, 0)] = 1.0;
            }
        }
    }
    for storage in [MatrixStorage::Identity, MatrixStorage::Full] {
        let (solver, wild) = (RADAU { mass_storage: storage, ..RADAU::default() }, Wild(Cell::new(1e9)));
        let answer = solver.solve(&wild, 0.0, &[1.0], 1.0, 1e-6.into(), 1e-6.into(), None::<&mut NoSolOut>);
        let Err(Error::BrokenOff(run)) = answer else { panic!("{answer:?}") };
        assert_eq!((run.status(), run.singular()), (Status::SingularMatrix, Some(Singular::Never)));
        assert!(run.to_string().ends_with(" rejected; no matrix was singular"), "{run}");
    }
}

#[test]
fn what_is_altered_without_a_word_is_told() {
    for flag in [ControlFlag::Continue, ControlFlag::XOut(0.5)] {
        let moved = solve(&solver(), |count, x, _| {
            *x += if count == 2 { 0.1 } else { 0.0 };
            flag
        });
        assert!(matches!(moved, Err(Error::Altered { x }) if x > 0.0), "{moved:?}");
        let written = solve(&solver(), |_, _, y| {
            y[0] = -y[0];
            flag
        });
        assert_eq!(written, Err(Error::Altered { x: 0.0 }));
    }
    // An interrupt takes nothing of it: the run ends with the point that it had.
    let stopped = solve(&solver(), |_, x, _| {
        *x = 7.0;
        ControlFlag::Interrupt
    });
    assert!(matches!(&stopped, Err(Error::Interrupted(run)) if run.x == 0.0), "{stopped:?}");
}

#[test]
fn a_modified_start_is_solved_from() {
    let answer = solve(&solver(), |count, x, y| {
        if count > 0 {
            return ControlFlag::Continue;
        }
        (*x, y[0]) = (0.5, 2.0);
        ControlFlag::ModifiedSolution
    });
    let run = answer.expect("a result");
    assert!((run.y[0] - 2.0 * (-0.5f64).exp()).abs() < 1e-4);
}

#[test]
fn a_system_is_called_in_the_rusts_order() {
    let plain = Decay::default();
    let run =
        solver().solve(&plain, 0.0, &[1.0], 1.0, 1e-6.into(), 1e-6.into(), None::<&mut NoSolOut>).expect("a result");
    let calls = plain.0.into_inner();
    // The derivative at the start, then the Jacobian's two, then the stages.
    assert_eq!(calls[..3], ["derivative 0", "derivative 0", "derivative 0"]);
    assert_eq!(calls.len(), run.evals.ode + 2 * run.evals.jac);
    let own = Own(Decay::default());
    let run =
        solver().solve(&own, 0.0, &[1.0], 1.0, 1e-6.into(), 1e-6.into(), None::<&mut NoSolOut>).expect("a result");
    let calls = own.0 .0.into_inner();
    assert_eq!(calls[..2], ["derivative 0", "jac 0"]);
    assert_eq!(calls.len(), run.evals.ode + run.evals.jac);
}

#[test]
#[should_panic(expected = "left the Jacobian to the solver after it had made one")]
fn a_system_may_not_leave_its_jacobian_half_way() {
    struct Sometimes(Decay);
    impl FirstOrderSystem for Sometimes {
        fn derivative(&self, x: f64, y: &[f64], dydx: &mut [f64]) {
            self.0.derivative(x, y, dydx);
        }

        fn jac(&self, x: f64, y: &[f64], j: &mut Matrix) {
            if x > 0.0 {
                self.0.jac(x, y, j);
            }
        }
    }
    let _ =
        solver().solve(&Sometimes(Decay::default()), 0.0, &[1.0], 1.0, 1e-6.into(), 1e-6.into(), None::<&mut NoSolOut>);
}
