//! Each refusal of an opening, by what a caller can give, and how it reads. Nothing is called of a system whose opening
//! is refused, but its mass.

use elchepur::prelude::*;

struct Untouched;

impl FirstOrderSystem for Untouched {
    fn derivative(&self, _x: f64, _y: &[f64], _dydx: &mut [f64]) {
        panic!("a refused opening asks for nothing");
    }
}

struct Mass(f64);

impl FirstOrderSystem for Mass {
    fn derivative(&self, _x: f64, _y: &[f64], _dydx: &mut [f64]) {
        panic!("a refused opening asks for nothing");
    }

    fn mass(&self, m: &mut Matrix) {
        m[(0, 0)] = self.0;
    }
}

/// What becomes of an opening with these settings, amounts and tolerances.
fn opened(solver: RADAU, y: &[f64], rtol: impl Into<Tolerance>, atol: impl Into<Tolerance>) -> Error {
    let answer = solver.solve(&Untouched, 0.0, y, 1.0, rtol.into(), atol.into(), None::<&mut NoSolOut>);
    answer.expect_err("a refusal")
}

fn with(solver: RADAU) -> Error {
    opened(solver, &[1.0, 2.0], 1e-6, 1e-6)
}

fn to(xend: f64) -> Error {
    let answer = RADAU::default().solve(&Untouched, 0.0, &[1.0], xend, 1e-6.into(), 1e-6.into(), None::<&mut NoSolOut>);
    answer.expect_err("a refusal")
}

#[test]
fn each_number_comes_when_it_should() {
    let default = RADAU::default;
    let set = RADAU::builder;
    let refused = [
        (Refused::Order, opened(default(), &[], 1e-6, 1e-6)),
        (Refused::Order, opened(default(), &[1.0; 33], 1e-6, 1e-6)),
        (Refused::Order, opened(default(), &vec![1.0; 100_000], 1e-6, 1e-6)),
        (Refused::Part, opened(default(), &[1.0, 2.0], [1e-6], [1e-6, 1e-6])),
        (Refused::Part, opened(default(), &[1.0, 2.0], [1e-6; 2], [1e-6; 3])),
        (Refused::NotFinite, to(f64::INFINITY)),
        (Refused::NotFinite, opened(default(), &[1.0, f64::NAN], 1e-6, 1e-6)),
        (Refused::NotFinite, opened(default(), &[1.0], f64::INFINITY, 1e-6)),
        (Refused::NotFinite, opened(default(), &[1.0], [1e-6], [f64::NAN])),
        (Refused::NotFinite, with(set().max_step(f64::INFINITY).build())),
        (Refused::MaxSteps, with(set().max_steps(0).build())),
        (Refused::MaxSteps, with(set().max_steps(1_000_001).build())),
        (Refused::Uround, with(set().uround(1.0).build())),
        (Refused::SafetyFactor, with(set().safety_factor(1e-4).build())),
        (Refused::Scales, with(set().scale_min(8.0).build())),
        (Refused::Scales, with(set().scale_max(0.1).build())),
        (Refused::NewtonMaxiter, with(set().newton_maxiter(0).build())),
        (Refused::NewtonMaxiter, with(set().newton_maxiter(17).build())),
        (Refused::Tolerance, opened(default(), &[1.0], 0.0, 1e-6)),
        (Refused::Tolerance, opened(default(), &[1.0, 2.0], [1e-6, 1e-6], [0.0, -1e-9])),
        (Refused::Partition, with(set().nind1(1).nind2(2).build())),
        (Refused::Partition, with(set().nind2(1).nind3(2).build())),
        (Refused::Partition, with(set().nind1(2).nind2(usize::MAX).nind3(1).build())),
        (Refused::FirstStep, with(set().first_step(0.0).build())),
        (Refused::StepLimits, with(set().max_step(-1.0).build())),
        (Refused::StepLimits, with(set().min_step(2.0).build())),
    ];
    for (wanted, error) in &refused {
        assert!(matches!(error, Error::Refused(refused) if refused.refused() == *wanted), "{wanted:?}: {error}");
    }
    for number in 1..=12 {
        assert!(refused.iter().any(|(wanted, _)| wanted.number() == number), "{number}");
    }
}

#[test]
fn a_mass_that_is_not_finite_is_refused() {
    let answer =
        RADAU::default().solve(&Mass(f64::NAN), 0.0, &[1.0], 1.0, 1e-6.into(), 1e-6.into(), None::<&mut NoSolOut>);
    let words = "refused (3): the mass at (0, 0) is NaN: every number that is given has to be finite";
    assert_eq!(answer.expect_err("a refusal").to_string(), words);
}

#[test]
fn tolerances_of_two_kinds_are_told() {
    assert_eq!(opened(RADAU::default(), &[1.0], 1e-6, [1e-6]), Error::MixedTolerances);
    assert_eq!(opened(RADAU::default(), &[1.0], [1e-6], 1e-6), Error::MixedTolerances);
}

#[test]
fn how_they_read() {
    let default = RADAU::default;
    let set = RADAU::builder;
    for (error, words) in [
        (opened(default(), &[1.0; 33], 1e-6, 1e-6), "refused (1): y has 33 amounts: 1 to 32 are possible"),
        (
            opened(default(), &[1.0, 2.0], [1e-6], [1e-6; 3]),
            "refused (2): rtol has the length 1 and y the length 2: a list of tolerances has one for each amount",
        ),
        (
            opened(default(), &[1.0, 2.0], [1e-6; 2], [1e-6; 3]),
            "refused (2): atol has the length 3 and y the length 2: a list of tolerances has one for each amount",
        ),
        (with(set().max_steps(0).build()), "refused (4): max_steps is 0: it has to be 1 to 1,000,000"),
        (with(set().uround(1.0).build()), "refused (5): uround is 1.0: it has to be above 1e-35 and below 1"),
        (
            with(set().safety_factor(1e-4).build()),
            "refused (6): safety_factor is 0.0001: it has to be above 1e-4 and below 1",
        ),
        (
            with(set().scale_max(0.1).build()),
            "refused (7): scale_min is 0.2 and scale_max 0.1: the first has to be above 0 and below the second",
        ),
        (with(set().newton_maxiter(17).build()), "refused (8): newton_maxiter is 17: it has to be 1 to 16"),
        (
            opened(default(), &[1.0, 2.0], [1e-6; 2], [0.0, -1e-9]),
            "refused (9): atol[1] is -1e-9: an rtol has to be above 0, and an atol can't be below it",
        ),
        (
            opened(default(), &[1.0], 0.0, -1.0),
            "refused (9): rtol is 0.0: an rtol has to be above 0, and an atol can't be below it",
        ),
        (
            with(set().nind1(1).nind3(2).build()),
            "refused (10): nind1 is 1, nind3 is 2, and y has 2 amounts: each amount has one index",
        ),
        (with(set().first_step(0.0).build()), "refused (11): first_step is 0: if it is left out it is 1e-6"),
        (with(set().max_step(-1.0).build()), "refused (12): max_step is -1.0: it can't be below 0"),
        (
            with(set().min_step(2.0).build()),
            "refused (12): min_step is 2.0: it can't be above the largest step, which is 1.0",
        ),
        (
            opened(default(), &[1.0], 1e-6, [1e-6]),
            "one tolerance is a number and the other a list: give both as numbers or both as lists",
        ),
    ] {
        assert_eq!(error.to_string(), words);
    }
}

/// Of several numbers that are not finite the first is told, in the order of the archive's tests.
#[test]
fn the_number_that_is_not_finite_is_named() {
    let (nan, inf) = (f64::NAN, f64::INFINITY);
    let bad = RADAU { scale_min: nan, newton_tol: Some(inf), first_step: Some(nan), ..RADAU::default() };
    let late = RADAU { max_step: Some(inf), min_step: Some(nan), ..RADAU::default() };
    let ends = |x0: f64, xend: f64| {
        let answer = bad.solve(&Untouched, x0, &[nan], xend, nan.into(), 1.0.into(), None::<&mut NoSolOut>);
        answer.expect_err("a refusal")
    };
    for (error, found) in [
        (ends(-inf, nan), "x0 is -inf"),
        (ends(0.0, nan), "xend is NaN"),
        (opened(bad.clone(), &[1.0, inf, nan], nan, nan), "y[1] is inf"),
        (opened(bad.clone(), &[1.0, 2.0], nan, inf), "rtol is NaN"),
        (opened(bad.clone(), &[1.0, 2.0], 1e-6, inf), "atol is inf"),
        (opened(bad.clone(), &[1.0, 2.0], [1e-6, inf], [nan, nan]), "rtol[1] is inf"),
        (opened(bad.clone(), &[1.0, 2.0], [1e-6; 2], [1e-6, nan]), "atol[1] is NaN"),
        (with(RADAU { uround: inf, safety_factor: nan, ..bad.clone() }), "uround is inf"),
        (with(RADAU { safety_factor: nan, ..bad.clone() }), "safety_factor is NaN"),
        (with(bad.clone()), "scale_min is NaN"),
        (with(RADAU { scale_max: inf, ..late.clone() }), "scale_max is inf"),
        (with(late.clone()), "max_step is inf"),
        (with(RADAU { max_step: None, ..late }), "min_step is NaN"),
        (with(RADAU { scale_min: 0.2, ..bad.clone() }), "newton_tol is inf"),
        (with(RADAU { scale_min: 0.2, newton_tol: None, ..bad.clone() }), "first_step is NaN"),
    ] {
        assert_eq!(error.to_string(), format!("refused (3): {found}: every number that is given has to be finite"));
    }
}
