//! README.md: its diffs lead to the program that stands in examples/moved.rs, what it shows is what is printed there
//! and by examples/screen.rs, and the Rust's paths are here.

mod shared;

use shared::{bytes, file};

mod program {
    #![allow(dead_code)]
    include!("../examples/moved.rs");

    /// What the program says with too few steps.
    pub fn broken_off() -> String {
        let solver = RADAU { mass_storage: MatrixStorage::Identity, max_steps: 20, ..RADAU::default() };
        let answer =
            solver.solve(&Cylinder, 0.0, &[10.0, 0.25, 0.0, 0.0], 730.0, 1e-6.into(), 1e-10.into(), None::<&mut Label>);
        format!("no forecast: {}", answer.expect_err("a run that breaks off"))
    }
}

mod screen {
    #![allow(dead_code)]
    include!("../examples/screen.rs");

    pub fn of(sheet: &[u8]) -> String {
        shown(sheet).expect("a run that succeeds")
    }
}

/// The blocks that are marked as diffs, each as its lines after the move.
fn moved() -> Vec<String> {
    let text = file("rust/README.md");
    let blocks = text.split("```diff\n").skip(1).map(|block| block.split("```").next().unwrap_or(""));
    let after = |block: &str| {
        block.lines().filter(|line| !line.starts_with('-')).map(|line| format!("{}\n", &line[1..])).collect()
    };
    blocks.map(after).collect()
}

#[test]
fn the_diffs_lead_to_the_example() {
    let program = file("rust/examples/moved.rs");
    let moved = moved();
    assert_eq!(moved.len(), 2);
    for block in moved {
        assert_eq!(program.matches(&block).count(), 1, "{block}");
    }
}

#[test]
fn the_error_reads_as_it_is_shown() {
    // The README shows the line in two.
    let shown = file("rust/README.md").split_whitespace().collect::<Vec<_>>().join(" ");
    assert!(shown.contains(&program::broken_off()), "{}", program::broken_off());
}

#[test]
fn the_screen_shows_what_stands_here() {
    let text = screen::of(&bytes("cylinders/nitric_oxide.sheet"));
    let shown: String = text.lines().map(|line| format!("    {line}\n")).collect();
    assert!(file("rust/README.md").contains(&shown), "{shown}");
}

#[test]
fn the_rusts_paths_are_here() {
    use elchepur as ivp;
    #[allow(unused_imports)]
    use ivp::{
        dense::{DenseSegment, StepInterpolant},
        error::Error,
        ivp::FirstOrderSystem,
        matrix::{Matrix, MatrixStorage},
        methods::{Evals, IntegrationResult, Steps, Tolerance, RADAU},
        prelude::*,
        solout::{ControlFlag, SolOut},
        status::Status,
    };
    assert_eq!(RADAU::builder().build(), RADAU::default());
}
