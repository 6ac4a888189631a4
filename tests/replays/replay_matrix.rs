// What the Rust's own routines answer to the cases of tests/replays/replay_matrix.py, which says how they are laid out.
// Standard input has the cases without what is wanted of them; standard output gets, for each case, a line with the
// answer, document 01's number in two hexadecimal digits, with 17 the line of the column at which elimination stopped,
// and then the lines of all that the routine may write.
use crate::dense::StepInterpolant;
use crate::error::{Error, LinearAlgebraError};
use crate::matrix::base::Matrix;
use crate::matrix::linear::{lin_solve, lin_solve_complex};
use crate::matrix::lu::{lu_decomp, lu_decomp_complex};
use crate::radau;
use crate::stopped;
use std::io::{Read, Write};

fn pattern(x: f64) -> u64 {
    if x.is_nan() {
        0x7ff8_0000_0000_0000
    } else {
        x.to_bits()
    }
}

fn number(word: &str) -> usize {
    usize::from_str_radix(word, 16).expect("a number")
}

fn numbers<'a>(lines: &mut impl Iterator<Item = &'a str>, count: usize) -> Vec<u64> {
    (0..count).map(|_| u64::from_str_radix(lines.next().expect("a line"), 16).expect("a value")).collect()
}

fn doubles<'a>(lines: &mut impl Iterator<Item = &'a str>, count: usize) -> Vec<f64> {
    numbers(lines, count).into_iter().map(f64::from_bits).collect()
}

// The answer of a decomposition; where it refuses, whether all is as before is for the caller to see.
fn answer(result: Result<(), Error>) -> u8 {
    match result {
        Ok(()) => 0,
        Err(Error::LinearAlgebra(LinearAlgebraError::SingularMatrix)) => 17,
        Err(Error::LinearAlgebra(LinearAlgebraError::PivotSizeMismatch { .. })) => 16,
        Err(Error::LinearAlgebra(LinearAlgebraError::NonSquareMatrix { .. })) => 16,
        Err(other) => panic!("{other}"),
    }
}

// A matrix of n rows; of columns it has as many as there are entries for.
fn matrix(n: usize, entries: &[f64]) -> Matrix {
    assert_eq!(entries.len() % n, 0);
    Matrix::from_vec(n, entries.len() / n, entries.to_vec())
}

fn same(a: &[f64], b: &[f64]) -> bool {
    a.len() == b.len() && (0..a.len()).all(|i| pattern(a[i]) == pattern(b[i]))
}

// The line of the column, with 17; the routine that stopped is the one that was called.
fn column(out: &mut String, answer: u8, routine: u64) {
    if answer == 17 {
        let (stopped, column) = stopped::latest();
        assert_eq!(stopped, routine);
        out.push_str(&format!("{column:016x}\n"));
    }
}

fn told(out: &mut String, answer: u8, routine: u64, doubles: &[&[f64]], pivots: &[usize]) {
    out.push_str(&format!("{answer:02x}\n"));
    column(out, answer, routine);
    for part in doubles {
        for &x in *part {
            out.push_str(&format!("{:016x}\n", pattern(x)));
        }
    }
    for pivot in pivots {
        out.push_str(&format!("{pivot:016x}\n"));
    }
}

// The lines of all answers to these cases.
pub fn answers(text: &str) -> String {
    let lines = &mut text.lines();
    let mut out = String::new();
    let (mut ar, mut ai, mut ip) = (Vec::new(), Vec::new(), Vec::new());
    while let Some(head) = lines.next() {
        let words: Vec<&str> = head.split(' ').collect();
        let n = number(words[3]);
        if words[2] == "g" {
            ar = doubles(lines, number(words[4]));
            ai = doubles(lines, number(words[5]));
            ip = numbers(lines, number(words[8])).into_iter().map(|x| x as usize).collect();
        }
        let mut br = doubles(lines, number(words[6]));
        stopped::forget();
        let mut bi = doubles(lines, number(words[7]));
        match words[0] {
            "d" => {
                let mut a = matrix(n, &ar);
                let before = ip.clone();
                let said = answer(lu_decomp(&mut a, &mut ip));
                if said == 16 {
                    assert!(same(&a.data, &ar) && ip == before);
                    told(&mut out, said, 0, &[], &[]);
                } else {
                    ar = a.data;
                    told(&mut out, said, 1, &[&ar], &ip);
                }
            }
            "D" => {
                let (mut a, mut i) = (matrix(n, &ar), matrix(n, &ai));
                let before = ip.clone();
                let said = answer(lu_decomp_complex(&mut a, &mut i, &mut ip));
                if said == 16 {
                    assert!(same(&a.data, &ar) && same(&i.data, &ai) && ip == before);
                    told(&mut out, said, 0, &[], &[]);
                } else {
                    (ar, ai) = (a.data, i.data);
                    told(&mut out, said, 2, &[&ar, &ai], &ip);
                }
            }
            "s" => {
                lin_solve(&matrix(n, &ar), &mut br, &ip);
                told(&mut out, 0, 0, &[&br], &[]);
            }
            "S" => {
                lin_solve_complex(&matrix(n, &ar), &matrix(n, &ai), &mut br, &mut bi, &ip);
                told(&mut out, 0, 0, &[&br, &bi], &[]);
            }
            "i" => {
                radau::interpolate(ai[0], &mut br, &ar, ai[1], ai[2]);
                told(&mut out, 0, 0, &[&br], &[]);
            }
            "b" => {
                let (left, right) = StepInterpolant::new(&[], ai[0], ai[1], radau::interpolate).bounds();
                told(&mut out, 0, 0, &[&[left, right]], &[]);
            }
            other => panic!("{other} is no kind"),
        }
    }
    out
}

pub fn run() {
    let mut text = String::new();
    std::io::stdin().read_to_string(&mut text).expect("the cases");
    std::io::stdout().write_all(answers(&text).as_bytes()).expect("room for the answers");
}
