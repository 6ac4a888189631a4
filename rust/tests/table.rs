//! Points as CSV: the lines, their refusals, and the table of a run, whose numbers are those of its reports.

mod shared;

use elchepur::prelude::*;
use elchepur::table::{header, record};
use shared::bits;

/// y1' = y2, y2' = -y1.
struct Circle;

impl FirstOrderSystem for Circle {
    fn derivative(&self, _x: f64, y: &[f64], dydx: &mut [f64]) {
        (dydx[0], dydx[1]) = (y[1], -y[0]);
    }
}

/// A finite number of the table: `0x`, a digit, perhaps a fraction, and the exponent behind `p`.
fn number(text: &str) -> f64 {
    let (sign, text) = text.strip_prefix('-').map_or((1.0, text), |rest| (-1.0, rest));
    let (digits, exponent) = text.strip_prefix("0x").expect("0x").split_once('p').expect("an exponent");
    let (whole, fraction) = digits.split_once('.').unwrap_or((digits, ""));
    let digits = u64::from_str_radix(&format!("{whole}{fraction}"), 16).expect("digits");
    let exponent = exponent.parse::<i32>().expect("an exponent") - 4 * fraction.len() as i32;
    // Two factors, so that neither is beyond what a double holds.
    sign * digits as f64 * 2f64.powi(exponent / 2) * 2f64.powi(exponent - exponent / 2)
}

/// Writes to a table, and keeps what it was told.
struct Both(Table<Vec<u8>>, Vec<Vec<u64>>);

impl SolOut for Both {
    fn solout(
        &mut self,
        xold: f64,
        x: &mut f64,
        y: &mut [f64],
        interpolant: Option<&StepInterpolant<'_>>,
    ) -> ControlFlag {
        self.1.push([*x].iter().chain(&*y).map(|number| bits(*number)).collect());
        self.0.solout(xold, x, y, interpolant)
    }
}

#[test]
fn a_table_has_the_reports_of_its_run() {
    let mut both = Both(Table::new(Vec::new()), Vec::new());
    let solver = RADAU::builder().mass_storage(MatrixStorage::Identity).rule(Rule::Book).build();
    let run = solver.solve(&Circle, 0.0, &[0.0, 1.0], 6.0, 1e-9.into(), 1e-9.into(), Some(&mut both));
    let run = run.expect("a result");
    let text = String::from_utf8(both.0.finish().expect("a vector takes all")).expect("a text");
    let mut lines = text.split_terminator("\r\n");
    assert_eq!(lines.next(), Some("x,y1,y2"));
    let read: Vec<Vec<u64>> = lines.map(|line| line.split(',').map(|text| bits(number(text))).collect()).collect();
    assert_eq!(read, both.1);
    assert_eq!(read.len(), run.steps.accepted + 1);
}

#[test]
fn each_kind_of_number_has_its_text() {
    let rows: [(u64, &str); 9] = [
        (0x4008_0000_0000_0000, "0x1.8p+1"),
        (0x3ff0_0000_0000_0000, "0x1p+0"),
        (0x8000_0000_0000_0000, "-0x0p+0"),
        (0x0000_0000_0000_0001, "0x0.0000000000001p-1022"),
        (0x8010_0000_0000_0000, "-0x1p-1022"),
        (0x7fef_ffff_ffff_ffff, "0x1.fffffffffffffp+1023"),
        (0x7ff0_0000_0000_0000, "inf"),
        (0xfff0_0000_0000_0000, "-inf"),
        (0xfff8_0000_0000_0001, "nan"),
    ];
    for (pattern, text) in rows {
        let wanted = format!("{text},0x0p+0\r\n").into_bytes();
        assert_eq!(record(f64::from_bits(pattern), &[0.0]), Ok(wanted), "{pattern:016x}");
    }
}

#[test]
fn one_to_thirty_two_amounts_are_taken() {
    assert_eq!(header(2), Ok(b"x,y1,y2\r\n".to_vec()));
    assert_eq!(header(32).map(|line| line.len()), Ok(122));
    for n in [0, 33] {
        assert_eq!(header(n), Err(Refused::Order));
        assert_eq!(record(1.0, &vec![0.0; n]), Err(Refused::Order));
    }
}

/// A file that takes nothing.
struct Full;

impl std::io::Write for Full {
    fn write(&mut self, _: &[u8]) -> std::io::Result<usize> {
        Err(std::io::ErrorKind::StorageFull.into())
    }

    fn flush(&mut self) -> std::io::Result<()> {
        Ok(())
    }
}

#[test]
fn a_table_that_can_not_be_written_interrupts_its_run() {
    let mut table = Table::new(Full);
    let solver = RADAU::builder().mass_storage(MatrixStorage::Identity).build();
    let run = solver.solve(&Circle, 0.0, &[0.0, 1.0], 6.0, 1e-6.into(), 1e-6.into(), Some(&mut table));
    assert!(matches!(run, Err(Error::Interrupted(_))), "{run:?}");
    assert!(table.finish().is_err());
}
