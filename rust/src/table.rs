//! Points as CSV by RFC 4180: a header, and a record a point, each with CRLF and without quotes. Numbers are in C's
//! hexadecimal form, `0x1.8p+1`, which has all of a double's bits.

use crate::c;
use crate::dense::StepInterpolant;
use crate::refused::Refused;
use crate::solout::{ControlFlag, SolOut};
use std::io;

fn line(answer: Result<Vec<u8>, u64>) -> Result<Vec<u8>, Refused> {
    // The room is enough for every line, so that the number is 1.
    answer.map_err(|number| Refused::of(number).unwrap_or(Refused::Order))
}

/// The header of a table with n amounts: `x,y1,..,yn`. Refused where n is not 1 to 32.
pub fn header(n: usize) -> Result<Vec<u8>, Refused> {
    line(c::csv_header(n))
}

/// The record of a point. Refused where there are not 1 to 32 amounts.
///
/// ```
/// let record = elchepur::table::record(3.0, &[-0.0, f64::INFINITY])?;
/// assert_eq!(record, b"0x1.8p+1,-0x0p+0,inf\r\n");
/// # Ok::<(), elchepur::error::Refused>(())
/// ```
pub fn record(x: f64, y: &[f64]) -> Result<Vec<u8>, Refused> {
    line(c::csv_record(x, y))
}

/// Writes each point that a run reaches, the first too: the header, and a record a point.
///
/// Of a run that breaks off, or that another error ends, the points up to there are written. Where writing fails the
/// run is interrupted, and [`finish`](Table::finish) has the error.
///
/// ```
/// use elchepur::prelude::*;
///
/// struct Decay;
/// impl FirstOrderSystem for Decay {
///     fn derivative(&self, _x: f64, y: &[f64], dydx: &mut [f64]) {
///         dydx[0] = -y[0];
///     }
/// }
///
/// let mut table = Table::new(Vec::new());
/// let solver = RADAU::builder().mass_storage(MatrixStorage::Identity).build();
/// let run = solver.solve(&Decay, 0.0, &[1.0], 3.0, 1e-6.into(), 1e-9.into(), Some(&mut table))?;
/// let written = String::from_utf8(table.finish().expect("a vector takes all")).expect("a text");
/// assert!(written.starts_with("x,y1\r\n0x0p+0,0x1p+0\r\n"));
/// assert_eq!(written.lines().count(), run.steps.accepted + 2);
/// # Ok::<(), Error>(())
/// ```
#[derive(Debug)]
pub struct Table<W> {
    file: W,
    begun: bool,
    failed: Option<io::Error>,
}

impl<W: io::Write> Table<W> {
    /// A table that goes to this file.
    pub fn new(file: W) -> Table<W> {
        Table { file, begun: false, failed: None }
    }

    /// The file, or the error that writing to it met.
    pub fn finish(self) -> io::Result<W> {
        match self.failed {
            None => Ok(self.file),
            Some(error) => Err(error),
        }
    }

    fn write(&mut self, x: f64, y: &[f64]) -> io::Result<()> {
        let refused = |why: Refused| io::Error::new(io::ErrorKind::InvalidInput, why);
        if !self.begun {
            self.file.write_all(&header(y.len()).map_err(refused)?)?;
            self.begun = true;
        }
        self.file.write_all(&record(x, y).map_err(refused)?)
    }
}

impl<W: io::Write> SolOut for Table<W> {
    fn solout(
        &mut self,
        _xold: f64,
        x: &mut f64,
        y: &mut [f64],
        _interpolant: Option<&StepInterpolant<'_>>,
    ) -> ControlFlag {
        match self.write(*x, y) {
            Ok(()) => ControlFlag::Continue,
            Err(error) => {
                self.failed = Some(error);
                ControlFlag::Interrupt
            }
        }
    }
}
