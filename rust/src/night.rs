//! The totals of a night: status lines taken in pieces of any size by the proved reader.

use crate::c;
use crate::numbers::{REFUSED_MANY_LINES, REFUSED_SHEET_LINE, REFUSED_TOTALS, TOTALS};
use std::fmt;

/// What status lines come to.
#[derive(Clone, Copy, Debug, Default, PartialEq, Eq)]
pub struct Totals {
    /// How many lines there are.
    pub lines: u64,
    /// How many of them have status 0, 1, 2, 3, 5 and 7.
    pub runs: [u64; 6],
    /// The sum of accepted.
    pub accepted: u64,
    /// The sum of rejected.
    pub rejected: u64,
    /// The sum of total.
    pub total: u64,
    /// The sum of ode.
    pub ode: u64,
    /// The sum of jac.
    pub jac: u64,
    /// The sum of lu.
    pub lu: u64,
    /// The largest ode; 0 of no lines.
    pub largest: u64,
    /// The number of its first line, from 1; 0 of no lines.
    pub place: u64,
}

/// Status lines as the program `decay` prints them, taken in pieces.
///
/// ```
/// use elchepur::prelude::*;
///
/// let mut night = Night::new();
/// night.feed(b"status 0 accepted 9 rejected 1 total 10 ode 8");
/// night.feed(b"0 jac 4 lu 6\n");
/// let totals = night.totals()?;
/// assert_eq!((totals.lines, totals.runs, totals.largest, totals.place), (1, [1, 0, 0, 0, 0, 0], 80, 1));
/// night.feed(b"x 3ff0000000000000\n");
/// assert_eq!(night.totals(), Err(NoTotals::Malformed { line: 2 }));
/// # Ok::<(), NoTotals>(())
/// ```
#[derive(Clone, Debug)]
pub struct Night {
    words: c::NightWords,
}

/// Why lines have no totals.
#[derive(Clone, Copy, Debug, PartialEq, Eq)]
pub enum NoTotals {
    /// 20: a line is none that `decay` prints.
    Malformed {
        /// The first such line, from 1.
        line: u64,
    },
    /// 26: there are more than 65,535 lines.
    TooMany,
    /// 28: totals that are to be joined are none that lines can have.
    Unfit,
}

impl Totals {
    fn from_words(words: [u64; TOTALS]) -> Totals {
        let [lines, r0, r1, r2, r3, r5, r7, accepted, rejected, total, ode, jac, lu, largest, place] = words;
        let runs = [r0, r1, r2, r3, r5, r7];
        Totals { lines, runs, accepted, rejected, total, ode, jac, lu, largest, place }
    }

    fn words(&self) -> [u64; TOTALS] {
        let Totals { lines, runs, accepted, rejected, total, ode, jac, lu, largest, place } = *self;
        let [r0, r1, r2, r3, r5, r7] = runs;
        [lines, r0, r1, r2, r3, r5, r7, accepted, rejected, total, ode, jac, lu, largest, place]
    }

    /// The totals of the lines of both, those of `next` behind these: `Unfit` where a side is none that lines can have,
    /// then `TooMany`. [`Totals::default`], which are those of no lines, change nothing.
    pub fn join(&self, next: &Totals) -> Result<Totals, NoTotals> {
        c::totals_join(&self.words(), &next.words()).map(Totals::from_words).map_err(|number| match number {
            REFUSED_TOTALS => NoTotals::Unfit,
            REFUSED_MANY_LINES => NoTotals::TooMany,
            other => panic!("the archive refuses totals with {other}: it is not of one version with this crate"),
        })
    }
}

impl std::error::Error for NoTotals {}

impl fmt::Display for NoTotals {
    fn fmt(&self, f: &mut fmt::Formatter<'_>) -> fmt::Result {
        match self {
            NoTotals::Malformed { line } => write!(f, "refused (20): line {line} is no status line"),
            NoTotals::TooMany => f.write_str("refused (26): there are more than 65,535 lines"),
            NoTotals::Unfit => f.write_str("refused (28): totals are to be joined that no lines can have"),
        }
    }
}

impl Default for Night {
    fn default() -> Night {
        Night::new()
    }
}

impl Night {
    /// No lines yet.
    pub fn new() -> Night {
        Night { words: c::totals_start() }
    }

    /// Takes the next piece, which may end anywhere in a line.
    pub fn feed(&mut self, piece: &[u8]) {
        c::totals_fed(&mut self.words, piece);
    }

    /// The totals of the pieces so far, were they all.
    pub fn totals(&self) -> Result<Totals, NoTotals> {
        let found = c::totals_told(&self.words).map_err(|(number, line)| match number {
            REFUSED_SHEET_LINE => NoTotals::Malformed { line },
            REFUSED_MANY_LINES => NoTotals::TooMany,
            other => panic!("the archive refuses lines with {other}: it is not of one version with this crate"),
        })?;
        Ok(Totals::from_words(found))
    }

    /// The bytes that the program `totals` prints of them, a refusal too.
    pub fn printed(&self) -> Vec<u8> {
        c::totals_printed(&self.words)
    }
}

/// The totals of a whole list of status lines.
pub fn totals(lines: &[u8]) -> Result<Totals, NoTotals> {
    let mut night = Night::new();
    night.feed(lines);
    night.totals()
}
