//! The model of a sheet, read and written by the proved reader and writer.

use crate::c::{self, Arrays};
use crate::numbers::{REFUSED_SHEET_LINE, REFUSED_SHEET_LONG, SHEET_AMOUNTS, SHEET_RATES};
use std::fmt;

/// A reaction of a [`Sheet`]: its rate by its bits, two reactants and two products, counted from 1, 0 for none.
#[derive(Clone, Copy, Debug, PartialEq, Eq)]
pub struct Reaction {
    /// The rate, by its bits.
    pub rate: u64,
    /// What is used up.
    pub reactants: [usize; 2],
    /// What comes of it.
    pub products: [usize; 2],
}

/// The model of a sheet. Floats stand here by their 64 bits, so that a NaN keeps its payload.
///
/// ```
/// use elchepur::prelude::*;
///
/// let text = "6\n0000000000000000\n3ff0000000000000\n3f50000000000000\n3eb0000000000000\n100000\n0\n1\n\
///     3ff0000000000000\n0\n";
/// let mut sheet = Sheet::read(text.as_bytes())?;
/// assert_eq!(sheet.write()?, text.as_bytes());
/// sheet.amounts[0] = 2.5_f64.to_bits();
/// assert_eq!(Sheet::read(&sheet.write()?)?, sheet);
/// sheet.amounts.clear();
/// assert_eq!(sheet.write(), Err(NoSheet::NoModel));
/// # Ok::<(), NoSheet>(())
/// ```
#[derive(Clone, Debug, PartialEq, Eq)]
pub struct Sheet {
    /// Where the run begins.
    pub x0: u64,
    /// Where it is to end.
    pub xend: u64,
    /// The relative tolerance.
    pub rtol: u64,
    /// The absolute tolerance.
    pub atol: u64,
    /// How many attempts there may be.
    pub max_steps: u64,
    /// 0 the Rust rule, 1 the book rule.
    pub rule: u64,
    /// The amounts, 1 to 32.
    pub amounts: Vec<u64>,
    /// The reactions, up to 64.
    pub reactions: Vec<Reaction>,
}

/// Why there is no sheet, or no model of it.
#[derive(Clone, Copy, Debug, PartialEq, Eq)]
pub enum NoSheet {
    /// 20: the bytes are no sheet.
    Malformed {
        /// The first wrong line, from 1.
        line: usize,
    },
    /// 21: there are more than 4,096 bytes.
    TooLong,
    /// 23: no sheet reads to this model.
    NoModel,
}

impl std::error::Error for NoSheet {}

impl fmt::Display for NoSheet {
    fn fmt(&self, f: &mut fmt::Formatter<'_>) -> fmt::Result {
        match self {
            NoSheet::Malformed { line } => write!(f, "refused (20): line {line} is not as a sheet has it"),
            NoSheet::TooLong => f.write_str("refused (21): the sheet is longer than 4,096 bytes"),
            NoSheet::NoModel => f.write_str("refused (23): no sheet reads to this model"),
        }
    }
}

impl Sheet {
    /// The model of a sheet, which is any bytes at all.
    pub fn read(sheet: &[u8]) -> Result<Sheet, NoSheet> {
        let a = c::read_sheet(sheet).map_err(|(number, line)| match number {
            REFUSED_SHEET_LINE => NoSheet::Malformed { line },
            REFUSED_SHEET_LONG => NoSheet::TooLong,
            other => panic!("the archive refuses a sheet with {other}: it is not of one version with this crate"),
        })?;
        let [x0, xend, rtol, atol, max_steps, rule] = a.settings;
        let species = a.species.chunks(4);
        let reactions = a.rates.iter().zip(species).take(a.counts[1]).map(|(&rate, four)| Reaction {
            rate,
            reactants: [four[0], four[1]],
            products: [four[2], four[3]],
        });
        let amounts = a.amounts.iter().copied().take(a.counts[0]).collect();
        Ok(Sheet { x0, xend, rtol, atol, max_steps, rule, amounts, reactions: reactions.collect() })
    }

    /// The bytes of its sheet.
    pub fn write(&self) -> Result<Vec<u8>, NoSheet> {
        if self.amounts.len() > SHEET_AMOUNTS || self.reactions.len() > SHEET_RATES {
            return Err(NoSheet::NoModel);
        }
        let mut a = Arrays::empty();
        a.settings = [self.x0, self.xend, self.rtol, self.atol, self.max_steps, self.rule];
        a.counts = [self.amounts.len(), self.reactions.len()];
        a.amounts[..self.amounts.len()].copy_from_slice(&self.amounts);
        for (k, reaction) in self.reactions.iter().enumerate() {
            a.rates[k] = reaction.rate;
            a.species[4 * k..4 * k + 2].copy_from_slice(&reaction.reactants);
            a.species[4 * k + 2..4 * k + 4].copy_from_slice(&reaction.products);
        }
        // The room is that of the longest sheet, so that 23 alone can come.
        c::write_sheet(&a).map_err(|_| NoSheet::NoModel)
    }
}
