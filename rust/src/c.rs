//! The border to the archive, and the only module with `unsafe`: each function of include/elchepur.h that this crate
//! calls, as it is declared there, and a safe function around it that hands over each slice with its own length.
//! tests/header.rs holds the declarations to the header.

use crate::memory::Memory;
use crate::numbers::SHELF;
use crate::numbers::{
    AT, CSV_MOST, FLOATS, NUMBERS, PRINTED, RESULT_FLOATS, RESULT_NUMBERS, STATE_DOUBLES, STATE_WORDS, TOLD,
};
use crate::numbers::{NIGHT, TOTALS, TOTALS_PRINTED};
use crate::numbers::{SHEET_AMOUNTS, SHEET_COUNTS, SHEET_MOST, SHEET_RATES, SHEET_SETTINGS, SHEET_SPECIES};

/// What is handed to an opening besides memory.
#[derive(Clone)]
pub(crate) struct Opening {
    pub numbers: [u64; NUMBERS],
    pub floats: [f64; FLOATS],
    pub n: usize,
    pub x0: f64,
    pub xend: f64,
    pub lists: u64,
    pub rtol: f64,
    pub atol: f64,
}

/// A run between two calls: its state, and what it asks.
pub(crate) struct Run {
    words: [usize; STATE_WORDS],
    doubles: [f64; STATE_DOUBLES],
    pub told: [u64; TOLD],
    pub at: [f64; AT],
}

// Arrays are lent as references, which are C's pointers and have the length in their type.
#[rustfmt::skip]
extern "C" {
    fn elchepur_default_settings(numbers: &mut [u64; NUMBERS], floats: &mut [f64; FLOATS]);

    fn elchepur_open(
        numbers: &[u64; NUMBERS], floats: &[f64; FLOATS],
        n: usize, x0: f64, xend: f64, lists: u64, rtol_scalar: f64, atol_scalar: f64,
        words: &mut [usize; STATE_WORDS], doubles: &mut [f64; STATE_DOUBLES],
        told: &mut [u64; TOLD], at: &mut [f64; AT],
        y: *const f64, y_count: usize, f0: *mut f64, f0_count: usize,
        scal: *mut f64, scal_count: usize, cont: *mut f64, cont_count: usize,
        z1: *mut f64, z1_count: usize, z2: *mut f64, z2_count: usize, z3: *mut f64, z3_count: usize,
        f1: *mut f64, f1_count: usize, f2: *mut f64, f2_count: usize, f3: *mut f64, f3_count: usize,
        rtol: *mut f64, rtol_count: usize, atol: *mut f64, atol_count: usize,
        mass: *mut f64, mass_count: usize, jac: *mut f64, jac_count: usize,
        e1: *mut f64, e1_count: usize, e2r: *mut f64, e2r_count: usize, e2i: *mut f64, e2i_count: usize,
        ip1: *mut usize, ip1_count: usize, ip2: *mut usize, ip2_count: usize,
        y_perturbed: *mut f64, y_perturbed_count: usize, f_perturbed: *mut f64, f_perturbed_count: usize,
        f_origin: *mut f64, f_origin_count: usize,
    ) -> u64;

    fn elchepur_advance(
        words: &mut [usize; STATE_WORDS], doubles: &mut [f64; STATE_DOUBLES],
        reply: u64, value: f64, told: &mut [u64; TOLD], at: &mut [f64; AT],
        y: *mut f64, y_count: usize, f0: *const f64, f0_count: usize,
        scal: *mut f64, scal_count: usize, cont: *mut f64, cont_count: usize,
        z1: *mut f64, z1_count: usize, z2: *mut f64, z2_count: usize, z3: *mut f64, z3_count: usize,
        f1: *mut f64, f1_count: usize, f2: *mut f64, f2_count: usize, f3: *mut f64, f3_count: usize,
        rtol: *const f64, rtol_count: usize, atol: *const f64, atol_count: usize,
        mass: *const f64, mass_count: usize, jac: *mut f64, jac_count: usize,
        e1: *mut f64, e1_count: usize, e2r: *mut f64, e2r_count: usize, e2i: *mut f64, e2i_count: usize,
        ip1: *mut usize, ip1_count: usize, ip2: *mut usize, ip2_count: usize,
        y_perturbed: *mut f64, y_perturbed_count: usize, f_perturbed: *mut f64, f_perturbed_count: usize,
        f_origin: *mut f64, f_origin_count: usize,
    ) -> u64;

    fn elchepur_result(
        words: &[usize; STATE_WORDS], doubles: &[f64; STATE_DOUBLES],
        numbers: &mut [u64; RESULT_NUMBERS], floats: &mut [f64; RESULT_FLOATS],
    ) -> u64;

    fn elchepur_held_step(words: &[usize; STATE_WORDS], doubles: &[f64; STATE_DOUBLES]) -> f64;

    fn elchepur_interpolate(
        xi: f64, yi: *mut f64, yi_count: usize, cont: *const f64, cont_count: usize, xold: f64, h: f64,
    ) -> u64;

    fn elchepur_bounds(xold: f64, h: f64, ends: &mut [f64; 2]);

    fn elchepur_forecast(sheet: *const u8, sheet_count: usize, printed: &mut [u8; PRINTED]) -> u64;

    fn elchepur_read_sheet(
        sheet: *const u8, sheet_count: usize, settings: &mut [u64; SHEET_SETTINGS],
        counts: &mut [usize; SHEET_COUNTS], amounts: &mut [u64; SHEET_AMOUNTS], rates: &mut [u64; SHEET_RATES],
        species: &mut [usize; SHEET_SPECIES], line: &mut usize,
    ) -> u64;

    fn elchepur_write_sheet(
        settings: &[u64; SHEET_SETTINGS], counts: &[usize; SHEET_COUNTS], amounts: &[u64; SHEET_AMOUNTS],
        rates: &[u64; SHEET_RATES], species: &[usize; SHEET_SPECIES],
        sheet: *mut u8, sheet_count: usize, length: &mut usize,
    ) -> u64;

    fn elchepur_totals_start(night: &mut [u64; NIGHT]);

    fn elchepur_totals_fed(night: &mut [u64; NIGHT], piece: *const u8, piece_count: usize);

    fn elchepur_totals_told(night: &[u64; NIGHT], totals: &mut [u64; TOTALS], line: &mut u64) -> u64;

    fn elchepur_totals_printed(night: &[u64; NIGHT], printed: &mut [u8; TOTALS_PRINTED]) -> u64;

    fn elchepur_totals_join(first: &[u64; TOTALS], second: &[u64; TOTALS], joined: &mut [u64; TOTALS]) -> u64;

    fn elchepur_empty_shelf(shelf: &mut [usize; SHELF]);

    fn elchepur_put_on_shelf(
        shelf: &mut [usize; SHELF], cont: *const f64, cont_count: usize, xold: f64, h: f64,
        coefficients: *mut f64, coefficients_count: usize, ends: *mut f64, ends_count: usize,
    ) -> u64;

    fn elchepur_ask_shelf(
        shelf: &[usize; SHELF], x: f64, target: *mut f64, target_count: usize,
        coefficients: *const f64, coefficients_count: usize, ends: *const f64, ends_count: usize,
    ) -> u64;

    fn elchepur_csv_header(n: usize, out: *mut u8, out_count: usize, written: &mut usize) -> u64;

    fn elchepur_csv_record(
        x: f64, amounts: *const f64, amounts_count: usize, out: *mut u8, out_count: usize, written: &mut usize,
    ) -> u64;
}

/// A night as the header's words hold it.
pub(crate) type NightWords = [u64; NIGHT];

/// A model as the arrays of the header hold it.
pub(crate) struct Arrays {
    pub settings: [u64; SHEET_SETTINGS],
    pub counts: [usize; SHEET_COUNTS],
    pub amounts: [u64; SHEET_AMOUNTS],
    pub rates: [u64; SHEET_RATES],
    pub species: [usize; SHEET_SPECIES],
}

impl Arrays {
    pub(crate) fn empty() -> Arrays {
        Arrays {
            settings: [0; SHEET_SETTINGS],
            counts: [0; SHEET_COUNTS],
            amounts: [0; SHEET_AMOUNTS],
            rates: [0; SHEET_RATES],
            species: [0; SHEET_SPECIES],
        }
    }
}

/// What a call left, or the number that refuses.
fn answered<T>(number: u64, left: T) -> Result<T, u64> {
    match number {
        0 => Ok(left),
        refused => Err(refused),
    }
}

pub(crate) fn default_settings() -> ([u64; NUMBERS], [f64; FLOATS]) {
    let (mut numbers, mut floats) = ([0; NUMBERS], [0.0; FLOATS]);
    // SAFETY: two arrays of the lengths that the header gives, each lent by itself.
    unsafe { elchepur_default_settings(&mut numbers, &mut floats) };
    (numbers, floats)
}

#[rustfmt::skip]
pub(crate) fn open(opening: &Opening, m: &mut Memory) -> Result<Run, u64> {
    let Opening { numbers, floats, n, x0, xend, lists, rtol, atol } = opening;
    let mut run = Run { words: [0; STATE_WORDS], doubles: [0.0; STATE_DOUBLES], told: [0; TOLD], at: [0.0; AT] };
    // SAFETY: each pointer goes with the length of the vector that it comes from, and no vector's pointer is null. The
    // vectors are fields of one struct that is lent as a whole, and the arrays are others, so nothing overlaps.
    let number = unsafe {
        elchepur_open(
            numbers, floats, *n, *x0, *xend, *lists, *rtol, *atol, &mut run.words, &mut run.doubles, &mut run.told,
            &mut run.at,
            m.y.as_ptr(), m.y.len(), m.f0.as_mut_ptr(), m.f0.len(),
            m.scal.as_mut_ptr(), m.scal.len(), m.cont.as_mut_ptr(), m.cont.len(),
            m.z1.as_mut_ptr(), m.z1.len(), m.z2.as_mut_ptr(), m.z2.len(), m.z3.as_mut_ptr(), m.z3.len(),
            m.f1.as_mut_ptr(), m.f1.len(), m.f2.as_mut_ptr(), m.f2.len(), m.f3.as_mut_ptr(), m.f3.len(),
            m.rtol.as_mut_ptr(), m.rtol.len(), m.atol.as_mut_ptr(), m.atol.len(),
            m.mass.as_mut_ptr(), m.mass.len(), m.jac.as_mut_ptr(), m.jac.len(),
            m.e1.as_mut_ptr(), m.e1.len(), m.e2r.as_mut_ptr(), m.e2r.len(), m.e2i.as_mut_ptr(), m.e2i.len(),
            m.ip1.as_mut_ptr(), m.ip1.len(), m.ip2.as_mut_ptr(), m.ip2.len(),
            m.y_perturbed.as_mut_ptr(), m.y_perturbed.len(), m.f_perturbed.as_mut_ptr(), m.f_perturbed.len(),
            m.f_origin.as_mut_ptr(), m.f_origin.len(),
        )
    };
    answered(number, run)
}

#[rustfmt::skip]
pub(crate) fn advance(run: &mut Run, reply: u64, value: f64, m: &mut Memory) -> Result<(), u64> {
    // SAFETY: as in `open`.
    let number = unsafe {
        elchepur_advance(
            &mut run.words, &mut run.doubles, reply, value, &mut run.told, &mut run.at,
            m.y.as_mut_ptr(), m.y.len(), m.f0.as_ptr(), m.f0.len(),
            m.scal.as_mut_ptr(), m.scal.len(), m.cont.as_mut_ptr(), m.cont.len(),
            m.z1.as_mut_ptr(), m.z1.len(), m.z2.as_mut_ptr(), m.z2.len(), m.z3.as_mut_ptr(), m.z3.len(),
            m.f1.as_mut_ptr(), m.f1.len(), m.f2.as_mut_ptr(), m.f2.len(), m.f3.as_mut_ptr(), m.f3.len(),
            m.rtol.as_ptr(), m.rtol.len(), m.atol.as_ptr(), m.atol.len(),
            m.mass.as_ptr(), m.mass.len(), m.jac.as_mut_ptr(), m.jac.len(),
            m.e1.as_mut_ptr(), m.e1.len(), m.e2r.as_mut_ptr(), m.e2r.len(), m.e2i.as_mut_ptr(), m.e2i.len(),
            m.ip1.as_mut_ptr(), m.ip1.len(), m.ip2.as_mut_ptr(), m.ip2.len(),
            m.y_perturbed.as_mut_ptr(), m.y_perturbed.len(), m.f_perturbed.as_mut_ptr(), m.f_perturbed.len(),
            m.f_origin.as_mut_ptr(), m.f_origin.len(),
        )
    };
    answered(number, ())
}

pub(crate) fn result(run: &Run) -> Result<([u64; RESULT_NUMBERS], [f64; RESULT_FLOATS]), u64> {
    let (mut numbers, mut floats) = ([0; RESULT_NUMBERS], [0.0; RESULT_FLOATS]);
    // SAFETY: four arrays of the lengths that the header gives, each lent by itself.
    let number = unsafe { elchepur_result(&run.words, &run.doubles, &mut numbers, &mut floats) };
    answered(number, (numbers, floats))
}

pub(crate) fn held_step(run: &Run) -> f64 {
    // SAFETY: two arrays of the lengths that the header gives.
    unsafe { elchepur_held_step(&run.words, &run.doubles) }
}

pub(crate) fn interpolate(xi: f64, yi: &mut [f64], cont: &[f64], xold: f64, h: f64) -> Result<(), u64> {
    // SAFETY: each pointer goes with the length of its slice; one slice is lent to be written, so the other can't
    // overlap it.
    let number = unsafe { elchepur_interpolate(xi, yi.as_mut_ptr(), yi.len(), cont.as_ptr(), cont.len(), xold, h) };
    answered(number, ())
}

pub(crate) fn bounds(xold: f64, h: f64) -> (f64, f64) {
    let mut ends = [0.0; 2];
    // SAFETY: an array of the length that the header gives.
    unsafe { elchepur_bounds(xold, h, &mut ends) };
    (ends[0], ends[1])
}

/// What is printed of a sheet.
pub(crate) fn forecast(sheet: &[u8]) -> Vec<u8> {
    let mut printed = [0; PRINTED];
    // SAFETY: the pointer goes with the length of its slice, and the array is another and has the header's length.
    let count = unsafe { elchepur_forecast(sheet.as_ptr(), sheet.len(), &mut printed) };
    printed.iter().copied().take(usize::try_from(count).unwrap_or(PRINTED)).collect()
}

/// The model of a sheet, or the number that refuses and the line that is told with 20.
pub(crate) fn read_sheet(sheet: &[u8]) -> Result<Arrays, (u64, usize)> {
    let (mut a, mut line) = (Arrays::empty(), 0);
    // SAFETY: the pointer goes with the length of its slice; the arrays have the header's lengths, each lent by itself.
    let number = unsafe {
        elchepur_read_sheet(
            sheet.as_ptr(),
            sheet.len(),
            &mut a.settings,
            &mut a.counts,
            &mut a.amounts,
            &mut a.rates,
            &mut a.species,
            &mut line,
        )
    };
    answered(number, a).map_err(|number| (number, line))
}

/// The sheet of a model, or the number that refuses.
pub(crate) fn write_sheet(a: &Arrays) -> Result<Vec<u8>, u64> {
    let (mut sheet, mut length) = (vec![0; SHEET_MOST], 0);
    // SAFETY: the pointer goes with its slice's length; the arrays have the header's lengths and are apart from it.
    let number = unsafe {
        elchepur_write_sheet(
            &a.settings,
            &a.counts,
            &a.amounts,
            &a.rates,
            &a.species,
            sheet.as_mut_ptr(),
            sheet.len(),
            &mut length,
        )
    };
    sheet.truncate(length);
    answered(number, sheet)
}

/// A night of which nothing has come.
pub(crate) fn totals_start() -> NightWords {
    let mut night = [0; NIGHT];
    // SAFETY: the array has the header's length.
    unsafe { elchepur_totals_start(&mut night) };
    night
}

/// Takes a piece of the lines.
pub(crate) fn totals_fed(night: &mut NightWords, piece: &[u8]) {
    // SAFETY: the pointer goes with the length of its slice; the array has the header's length, and is not the slice.
    unsafe { elchepur_totals_fed(night, piece.as_ptr(), piece.len()) };
}

/// The totals, or the number that refuses and the line that is told with 20.
pub(crate) fn totals_told(night: &NightWords) -> Result<[u64; TOTALS], (u64, u64)> {
    let (mut totals, mut line) = ([0; TOTALS], 0);
    // SAFETY: the arrays have the header's lengths, each lent by itself.
    let number = unsafe { elchepur_totals_told(night, &mut totals, &mut line) };
    answered(number, totals).map_err(|number| (number, line))
}

/// What the program `totals` prints.
pub(crate) fn totals_printed(night: &NightWords) -> Vec<u8> {
    let mut printed = [0; TOTALS_PRINTED];
    // SAFETY: the arrays have the header's lengths, each lent by itself.
    let count = unsafe { elchepur_totals_printed(night, &mut printed) };
    printed.iter().copied().take(usize::try_from(count).unwrap_or(TOTALS_PRINTED)).collect()
}

/// Two totals joined, or the number that refuses.
pub(crate) fn totals_join(first: &[u64; TOTALS], second: &[u64; TOTALS]) -> Result<[u64; TOTALS], u64> {
    let mut joined = [0; TOTALS];
    // SAFETY: the arrays have the header's lengths, and what is written is lent by itself.
    let number = unsafe { elchepur_totals_join(first, second, &mut joined) };
    answered(number, joined)
}

pub(crate) fn empty_shelf(shelf: &mut [usize; SHELF]) {
    // SAFETY: an array of the length that the header gives.
    unsafe { elchepur_empty_shelf(shelf) };
}

/// A step is put on the shelf in `coefficients` and `ends`.
pub(crate) fn put_on_shelf(
    shelf: &mut [usize; SHELF],
    (cont, xold, h): (&[f64], f64, f64),
    coefficients: &mut [f64],
    ends: &mut [f64],
) -> Result<(), u64> {
    // SAFETY: each pointer goes with the length of its slice; those that are lent to be written are apart.
    let number = unsafe {
        elchepur_put_on_shelf(
            shelf,
            cont.as_ptr(),
            cont.len(),
            xold,
            h,
            coefficients.as_mut_ptr(),
            coefficients.len(),
            ends.as_mut_ptr(),
            ends.len(),
        )
    };
    answered(number, ())
}

/// The amounts at x are written to the target.
pub(crate) fn ask_shelf(
    shelf: &[usize; SHELF],
    x: f64,
    target: &mut [f64],
    coefficients: &[f64],
    ends: &[f64],
) -> Result<(), u64> {
    // SAFETY: each pointer goes with the length of its slice; the one that is lent to be written is apart.
    let number = unsafe {
        elchepur_ask_shelf(
            shelf,
            x,
            target.as_mut_ptr(),
            target.len(),
            coefficients.as_ptr(),
            coefficients.len(),
            ends.as_ptr(),
            ends.len(),
        )
    };
    answered(number, ())
}

/// The header of a table.
pub(crate) fn csv_header(n: usize) -> Result<Vec<u8>, u64> {
    let (mut out, mut written) = (vec![0; CSV_MOST], 0);
    // SAFETY: the pointer goes with the length of its vector, and the number is lent by itself.
    let number = unsafe { elchepur_csv_header(n, out.as_mut_ptr(), out.len(), &mut written) };
    out.truncate(written);
    answered(number, out)
}

/// The record of a point.
pub(crate) fn csv_record(x: f64, amounts: &[f64]) -> Result<Vec<u8>, u64> {
    let (mut out, mut written) = (vec![0; CSV_MOST], 0);
    // SAFETY: each pointer goes with the length of its slice; the vector is of this call, so nothing overlaps it.
    let number =
        unsafe { elchepur_csv_record(x, amounts.as_ptr(), amounts.len(), out.as_mut_ptr(), out.len(), &mut written) };
    out.truncate(written);
    answered(number, out)
}
