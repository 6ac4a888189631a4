//! What becomes of one cylinder. Every number comes from the proved run of a sheet, as `decay` prints it, and every
//! sheet goes through its reader.

use crate::list::{Cylinder, Label};
use crate::readable;
use crate::row::Told;
use elchepur::{decay, Forecast, NoForecast, Sheet};
use std::fs::File;
use std::io::Read;
use std::path::Path;

// As `tools/decay` has it: a longer file is no readable model.
const MOST_BYTES: u64 = 1_048_576;
// No answer of `decay`, but in its place.
const UNREADABLE: &str = "unreadable";
const NOT_RUN: &str = "not run";

/// A sheet that is asked, with the names of its species.
#[derive(Clone, Debug, PartialEq)]
pub struct Asked {
    pub bytes: Vec<u8>,
    names: Vec<String>,
}

/// What stands in the row of a cylinder.
pub fn told(cylinder: &Result<Cylinder, String>) -> Told {
    match cylinder.as_ref().map_err(|why| (NOT_RUN, why.clone())).and_then(asked) {
        Ok(asked) => forecast(&asked),
        Err((status, why)) => Told { status: status.to_string(), day: None, outcome: Err(why) },
    }
}

/// The sheet that is asked: with the label's day as its end where there is a label. Else what stands for an answer, and
/// why.
pub fn asked(cylinder: &Cylinder) -> Result<Asked, (&'static str, String)> {
    let (bytes, names) = sheet(&cylinder.path).map_err(|why| (UNREADABLE, why))?;
    let bytes = match (&cylinder.label, Sheet::read(&bytes)) {
        (Some(label), Ok(model)) => to_label(model, label).map_err(|why| (NOT_RUN, why))?,
        // What is no sheet is refused by `decay`, which tells its line.
        _ => bytes,
    };
    Ok(Asked { bytes, names })
}

/// The bytes of a sheet, and the names of its species where it was a readable model.
fn sheet(path: &Path) -> Result<(Vec<u8>, Vec<String>), String> {
    let mut bytes = Vec::new();
    let read = File::open(path).and_then(|file| file.take(MOST_BYTES + 1).read_to_end(&mut bytes));
    read.map_err(|error| format!("the sheet can't be read: {}", error.kind()))?;
    if !is_readable_model(path, &bytes) {
        return Ok((bytes, Vec::new()));
    }
    if bytes.len() as u64 > MOST_BYTES {
        return Err("the model has more than a megabyte".to_string());
    }
    let (model, names) = readable::read(&bytes).map_err(|why| format!("the model can't be read: {why}"))?;
    Ok((model.write().map_err(|none| none.to_string())?, names))
}

/// As `tools/decay` tells them apart: by the name, or by a line that begins with `x0`.
fn is_readable_model(path: &Path, bytes: &[u8]) -> bool {
    let begins = |line: &[u8]| {
        let line = line.trim_ascii_start();
        line.starts_with(b"x0") && line.get(2).is_some_and(u8::is_ascii_whitespace)
    };
    path.extension().is_some_and(|end| end == "txt") || bytes.split(|byte| *byte == b'\n').any(begins)
}

/// The sheet of a model with the label's day as its end, which has to lie within the sheet's own.
fn to_label(model: Sheet, label: &Label) -> Result<Vec<u8>, String> {
    let (day, start, end) = (label.day as f64, f64::from_bits(model.x0), f64::from_bits(model.xend));
    if day <= start {
        return Err("the label's day is not after the filling".to_string());
    }
    if end < day {
        return Err(format!("the sheet ends on day {end}, before the label's, {day}"));
    }
    Sheet { xend: day.to_bits(), ..model }.write().map_err(|none| none.to_string())
}

fn forecast(asked: &Asked) -> Told {
    let (printed, forecast) = decay(&asked.bytes);
    let text = String::from_utf8_lossy(&printed);
    let status = text.lines().next().unwrap_or("").to_string();
    let day = match &forecast {
        Ok(there) => Some(there.x),
        Err(NoForecast::BrokenOff(broken)) => Some(broken.reached().x),
        Err(_) => None,
    };
    let outcome = forecast.map_err(|none| why(&none)).and_then(|there| believed(asked, there));
    Told { status, day, outcome }
}

/// The amounts by their names, unless they can't be those of a cylinder: each is to be finite, and not below zero by
/// more than the tolerances that its sheet asks for.
fn believed(asked: &Asked, there: Forecast) -> Result<Vec<(String, f64)>, String> {
    let model = Sheet::read(&asked.bytes).map_err(|none| none.to_string())?;
    let largest = model.amounts.iter().fold(0.0, |most: f64, amount| most.max(f64::from_bits(*amount)));
    let least = -(f64::from_bits(model.atol) + f64::from_bits(model.rtol) * largest);
    let name = |place: usize| asked.names.get(place).cloned().unwrap_or_else(|| format!("s{}", place + 1));
    let amounts = there.y.into_iter().enumerate().map(|(place, amount)| match amount.is_finite() && amount >= least {
        true => Ok((name(place), amount)),
        false => Err(format!("finished, but with {amount:?} of {}: the model or its unit is wrong", name(place))),
    });
    amounts.collect()
}

/// Why a sheet has no forecast. The program `why` of 02 will say it in place of this function.
fn why(none: &NoForecast) -> String {
    match none {
        NoForecast::BrokenOff(run) => format!("broken off on day {:.1}: {}", run.reached().x, run.status()),
        other => other.to_string(),
    }
}
