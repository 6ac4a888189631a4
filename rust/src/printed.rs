//! What `decay` prints of a sheet, read strictly: whatever is read is printed again, and has to be the same bytes.

use crate::error::Reached;
use crate::forecast::{BrokenOffSheet, Forecast, NoForecast};
use crate::numbers::{MOST, STATUS_SUCCESS};
use crate::outcome::{Evals, Steps, Strides};
use crate::refused::Refused;
use crate::status::Status;

const MALFORMED: u64 = 20;
const TOO_LONG: u64 = 21;
// The words before the numbers of the first line.
const COUNTS: [&str; 7] = ["status", "accepted", "rejected", "total", "ode", "jac", "lu"];

/// The forecast that was printed.
pub(crate) fn read(printed: &[u8]) -> Result<Forecast, NoForecast> {
    let text = String::from_utf8_lossy(printed);
    ended(&text).or_else(|| refused(&text).map(Err)).unwrap_or_else(|| Err(NoForecast::Unknown { told: text.into() }))
}

/// The text of a sheet that was refused.
fn refused(text: &str) -> Option<NoForecast> {
    let mut words = text.strip_prefix("refused ")?.split_whitespace();
    let (number, line) = (words.next()?.parse().ok()?, words.next().map(str::parse).transpose().ok()?);
    let (refusal, again) = match (number, line) {
        (MALFORMED, Some(line)) => (NoForecast::Malformed { line }, format!("refused {MALFORMED} {line}\n")),
        (TOO_LONG, None) => (NoForecast::TooLong, format!("refused {TOO_LONG}\n")),
        (number, None) => (NoForecast::Refused(Refused::of(number)?), format!("refused {number}\n")),
        _ => return None,
    };
    (again == text).then_some(refusal)
}

/// The text of a run: its status with the six counts, the point reached, the amounts there, and the two strides.
fn ended(text: &str) -> Option<Result<Forecast, NoForecast>> {
    let mut lines = text.lines();
    let counts: Vec<u64> = lines.next()?.split(' ').skip(1).step_by(2).map_while(|word| word.parse().ok()).collect();
    let [status, accepted, rejected, total, ode, jac, lu] = counts[..] else { return None };
    let [x] = floats(lines.next()?)[..] else { return None };
    let y = floats(lines.next()?);
    let [smallest, largest] = floats(lines.next()?)[..] else { return None };
    let told: Vec<String> = COUNTS.iter().zip(&counts).map(|(word, count)| format!("{word} {count}")).collect();
    let ends = digits(&[smallest, largest]);
    let again = format!("{}\nx{}\ny{}\nh{ends}\n", told.join(" "), digits(&[x]), digits(&y));
    if again != text || !(1..=MOST).contains(&y.len()) {
        return None;
    }
    let strides = Strides { smallest, largest };
    let (evals, steps) =
        (Evals { ode: whole(ode)?, jac: whole(jac)?, lu: whole(lu)? }, steps(accepted, rejected, total)?);
    if status == STATUS_SUCCESS {
        return Some(Ok(Forecast { x, y, evals, steps, strides }));
    }
    let (status, reached) = (Status::of(status)?, Reached { x, y });
    Some(Err(NoForecast::BrokenOff(BrokenOffSheet { status, reached, evals, steps, strides })))
}

fn whole(count: u64) -> Option<usize> {
    usize::try_from(count).ok()
}

fn steps(accepted: u64, rejected: u64, total: u64) -> Option<Steps> {
    Some(Steps { total: whole(total)?, accepted: whole(accepted)?, rejected: whole(rejected)? })
}

/// The doubles behind a line's first word, by their bits.
fn floats(line: &str) -> Vec<f64> {
    let words = line.split(' ').skip(1);
    words.map_while(|word| u64::from_str_radix(word, 16).ok()).map(f64::from_bits).collect()
}

fn digits(floats: &[f64]) -> String {
    floats.iter().map(|float| format!(" {:016x}", float.to_bits())).collect()
}

#[cfg(test)]
mod tests {
    use super::*;

    const ENDED: &str = "status 2 accepted 20 rejected 0 total 21 ode 96 jac 15 lu 57\n\
                         x 3ffd31cd9d2d5b6e\ny 40230631e05c6177 7ff8000000000000\n\
                         h 3f50000000000000 3fd0000000000000\n";

    fn is_unknown(printed: &[u8]) -> bool {
        matches!(read(printed), Err(NoForecast::Unknown { .. }))
    }

    #[test]
    fn a_broken_off_run_has_its_amounts_only_where_it_broke_off() {
        let Err(NoForecast::BrokenOff(broken)) = read(ENDED.as_bytes()) else { panic!() };
        assert_eq!((broken.status(), broken.steps().total, broken.evals().lu), (Status::NeedLargerNMax, 21, 57));
        assert_eq!(broken.reached().y[0].to_bits(), 0x40230631e05c6177);
        assert_eq!(broken.strides(), Strides { smallest: 1.0 / 1024.0, largest: 0.25 });
        assert!(read(ENDED.replace("status 2", "status 0").as_bytes()).is_ok());
    }

    #[test]
    fn every_text_has_its_one_reading() {
        assert_eq!(read(b"refused 20 7\n"), Err(NoForecast::Malformed { line: 7 }));
        assert_eq!(read(b"refused 21\n"), Err(NoForecast::TooLong));
        assert_eq!(read(b"refused 4\n"), Err(NoForecast::Refused(Refused::MaxSteps)));
        for text in [
            "",
            "refused",
            "refused 4",
            "refused 04\n",
            "refused 4 \n",
            "refused +4\n",
            "refused 4\n\n",
            "refused 13\n",
            "refused 20\n",
            "refused 4 7\n",
            "refused 20 07\n",
            "refused 20 7 7\n",
            "refused 21 1\n",
            "Refused 4\n",
        ] {
            assert!(is_unknown(text.as_bytes()), "{text:?}");
        }
    }

    #[test]
    fn nothing_else_is_read_as_a_run() {
        for (old, new) in [
            ("status 2", "status 1"),
            ("status 2", "status 4"),
            ("status 2", "status 7"),
            ("status 2", "status 02"),
            ("accepted", "Accepted"),
            ("20 rejected", "20  rejected"),
            ("lu 57", "lu 57 "),
            ("lu 57", "lu +57"),
            ("lu 57", "lu"),
            ("lu 57", "lu 18446744073709551616"),
            ("d2d5b6e", "D2D5B6E"),
            ("x 3ffd", "x 3ff"),
            ("x 3", "x 3ff0000000000000 3"),
            ("\ny ", "\r\ny "),
            ("y 4", "y  4"),
            ("7ff8", "7ff"),
            ("0000\nh", "0000h"),
            ("0000\nh", "0000 \nh"),
            ("3fd0000000000000\n", "3fd0000000000000"),
            ("3fd0000000000000\n", "3fd0000000000000 \n"),
            ("3fd0000000000000\n", "3fd0000000000000\nh 3fd0000000000000 3fd0000000000000\n"),
            ("\nh 3f50000000000000 3fd0000000000000", ""),
            (" 3fd0000000000000", ""),
            ("3fd0", "3fd"),
            ("h 3", "h  3"),
            ("y 4", "h 4"),
            ("h 3", "y 3"),
        ] {
            assert!(ENDED.contains(old) && is_unknown(ENDED.replacen(old, new, 1).as_bytes()), "{old:?} {new:?}");
        }
        let (before, after) = (ENDED.split("\ny").next().unwrap(), ENDED.split("\nh").last().unwrap());
        let amounts = |count: usize| format!("{before}\ny{}\nh{after}", digits(&vec![1.0; count]));
        assert!(
            is_unknown(amounts(0).as_bytes())
                && is_unknown(amounts(33).as_bytes())
                && !is_unknown(amounts(32).as_bytes())
        );
    }

    #[test]
    fn a_byte_that_goes_or_comes_is_seen() {
        for place in 0..ENDED.len() {
            let (before, after) = ENDED.as_bytes().split_at(place);
            assert!(is_unknown(&[before, &after[1..]].concat()) || after[0].is_ascii_digit(), "{place}");
            assert!(is_unknown(&[before, b"\xff", after].concat()), "{place}");
            assert!(is_unknown(&[before, b" ", after].concat()), "{place}");
        }
    }
}
