//! A row of a night: one line, its fields with a tab between. They are the place in the list, the name, the first line
//! of what `decay` prints (or `unreadable`, or `not run`), the day reached, and then either each amount by its name, in
//! decimals and as its bits, or `no forecast: ` and why.

/// What became of a cylinder.
#[derive(Clone, Debug, PartialEq)]
pub struct Told {
    /// The first line of an answer of `decay`, or what stands for one.
    pub status: String,
    pub day: Option<f64>,
    pub outcome: Result<Vec<(String, f64)>, String>,
}

const NO_FORECAST: &str = "no forecast: ";
const NO_DAY: &str = "-";

fn float(x: f64) -> String {
    format!("{x:?} {:016x}", x.to_bits())
}

/// A row with the LF that ends it.
pub fn written(place: u64, name: &str, told: &Told) -> String {
    let day = told.day.map_or(NO_DAY.to_string(), float);
    let rest = match &told.outcome {
        Ok(amounts) => {
            amounts.iter().map(|(name, amount)| format!("{name} {}", float(*amount))).collect::<Vec<_>>().join("\t")
        }
        Err(why) => format!("{NO_FORECAST}{}", one_line(why)),
    };
    format!("{place}\t{name}\t{}\t{day}\t{rest}\n", one_line(&told.status))
}

fn one_line(words: &str) -> String {
    words.chars().map(|letter| if letter.is_control() { ' ' } else { letter }).collect()
}

/// A row that was read, without its LF.
#[derive(Clone, Debug, PartialEq)]
pub struct Row<'a> {
    pub place: u64,
    pub name: &'a str,
    pub status: &'a str,
    pub day: &'a str,
    /// The amounts, each as name, decimals and bits, or why there are none.
    pub outcome: Result<Vec<[&'a str; 3]>, &'a str>,
}

impl<'a> Row<'a> {
    /// A line's row; none where it isn't one.
    pub fn read(line: &'a str) -> Option<Row<'a>> {
        let fields: Vec<&str> = line.split('\t').collect();
        let [place, name, status, day, rest @ ..] = &fields[..] else { return None };
        let outcome = match rest {
            [] => return None,
            [why] if why.starts_with(NO_FORECAST) => Err(&why[NO_FORECAST.len()..]),
            amounts => Ok(amounts.iter().map(|amount| amount_of(amount)).collect::<Option<_>>()?),
        };
        Some(Row { place: place.parse().ok()?, name, status, day, outcome })
    }
}

fn amount_of(field: &str) -> Option<[&str; 3]> {
    field.split(' ').collect::<Vec<_>>().try_into().ok()
}

#[cfg(test)]
mod tests {
    use super::*;

    fn told(outcome: Result<Vec<(String, f64)>, String>) -> Told {
        Told { status: "status 0 accepted 1".to_string(), day: Some(730.0), outcome }
    }

    #[test]
    fn a_row_is_read_as_it_was_written() {
        let amounts = vec![("NO".to_string(), 9.5), ("no".to_string(), f64::NAN)];
        let line = written(7, "A-1", &told(Ok(amounts)));
        let nan = format!("no NaN {:016x}", f64::NAN.to_bits());
        let start = "7\tA-1\tstatus 0 accepted 1\t730.0 4086d00000000000\tNO 9.5 4023000000000000\t";
        assert_eq!(line, format!("{start}{nan}\n"));
        let row = Row::read(line.trim_end()).expect("a row");
        assert_eq!((row.place, row.name, row.day), (7, "A-1", "730.0 4086d00000000000"));
        assert_eq!(row.outcome.expect("amounts")[0], ["NO", "9.5", "4023000000000000"]);
    }

    #[test]
    fn a_reason_stays_in_its_row() {
        let line = written(7, "A-1", &Told { day: None, ..told(Err("lost\tat\nsea".to_string())) });
        assert_eq!(line, "7\tA-1\tstatus 0 accepted 1\t-\tno forecast: lost at sea\n");
        assert_eq!(Row::read(line.trim_end()).expect("a row").outcome, Err("lost at sea"));
    }

    #[test]
    fn what_is_no_row_is_told() {
        for line in ["", "7\tA-1", "7\tA-1\tstatus\t-", "x\tA\ts\t-\tno forecast: y", "7\tA\ts\t-\tNO 9.5"] {
            assert_eq!(Row::read(line), None, "{line}");
        }
    }
}
