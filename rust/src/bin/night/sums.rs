//! What a night comes to: the totals of its status lines by the proved code, and how many cylinders have a forecast.

use crate::row::Row;
use elchepur::Night;

// Totals have no more lines, by request [12]; a night of more has several totals, one after the other.
const MOST_LINES: u64 = 65_535;

pub struct Sums {
    most: u64,
    ended: Vec<u8>,
    night: Night,
    lines: u64,
    pub rows: u64,
    pub forecasts: u64,
}

impl Sums {
    pub fn new() -> Sums {
        Sums { most: MOST_LINES, ended: Vec::new(), night: Night::new(), lines: 0, rows: 0, forecasts: 0 }
    }

    /// Takes a row in. The totals are of the rows that have a status line: what was refused or not read has none.
    pub fn take(&mut self, row: &Row) {
        self.rows += 1;
        self.forecasts += u64::from(row.outcome.is_ok());
        if !row.status.starts_with("status ") {
            return;
        }
        if self.lines == self.most {
            self.ended.extend(self.night.printed());
            (self.night, self.lines) = (Night::new(), 0);
        }
        self.night.feed(row.status.as_bytes());
        self.night.feed(b"\n");
        self.lines += 1;
    }

    /// The totals as the program `totals` prints them.
    pub fn printed(&self) -> Vec<u8> {
        [&self.ended[..], &self.night.printed()].concat()
    }

    pub fn in_words(&self) -> String {
        let Sums { rows, forecasts, .. } = self;
        format!("{rows} cylinders, {forecasts} with a forecast, {} without", rows - forecasts)
    }
}

#[cfg(test)]
mod tests {
    use super::*;

    fn summed(most: u64, statuses: &[&str]) -> Sums {
        let mut sums = Sums { most, ..Sums::new() };
        for status in statuses {
            let outcome = if status.starts_with("status 0 ") { Ok(vec![]) } else { Err("why") };
            sums.take(&Row { place: 1, name: "A", status, day: "-", outcome });
        }
        sums
    }

    const LINES: [&str; 5] = [
        "status 0 accepted 1 rejected 0 total 1 ode 7 jac 1 lu 2",
        "refused 4",
        "status 2 accepted 3 rejected 0 total 4 ode 9 jac 1 lu 2",
        "unreadable",
        "status 0 accepted 5 rejected 0 total 5 ode 8 jac 1 lu 2",
    ];

    #[test]
    fn status_lines_alone_are_summed() {
        let sums = summed(3, &LINES);
        let lines: Vec<&str> = LINES.iter().copied().filter(|line| line.starts_with("status")).collect();
        let mut night = Night::new();
        lines.iter().for_each(|line| night.feed(format!("{line}\n").as_bytes()));
        assert_eq!(sums.printed(), night.printed());
        assert_eq!(night.totals().map(|totals| (totals.lines, totals.largest, totals.place)), Ok((3, 9, 2)));
        assert_eq!(sums.in_words(), "5 cylinders, 2 with a forecast, 3 without");
    }

    #[test]
    fn more_lines_have_several_totals() {
        let (both, first, second) = (summed(2, &LINES), summed(2, &LINES[..4]), summed(2, &LINES[4..]));
        assert_eq!(both.printed(), [first.printed(), second.printed()].concat());
        assert_eq!(summed(3, &LINES[..0]).printed(), Night::new().printed());
    }

    #[test]
    fn a_line_more_than_totals_have_begins_new_ones() {
        let mut sums = Sums::new();
        let row = Row { place: 1, name: "A", status: LINES[0], day: "-", outcome: Ok(vec![]) };
        (0..MOST_LINES + 1).for_each(|_| sums.take(&row));
        let text = String::from_utf8(sums.printed()).expect("a text");
        let lines: Vec<&str> = text.lines().filter(|line| line.starts_with("lines ")).collect();
        assert_eq!(lines, ["lines 65535", "lines 1"]);
        assert!(!text.contains("refused"), "{text}");
    }
}
