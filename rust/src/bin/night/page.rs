//! A night as a page for people, in one file that needs no other: the totals, the rows without a forecast first, and
//! of every other a picture of its run. It is made from the rows as they are kept, one at a time.

use crate::cylinder;
use crate::list::{self, Entry};
use crate::picture::{self, Picture};
use crate::pipeline;
use crate::row::Row;
use crate::sums::Sums;
use crate::words::Words;
use std::fs::File;
use std::io::{self, BufRead, BufReader, BufWriter, Write};
use std::path::Path;

const PAGE: &str = include_str!("page.html");
// What the totals' words mean, where they don't say it themselves.
const MEANINGS: [(&str, &str); 8] = [
    ("lines", "runs"),
    ("status 0", "arrived at their end"),
    ("status 1", "interrupted"),
    ("status 2", "used up max_steps"),
    ("status 3", "step became too small"),
    ("status 5", "matrices stayed singular"),
    ("status 7", "a reply was not finite"),
    ("total", "attempts begun"),
];
const UNPROVED: &str = "<p class=\"warning\">This night was made by a solver that is not proved.</p>";

/// Writes the page of the rows of a night.
pub fn write(words: &Words, rows: &Path, page: &Path, sums: &Sums) -> Result<(), String> {
    let told = |error: io::Error| format!("{}: {error}", page.display());
    let (head, foot) = PAGE.split_once("@ROWS@").expect("a place for the rows");
    let head = head.replace("@WORDS@", &sums.in_words()).replace("@TOTALS@", &table(&sums.printed()));
    let head = head.replace("@UNPROVED@", if elchepur::IS_PROVED { "" } else { UNPROVED });
    let mut file = BufWriter::new(File::create(page).map_err(told)?);
    file.write_all(head.as_bytes()).map_err(told)?;
    for has_forecast in [false, true] {
        let chosen = pairs(words, rows).map_err(told)?.filter(|pair| !is_other(pair, has_forecast));
        pipeline::in_order(chosen, words.jobs, |pair| pair.map(line), |line| file.write_all(line?.as_bytes()))
            .map_err(told)?;
    }
    file.write_all(foot.as_bytes()).and_then(|()| file.flush()).map_err(told)
}

type Pair = io::Result<(Entry, String)>;

/// Each entry with its row.
fn pairs(words: &Words, rows: &Path) -> io::Result<impl Iterator<Item = Pair> + Send> {
    let rows = BufReader::new(File::open(rows)?).lines();
    Ok(list::entries(&words.source, words.shard)?.zip(rows).map(|(entry, row)| Ok((entry?, row?))))
}

fn is_other(pair: &Pair, has_forecast: bool) -> bool {
    pair.as_ref().is_ok_and(|(_, row)| Row::read(row).is_some_and(|row| row.outcome.is_ok() != has_forecast))
}

/// A row as the page's script reads it: a list of JSON.
fn line((entry, text): (Entry, String)) -> String {
    let Some(row) = Row::read(&text) else { return String::new() };
    let label = entry.cylinder.as_ref().ok().and_then(|cylinder| cylinder.label.as_ref());
    let label = json(label.map_or("", |label| &label.date));
    let outcome = match &row.outcome {
        Ok(amounts) => list_of(amounts.iter().map(|amount| list_of(amount.iter().map(|word| json(word))))),
        Err(why) => json(why),
    };
    let picture = match &row.outcome {
        Ok(amounts) => drawn(&entry, amounts).map_or("null".to_string(), |picture| in_json(&picture)),
        Err(_) => "null".to_string(),
    };
    let day = json(row.day.split(' ').next().unwrap_or(""));
    format!("{}\n", list_of([json(row.name), json(row.status), day, label, outcome, picture]))
}

fn drawn(entry: &Entry, amounts: &[[&str; 3]]) -> Option<Picture> {
    let asked = cylinder::asked(entry.cylinder.as_ref().ok()?).ok()?;
    let last: Option<Vec<u64>> = amounts.iter().map(|[_, _, bits]| u64::from_str_radix(bits, 16).ok()).collect();
    picture::of(&asked, &last?)
}

fn in_json(picture: &Picture) -> String {
    let [start, end] = picture.ends.map(|end| format!("{end:e}"));
    let curves = picture
        .curves
        .iter()
        .map(|(least, most, heights)| list_of([format!("{least:e}"), format!("{most:e}"), json(heights)]));
    list_of([start, end, list_of(curves)])
}

fn list_of(items: impl IntoIterator<Item = String>) -> String {
    format!("[{}]", items.into_iter().collect::<Vec<_>>().join(","))
}

/// A text as JSON has it, without the sign that could end a script.
fn json(text: &str) -> String {
    let mut made = String::from("\"");
    for letter in text.chars() {
        match letter {
            '"' | '\\' => made.extend(['\\', letter]),
            '<' => made.push_str("\\u003c"),
            control if (control as u32) < 32 => made.push_str(&format!("\\u{:04x}", control as u32)),
            other => made.push(other),
        }
    }
    made + "\""
}

/// The totals, a column for each.
fn table(printed: &[u8]) -> String {
    let text = String::from_utf8_lossy(printed);
    let mut rows: Vec<(String, String)> = Vec::new();
    for line in text.lines() {
        let (name, number) = line.rsplit_once(' ').unwrap_or((line, ""));
        let (name, number) = match line.strip_prefix("largest ") {
            Some(numbers) => ("largest ode", numbers.replace("line", "at line")),
            None => (name, number.to_string()),
        };
        match rows.iter_mut().find(|row| row.0 == name) {
            Some(row) => row.1 += &format!("<td>{number}</td>"),
            None => rows.push((name.to_string(), format!("<td>{number}</td>"))),
        }
    }
    rows.iter().map(|(name, cells)| format!("<tr><th>{name}{}</th>{cells}</tr>\n", meaning(name))).collect()
}

fn meaning(name: &str) -> String {
    MEANINGS.iter().find(|row| row.0 == name).map_or(String::new(), |row| format!(", {}", row.1))
}

#[cfg(test)]
mod tests {
    use super::*;

    #[test]
    fn a_text_can_end_neither_itself_nor_the_script() {
        assert_eq!(json("a\"b\\c</script>\t"), "\"a\\\"b\\\\c\\u003c/script>\\u0009\"");
    }

    #[test]
    fn totals_stand_beside_one_another() {
        let printed = b"lines 2\nstatus 0 2\nlargest 80 line 1\nlines 1\nstatus 0 0\nlargest 9 line 1\n";
        let wanted = "<tr><th>lines, runs</th><td>2</td><td>1</td></tr>\n\
                      <tr><th>status 0, arrived at their end</th><td>2</td><td>0</td></tr>\n\
                      <tr><th>largest ode</th><td>80 at line 1</td><td>9 at line 1</td></tr>\n";
        assert_eq!(table(printed), wanted);
    }
}
