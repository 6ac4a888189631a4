//! The cylinders of a night, one after the other: those of a list, or every sheet and readable model of a folder.
//!
//! A line of a list is a sheet, or a name and a sheet, or a name, a sheet, the day of the filling and the day on the
//! label, with spaces between; a sheet's path goes from the list's folder. What stands behind a `#` is not read.

use crate::dates::day_of;
use crate::folder::Names;
use std::fs::File;
use std::io::{self, BufRead, BufReader, Read};
use std::path::{Path, PathBuf};

// A longer line of a list is none.
const LONGEST: u64 = 65_536;
// So much of it stands in its row.
const NAMED: usize = 40;

/// What is asked of one cylinder.
#[derive(Clone, Debug, PartialEq)]
pub struct Cylinder {
    pub path: PathBuf,
    pub label: Option<Label>,
}

/// The day on a label, as it is written and counted from the filling.
#[derive(Clone, Debug, PartialEq)]
pub struct Label {
    pub date: String,
    pub day: i64,
}

/// A line of a list, or a file of a folder: its place from 1, its name, and a cylinder, or in words why it is none.
#[derive(Clone, Debug, PartialEq)]
pub struct Entry {
    pub place: u64,
    pub name: String,
    pub cylinder: Result<Cylinder, String>,
}

/// Every N-th entry from the K-th on; all of them are the shard 1/1.
#[derive(Clone, Copy, Debug, PartialEq)]
pub struct Shard {
    pub first: u64,
    pub of: u64,
}

impl Shard {
    fn has(&self, place: u64) -> bool {
        place % self.of == self.first % self.of
    }
}

pub type Entries = Box<dyn Iterator<Item = io::Result<Entry>> + Send>;

/// The entries of a list or a folder that belong to a shard.
pub fn entries(source: &Path, shard: Shard) -> io::Result<Entries> {
    let all: Entries = if source.is_dir() {
        Box::new(of_folder(source))
    } else {
        Box::new(of_list(BufReader::new(File::open(source)?), source.parent().unwrap_or(Path::new(""))))
    };
    Ok(Box::new(all.filter(move |entry| !entry.as_ref().is_ok_and(|entry| !shard.has(entry.place)))))
}

fn of_folder(folder: &Path) -> impl Iterator<Item = io::Result<Entry>> {
    let path = folder.to_path_buf();
    Names::of(folder).zip(1..).map(move |(name, place)| {
        let name = name?;
        let cylinder = Cylinder { path: path.join(&name), label: None };
        Ok(Entry { place, name: shown(&name.to_string_lossy()), cylinder: Ok(cylinder) })
    })
}

fn of_list(mut list: impl BufRead, folder: &Path) -> impl Iterator<Item = io::Result<Entry>> {
    let (folder, mut number, mut place) = (folder.to_path_buf(), 0, 0);
    std::iter::from_fn(move || loop {
        let (line, is_whole) = match line(&mut list) {
            Ok(line) => line?,
            Err(error) => return Some(Err(error)),
        };
        number += 1;
        let words: Vec<&str> = line.split('#').next().unwrap_or("").split_whitespace().collect();
        let Some(name) = words.first() else { continue };
        place += 1;
        let cylinder = if is_whole { cylinder(&words, &folder) } else { Err("it is too long".to_string()) };
        let cylinder = cylinder.map_err(|why| format!("line {number} of the list: {why}"));
        return Some(Ok(Entry { place, name: shown(name), cylinder }));
    })
}

/// The next line, and whether it is whole; the rest of one that is too long is passed over.
fn line(list: &mut impl BufRead) -> io::Result<Option<(String, bool)>> {
    let mut bytes = Vec::new();
    if list.take(LONGEST).read_until(b'\n', &mut bytes)? == 0 {
        return Ok(None);
    }
    let is_whole = bytes.ends_with(b"\n") || (bytes.len() as u64) < LONGEST;
    let mut rest = Vec::new();
    while !is_whole && list.take(LONGEST).read_until(b'\n', &mut rest)? > 0 && !rest.ends_with(b"\n") {
        rest.clear();
    }
    bytes.truncate(if is_whole { bytes.len() } else { NAMED });
    Ok(Some((String::from_utf8_lossy(&bytes).into(), is_whole)))
}

fn cylinder(words: &[&str], folder: &Path) -> Result<Cylinder, String> {
    let (sheet, dates) = match words {
        [sheet] | [_, sheet] => (sheet, None),
        [_, sheet, filled, label] => (sheet, Some((filled, label))),
        _ => return Err(format!("{} words, and not a name, a sheet, the filling's day and the label's", words.len())),
    };
    let label = dates.map(|(filled, label)| {
        Ok::<Label, String>(Label { date: label.to_string(), day: day_of(label)? - day_of(filled)? })
    });
    Ok(Cylinder { path: folder.join(sheet), label: label.transpose()? })
}

/// A name as a row can have it.
fn shown(name: &str) -> String {
    name.chars().map(|letter| if letter.is_control() { '?' } else { letter }).collect()
}

/// How many entries a shard has, where that can be known before the work.
pub fn count(source: &Path, shard: Shard) -> Option<u64> {
    let is_there = std::fs::metadata(source).is_ok_and(|about| about.is_dir() || about.is_file());
    is_there.then(|| entries(source, shard).map(|entries| entries.take_while(io::Result::is_ok).count() as u64).ok())?
}

#[cfg(test)]
mod tests {
    use super::*;

    fn read(list: &[u8]) -> Vec<Entry> {
        of_list(list, Path::new("shelf")).collect::<io::Result<_>>().expect("a list")
    }

    fn path_of(entry: &Entry) -> &Path {
        &entry.cylinder.as_ref().expect("a cylinder").path
    }

    #[test]
    fn a_line_has_one_two_or_four_words() {
        let found = read(b"a.sheet # the first\n\n  # nothing\nB b.sheet\nC c.txt 2026-01-01 2026-12-31\n/d.sheet");
        let names: Vec<(u64, &str)> = found.iter().map(|entry| (entry.place, &*entry.name)).collect();
        assert_eq!(names, [(1, "a.sheet"), (2, "B"), (3, "C"), (4, "/d.sheet")]);
        let paths: Vec<&Path> = found.iter().map(path_of).collect();
        assert_eq!(paths, ["shelf/a.sheet", "shelf/b.sheet", "shelf/c.txt", "/d.sheet"].map(Path::new));
        let label = found[2].cylinder.as_ref().unwrap().label.clone();
        assert_eq!(label, Some(Label { date: "2026-12-31".to_string(), day: 364 }));
        assert_eq!(found[1].cylinder.as_ref().unwrap().label, None);
    }

    #[test]
    fn a_bad_line_costs_itself_alone() {
        let long = format!("{} x\nZ z.sheet\n", "a".repeat(200_000));
        let list = [b"A a b\n\xff\xff \xff 2 3\nD d 2026-02-31 2026-03-01\n", long.as_bytes()].concat();
        let found = read(&list);
        let words: Vec<String> = found.iter().filter_map(|entry| entry.cylinder.clone().err()).collect();
        let three = "3 words, and not a name, a sheet, the filling's day and the label's";
        assert_eq!(words[0], format!("line 1 of the list: {three}"));
        assert_eq!(words[1], "line 2 of the list: 3 is no date");
        assert_eq!(words[2], "line 3 of the list: 2026-02-31 is no date");
        assert_eq!((&*found[3].name, &*words[3]), (&*"a".repeat(40), "line 4 of the list: it is too long"));
        assert_eq!((words.len(), found.len(), path_of(&found[4])), (4, 5, Path::new("shelf/z.sheet")));
    }

    #[test]
    fn a_line_of_just_the_longest_is_whole() {
        let list = format!("{}\nZ z.sheet\n", "a".repeat(LONGEST as usize - 1));
        assert_eq!(read(list.as_bytes()).len(), 2);
        assert_eq!(path_of(&read(list.as_bytes())[1]), Path::new("shelf/z.sheet"));
    }

    #[test]
    fn shards_have_every_entry_once() {
        let has = |first, of| (1..=10).filter(|place| Shard { first, of }.has(*place)).collect::<Vec<u64>>();
        assert_eq!((has(1, 3), has(2, 3), has(3, 3)), (vec![1, 4, 7, 10], vec![2, 5, 8], vec![3, 6, 9]));
        assert_eq!(has(1, 1).len(), 10);
    }

    #[test]
    fn a_row_stays_one_line() {
        assert_eq!(shown("a\tb\nc\u{7f}ä"), "a?b?c?ä");
    }
}
