//! Where the rows of a night go: standard output, or a file that a later night goes on with.

use crate::list::Entries;
use crate::row::Row;
use std::fs::{File, OpenOptions};
use std::io::{self, BufRead, BufReader, Seek, SeekFrom, Write};
use std::path::Path;

pub enum Rows {
    Shown(io::Stdout),
    Kept(File),
}

impl Rows {
    /// A row goes out whole, by one write, so that a night that is ended leaves whole rows.
    pub fn write(&mut self, row: &str) -> io::Result<()> {
        match self {
            Rows::Kept(file) => file.write_all(row.as_bytes()),
            Rows::Shown(out) => out.write_all(row.as_bytes()).and_then(|()| out.flush()),
        }
    }
}

/// A new file for rows; one that is there may hold a night's work, and isn't touched.
pub fn new(path: &Path) -> Result<Rows, String> {
    let file = OpenOptions::new().write(true).create_new(true).open(path);
    file.map(Rows::Kept).map_err(|error| format!("{}: {error}; with --resume it is gone on with", path.display()))
}

/// The file of an earlier night, or a new one. Each whole row in it is that of the next entry, and goes to `take`; a
/// row that is torn off is taken out of it.
pub fn resumed(path: &Path, entries: &mut Entries, mut take: impl FnMut(&Row)) -> Result<Rows, String> {
    let told = |words: &dyn std::fmt::Display| format!("{}: {words}", path.display());
    let mut file = OpenOptions::new().read(true).write(true).create(true).truncate(false).open(path);
    let file = file.as_mut().map_err(|error| told(error))?;
    let (mut reader, mut whole, mut line) = (BufReader::new(&*file), 0, Vec::new());
    loop {
        line.clear();
        let count = reader.read_until(b'\n', &mut line).map_err(|error| told(&error))?;
        let Some(text) = line.strip_suffix(b"\n") else { break };
        let text = String::from_utf8_lossy(text);
        let row = Row::read(&text).ok_or_else(|| told(&format!("this is no row: {text}")))?;
        let entry = entries.next().transpose().map_err(|error| told(&error))?;
        if entry.is_none_or(|entry| (entry.place, &*entry.name) != (row.place, row.name)) {
            return Err(told(&format!("the row {} of {} is of another list or shard", row.place, row.name)));
        }
        take(&row);
        whole += count as u64;
    }
    file.set_len(whole).and_then(|()| file.seek(SeekFrom::Start(whole))).map_err(|error| told(&error))?;
    file.try_clone().map(Rows::Kept).map_err(|error| told(&error))
}
