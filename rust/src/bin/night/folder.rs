//! The sheets and readable models of a folder in the order of their names, with room for so many names at a time.

use std::collections::BinaryHeap;
use std::ffi::{OsStr, OsString};
use std::io;
use std::path::{Path, PathBuf};

// Names that are held at a time: a folder of a million is read 16 times.
const HELD: usize = 65_536;

/// The names, each once.
pub struct Names {
    folder: PathBuf,
    most: usize,
    last: Option<OsString>,
    held: std::vec::IntoIter<OsString>,
}

impl Names {
    pub fn of(folder: &Path) -> Names {
        Names { folder: folder.to_path_buf(), most: HELD, last: None, held: Vec::new().into_iter() }
    }

    /// The first names behind the last that was given.
    fn following(&self) -> io::Result<Vec<OsString>> {
        let mut first = BinaryHeap::new();
        for file in std::fs::read_dir(&self.folder)? {
            let name = file?.file_name();
            if is_model(&name) && self.last.as_ref().is_none_or(|last| name > *last) {
                first.push(name);
            }
            if first.len() > self.most {
                first.pop();
            }
        }
        Ok(first.into_sorted_vec())
    }
}

fn is_model(name: &OsStr) -> bool {
    Path::new(name).extension().is_some_and(|end| end == "sheet" || end == "txt")
}

impl Iterator for Names {
    type Item = io::Result<OsString>;

    fn next(&mut self) -> Option<io::Result<OsString>> {
        if self.held.len() == 0 {
            match self.following() {
                Ok(names) => self.held = names.into_iter(),
                Err(error) => return Some(Err(error)),
            }
        }
        let name = self.held.next()?;
        self.last = Some(name.clone());
        Some(Ok(name))
    }
}

#[cfg(test)]
mod tests {
    use super::*;

    #[test]
    fn names_come_in_order_whatever_is_held() {
        let folder = std::env::temp_dir().join(format!("night-names-{}", std::process::id()));
        std::fs::create_dir_all(&folder).expect("room for a folder");
        let files = ["b.sheet", "a.txt", "c", "a.sheet", "e.sheet", "d.txt", "README.md", "sheet"];
        files.iter().for_each(|name| std::fs::write(folder.join(name), "").expect("room for a file"));
        for most in [1, 2, 3, 100] {
            let names = Names { most, ..Names::of(&folder) };
            let names: Vec<OsString> = names.collect::<io::Result<_>>().expect("a folder");
            assert_eq!(names, ["a.sheet", "a.txt", "b.sheet", "d.txt", "e.sheet"]);
        }
        std::fs::remove_dir_all(&folder).expect("a folder to remove");
    }
}
