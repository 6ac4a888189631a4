//! The words that the program is called with.

use crate::list::Shard;
use std::ffi::OsString;
use std::path::PathBuf;

/// What is asked of a night.
#[derive(Debug, PartialEq)]
pub struct Words {
    pub source: PathBuf,
    pub shard: Shard,
    pub jobs: usize,
    pub rows: Option<PathBuf>,
    pub resume: bool,
    pub html: Option<PathBuf>,
}

const WHOLE: Shard = Shard { first: 1, of: 1 };
const MOST_JOBS: usize = 1024;

/// What the words ask for, or what is wrong with them.
pub fn read(given: impl IntoIterator<Item = OsString>) -> Result<Words, String> {
    let mut given = given.into_iter();
    let mut words = Words { source: PathBuf::new(), shard: WHOLE, jobs: 1, rows: None, resume: false, html: None };
    while let Some(word) = given.next() {
        let mut value = || given.next().ok_or(format!("{} takes a word", word.to_string_lossy()));
        match word.to_str() {
            Some("--shard") => words.shard = shard(&value()?)?,
            Some("--jobs") => words.jobs = jobs(&value()?)?,
            Some("--rows") => words.rows = Some(value()?.into()),
            Some("--html") => words.html = Some(value()?.into()),
            Some("--resume") => words.resume = true,
            Some(other) if other.starts_with('-') => return Err(format!("it takes no word {other}")),
            _ if !words.source.as_os_str().is_empty() => return Err("it takes one list or folder".to_string()),
            _ => words.source = word.into(),
        }
    }
    if words.source.as_os_str().is_empty() {
        return Err("which list or folder?".to_string());
    }
    if words.rows.is_none() && (words.resume || words.html.is_some()) {
        return Err("--resume and --html need --rows".to_string());
    }
    Ok(words)
}

fn shard(word: &OsString) -> Result<Shard, String> {
    let found = word.to_str().and_then(|word| word.split_once('/'));
    let shard = found.and_then(|(first, of)| Some(Shard { first: first.parse().ok()?, of: of.parse().ok()? }));
    let shard = shard.filter(|shard| (1..=shard.of).contains(&shard.first));
    shard.ok_or(format!("{} is no shard as 3/8", word.to_string_lossy()))
}

fn jobs(word: &OsString) -> Result<usize, String> {
    let jobs = word.to_str().and_then(|word| word.parse().ok()).filter(|jobs| (1..=MOST_JOBS).contains(jobs));
    jobs.ok_or(format!("{} is no number of jobs, 1 to {MOST_JOBS}", word.to_string_lossy()))
}

#[cfg(test)]
mod tests {
    use super::*;

    fn given(words: &str) -> Result<Words, String> {
        read(words.split_whitespace().map(OsString::from))
    }

    #[test]
    fn words_come_in_any_order() {
        let all = "--jobs 4 list.txt --shard 3/8 --rows r.tsv --resume --html p.html";
        let found = given(all).expect("words that are right");
        assert_eq!((found.jobs, found.shard, found.resume), (4, Shard { first: 3, of: 8 }, true));
        assert_eq!(found.rows.zip(found.html), Some(("r.tsv".into(), "p.html".into())));
        assert_eq!(given("list.txt").expect("a list alone").shard, WHOLE);
    }

    #[test]
    fn wrong_words_are_told() {
        for words in [
            "",
            "a b",
            "--shard a",
            "--shard 0/3 a",
            "--shard 4/3 a",
            "--shard 3 a",
            "--shard 1/0 a",
            "--shard -1/3 a",
            "--jobs 0 a",
            "--jobs two a",
            "--jobs 1025 a",
            "--jobs",
            "--resume a",
            "--html p a",
            "--no-such-word a",
            "--rows",
        ] {
            assert!(given(words).is_err(), "{words}");
        }
    }
}
