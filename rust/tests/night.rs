//! The program `night`: its rows of the stored list are the stored ones, no number stands where `decay` gives none, one
//! bad sheet costs one row, threads and shards change nothing, a night that was ended is gone on with, and the exit
//! status says whether all have a forecast.

mod shared;

use shared::{bytes, file, folder, fresh};
use std::fs::{read_to_string, write};
use std::io::{BufRead, BufReader};
use std::path::{Path, PathBuf};
use std::process::{Child, Command, Output, Stdio};

const LIST: &str = "rust/tests/night/shelf.list";
const ROWS: &str = "rust/tests/night/rows.tsv";
const NITRIC_OXIDE: &str = "cylinders/nitric_oxide.sheet";

fn command() -> Command {
    Command::new(env!("CARGO_BIN_EXE_night"))
}

fn ran(words: &[&str]) -> Output {
    command().args(words).output().expect("the program night")
}

fn text(bytes: &[u8]) -> String {
    String::from_utf8(bytes.to_vec()).expect("a text")
}

fn path(path: &Path) -> &str {
    path.to_str().expect("a path that is a text")
}

/// A new folder with these files.
fn shelf(files: &[(&str, &[u8])]) -> PathBuf {
    let folder = fresh("shelf");
    files.iter().for_each(|(name, data)| write(folder.join(name), data).expect("room for a file"));
    folder
}

/// The rows of what was printed, without the totals and the word of an unproved solver.
fn rows(printed: &[u8]) -> Vec<String> {
    text(printed).lines().filter(|line| line.contains('\t')).map(str::to_string).collect()
}

/// The one row of a sheet with these bytes, from the status line on.
fn row_of(sheet: &[u8]) -> String {
    let folder = shelf(&[("a.sheet", sheet)]);
    let found = rows(&ran(&[path(&folder)]).stdout);
    assert_eq!(found.len(), 1);
    found[0].strip_prefix("1\ta.sheet\t").expect("the row of the sheet").to_string()
}

/// The sheet with one line replaced, counted from 1.
fn with_line(number: usize, line: &str) -> Vec<u8> {
    let sheet = file(NITRIC_OXIDE);
    let mut lines: Vec<&str> = sheet.split('\n').collect();
    lines[number - 1] = line;
    lines.join("\n").into_bytes()
}

/// Twelve sheets in a folder, some of which have no forecast.
fn dozen() -> PathBuf {
    let names = ["nitric_oxide", "robertson", "broken_off", "closed_chain"];
    let folder = fresh("dozen");
    for k in 0..12 {
        let sheet = bytes(&format!("cylinders/{}.sheet", names[k % names.len()]));
        write(folder.join(format!("{k:02}.sheet")), sheet).expect("room for a sheet");
    }
    folder
}

#[test]
fn the_rows_are_the_stored_ones() {
    let list = folder().join(LIST);
    assert_eq!(rows(&ran(&[path(&list)]).stdout), file(ROWS).lines().collect::<Vec<_>>());
}

#[test]
fn what_decay_refuses_has_no_number() {
    let sheet = file(NITRIC_OXIDE);
    let refused =
        |line: usize| format!("refused 20 {line}\t-\tno forecast: refused (20): line {line} is not as a sheet has it");
    let long = "refused 21\t-\tno forecast: refused (21): the sheet is longer than 4,096 bytes".to_string();
    for (wanted, sheet) in [
        (refused(7), with_line(7, "7")),
        (refused(17), [sheet.as_bytes(), b"0\n"].concat()),
        (refused(9), with_line(9, "402400000000000A")),
        (refused(1), sheet.replace('\n', " ").into_bytes()),
        (refused(16), sheet.trim_end().as_bytes().to_vec()),
        (refused(1), sheet.replace('\n', "\r\n").into_bytes()),
        (refused(1), Vec::new()),
        (refused(1), b"\xff\xfe".to_vec()),
        (refused(6), with_line(6, "0100000")),
        (long.clone(), sheet.repeat(20).into_bytes()),
        (long, sheet.repeat(5000).into_bytes()),
    ] {
        assert_eq!(row_of(&sheet), wanted, "{}", String::from_utf8_lossy(&sheet[..sheet.len().min(200)]));
    }
}

#[test]
fn a_success_that_no_cylinder_can_have_has_no_number() {
    let row = row_of(&with_line(14, "7ff8000000000000 1 2 3 0"));
    assert!(row.starts_with("status 0 "), "{row}");
    assert!(row.ends_with("\tno forecast: finished, but with NaN of s1: the model or its unit is wrong"), "{row}");
    let row = row_of(&bytes("cylinders/small_amounts.sheet"));
    assert!(row.contains("\tno forecast: finished, but with -65002.68"), "{row}");
    assert!(!row_of(&bytes("cylinders/scaled_amounts.sheet")).contains("no forecast"));
}

#[test]
fn on_the_last_day_it_is_the_sheets_own_forecast() {
    let list = folder().join(LIST);
    let (labelled, own) = (rows(&ran(&[path(&list)]).stdout)[2].clone(), row_of(&bytes(NITRIC_OXIDE)));
    assert_eq!(labelled.strip_prefix("3\tA-1043\t"), Some(&*own));
    let bits = elchepur::forecast(&bytes(NITRIC_OXIDE)).expect("a forecast").y[0].to_bits();
    assert!(own.contains(&format!("{bits:016x}")), "{own}");
}

#[test]
fn a_readable_model_is_its_sheet_under_other_names() {
    let found = rows(&ran(&[path(&folder().join("cylinders"))]).stdout);
    assert_eq!(found.len(), 12);
    for pair in found.chunks(2) {
        let fields = |row: &str| -> Vec<String> {
            let numbers = |field: &str| field.split_once(' ').map_or(String::new(), |(_, rest)| rest.to_string());
            row.split('\t').skip(4).map(numbers).collect()
        };
        let (sheet, model) = (fields(&pair[0]), fields(&pair[1]));
        let is_doubted = pair[0].contains("finished, but");
        assert!(is_doubted || sheet == model, "{pair:?}");
        assert_eq!(pair[0].split('\t').nth(3), pair[1].split('\t').nth(3));
    }
}

#[test]
fn a_model_that_cant_be_read_costs_one_row() {
    let model = file("cylinders/robertson.txt").replace("rule rust", "rule guess");
    let folder = shelf(&[("a.txt", model.as_bytes()), ("b.sheet", &bytes(NITRIC_OXIDE)), ("c.txt", b"\xff")]);
    std::fs::create_dir(folder.join("d.sheet")).expect("room for a folder");
    let found = rows(&ran(&[path(&folder)]).stdout);
    let line = model.lines().position(|line| line == "rule guess").expect("a rule") + 1;
    assert_eq!(
        found[0],
        format!("1\ta.txt\tunreadable\t-\tno forecast: the model can't be read: line {line}: guess is no rule")
    );
    assert!(found[1].starts_with("2\tb.sheet\tstatus 0 "), "{}", found[1]);
    assert_eq!(found[2], "3\tc.txt\tunreadable\t-\tno forecast: the model can't be read: it is no text of UTF-8");
    assert!(found[3].starts_with("4\td.sheet\tunreadable\t-\tno forecast: the sheet can't be read: "), "{}", found[3]);
}

#[test]
fn threads_change_nothing() {
    let folder = dozen();
    let one = ran(&[path(&folder)]).stdout;
    for jobs in ["2", "5", "40"] {
        assert_eq!(text(&ran(&["--jobs", jobs, path(&folder)]).stdout), text(&one), "{jobs}");
    }
}

#[test]
fn shards_have_every_row_once() {
    let folder = dozen();
    let place = |row: &String| row.split('\t').next().map(|place| place.parse::<u64>().expect("a place"));
    let mut merged = Vec::new();
    for shard in ["1/5", "2/5", "3/5", "4/5", "5/5"] {
        merged.extend(rows(&ran(&["--shard", shard, path(&folder)]).stdout));
    }
    merged.sort_by_key(place);
    assert_eq!(merged, rows(&ran(&[path(&folder)]).stdout));
}

/// The totals in what was printed, as those of the rows that are summed here by hand.
#[test]
fn the_totals_are_of_the_status_lines() {
    let printed = text(&ran(&[path(&folder().join(LIST))]).stdout);
    let totals = printed.split_once("\nlines ").map(|(_, totals)| format!("lines {totals}")).expect("totals");
    let rows = rows(printed.as_bytes());
    let lines: Vec<&str> =
        rows.iter().filter_map(|row| row.split('\t').nth(2)).filter(|line| line.starts_with("status")).collect();
    let sum =
        |word: usize| lines.iter().map(|line| line.split(' ').nth(word).unwrap().parse::<u64>().unwrap()).sum::<u64>();
    for (name, word) in [("accepted", 3), ("rejected", 5), ("total", 7), ("ode", 9), ("jac", 11), ("lu", 13)] {
        assert!(totals.contains(&format!("\n{name} {}\n", sum(word))), "{name}: {totals}");
    }
    let successes = lines.iter().filter(|line| line.starts_with("status 0 ")).count();
    assert!(totals.starts_with(&format!("lines {}\nstatus 0 {successes}\n", lines.len())), "{totals}");
}

#[test]
fn a_night_that_was_ended_anywhere_is_gone_on_with() {
    let (folder, out) = (dozen(), fresh("out").join("rows.tsv"));
    let whole = ran(&["--rows", path(&out), path(&folder)]);
    let wanted = read_to_string(&out).expect("rows");
    assert_eq!(wanted.lines().count(), 12);
    for end in (0..=wanted.len()).step_by(97).chain([wanted.len() - 1, wanted.len()]) {
        write(&out, &wanted[..end]).expect("room for rows");
        let again = ran(&["--resume", "--rows", path(&out), path(&folder)]);
        assert_eq!(read_to_string(&out).expect("rows"), wanted, "{end}");
        assert_eq!((text(&again.stdout), again.status.code()), (text(&whole.stdout), Some(1)), "{end}");
    }
}

#[test]
fn what_is_done_is_not_done_again() {
    let (folder, out) = (dozen(), fresh("out").join("rows.tsv"));
    ran(&["--rows", path(&out), path(&folder)]);
    let wanted = read_to_string(&out).expect("rows");
    let kept = wanted.match_indices('\n').nth(6).expect("seven rows").0 + 1;
    write(&out, &wanted[..kept + 40]).expect("room for rows");
    for k in 0..7 {
        write(folder.join(format!("{k:02}.sheet")), "no sheet").expect("room for a sheet");
    }
    ran(&["--resume", "--rows", path(&out), path(&folder)]);
    assert_eq!(read_to_string(&out).expect("rows"), wanted);
}

#[test]
fn rows_of_another_night_are_left_alone() {
    let (folder, out) = (dozen(), fresh("out").join("rows.tsv"));
    for (words, kept) in [
        (vec!["--rows"], "1\t00.sheet\tunreadable\t-\tno forecast: why\n"),
        (vec!["--resume", "--rows"], "1\tother.sheet\tunreadable\t-\tno forecast: why\n"),
        (vec!["--shard", "2/3", "--resume", "--rows"], "1\t00.sheet\tunreadable\t-\tno forecast: why\n"),
        (vec!["--resume", "--rows"], "a letter to a friend\nand its end"),
    ] {
        write(&out, kept).expect("room for rows");
        let output = ran(&[&words[..], &[path(&out), path(&folder)]].concat());
        assert_eq!((output.status.code(), output.stdout.len()), (Some(3), 0), "{words:?}");
        assert_eq!(read_to_string(&out).expect("rows"), kept, "{words:?}");
    }
}

/// Starts a night whose second sheet is a pipe, so that it waits there.
fn waiting(folder: &Path, words: &[&str]) -> Child {
    let pipe = folder.join("b.sheet");
    let made = Command::new("mkfifo").arg(&pipe).status().expect("mkfifo");
    assert!(made.success());
    command().args(words).arg(folder).stdout(Stdio::piped()).stderr(Stdio::piped()).spawn().expect("the program night")
}

#[test]
fn a_row_is_written_before_the_next_is_known() {
    let sheet = bytes(NITRIC_OXIDE);
    let folder = shelf(&[("a.sheet", &sheet), ("c.sheet", &sheet)]);
    let mut night = waiting(&folder, &[]);
    let mut lines = BufReader::new(night.stdout.take().expect("its output")).lines().map(|line| line.expect("a line"));
    let first = lines.find(|line| line.contains('\t')).expect("a row");
    assert!(first.starts_with("1\ta.sheet\tstatus 0 "), "{first}");
    write(folder.join("b.sheet"), &sheet).expect("a reader of the pipe");
    assert!(lines.next().expect("another row").starts_with("2\tb.sheet\tstatus 0 "));
    assert_eq!(night.wait().expect("its end").code(), Some(0));
}

#[test]
fn a_night_that_is_killed_is_gone_on_with() {
    let sheet = bytes(NITRIC_OXIDE);
    let folder = shelf(&[("a.sheet", &sheet), ("c.sheet", &sheet)]);
    let out = fresh("out").join("rows.tsv");
    let mut night = waiting(&folder, &["--rows", path(&out)]);
    let has_row = || read_to_string(&out).is_ok_and(|rows| rows.ends_with('\n'));
    // A night that writes no row within a minute is killed too, and then found out.
    for _ in (0..60_000).take_while(|_| !has_row()) {
        std::thread::sleep(std::time::Duration::from_millis(1));
    }
    night.kill().and_then(|()| night.wait()).expect("a night to kill");
    assert!(read_to_string(&out).expect("rows").starts_with("1\ta.sheet\t"));
    std::fs::remove_file(folder.join("b.sheet")).expect("a pipe to remove");
    write(folder.join("b.sheet"), &sheet).expect("room for a sheet");
    let again = ran(&["--resume", "--rows", path(&out), path(&folder)]);
    assert_eq!(again.status.code(), Some(0));
    let names: Vec<String> = read_to_string(&out).expect("rows").lines().map(|row| row[..9].to_string()).collect();
    assert_eq!(names, ["1\ta.sheet", "2\tb.sheet", "3\tc.sheet"]);
}

#[test]
fn the_program_ends_with_its_verdict() {
    let folder = shelf(&[("a.sheet", &bytes(NITRIC_OXIDE))]);
    let (good, bad) = (path(&folder), folder.join("lost.list"));
    for (words, status, said) in [
        (vec![good], 0, "night: 1 cylinders, 1 with a forecast, 0 without\n"),
        (vec![path(&dozen())], 1, "night: 12 cylinders, 9 with a forecast, 3 without\n"),
        (vec!["--help"], 0, ""),
        (vec![], 2, "night: which list or folder? (--help says what it takes)\n"),
        (vec![good, good], 2, "night: it takes one list or folder (--help says what it takes)\n"),
        (vec!["--no-such-word"], 2, "night: it takes no word --no-such-word (--help says what it takes)\n"),
    ] {
        let output = ran(&words);
        assert_eq!((output.status.code(), &*text(&output.stderr)), (Some(status), said), "{words:?}");
        assert_eq!(output.stdout.is_empty(), status > 1, "{words:?}");
    }
    let output = ran(&[path(&bad)]);
    assert_eq!((output.status.code(), output.stdout.len()), (Some(3), 0));
    assert!(text(&output.stderr).starts_with(&format!("night: {}: ", bad.display())));
}

#[test]
fn an_unproved_solver_is_told_first() {
    let printed = text(&ran(&[path(&folder().join(LIST))]).stdout);
    assert_eq!(printed.starts_with("unproved\n"), !elchepur::IS_PROVED);
}

#[test]
fn the_page_stands_alone() {
    let folder = shelf(&[("a</script>.sheet".replace('/', "!").as_str(), &bytes(NITRIC_OXIDE)), ("b.sheet", b"6\n")]);
    let (out, page) = (folder.join("rows.tsv"), folder.join("page.html"));
    ran(&["--rows", path(&out), "--html", path(&page), path(&folder)]);
    let made = read_to_string(&page).expect("a page");
    let names = ["http:", "https:", "src=", "href=", "import"];
    let outside = made.replace("http://www.w3.org/2000/svg", "");
    assert!(names.iter().all(|name| !outside.contains(name)), "it names another file");
    assert!(!made.contains('@'), "a place of the page is not filled");
    let data = made.split("id=\"rows\">\n").nth(1).and_then(|rest| rest.split("</script>").next()).expect("rows");
    let lines: Vec<&str> = data.lines().collect();
    assert!(lines[0].starts_with("[\"b.sheet\",\"refused 20 2\",\"-\",\"\",\"refused (20): line 2"), "{}", lines[0]);
    assert!(lines[1].starts_with("[\"a\\u003c!script>.sheet\",\"status 0 ") && lines[1].contains(",[0e0,7.3e2,[["));
    assert_eq!(made.contains("not proved"), !elchepur::IS_PROVED);
}
