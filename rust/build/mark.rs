//! The mark of the kit that proves: a line `rattle logic=` with 64 digits in the section `.comment` of each object that
//! it compiled, which it does only of proved crates. It shows a mistaken archive, not a forged one.

const MARK: &str = "rattle logic=";
const HEAD: usize = 60;

/// The logic that every member of an archive was proved in; else in words what speaks against it.
pub fn logic(archive: &[u8]) -> Result<String, String> {
    let members = members(archive).ok_or("it is no archive of objects")?;
    let mut known: Option<String> = None;
    for (place, object) in members.iter().enumerate() {
        let name = format!("{} of {}", place + 1, members.len());
        let marks = marks(object).unwrap_or_default();
        if marks.is_empty() {
            return Err(format!("its member {name} does not bear the mark of the kit that proves"));
        }
        if marks.iter().any(|logic| known.get_or_insert_with(|| logic.clone()) != logic) {
            return Err(format!("its member {name} was proved in another logic than those before it"));
        }
    }
    known.ok_or_else(|| "it has no member".to_string())
}

/// The objects of an archive, without its tables of symbols and of long names.
fn members(archive: &[u8]) -> Option<Vec<&[u8]>> {
    let mut left = archive.strip_prefix(b"!<arch>\n")?;
    let mut found = Vec::new();
    while !left.is_empty() {
        let head = std::str::from_utf8(left.get(..HEAD)?).ok().filter(|head| head.is_ascii())?;
        let (name, size) = (head[..16].trim(), head[48..58].trim().parse::<usize>().ok()?);
        let member = left.get(HEAD..HEAD.checked_add(size)?)?;
        if !["/", "//", "/SYM64/"].contains(&name) {
            found.push(member);
        }
        // Members begin at even places.
        left = left.get(HEAD + size + size % 2..).unwrap_or_default();
    }
    Some(found)
}

/// The logics that the comments of an object name. Objects are ELF's of 64 bits, the low byte first.
fn marks(object: &[u8]) -> Option<Vec<String>> {
    object.strip_prefix(b"\x7fELF\x02\x01")?;
    let (table, size) = (number(object, 0x28, 8)?, number(object, 0x3a, 2)?);
    let (count, names) = (number(object, 0x3c, 2)?, number(object, 0x3e, 2)?);
    let section = |place: usize| {
        let head = object.get(table.checked_add(place * size)?..)?;
        let (first, length) = (number(head, 0x18, 8)?, number(head, 0x20, 8)?);
        Some((number(head, 0, 4)?, object.get(first..first.checked_add(length)?)?))
    };
    let names = section(names)?.1;
    let is_comment = |name: usize| names.get(name..).is_some_and(|name| name.starts_with(b".comment\0"));
    let comments = (0..count).filter_map(section).filter(|(name, _)| is_comment(*name));
    let lines = comments.flat_map(|(_, text)| text.split(|byte| *byte == 0));
    Some(lines.filter_map(|line| named(std::str::from_utf8(line).ok()?)).collect())
}

fn named(line: &str) -> Option<String> {
    let logic = line.strip_prefix(MARK)?;
    let is_digit = |byte: u8| byte.is_ascii_digit() || (b'a'..=b'f').contains(&byte);
    (logic.len() == 64 && logic.bytes().all(is_digit)).then(|| logic.to_string())
}

/// A number of some bytes, the low one first.
fn number(bytes: &[u8], first: usize, count: usize) -> Option<usize> {
    let bytes = bytes.get(first..first.checked_add(count)?)?;
    usize::try_from(bytes.iter().rev().fold(0, |number, byte| number << 8 | u64::from(*byte))).ok()
}
