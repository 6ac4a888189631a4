//! A model in its readable form, as `tools/sheet.py` describes and reads it: settings, species, reactions.

use elchepur::{Reaction, Sheet};

const NONE: &str = "none";
const RULES: [&str; 2] = ["rust", "book"];
const MOST_SPECIES: usize = 32;
const MOST_REACTIONS: usize = 64;

/// The model of a readable form and the names of its species, or in words why it is none.
pub fn read(text: &[u8]) -> Result<(Sheet, Vec<String>), String> {
    let text = std::str::from_utf8(text).map_err(|_| "it is no text of UTF-8".to_string())?;
    let mut lines = Lines::of(text);
    let float = |lines: &mut Lines, name| lines.setting(name).and_then(|word| lines.float(word));
    let (x0, xend) = (float(&mut lines, "x0")?, float(&mut lines, "xend")?);
    let (rtol, atol) = (float(&mut lines, "rtol")?, float(&mut lines, "atol")?);
    let steps = lines.setting("max_steps")?;
    let max_steps = whole(steps).ok_or_else(|| lines.wrong(&format!("{steps} is no number of steps")))?;
    let rule = lines.setting("rule")?;
    let known = RULES.iter().position(|known| *known == rule);
    let rule = known.ok_or_else(|| lines.wrong(&format!("{rule} is no rule")))? as u64;
    let (names, amounts) = lines.species()?;
    let reactions = lines.reactions(&names)?;
    Ok((Sheet { x0, xend, rtol, atol, max_steps, rule, amounts, reactions }, names))
}

/// The lines that hold anything, each with its number.
struct Lines<'a> {
    left: std::vec::IntoIter<(usize, Vec<&'a str>)>,
    number: usize,
}

impl<'a> Lines<'a> {
    fn of(text: &'a str) -> Lines<'a> {
        let bare = text.split('\n').map(|line| line.split('#').next().unwrap_or("").split_whitespace().collect());
        let kept: Vec<(usize, Vec<&str>)> =
            (1..).zip(bare).filter(|(_, words): &(_, Vec<_>)| !words.is_empty()).collect();
        Lines { left: kept.into_iter(), number: 0 }
    }

    fn wrong(&self, why: &str) -> String {
        format!("line {}: {why}", self.number)
    }

    fn take(&mut self) -> Result<Vec<&'a str>, String> {
        let (number, words) = self.left.next().ok_or("it ends too soon")?;
        self.number = number;
        Ok(words)
    }

    fn is_heading(&self, name: &str) -> bool {
        self.left.as_slice().first().is_some_and(|(_, words)| words[..] == [name])
    }

    fn heading(&mut self, name: &str) -> Result<(), String> {
        match self.take()?[..] == [name] {
            true => Ok(()),
            false => Err(self.wrong(&format!("not `{name}` alone"))),
        }
    }

    fn setting(&mut self, name: &str) -> Result<&'a str, String> {
        match self.take()?[..] {
            [found, value] if found == name => Ok(value),
            _ => Err(self.wrong(&format!("not `{name}` and its value"))),
        }
    }

    fn float(&self, word: &str) -> Result<u64, String> {
        bits(word).ok_or_else(|| self.wrong(&format!("{word} is no float")))
    }

    fn species(&mut self) -> Result<(Vec<String>, Vec<u64>), String> {
        let (mut names, mut amounts): (Vec<String>, Vec<u64>) = (Vec::new(), Vec::new());
        self.heading("species")?;
        while !self.is_heading("reactions") {
            let [name, amount] = self.take()?[..] else { return Err(self.wrong("not a species and its amount")) };
            if !is_name(name) || name == NONE || names.iter().any(|other| other == name) {
                return Err(self.wrong(&format!("{name} is no name of a further species")));
            }
            names.push(name.to_string());
            amounts.push(self.float(amount)?);
        }
        match (1..=MOST_SPECIES).contains(&names.len()) {
            true => Ok((names, amounts)),
            false => Err(format!("{} species are not 1 to {MOST_SPECIES}", names.len())),
        }
    }

    fn reactions(&mut self, names: &[String]) -> Result<Vec<Reaction>, String> {
        let mut found = Vec::new();
        self.heading("reactions")?;
        while self.left.len() > 0 {
            let words = self.take()?;
            found.push(self.reaction(&words, names)?);
        }
        match found.len() <= MOST_REACTIONS {
            true => Ok(found),
            false => Err(format!("{} reactions are more than {MOST_REACTIONS}", found.len())),
        }
    }

    fn reaction(&self, words: &[&str], names: &[String]) -> Result<Reaction, String> {
        let sides: Vec<&[&str]> = words[1..].split(|word| *word == "->").collect();
        let [used, made] = sides[..] else { return Err(self.wrong("not one arrow with a space on each side")) };
        let side = |words: &[&str]| {
            side(words, names).ok_or_else(|| self.wrong(&format!("{} is no side of a reaction", words.join(" "))))
        };
        Ok(Reaction { rate: self.float(words[0])?, reactants: side(used)?, products: side(made)? })
    }
}

/// One side of a reaction: a name, or two with a + between.
fn side(words: &[&str], names: &[String]) -> Option<[usize; 2]> {
    let place = |word: &str| match word {
        NONE => Some(0),
        _ => names.iter().position(|name| name == word).map(|place| place + 1),
    };
    match words {
        [one] => Some([place(one)?, 0]),
        [one, "+", two] => Some([place(one)?, place(two)?]),
        _ => None,
    }
}

fn is_name(word: &str) -> bool {
    let is_part = |byte: u8| byte.is_ascii_alphanumeric() || byte == b'_';
    word.starts_with(|letter: char| letter.is_ascii_alphabetic()) && word.bytes().all(is_part)
}

/// One to ten digits without a zero in front.
fn whole(word: &str) -> Option<u64> {
    let is_formed = (1..=10).contains(&word.len()) && word.bytes().all(|byte| byte.is_ascii_digit());
    (is_formed && (word == "0" || !word.starts_with('0'))).then(|| word.parse().ok())?
}

/// The bits of a float: 0x and 16 digits, or a decimal number that is not beyond all doubles.
fn bits(word: &str) -> Option<u64> {
    if let Some(digits) = word.strip_prefix("0x") {
        let is_digit = |byte: u8| byte.is_ascii_digit() || (b'a'..=b'f').contains(&byte);
        let is_formed = digits.len() == 16 && digits.bytes().all(is_digit);
        return is_formed.then(|| u64::from_str_radix(digits, 16).ok())?;
    }
    let unsigned = word.strip_prefix(['+', '-']).unwrap_or(word);
    // What Rust takes besides, as `inf` and `.5`, begins with no digit.
    let is_formed = unsigned.starts_with(|letter: char| letter.is_ascii_digit());
    let float: f64 = is_formed.then(|| word.parse().ok())??;
    float.is_finite().then(|| float.to_bits())
}

#[cfg(test)]
mod tests {
    use super::*;

    const MODEL: &str = "x0 0.0\nxend 730.0 # days\nrtol 1e-06\natol 1e-12\nmax_steps 100000\nrule book\n\nspecies\n\
                         NO 2.0\nsite 0.001\nheld 0x7ff8000000000001\nreactions\n50.0 NO + site -> held\n\
                         0.5 none + held -> none\n";

    #[test]
    fn a_model_is_read_with_its_names() {
        let (sheet, names) = read(MODEL.as_bytes()).expect("a model");
        assert_eq!(names, ["NO", "site", "held"]);
        assert_eq!((sheet.max_steps, sheet.rule, sheet.amounts[2]), (100_000, 1, 0x7ff8_0000_0000_0001));
        let species: Vec<_> = sheet.reactions.iter().map(|each| (each.reactants, each.products)).collect();
        assert_eq!(species, [([1, 2], [3, 0]), ([0, 3], [0, 0])]);
        assert_eq!(sheet.reactions[0].rate, 50f64.to_bits());
    }

    #[test]
    fn what_is_wrong_is_told_with_its_line() {
        for (old, new, told) in [
            ("x0 0.0\n", "", "line 1: not `x0` and its value"),
            ("730.0", "7,3", "line 2: 7,3 is no float"),
            ("730.0", ".5", "line 2: .5 is no float"),
            ("730.0", "inf", "line 2: inf is no float"),
            ("730.0", "1e999", "line 2: 1e999 is no float"),
            ("730.0", "0xFF", "line 2: 0xFF is no float"),
            ("max_steps 100000", "max_steps 0100", "line 5: 0100 is no number of steps"),
            ("max_steps 100000", "max_steps 10000000000", "line 5: 10000000000 is no number of steps"),
            ("rule book", "rule guess", "line 6: guess is no rule"),
            ("species\n", "", "line 8: not `species` alone"),
            ("site 0.001", "NO 0.001", "line 10: NO is no name of a further species"),
            ("site 0.001", "none 0.001", "line 10: none is no name of a further species"),
            ("site 0.001", "1st 0.001", "line 10: 1st is no name of a further species"),
            ("-> held", "=> held", "line 13: not one arrow with a space on each side"),
            ("NO + site", "NO + sight", "line 13: NO + sight is no side of a reaction"),
            ("NO + site", "NO site", "line 13: NO site is no side of a reaction"),
            ("reactions\n", "", "line 12: not a species and its amount"),
        ] {
            assert!(MODEL.contains(old), "{old}");
            assert_eq!(read(MODEL.replacen(old, new, 1).as_bytes()), Err(told.to_string()), "{new}");
        }
        assert_eq!(read(b"x0 0.0\n"), Err("it ends too soon".to_string()));
        assert_eq!(read(b"x0 \xff\n"), Err("it is no text of UTF-8".to_string()));
    }

    #[test]
    fn there_are_at_most_32_species_and_64_reactions() {
        let head = MODEL.split("NO 2.0").next().expect("settings");
        let model = |species: usize, reactions: usize| {
            let amounts: String = (0..species).map(|k| format!("s{k} 1.0\n")).collect();
            read(format!("{head}{amounts}reactions\n{}", "1.0 s0 -> none\n".repeat(reactions)).as_bytes())
        };
        assert!(model(32, 64).is_ok() && model(1, 0).is_ok());
        assert_eq!(model(33, 0), Err("33 species are not 1 to 32".to_string()));
        assert_eq!(model(0, 0), Err("0 species are not 1 to 32".to_string()));
        assert_eq!(model(1, 65), Err("65 reactions are more than 64".to_string()));
    }
}
