//! What build.rs does with archives: one without the kit's mark is refused, unless that is allowed, and then told; and
//! documents need none. The archives are planted: rustc makes them, and gives them a mark or not.

#[path = "../build/mark.rs"]
mod mark;
mod shared;

use shared::fresh;
use std::path::{Path, PathBuf};
use std::process::{Command, Output};

const LOGIC: &str = "064da1ca440f63e7502b45d89e7a7af6f35f329843886d4ee3931549ff4b3b79";

const SOURCE: &str = "#![no_std]\n#[no_mangle]\npub extern \"C\" fn elchepur_planted() {}\n";

/// An object that rustc made, with these bytes as a comment.
fn object(comment: &str) -> Vec<u8> {
    let folder = fresh("object");
    let (source, made) = (folder.join("planted.rs"), folder.join("planted.o"));
    let bytes = comment.as_bytes();
    let marked = format!("#[used]\n#[link_section = \".comment\"]\nstatic MARK: [u8; {}] = {bytes:?};\n", bytes.len());
    std::fs::write(&source, format!("{SOURCE}{marked}")).expect("room for a source");
    let rustc = std::env::var_os("RUSTC").unwrap_or("rustc".into());
    let done =
        Command::new(rustc).args(["--crate-type", "lib", "--emit", "obj", "-o"]).arg(&made).arg(&source).output();
    let done = done.expect("rustc");
    assert!(done.status.success(), "{}", String::from_utf8_lossy(&done.stderr));
    std::fs::read(&made).expect("an object")
}

/// An archive of objects, with a table of symbols before them, which has no mark.
fn archive(objects: &[&[u8]]) -> Vec<u8> {
    let mut made = b"!<arch>\n".to_vec();
    for (name, member) in [("/", &[0; 5][..])].into_iter().chain(objects.iter().map(|object| ("planted.o/", *object))) {
        let head = format!("{name:<16}{:<12}{:<6}{:<6}{:<8}{:<10}`\n", 0, 0, 0, 644, member.len());
        made.extend(head.into_bytes());
        made.extend(member);
        made.resize(made.len().next_multiple_of(2), b'\n');
    }
    made
}

fn marked() -> Vec<u8> {
    object(&format!("\0rattle logic={LOGIC}\0"))
}

#[test]
fn a_mark_is_found_on_every_object_or_the_archive_is_unproved() {
    let (proved, bare) = (marked(), object("\0GCC: 13.3.0\0"));
    assert_eq!(mark::logic(&archive(&[&proved])), Ok(LOGIC.to_string()));
    assert_eq!(mark::logic(&archive(&[&proved, &proved])), Ok(LOGIC.to_string()));
    let missing = |place: usize, count: usize| {
        Err(format!("its member {place} of {count} does not bear the mark of the kit that proves"))
    };
    assert_eq!(mark::logic(&archive(&[&bare])), missing(1, 1));
    assert_eq!(mark::logic(&archive(&[&proved, &bare])), missing(2, 2));
    assert_eq!(mark::logic(&archive(&[&proved, b"no object"])), missing(2, 2));
    let other = object(&format!("\0rattle logic={}\0", LOGIC.replace('0', "1")));
    let words = "its member 2 of 2 was proved in another logic than those before it";
    assert_eq!(mark::logic(&archive(&[&proved, &other])), Err(words.to_string()));
    for comment in ["rattle logic=", "rattle logic=none", &format!("logic={LOGIC}"), &format!("rattle logic={LOGIC}0")]
    {
        assert_eq!(mark::logic(&archive(&[&object(&format!("\0{comment}\0"))])), missing(1, 1), "{comment}");
    }
}

#[test]
fn what_is_no_archive_is_unproved() {
    let whole = archive(&[&marked()]);
    assert_eq!(mark::logic(&archive(&[])), Err("it has no member".to_string()));
    assert_eq!(mark::logic(&marked()), Err("it is no archive of objects".to_string()));
    for length in (0..whole.len() - 1).step_by(7) {
        assert!(mark::logic(&whole[..length]).is_err(), "{length}");
    }
}

/// What cargo says of this crate with an archive at this path, and the variables that build.rs looks at.
fn cargo(word: &str, archive: &Path, variables: &[&str]) -> Output {
    let mut command = Command::new(env!("CARGO"));
    command
        .args([word, "--lib", "--offline", "--manifest-path"])
        .arg(concat!(env!("CARGO_MANIFEST_DIR"), "/Cargo.toml"));
    for variable in ["ELCHEPUR_ALLOW_UNPROVED", "DOCS_RS", "RUSTDOCFLAGS"] {
        command.env_remove(variable);
    }
    command.envs(variables.iter().map(|variable| (variable, "1")));
    command.env("CARGO_TARGET_DIR", fresh("target")).env("ELCHEPUR_ARCHIVE", archive);
    command.output().expect("cargo")
}

fn planted(objects: &[&[u8]]) -> PathBuf {
    let path = fresh("archive").join("libelchepur.a");
    std::fs::write(&path, archive(objects)).expect("room for an archive");
    path
}

#[test]
fn an_unproved_archive_is_refused_unless_it_is_allowed() {
    let bare = planted(&[&object("\0GCC: 13.3.0\0")]);
    let (refused, allowed) = (cargo("check", &bare, &[]), cargo("check", &bare, &["ELCHEPUR_ALLOW_UNPROVED"]));
    let (first, second) = (String::from_utf8_lossy(&refused.stderr), String::from_utf8_lossy(&allowed.stderr));
    assert!(!refused.status.success() && first.contains("it is unproved, since its member 1 of 1"), "{first}");
    assert!(first.contains("ELCHEPUR_ALLOW_UNPROVED=1"), "{first}");
    assert!(allowed.status.success() && second.contains("UNPROVED: the archive of the solver"), "{second}");
    let proved = cargo("check", &planted(&[&marked()]), &[]);
    let said = String::from_utf8_lossy(&proved.stderr);
    assert!(proved.status.success() && !said.contains("UNPROVED"), "{said}");
}

#[test]
fn documents_need_no_archive() {
    let nowhere = Path::new("/nowhere/libelchepur.a");
    assert!(cargo("doc", nowhere, &["DOCS_RS"]).status.success());
    assert!(!cargo("doc", nowhere, &[]).status.success());
}

#[test]
fn a_package_has_what_it_needs_and_its_licence() {
    for name in ["LICENSE", "NOTICE"] {
        assert_eq!(shared::file(name), shared::file(&format!("rust/{name}")));
    }
    let mut command = Command::new(env!("CARGO"));
    command.args(["package", "--list", "--allow-dirty", "--offline"]).current_dir(env!("CARGO_MANIFEST_DIR"));
    let listed = String::from_utf8(command.output().expect("cargo").stdout).expect("a list");
    let has = |name: &str| listed.lines().any(|line| line == name);
    for name in ["Cargo.toml", "LICENSE", "NOTICE", "README.md", "build.rs", "build/mark.rs", "src/lib.rs", "src/c.rs"]
    {
        assert!(has(name), "{name} is not in\n{listed}");
    }
    assert!(!listed.contains("tests/"), "{listed}");
}
