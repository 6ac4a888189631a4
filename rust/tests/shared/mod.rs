//! What these tests share: files of the repository, and doubles by their bits.

use std::path::{Path, PathBuf};

/// The repository's folder.
pub fn folder() -> PathBuf {
    Path::new(env!("CARGO_MANIFEST_DIR")).join("..")
}

/// A new folder, for its caller alone.
#[allow(dead_code)]
pub fn fresh(name: &str) -> PathBuf {
    static COUNT: std::sync::atomic::AtomicUsize = std::sync::atomic::AtomicUsize::new(0);
    let number = COUNT.fetch_add(1, std::sync::atomic::Ordering::Relaxed);
    let name = format!("{}-{name}-{number}", env!("CARGO_CRATE_NAME"));
    let path = Path::new(env!("CARGO_TARGET_TMPDIR")).join(name);
    // What an earlier run left goes.
    let _ = std::fs::remove_dir_all(&path);
    std::fs::create_dir_all(&path).expect("room for a folder");
    path
}

pub fn bytes(name: &str) -> Vec<u8> {
    let path = folder().join(name);
    std::fs::read(&path).unwrap_or_else(|error| panic!("{}: {error}", path.display()))
}

#[allow(dead_code)]
pub fn file(name: &str) -> String {
    String::from_utf8(bytes(name)).expect("a text")
}

/// The bits of a double, all NaN under one pattern, as the stored answers have them.
#[allow(dead_code)]
pub fn bits(x: f64) -> u64 {
    if x.is_nan() {
        0x7ff8_0000_0000_0000
    } else {
        x.to_bits()
    }
}
