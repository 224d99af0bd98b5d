//! Where a disagreement is kept.

use std::path::{Path, PathBuf};

/// Saves the parts of a disagreement, each with its ending; says where.
pub fn save(stem: &str, parts: &[(&str, &[u8])]) -> String {
    let directory = directory();
    let path = |ending: &str| directory.join(format!("{stem}.{ending}"));
    let saved = std::fs::create_dir_all(&directory).and_then(|()| {
        parts.iter().try_for_each(|(ending, bytes)| std::fs::write(path(ending), bytes))
    });
    match saved {
        Ok(()) => format!("saved as {}", path(parts[0].0).display()),
        Err(error) => format!("not saved: {error}"),
    }
}

/// bench/disagreements: beside the directory this program was built in, or else
/// in the current directory.
fn directory() -> PathBuf {
    let built = std::env::current_exe().unwrap_or_default();
    let bench = built.ancestors().find(|path| path.ends_with("target")).and_then(Path::parent);
    bench.unwrap_or(Path::new(".")).join("disagreements")
}
