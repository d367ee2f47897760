//! Fixtures and what they say of themselves.
#![allow(dead_code)]

use second::text::Packer;
use std::fs;
use std::path::{Path, PathBuf};

/// The folder of all fixtures.
pub fn fixtures() -> PathBuf {
    Path::new(env!("CARGO_MANIFEST_DIR")).join("../fixtures")
}

/// The files of a folder below the fixtures that end in `.KIND`, sorted.
pub fn files(folder: &str, kind: &str) -> Vec<PathBuf> {
    let entries = fs::read_dir(fixtures().join(folder)).expect(folder);
    let paths = entries.map(|entry| entry.expect("entry").path());
    let fits = |path: &PathBuf| path.extension().is_some_and(|ending| ending == kind);
    let mut found: Vec<PathBuf> = paths.filter(fits).collect();
    found.sort();
    found
}

/// What stands after `# FIELD: ` in a fixture.
pub fn says(file: &Path, field: &str) -> Option<String> {
    let text = fs::read_to_string(file).expect("fixture");
    let mark = format!("# {field}: ");
    let mut lines = text.lines();
    lines.find_map(|line| line.strip_prefix(&mark).map(str::to_string))
}

/// A file that a fixture names, relative to itself.
pub fn named(file: &Path, field: &str) -> PathBuf {
    let folder = file.parent().expect("folder");
    folder.join(says(file, field).expect(field))
}

/// The packed parts of files, a model's names serving the later ones.
pub fn pack(files: &[&Path]) -> Vec<Vec<u8>> {
    let mut packer = Packer::default();
    for file in files {
        let text = fs::read_to_string(file).expect("fixture");
        packer
            .add(&text)
            .unwrap_or_else(|error| panic!("{}: {error}", file.display()));
    }
    packer
        .parts()
        .iter()
        .map(|(_, bytes)| bytes.clone())
        .collect()
}
