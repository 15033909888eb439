//! The programs over every vector of the repository.

use std::fs;
use std::path::PathBuf;

fn vectors(kind: &str) -> Vec<(PathBuf, Vec<u8>, Vec<u8>)> {
    let folder = PathBuf::from(env!("CARGO_MANIFEST_DIR")).join("../tests/vectors").join(kind);
    let entries = fs::read_dir(&folder).unwrap_or_else(|e| panic!("{}: {e}", folder.display()));
    let mut inputs: Vec<PathBuf> = entries
        .map(|entry| entry.expect("a folder entry").path())
        .filter(|path| path.extension().is_some_and(|extension| extension == "in"))
        .collect();
    inputs.sort();
    let read = |path: &PathBuf| fs::read(path).unwrap_or_else(|e| panic!("{}: {e}", path.display()));
    inputs.iter().map(|path| (path.clone(), read(path), read(&path.with_extension("out")))).collect()
}

/// Where two outputs part, for a message that can be read.
fn first_difference(got: &[u8], wanted: &[u8]) -> String {
    let (got, wanted) = (String::from_utf8_lossy(got), String::from_utf8_lossy(wanted));
    let mut pairs = got.lines().zip(wanted.lines());
    match pairs.find(|(got, wanted)| got != wanted) {
        Some((got, wanted)) => format!("got {got}\nnot {wanted}"),
        None => format!("{} lines, not {}", got.lines().count(), wanted.lines().count()),
    }
}

fn all_agree(kind: &str, program: fn(&[u8]) -> Vec<u8>, at_least: usize) {
    let vectors = vectors(kind);
    assert!(vectors.len() >= at_least, "{} vectors of {kind}", vectors.len());
    for (path, input, wanted) in vectors {
        let got = program(&input);
        assert!(got == wanted, "{}: {}", path.display(), first_difference(&got, &wanted));
    }
}

#[test]
fn powerhit_vectors() {
    all_agree("powerhit", model::script::powerhit::powerhit, 84);
}

#[test]
fn probe_vectors() {
    all_agree("probe", model::script::probe::probe, 91);
}

#[test]
fn wear_vectors() {
    all_agree("wear", model::script::wear::wear, 25);
}
