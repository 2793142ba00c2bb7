//! Every call on the hard books, as far as the plain search comes with them.
use crate::compare::{Comparison, Counts};
use crate::draw::Draw;
use std::path::{Path, PathBuf};

/// How far the search goes in one book before it is left out.
const LIMIT: u64 = 2_000_000;

#[test]
fn every_call_on_hard_books() {
    let folder = Path::new(env!("CARGO_MANIFEST_DIR")).join("../../bench");
    let entries = std::fs::read_dir(folder).expect("the folder of hard books");
    let paths = entries.map(|entry| entry.expect("an entry").path());
    let is_book = |path: &PathBuf| path.extension().is_some_and(|extension| extension == "book");
    let mut books: Vec<PathBuf> = paths.filter(is_book).collect();
    books.sort();
    let mut counts = Counts::default();
    for (number, path) in books.iter().enumerate() {
        let bytes = std::fs::read(path).expect("a hard book");
        let mut draw = Draw::new("hard", number as u64);
        let at = draw.moment();
        Comparison { bytes: &bytes, at, draw: &mut draw, counts: &mut counts, limit: LIMIT }.every_call();
    }
    counts.print("hard books");
    counts.at_least(&[("books", 55), ("logs", 50), ("steps", 240)]);
    counts.at_least(&[("steps that need a case split", 100)]);
    assert!(counts.get("books over the limit") <= 5);
}
