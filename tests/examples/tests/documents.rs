//! What the documents say of files and numbers is in step with them.

use std::path::Path;

fn document(name: &str) -> String {
    let docs = Path::new(env!("CARGO_MANIFEST_DIR")).join("../../docs");
    std::fs::read_to_string(docs.join(name)).unwrap()
}

/// The bytes of each indented block: the pairs of hex digits that its lines start with.
fn hex_blocks(words: &str) -> Vec<Vec<u8>> {
    let byte = |word: &str| u8::from_str_radix(word, 16).ok().filter(|_| word.len() == 2);
    let mut blocks = vec![Vec::new()];
    for line in words.lines() {
        match line.strip_prefix("    ") {
            Some(entry) => blocks.last_mut().unwrap().extend(entry.split(' ').map_while(byte)),
            None => blocks.push(Vec::new()),
        }
    }
    blocks
}

#[test]
fn the_guide_shows_the_incidents_files() {
    let blocks = hex_blocks(&document("GUIDE.md"));
    let incident = examples::all().remove(0);
    let files = incident.roles[0].files();
    for wanted in ["asking.spt", "asking.spl", "asking-good.spx"] {
        let (_, bytes) = files.iter().find(|(name, _)| name == wanted).unwrap();
        assert!(blocks.iter().any(|block| block == bytes), "{wanted}");
    }
}

#[test]
fn every_refusal_and_ending_is_explained_once() {
    let words = document("NUMBERS.txt");
    let titles: Vec<&str> = words
        .split("\n\n")
        .skip(1)
        .map(|paragraph| paragraph.split(':').next().unwrap())
        .collect();
    let refusals = (1..=15).map(|number| format!("refusal {number}"));
    let endings = (0..=7).map(|number| format!("ending {number}"));
    assert_eq!(titles, refusals.chain(endings).collect::<Vec<String>>());
}
