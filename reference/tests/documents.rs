//! The repository's own documents: what they quote and name is there.

use std::fs;
use std::path::{Path, PathBuf};

const FOLDERS: [&str; 6] = [
    "docs",
    "examples",
    "include",
    "reference",
    "robust",
    "tools",
];

fn root() -> PathBuf {
    Path::new(env!("CARGO_MANIFEST_DIR")).join("..")
}

fn read(name: &str) -> String {
    fs::read_to_string(root().join(name)).unwrap_or_else(|e| panic!("{name}: {e}"))
}

/// The block of a document that is marked as this language's.
fn block<'a>(text: &'a str, language: &str) -> &'a str {
    let start = format!("```{language}\n");
    let after = text.split_once(&start).expect("a block").1;
    after.split_once("```").expect("its end").0
}

/// What stands in backticks, and the pictures.
fn quoted(text: &str) -> impl Iterator<Item = &str> {
    let pictures = text.split("src=\"").skip(1);
    let ticked = text.split('`').skip(1).step_by(2);
    ticked.chain(pictures.filter_map(|rest| rest.split('"').next()))
}

fn is_path(word: &str) -> bool {
    let first = word.split('/').next().unwrap_or_default();
    let known = first == "crates" || FOLDERS.contains(&first);
    known && word.contains('/') && !word.contains(' ') && !word.contains("CRATE")
}

/// What stands in a folder of the repository, but for `out`, where the toolchain keeps what it makes.
fn entries(folder: &Path) -> impl Iterator<Item = PathBuf> {
    let entries = fs::read_dir(folder).expect("a folder");
    let paths = entries.map(|e| e.expect("an entry").path());
    paths.filter(|path| !path.ends_with("out"))
}

/// The names and the text of all files below a folder.
fn all_text(folder: &Path) -> String {
    let text = |path: PathBuf| {
        let inner = match path.is_dir() {
            true => all_text(&path),
            false => fs::read_to_string(&path).unwrap_or_default(),
        };
        format!(" {} {inner}", path.display())
    };
    entries(folder).map(text).collect()
}

/// Whether a word stands in a text by itself.
fn has_word(text: &str, word: &str) -> bool {
    let part = |c: char| c.is_alphanumeric() || c == '-' || c == '_';
    text.match_indices(word).any(|(at, _)| {
        let before = text[..at].chars().next_back();
        let after = text[at + word.len()..].chars().next();
        !before.is_some_and(part) && !after.is_some_and(part)
    })
}

#[test]
fn the_readme_shows_the_host_and_the_contract_as_they_are() {
    let readme = read("README.md");
    assert_eq!(block(&readme, "c"), read("examples/column.c"));
    assert!(read("crates/cast/src/lib.rt").contains(block(&readme, "rust")));
}

#[test]
fn every_crate_and_folder_is_on_the_map() {
    let readme = read("README.md");
    let crates = read("crates.txt");
    let names = crates
        .lines()
        .filter_map(|line| line.split([' ', ':']).next());
    let rows = names.map(|name| format!("crates/{name}"));
    for row in rows.chain(FOLDERS.map(String::from)) {
        assert!(readme.contains(&format!("| `{row}` |")), "{row}");
    }
}

/// The names of a folder's files with this end.
fn names(folder: &str, end: &str) -> Vec<String> {
    let entries = fs::read_dir(root().join(folder)).expect("a folder");
    let names = entries.map(|e| e.expect("an entry").file_name());
    let names = names.map(|name| name.to_string_lossy().into_owned());
    names.filter(|name| name.ends_with(end)).collect()
}

#[test]
fn the_readme_shows_every_part_and_picture() {
    let readme = read("README.md");
    let parts = names("examples/parts", ".part");
    let pictures = names("docs/pictures", ".png");
    assert_eq!((parts.len(), pictures.len()), (8, 22));
    let parts = parts.iter().map(|name| format!("| `{name}`: "));
    let pictures = pictures
        .iter()
        .map(|name| format!("src=\"docs/pictures/{name}\""));
    let counts = ["makes eight part files", "writes twenty-two pictures"].map(String::from);
    for shown in parts.chain(pictures).chain(counts) {
        assert!(readme.contains(&shown), "{shown}");
    }
}

/// A file of n points has 2n − 1 records and a trailer, 12 bytes each.
#[test]
fn the_points_of_the_readmes_parts() {
    let readme = read("README.md");
    let mut seen = 0;
    for row in readme.lines().filter_map(|line| line.strip_prefix("| `")) {
        let Some((words, _)) = row.split_once(" points | ") else {
            continue;
        };
        let (name, words) = words.split_once("`: ").expect("a part");
        let points = words.rsplit(' ').next().map(str::parse::<u64>);
        let file = fs::metadata(root().join("examples/parts").join(name));
        assert_eq!(points, Some(Ok(file.expect(name).len() / 24)), "{name}");
        seen += 1;
    }
    assert_eq!(seen, 4);
}

fn assert_paths(document: &str) {
    for word in quoted(&read(document)).filter(|word| is_path(word)) {
        assert!(root().join(word).exists(), "{document}: {word}");
    }
}

#[test]
fn every_path_in_a_document_is_there() {
    let documents = [
        "README.md",
        "docs/BENCHMARKS.md",
        "docs/CHANGING.md",
        "docs/DECISIONS.md",
        "docs/DEMANDS.md",
        "docs/EVIDENCE.md",
        "docs/GLOSSARY.md",
        "docs/PROOFS.md",
        "docs/ROBUSTNESS.md",
    ];
    documents.into_iter().for_each(assert_paths);
}

/// `crate::name`, or a name alone, of a contract, a definition or a theorem.
#[test]
fn every_name_in_a_document_is_in_the_crates() {
    let text = all_text(&root().join("crates"));
    let documents = [
        "docs/CHANGING.md",
        "docs/DEMANDS.md",
        "docs/GLOSSARY.md",
        "docs/PROOFS.md",
    ];
    let documents = documents.map(read).concat();
    let words = quoted(&documents).flat_map(|quote| quote.split([' ', ':']));
    for word in words.filter(|word| !word.is_empty() && !word.contains('/')) {
        assert!(has_word(&text, word), "{word}");
    }
}

/// The files of a folder, and of those below it, that hold code, definitions or proofs.
fn sources(folder: &Path) -> Vec<PathBuf> {
    let below = |path: PathBuf| match path.is_dir() {
        true => sources(&path),
        false => vec![path],
    };
    let files = entries(folder).flat_map(below);
    let known = |path: &PathBuf| path.extension().is_some_and(|e| e == "rt" || e == "antt");
    files.filter(known).collect()
}

#[test]
fn no_line_of_the_crates_is_longer_than_150_characters() {
    let files = sources(&root().join("crates"));
    assert!(files.len() > 100);
    for file in files {
        let text = fs::read_to_string(&file).expect("a text");
        let longest = text.lines().map(|line| line.chars().count()).max();
        assert!(longest.unwrap_or(0) <= 150, "{}", file.display());
    }
}
