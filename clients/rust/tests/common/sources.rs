//! The tables that replay is compiled from, as a second witness beside replay itself.
use super::repository;
use std::fs;
use std::path::Path;

/// The table of crates/session/src that begins with a name: one constant, names and shapes by turns.
pub fn compiled(first: &str) -> Vec<(String, String)> {
    let begins = |text: &String| text.split(' ').next() == Some(first) && text.contains(' ');
    let found: Vec<String> = constants().into_iter().filter(begins).collect();
    assert_eq!(found.len(), 1, "constants that begin with {first:?}");
    let words: Vec<&str> = found[0].split(' ').collect();
    let row = |pair: &[&str]| {
        assert_eq!(pair.len(), 2, "a name without a shape: {pair:?}");
        assert!(
            pair[1].bytes().all(|byte| byte.is_ascii_uppercase()),
            "{pair:?}"
        );
        (pair[0].to_string(), pair[1].to_string())
    };
    words.chunks(2).map(row).collect()
}

/// The cases of `enum Refusal` in crates/codec/src, in the order of their numbers, and whether they carry
/// values.
pub fn refusals() -> Vec<(String, bool)> {
    let text = text_below(&repository().join("crates/codec/src"));
    let (_, rest) = text.split_once("pub enum Refusal {\n").expect("the enum");
    let (cases, _) = rest.split_once("\n}").expect("its end");
    let lines = cases.lines().filter_map(|line| line.strip_prefix("    "));
    let named = lines.filter(|line| line.starts_with(|c: char| c.is_ascii_uppercase()));
    let case = |line: &str| {
        let end = line.find(|c: char| !c.is_ascii_alphanumeric());
        let name = &line[..end.unwrap_or(line.len())];
        (name.to_string(), line.contains(['{', '(']))
    };
    named.map(case).collect()
}

/// The byte strings of crates/session/src.
fn constants() -> Vec<String> {
    let text = text_below(&repository().join("crates/session/src"));
    let strings = text.split("b\"").skip(1);
    strings
        .filter_map(|rest| Some(rest.split_once('"')?.0.to_string()))
        .collect()
}

/// The Rattle files of a folder and of those in it, one behind the other.
fn text_below(folder: &Path) -> String {
    let entries = fs::read_dir(folder).expect("a folder of sources");
    let mut paths: Vec<_> = entries.map(|entry| entry.expect("a file").path()).collect();
    paths.sort();
    let text = |path: &Path| match path.extension() {
        Some(end) if end == "rt" => fs::read_to_string(path).expect("a source"),
        _ if path.is_dir() => text_below(path),
        _ => String::new(),
    };
    paths.iter().map(|path| text(path)).collect()
}
