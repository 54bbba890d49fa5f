//! docs/DIFFERENCES.md names every public item of the nine Rust files, and no other, each
//! once, under its file's heading; and the port's calls that it names are there.

use std::{collections::BTreeSet, fs, path::PathBuf};

const FILES: [&str; 9] =
    ["error", "bitpack", "codebook", "radius", "rotation", "qjl", "polar", "packed", "turbo"];

fn repository() -> PathBuf {
    PathBuf::from(concat!(env!("CARGO_MANIFEST_DIR"), "/../.."))
}

fn read(path: &str) -> String {
    fs::read_to_string(repository().join(path)).unwrap_or_else(|why| panic!("{path}: {why}"))
}

/// The word that a line begins with.
fn word(line: &str) -> &str {
    line.split(|c: char| !c.is_alphanumeric() && c != '_').next().unwrap()
}

/// The public items of a file: types, functions, and `Type::function` for those of a type
/// or a trait. Tests and their like are left out.
fn public(text: &str) -> BTreeSet<String> {
    let mut items = BTreeSet::new();
    let (mut of, mut in_trait) = (String::new(), false);
    for line in text.lines().take_while(|line| *line != "#[cfg(test)]") {
        if let Some(rest) = line.strip_prefix("impl ") {
            of = format!("{}::", word(rest));
        }
        if line == "}" {
            (of, in_trait) = (String::new(), false);
        }
        let inner = line.trim_start();
        if let Some(rest) = inner.strip_prefix("pub ") {
            let (kind, name) = rest.split_once(' ').unwrap();
            match kind {
                "fn" => drop(items.insert(format!("{of}{}", word(name)))),
                "struct" | "enum" | "type" | "trait" | "const" => {
                    items.insert(word(name).to_string());
                }
                _ => assert!(kind.ends_with(':'), "a kind that this test doesn't know: {line}"),
            }
            if kind == "trait" {
                (of, in_trait) = (format!("{}::", word(name)), true);
            }
        } else if let (true, Some(name)) = (in_trait, inner.strip_prefix("fn ")) {
            items.insert(format!("{of}{}", word(name)));
        }
    }
    items
}

/// What stands between backticks.
fn quoted(text: &str) -> impl Iterator<Item = &str> {
    text.split('`').skip(1).step_by(2)
}

#[test]
fn every_public_item_is_listed() {
    let page = read("docs/DIFFERENCES.md");
    let mut total = 0;
    for file in FILES {
        let items = public(&read(&format!("docs/src/turbo-quant/src/{file}.rs")));
        let heading = format!("\n### {file}.rs\n");
        let section = page.split_once(&heading).expect("a heading for each file").1;
        let section = section.split("\n### ").next().unwrap();
        let mut listed = BTreeSet::new();
        for row in section.lines().filter(|line| line.starts_with("| `")) {
            for name in quoted(row.split(" | ").next().unwrap()) {
                assert!(listed.insert(name.to_string()), "{file}.rs: {name} stands twice");
            }
        }
        let missing: Vec<_> = items.difference(&listed).collect();
        let foreign: Vec<_> = listed.difference(&items).collect();
        assert!(missing.is_empty(), "{file}.rs: not listed {missing:?}");
        assert!(foreign.is_empty(), "{file}.rs: no public item {foreign:?}");
        total += items.len();
    }
    assert!(total > 100, "{total}");
}

#[test]
fn the_calls_that_it_names_are_there() {
    let page = read("docs/DIFFERENCES.md");
    let section = page.split_once("\n## Every public item").unwrap().1;
    for name in
        section.lines().filter_map(|line| line.split_once(" | ")).flat_map(|(_, here)| quoted(here))
    {
        let Some((folder, item)) = name.split_once("::") else { continue };
        let sources = fs::read_dir(repository().join("crates").join(folder).join("src"))
            .unwrap_or_else(|why| panic!("{name}: {why}"));
        let text: String =
            sources.map(|file| fs::read_to_string(file.unwrap().path()).unwrap()).collect();
        let there = ["pub fn ", "pub struct ", "pub enum "]
            .iter()
            .any(|kind| text.split(kind).skip(1).any(|rest| word(rest) == item));
        assert!(there, "{name}");
    }
}
