//! The declarations of `raw.rs`, of the C header and of the port's sources are the same,
//! and so are the fields of structs and the numbers of refusals, of a withdrawn position, of
//! modes, kinds and profiles, as far as header and sources stand beside this folder.

use std::{collections::BTreeMap, fs, mem::offset_of, path::Path};

use foldrima::{raw, RotationKind};

/// The types of a function's parameters, and of what it returns.
type Signatures = BTreeMap<String, (Vec<String>, String)>;

fn words(text: &str) -> String {
    text.split_whitespace().collect::<Vec<_>>().join(" ")
}

/// The functions whose names follow `start`; `types` gives a parameter's C types.
fn found(text: &str, start: &str, types: impl Fn(&str) -> Vec<String>) -> Signatures {
    let mut all = Signatures::new();
    for piece in text.split(start).skip(1) {
        let (name, rest) = piece.split_once('(').unwrap();
        let (list, after) = rest.split_once(')').unwrap();
        let list = list.split(',').map(words).filter(|one| !one.is_empty());
        let given = list.flat_map(|one| types(&one)).collect();
        let answer = after.strip_prefix(" -> ").unwrap_or("");
        let answer = answer.split(|c: char| !c.is_alphanumeric()).next().unwrap();
        all.insert(name.to_string(), (given, answer.to_string()));
    }
    all
}

fn declared() -> Signatures {
    let text = include_str!("../src/raw.rs").replace("$($rest)*", "");
    let types = |one: &str| vec![one.split_once(": ").unwrap().1.to_string()];
    let full = |all: Signatures| -> Signatures {
        all.into_iter().map(|(name, signature)| (format!("foldrima_{name}"), signature)).collect()
    };
    let mut all = full(found(&text, "pub fn foldrima_", types));
    // Those under a setup, with the parameters that their macro puts first.
    let (setup, _) = found(&text, "pub fn $", types).remove("name").unwrap();
    for (name, (rest, answer)) in full(found(&text, "\n    fn foldrima_", types)) {
        all.insert(name, (setup.iter().cloned().chain(rest).collect(), answer));
    }
    all
}

fn agree(others: &Signatures) {
    let ours = declared();
    assert!(ours.keys().eq(others.keys()), "{:?} and {:?}", ours.keys(), others.keys());
    for (name, signature) in &ours {
        assert_eq!(&others[name], signature, "{name}");
    }
}

/// A file of the repository, where it is at hand.
fn file(name: &str) -> Option<String> {
    let path = Path::new(env!("CARGO_MANIFEST_DIR")).join("../..").join(name);
    let text = fs::read_to_string(path).ok();
    if text.is_none() {
        println!("there is no {name}");
    }
    text
}

/// The header in one line, without its comments: its declarations, and the functions that it
/// defines, which stand behind them all.
fn header() -> Option<(String, String)> {
    let text = file("include/foldrima.h")?;
    let text: String = text.split("/*").map(|part| part.split("*/").last().unwrap()).collect();
    let text = words(&text);
    let (declared, defined) = text.split_once("static inline ").unwrap();
    Some((declared.to_string(), defined.to_string()))
}

/// A type of C as Rust has it.
fn rust(name: &str) -> String {
    match name.strip_prefix("foldrima_") {
        Some(own) => own[..1].to_uppercase() + &own[1..],
        None if name == "float" => "f32".to_string(),
        None if name == "size_t" => "usize".to_string(),
        None => name.trim_end_matches("_t").replace("uint", "u").replace("int", "i"),
    }
}

#[test]
fn the_header_has_them() {
    let Some((text, _)) = self::header() else { return };
    let mut header = Signatures::new();
    for line in text.split(';') {
        let Some((before, list)) = line.rsplit_once('(') else { continue };
        let Some((before, name)) = before.rsplit_once(' ') else { continue };
        if !name.starts_with("foldrima_") {
            continue;
        }
        let given = list.trim_end_matches(')').split(", ").map(|one| {
            let (kind, name) = one.rsplit_once(' ').unwrap();
            match (kind.strip_prefix("const "), name.starts_with('*')) {
                (Some(kind), true) => format!("*const {}", rust(kind)),
                (None, true) => format!("*mut {}", rust(kind)),
                _ => rust(kind),
            }
        });
        let answer = before.trim().rsplit(' ').next().unwrap();
        let answer = if answer == "void" { String::new() } else { rust(answer) };
        header.insert(name.to_string(), (given.collect(), answer));
    }
    agree(&header);
}

/// What the header defines does to a scan in place what the call does that it makes.
#[test]
fn the_header_passes_on_what_it_is_given() {
    let Some((_, text)) = header() else { return };
    let defined: Vec<&str> = text.split("static inline ").collect();
    let lists = ", scan->numbers, 64, scan->scores, 64";
    let wanted = [
        ("take_into", "take", lists),
        ("take_prepared_into", "take_prepared", lists),
        ("take_many_into", "take_many", lists),
        ("shorten", "shorten", ""),
    ];
    assert_eq!(defined.len(), wanted.len());
    for ((name, called, lists), text) in wanted.into_iter().zip(defined) {
        let start = format!("int foldrima_{name}(foldrima_scan *scan, ");
        let (list, body) = text.strip_prefix(&start).unwrap().split_once(')').unwrap();
        let name_of = |one: &str| one.rsplit([' ', '*']).next().unwrap().to_string();
        let names: Vec<String> = list.split(", ").map(name_of).collect();
        let given = format!("scan->tally{lists}, {}", names.join(", "));
        let call = format!("scan->tally = foldrima_scan_{called}({given});");
        assert!(body.contains(&call), "{name}: {body}");
    }
}

/// The fields of a struct and their types, in their order, of Rust's form.
fn fields(text: &str, name: &str) -> Vec<(String, String)> {
    let start = format!("#[repr(C)]\npub struct {name} {{");
    let (_, rest) = text.split_once(&start).unwrap();
    let list = rest.split_once('}').unwrap().0.split(",\n").map(str::trim);
    let pairs = list.filter(|one| !one.is_empty()).map(|one| {
        let (name, kind) = one.strip_prefix("pub ").unwrap().split_once(": ").unwrap();
        (name.to_string(), kind.to_string())
    });
    pairs.collect()
}

/// The same of C's.
fn fields_in_c(text: &str, name: &str) -> Vec<(String, String)> {
    let start = format!("typedef struct {name} {{");
    let (_, rest) = text.split_once(&start).unwrap();
    let (list, after) = rest.split_once('}').unwrap();
    assert!(after.starts_with(&format!(" {name};")));
    let pairs = list.split(';').map(str::trim).filter(|one| !one.is_empty()).map(|one| {
        let (kind, name) = one.split_once(' ').unwrap();
        match name.split_once('[') {
            Some((name, count)) => {
                (name.to_string(), format!("[{}; {}]", rust(kind), count.trim_end_matches(']')))
            }
            None => (name.to_string(), rust(kind)),
        }
    });
    pairs.collect()
}

#[test]
fn the_structs_are_the_same() {
    let declared = include_str!("../src/raw.rs");
    let header = header();
    for (name, in_c, source) in [
        ("Tally", "foldrima_tally", "crates/scan/src/lib.rt"),
        ("Scan", "foldrima_scan", "crates/scan/src/lib.rt"),
        ("Hit", "foldrima_hit", "crates/ranking/src/lib.rt"),
    ] {
        let ours = fields(declared, name);
        if let Some((header, _)) = &header {
            assert_eq!(fields_in_c(header, in_c), ours, "{name}");
        }
        if let Some(source) = file(source) {
            assert_eq!(fields(&source, name), ours, "{name}");
        }
    }
}

/// Where the fields stand; `host/c/scan.c` holds the same of C.
#[test]
fn the_structs_are_laid_out_as_in_c() {
    use raw::{Hit, Scan, Tally};
    assert_eq!((size_of::<Tally>(), size_of::<Scan>(), size_of::<Hit>()), (40, 552, 8));
    assert_eq!((offset_of!(Tally, length), offset_of!(Tally, kept)), (0, 8));
    assert_eq!((offset_of!(Tally, taken), offset_of!(Tally, refused)), (16, 20));
    assert_eq!((offset_of!(Tally, withdrawn), offset_of!(Tally, comparisons)), (24, 32));
    assert_eq!(offset_of!(Scan, tally), 0);
    assert_eq!((offset_of!(Scan, numbers), offset_of!(Scan, scores)), (40, 296));
    assert_eq!((offset_of!(Hit, number), offset_of!(Hit, score)), (0, 4));
}

#[test]
fn the_sources_have_them() {
    let folder = Path::new(env!("CARGO_MANIFEST_DIR")).join("../../crates/capi/src");
    let Ok(files) = fs::read_dir(folder) else {
        println!("there are no sources");
        return;
    };
    let text: String =
        files.map(|file| fs::read_to_string(file.unwrap().path()).unwrap()).collect();
    let sources = found(&text, "pub extern \"C\" fn ", |one| {
        let kind = one.split_once(": ").unwrap().1;
        let (mutable, kind) = match kind.strip_prefix('&') {
            None => return vec![kind.to_string()],
            Some(kind) => match kind.strip_prefix("mut ") {
                Some(kind) => ("*mut", kind),
                None => ("*const", kind),
            },
        };
        match kind.strip_prefix('[') {
            Some(item) => {
                vec![format!("{mutable} {}", item.trim_end_matches(']')), "usize".to_string()]
            }
            None => vec![format!("{mutable} {kind}")],
        }
    });
    agree(&sources);
}

/// The names that stand between `before` and `between`, and the numbers after that.
fn numbers(text: &str, before: &str, between: &str) -> BTreeMap<String, u32> {
    let lines = text.lines().filter_map(|line| line.trim().strip_prefix(before));
    let pairs = lines.filter_map(|line| line.split_once(between)).map(|(name, rest)| {
        let number = rest.split(|c: char| !c.is_ascii_digit()).next().unwrap();
        (name.to_string(), number.parse().unwrap())
    });
    pairs.collect()
}

/// `PolarOnly` as `POLAR_ONLY`.
fn capitals(name: &str) -> String {
    let mut all = String::new();
    for c in name.chars() {
        if c.is_ascii_uppercase() && !all.is_empty() {
            all.push('_');
        }
        all.push(c.to_ascii_uppercase());
    }
    all
}

#[test]
fn the_numbers_are_the_same() {
    let (header, error) = (file("include/foldrima.h"), file("crates/error/src/lib.rt"));
    let (Some(header), Some(error)) = (header, error) else { return };
    // Where the sources are, these two are among them.
    let codes = file("crates/capi_answers/src/codes.rt").unwrap();
    let answers = file("crates/capi_answers/src/answers.rt").unwrap();
    let arms = numbers(&error, "Refusal::", "(_) => ");
    let mut wanted: BTreeMap<String, u32> =
        arms.into_iter().map(|(name, number)| (capitals(&name), number)).collect();
    let named = foldrima::refusal::NAMES.map(|(name, number)| (name.to_string(), number));
    assert_eq!(wanted, BTreeMap::from(named));
    // No refusal has the number of a value or of a withdrawn position.
    let withdrawn = numbers(&answers, "pub const ", ": u32 = ");
    assert_eq!(withdrawn, BTreeMap::from([("WITHDRAWN".to_string(), raw::WITHDRAWN)]));
    let taken = |number: &u32| *number == 0 || *number == raw::WITHDRAWN;
    assert!(!wanted.values().any(taken), "{wanted:?}");
    wanted.extend(withdrawn);
    for (before, count) in [("TurboMode::", 2), ("RadiusCodecProfileV1::", 3)] {
        let cases = numbers(&codes, before, " => ");
        assert_eq!(cases.len(), count, "{before}");
        wanted.extend(cases.into_iter().map(|(name, number)| (capitals(&name), number)));
    }
    // No call answers with a kind: the sources only read it.
    assert!(codes.contains("if code == 0 {\n        return RotationKind::FastHadamard;\n    }\n"));
    for kind in [RotationKind::FastHadamard, RotationKind::Stored] {
        wanted.insert(capitals(&format!("{kind:?}")), kind as u32);
    }
    assert_eq!(numbers(&header, "#define FOLDRIMA_", " "), wanted);
}
