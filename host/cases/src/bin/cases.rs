//! The oracle and the port on made-up cases; `cases --help` says how to ask.

use std::collections::BTreeMap;

use cases::{
    ask::{ask, hush},
    boards,
    case::{same, Answer, Case, Profile, Value, CALLS},
    expect::{distance_sum, expected, sum_name, Expected},
    hidden,
    make::{Maker, Size},
    norms::{class_of, classes_of, flaw_of, given, place_of, PLACES},
    paper::{ended, Ended, Refusal},
    plain,
};

/// From so many cases of each call on, every class of norms, boards and hidden faults must have
/// come up.
const ENOUGH: usize = 4000;

/// Longer lines are not worth writing down.
const LONGEST: usize = 1200;

const HELP: &str = "\
cases COMMAND [--seed N] [--count N] [--call NAME]

  run      puts cases to the Rust and holds its answers against document 01's refusals
           and document 02's withdrawn positions, norms and stored rotations
  largest  the same at the limits of a setup, 4,096 x 4,096, and 512 x 4,096 stored
  list     prints small cases with the answer that is expected
  replay   prints a few of them for each kind of answer
  differ   holds the port against what is expected; ends with 1 where one differs
           (built with --features capi, and CAPI_DIR set to the folder of libcapi.a)

  --seed N     where the generator starts (1)
  --count N    cases for each call (1000)
  --call NAME  this call alone, of those below (all)
";

struct Options {
    seed: u64,
    count: usize,
    call: Option<String>,
}

impl Options {
    /// The command and its options, or what is wrong with them.
    fn read(mut args: impl Iterator<Item = String>) -> Result<(String, Self), String> {
        let mut found = Self { seed: 1, count: 1000, call: None };
        let what = args.next().ok_or("no command")?;
        while let Some(name) = args.next() {
            let value = args.next().ok_or(format!("{name} has no value"))?;
            let wrong = format!("{name} takes a number, not {value}");
            match name.as_str() {
                "--seed" => found.seed = value.parse().map_err(|_| wrong)?,
                "--count" => found.count = value.parse().map_err(|_| wrong)?,
                "--call" if CALLS.contains(&value.as_str()) => found.call = Some(value),
                "--call" => return Err(format!("no call {value}")),
                _ => return Err(format!("no option {name}")),
            }
        }
        Ok((what, found))
    }
}

/// Ends with one line that says what is wrong.
fn wrong(why: &str) -> ! {
    eprintln!("cases: {why}; see cases --help");
    std::process::exit(2)
}

/// One line: the case, the Rust's answer, and what the documents ask for.
fn line(case: &Case, answer: &Answer, end: Option<Ended>) -> String {
    match end {
        Some(Ended::Refused(refused)) => {
            format!("{case} => {answer} | {}@{}", refused.number, refused.place)
        }
        Some(Ended::Withdrawn) => format!("{case} => {answer} | withdrawn"),
        None => format!("{case} => {answer} | value"),
    }
}

/// How the Rust's outcome and the documents' stand to each other.
fn kind(answer: &Answer, end: Option<Ended>) -> String {
    let ours = match end {
        Some(Ended::Refused(refused)) => format!("refusal {:>2}", refused.number),
        Some(Ended::Withdrawn) => "withdrawn ".into(),
        None => "value     ".into(),
    };
    let theirs = match answer {
        Answer::Value(_) => "value".into(),
        Answer::Error(fault) => format!("error {}", fault.variant),
        Answer::Panic(text) => {
            // Without the numbers, so that one kind is one line.
            let cut = text.find(". min").or(text.find(':')).unwrap_or(text.len());
            format!("panic: {}", &text[..cut])
        }
        Answer::Absent => "absent".into(),
    };
    format!("{ours} / {theirs}")
}

/// How many distances had which sum before its cut to zero.
#[derive(Default)]
struct Sums(BTreeMap<&'static str, usize>);

impl Sums {
    fn count(&mut self, case: &Case, wanted: &Expected) {
        if let Some(sum) = distance_sum(case, wanted) {
            *self.0.entry(sum_name(sum)).or_default() += 1;
        }
    }

    fn print(&self) {
        let of = |name| self.0.get(name).copied().unwrap_or(0);
        if !self.0.is_empty() {
            println!(
                "sums of distances: {} NaN, {} minus infinity, {} plus infinity, {} finite",
                of("nan"),
                of("-inf"),
                of("+inf"),
                of("finite")
            );
        }
    }
}

/// How many records of no bytes each call had: withdrawn positions, and those that are
/// refused before.
#[derive(Default)]
struct Empty(BTreeMap<&'static str, (usize, usize)>);

impl Empty {
    fn count(&mut self, case: &Case, wanted: &Expected) {
        if case.record().is_some_and(|record| record.is_empty()) {
            let (withdrawn, before) = self.0.entry(case.call()).or_default();
            *withdrawn += matches!(wanted, Expected::Withdrawn) as usize;
            *before += matches!(wanted, Expected::Refused(_)) as usize;
        }
    }

    fn print(&self) {
        let told = self.0.iter().map(|(call, (withdrawn, before))| {
            format!("{call} {withdrawn} withdrawn, {before} refused before")
        });
        if !self.0.is_empty() {
            println!("records of no bytes: {}", told.collect::<Vec<_>>().join("; "));
        }
    }
}

/// How many norms of each class there were, by `PLACES`; and how many scores and distances
/// were expected of turbo.rs's own calls, and of its halves with another norm than 1.0.
#[derive(Default)]
struct Norms {
    classes: BTreeMap<&'static str, BTreeMap<&'static str, usize>>,
    own: usize,
    halves: usize,
}

impl Norms {
    fn count(&mut self, case: &Case, wanted: &Expected) {
        let Some(place) = place_of(case) else { return };
        let classes = self.classes.entry(place).or_default();
        for class in class_of(case).into_iter().chain(flaw_of(case)) {
            *classes.entry(class).or_default() += 1;
        }
        let scores =
            matches!(case, Case::Score { .. } | Case::Distance { .. } | Case::ScorePrepared { .. });
        if let (true, Expected::Value { by_rust: true, .. }) = (scores, wanted) {
            match given(case) {
                None | Some(1.0) => self.own += 1,
                Some(_) => self.halves += 1,
            }
        }
    }

    fn print(&self) {
        for (place, met) in &self.classes {
            let named = |class: &&str| format!("{} {class}", met.get(class).unwrap_or(&0));
            let all: Vec<String> = classes_of(place).iter().map(named).collect();
            println!("norms, {place}: {}", all.join(", "));
        }
        if self.own + self.halves > 0 {
            println!(
                "scores and distances of the Rust: {} with the norm 1.0 by its own calls, {} with \
                 another by its halves",
                self.own, self.halves
            );
        }
    }

    /// Ends with 1 where a class has no case among enough of all calls.
    fn complete(&self, options: &Options) {
        if options.call.is_some() || options.count < ENOUGH {
            return;
        }
        let met = |place, class| self.classes.get(place).is_some_and(|of| of.contains_key(class));
        let missing: Vec<String> = PLACES
            .into_iter()
            .flat_map(|place| classes_of(place).into_iter().map(move |class| (place, class)))
            .filter(|&(place, class)| !met(place, class))
            .map(|(place, class)| format!("{place}: {class}"))
            .collect();
        if !missing.is_empty() {
            println!("no case of a norm that is: {}", missing.join("; "));
            std::process::exit(1);
        }
    }
}

/// How many cases of each class there were, by call.
#[derive(Default)]
struct Counts(BTreeMap<&'static str, BTreeMap<&'static str, usize>>);

impl Counts {
    fn add(&mut self, call: &'static str, classes: impl IntoIterator<Item = &'static str>) {
        for class in classes {
            *self.0.entry(call).or_default().entry(class).or_default() += 1;
        }
    }

    fn of(&self, call: &str, class: &str) -> usize {
        self.0.get(call).and_then(|met| met.get(class)).copied().unwrap_or(0)
    }

    fn told(&self, call: &str, classes: &[&str]) -> String {
        let told: Vec<String> =
            classes.iter().map(|class| format!("{} {class}", self.of(call, class))).collect();
        told.join(", ")
    }

    /// Ends with 1 where a class has no case among enough of all calls.
    fn complete(
        &self,
        options: &Options,
        what: &str,
        calls: &[&'static str],
        classes_of: fn(&str) -> Vec<&'static str>,
    ) {
        if options.call.is_some() || options.count < ENOUGH {
            return;
        }
        let missing: Vec<String> = calls
            .iter()
            .flat_map(|call| classes_of(call).into_iter().map(move |class| (call, class)))
            .filter(|(call, class)| self.of(call, class) == 0)
            .map(|(call, class)| format!("{call}: {class}"))
            .collect();
        if !missing.is_empty() {
            println!("no case of {what}: {}", missing.join("; "));
            std::process::exit(1);
        }
    }
}

/// The classes of `boards`.
#[derive(Default)]
struct Boards(Counts);

impl Boards {
    fn count(&mut self, case: &Case, wanted: &Expected) {
        let found = boards::stored(case, wanted).into_iter().chain(boards::record(case, wanted));
        self.0.add(case.call(), found);
    }

    fn print(&self) {
        for call in boards::calls().into_iter().filter(|call| self.0 .0.contains_key(call)) {
            let stored: usize = boards::STORED.iter().map(|class| self.0.of(call, class)).sum();
            let told = self.0.told(call, &boards::classes_of(call));
            println!("boards, {call}: {stored} stored: {told}");
        }
    }

    fn complete(&self, options: &Options) {
        self.0.complete(options, "a board", &boards::calls(), boards::classes_of);
    }
}

/// The classes of `hidden`.
#[derive(Default)]
struct Hidden(Counts);

impl Hidden {
    fn count(&mut self, case: &Case, wanted: &Expected) {
        self.0.add(case.call(), hidden::classes(case, wanted));
    }

    fn print(&self) {
        for call in hidden::HIDDEN.into_iter().filter(|call| self.0 .0.contains_key(call)) {
            println!("hidden, {call}: {}", self.0.told(call, &hidden::classes_of(call)));
        }
    }

    fn complete(&self, options: &Options) {
        self.0.complete(options, "a hidden fault", &hidden::HIDDEN, hidden::classes_of);
    }
}

fn main() {
    if std::env::args().skip(1).any(|word| word == "--help") {
        print!("{HELP}\ncalls: {}\n", CALLS.join(", "));
        return;
    }
    let (what, options) = Options::read(std::env::args().skip(1)).unwrap_or_else(|why| wrong(&why));
    hush();
    let chosen: Vec<usize> = (0..CALLS.len())
        .filter(|call| options.call.as_deref().is_none_or(|name| CALLS[*call] == name))
        .collect();
    match what.as_str() {
        "run" => run(&options, &chosen),
        "list" => list(&options, &chosen, usize::MAX),
        "replay" => list(&options, &chosen, 3),
        "largest" => largest(&options),
        #[cfg(feature = "capi")]
        "differ" => differ(&options, &chosen),
        #[cfg(not(feature = "capi"))]
        "differ" => wrong("differ is built with --features capi only"),
        other => wrong(&format!("no command {other}")),
    }
}

/// The kinds of a call's answers: how many there are, and a short case.
type Kinds = BTreeMap<String, (usize, String)>;

/// What `run` counts over all calls.
#[derive(Default)]
struct Ran {
    total: usize,
    broken: usize,
    held: usize,
    apart: usize,
    open: usize,
    sums: Sums,
    empty: Empty,
    norms: Norms,
    boards: Boards,
    hidden: Hidden,
}

impl Ran {
    fn add(&mut self, case: &Case, kinds: &mut Kinds) {
        let answer = ask(case);
        let end = ended(case, &answer);
        self.broken += inverse_broken(case, &answer, end) as usize;
        let wanted = expected(case);
        self.open += matches!(wanted, Expected::Open) as usize;
        self.sums.count(case, &wanted);
        self.empty.count(case, &wanted);
        self.norms.count(case, &wanted);
        self.boards.count(case, &wanted);
        self.hidden.count(case, &wanted);
        if let Some(differs) = plain_differs(case, &answer, end) {
            self.apart += differs as usize;
            self.held += 1;
            if differs && self.apart <= 5 {
                println!("  plain sums differ: {}", line(case, &answer, end));
                println!("  {}", plain::value(case).unwrap());
            }
        }
        let entry = kinds.entry(kind(&answer, end)).or_default();
        entry.0 += 1;
        if entry.1.is_empty() || entry.1.len() > 240 {
            let text = line(case, &answer, end);
            if entry.1.is_empty() || text.len() < entry.1.len() {
                entry.1 = text;
            }
        }
        self.total += 1;
    }
}

/// Whether a kind is worth an example: a panic, and where the Rust has a value and the
/// documents have none, or the other way round; but for 6, which the Rust doesn't know.
fn odd(kind: &str) -> bool {
    let theirs = kind.ends_with("/ value");
    let ours = kind.starts_with("value");
    kind.contains("panic") || (ours != theirs && !kind.starts_with("refusal  6"))
}

fn run(options: &Options, calls: &[usize]) {
    println!("seed {}, {} cases for each call", options.seed, options.count);
    let mut ran = Ran::default();
    for &call in calls {
        let mut maker = Maker::new(options.seed.wrapping_add(call as u64) << 8, Size::Full);
        let mut kinds = Kinds::new();
        for _ in 0..options.count {
            ran.add(&maker.make(call), &mut kinds);
        }
        println!("{}", CALLS[call]);
        for (kind, (count, example)) in &kinds {
            println!("  {count:>8}  {kind}");
            if odd(kind) {
                println!("            {}", example.chars().take(300).collect::<String>());
            }
        }
    }
    ran.sums.print();
    ran.empty.print();
    ran.norms.print();
    ran.boards.print();
    ran.hidden.print();
    println!("{} cases, {} round trips broken", ran.total, ran.broken);
    println!("{} cases have nothing to be held against", ran.open);
    println!("plain sums held against the Rust {} times, {} differ", ran.held, ran.apart);
    ran.norms.complete(options);
    ran.boards.complete(options);
    ran.hidden.complete(options);
}

/// One case of each call that takes a setup, at the limits of both kinds; one gigabyte of memory.
fn largest(options: &Options) {
    for case in Maker::new(options.seed, Size::Full).largest() {
        let answer = ask(&case);
        let end = ended(&case, &answer);
        let apart = match plain_differs(&case, &answer, end) {
            Some(true) => ", the plain sums differ",
            Some(false) => ", as the plain sums",
            None => "",
        };
        println!("{}: {}{apart}", case.call(), kind(&answer, end));
    }
}

/// Whether the plain sums and the Rust differ; None where they can't be held together.
fn plain_differs(case: &Case, answer: &Answer, end: Option<Ended>) -> Option<bool> {
    match end {
        Some(Ended::Refused(refused)) if refused.number == 6 => {}
        Some(_) => return None,
        None => {}
    }
    let Answer::Value(found) = answer else {
        return None;
    };
    Some(!same(found, &plain::value(case)?))
}

/// Whether a value that the oracle gave does not come back through its inverse. A record is
/// read back only where it is not refused but for its output: the Rust writes some linear
/// radii that it doesn't read.
fn inverse_broken(case: &Case, answer: &Answer, end: Option<Ended>) -> bool {
    let written = match end {
        None => true,
        Some(Ended::Refused(refused)) => refused.number == 6,
        Some(Ended::Withdrawn) => false,
    };
    let back = match (case, answer) {
        (
            Case::WriteRecord { profile, norm, radii, indices, signs, .. },
            Answer::Value(Value::Bytes(bytes)),
        ) if written => {
            let back = ask(&Case::ReadRecord { record: bytes.clone() });
            let Answer::Value(Value::Record { radii: found, .. }) = &back else { return true };
            // Linear radii may come back as others.
            let radii = if *profile == Profile::F32 { radii.clone() } else { found.clone() };
            let (indices, signs, norm) = (indices.clone(), signs.clone(), *norm);
            (back, Value::Record { radii, indices, signs, norm })
        }
        (Case::PackIndices { indices, bits, .. }, Answer::Value(Value::Bytes(bytes))) => {
            let (bytes, count, bits) = (bytes.clone(), indices.len(), *bits);
            let back = ask(&Case::UnpackIndices { bytes, count, bits, out: 0 });
            return back != Answer::Value(Value::Numbers(indices.clone()));
        }
        (Case::UnpackIndices { bytes, bits, .. }, Answer::Value(Value::Numbers(found))) => {
            let again = Case::PackIndices { indices: found.clone(), bits: *bits, out: 0 };
            (ask(&again), Value::Bytes(bytes.clone()))
        }
        (Case::PackSigns { signs, .. }, Answer::Value(Value::Bytes(bytes))) => {
            let again = Case::UnpackSigns { bytes: bytes.clone(), count: signs.len(), out: 0 };
            (ask(&again), Value::Signs(signs.clone()))
        }
        (Case::UnpackSigns { bytes, .. }, Answer::Value(Value::Signs(found))) => {
            let again = Case::PackSigns { signs: found.clone(), out: 0 };
            (ask(&again), Value::Bytes(bytes.clone()))
        }
        (
            Case::Compress { radii, profile, .. },
            Answer::Value(Value::Radii { min, max, payload }),
        ) if *profile == Profile::F32 => {
            let (count, payload, profile) = (radii.len(), payload.clone(), *profile);
            let again = Case::Decompress { profile, count, min: *min, max: *max, payload, out: 0 };
            (ask(&again), Value::Floats(radii.clone()))
        }
        _ => return false,
    };
    match back {
        (Answer::Value(found), wanted) => !same(&found, &wanted),
        _ => true,
    }
}

/// Prints cases, at most `most` of each call and kind.
fn list(options: &Options, calls: &[usize], most: usize) {
    println!("# seed {}, {} cases tried for each call", options.seed, options.count);
    for &call in calls {
        let mut maker = Maker::new(options.seed.wrapping_add(call as u64) << 8, Size::Small);
        let mut kept: BTreeMap<String, usize> = BTreeMap::new();
        for _ in 0..options.count {
            let case = maker.make(call);
            let wanted = expected(&case);
            let sum = distance_sum(&case, &wanted).map(|sum| format!(" sum={}", sum_name(sum)));
            let (kind, text) = match wanted {
                Expected::Refused(Refusal { number, place }) => {
                    (number.to_string(), format!("refused {number} {place}"))
                }
                Expected::Withdrawn => ("withdrawn".into(), "withdrawn".into()),
                Expected::Value { value, by_rust, .. } => {
                    let by = if by_rust { "rust" } else { "plain" };
                    ("value".into(), format!("{by} {value}"))
                }
                Expected::Open => continue,
            };
            let text = format!("{case}{} => {text}", sum.unwrap_or_default());
            let count = kept.entry(kind).or_default();
            if *count < most && text.len() <= LONGEST {
                *count += 1;
                println!("{text}");
            }
        }
    }
}

/// The cases of one call, by what is expected, and how many answers of the port differ.
#[cfg(feature = "capi")]
#[derive(Default)]
struct Row {
    rust: usize,
    plain: usize,
    refused: usize,
    withdrawn: usize,
    wrong: usize,
    /// The shortest case that differs.
    smallest: Option<String>,
}

#[cfg(feature = "capi")]
impl Row {
    fn print(&self, call: &str) {
        let Self { rust, plain, refused, withdrawn, wrong, .. } = self;
        println!(
            "{call:<22} {rust:>8} values of the Rust {plain:>6} plain {refused:>8} refusals \
             {withdrawn:>6} withdrawn {wrong:>6} differ"
        );
        if let Some(text) = &self.smallest {
            println!("  {text}");
        }
    }
}

/// What `differ` counts over all calls.
#[cfg(feature = "capi")]
#[derive(Default)]
struct Differed {
    total: usize,
    differ: usize,
    zeros: usize,
    numbers: BTreeMap<u32, usize>,
    sums: Sums,
    empty: Empty,
    norms: Norms,
    boards: Boards,
    hidden: Hidden,
}

#[cfg(feature = "capi")]
impl Differed {
    fn add(&mut self, case: &Case, row: &mut Row) {
        let given = cases::port::answer(case);
        let wanted = expected(case);
        match &wanted {
            Expected::Refused(refusal) => {
                row.refused += 1;
                *self.numbers.entry(refusal.number).or_default() += 1;
            }
            Expected::Withdrawn => row.withdrawn += 1,
            Expected::Value { by_rust: true, .. } => row.rust += 1,
            Expected::Value { by_rust: false, .. } => row.plain += 1,
            Expected::Open => {}
        }
        self.sums.count(case, &wanted);
        self.empty.count(case, &wanted);
        self.norms.count(case, &wanted);
        self.boards.count(case, &wanted);
        self.hidden.count(case, &wanted);
        self.zeros += !given.agrees_in_zeros(&wanted) as usize;
        if !given.agrees(&wanted) {
            row.wrong += 1;
            let text = format!("{case}\n    wanted {wanted:?}\n    given  {given:?}");
            if row.smallest.as_ref().is_none_or(|other| text.len() < other.len()) {
                row.smallest = Some(text);
            }
        }
    }

    fn add_largest(&mut self, case: &Case) {
        let given = cases::port::answer(case);
        let wanted = expected(case);
        self.zeros += !given.agrees_in_zeros(&wanted) as usize;
        let agrees = given.agrees(&wanted);
        println!("largest {:<22} {}", case.call(), if agrees { "agrees" } else { "DIFFERS" });
        self.total += 1;
        self.differ += !agrees as usize;
    }
}

/// Holds the port against what is expected of it.
#[cfg(feature = "capi")]
fn differ(options: &Options, calls: &[usize]) {
    println!("seed {}, {} cases for each call", options.seed, options.count);
    let mut all = Differed::default();
    for &call in calls {
        let mut maker = Maker::new(options.seed.wrapping_add(call as u64) << 8, Size::Full);
        let mut row = Row::default();
        for _ in 0..options.count {
            all.add(&maker.make(call), &mut row);
        }
        row.print(CALLS[call]);
        all.total += row.rust + row.plain + row.refused + row.withdrawn;
        all.differ += row.wrong;
    }
    if options.call.is_none() {
        for case in Maker::new(options.seed, Size::Full).largest() {
            all.add_largest(&case);
        }
    }
    let numbers = all.numbers.iter().map(|(n, count)| format!("{n}: {count}"));
    println!("refusals by number: {}", numbers.collect::<Vec<_>>().join(", "));
    all.sums.print();
    all.empty.print();
    all.norms.print();
    all.boards.print();
    all.hidden.print();
    let Differed { total, zeros, differ, norms, boards, hidden, .. } = all;
    println!("{total} cases, {zeros} with zeros of another sign, {differ} differ");
    if differ > 0 {
        std::process::exit(1);
    }
    norms.complete(options);
    boards.complete(options);
    hidden.complete(options);
}
