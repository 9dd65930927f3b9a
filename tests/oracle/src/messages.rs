//! Documents of every kind with all that the program `offercheck` is to print
//! for each, by the original: kept for a replay, and put to a program.

use crate::crowds::pools;
use crate::decode::{answer, decode};
use crate::encode::encode;
use crate::generate::build::{
    bare, binary, bit, emit, enum_decl, event, field_pattern, group, holds, int, ir, one, path,
    pattern, property, set, step, text, unit, unit_pattern, var, with_fields,
};
use crate::generate::cases::{self, cases};
use crate::generate::rng::Rng;
use crate::generate::{deep, disturb, limits, planted, seeds, valid, whole, Source};
use crate::lang::ir::{
    BinOp, EventPattern, Expr, Ir, Module, OutputExpr, PatternExpr, PatternField, Transition, Type,
};
use crate::lines::{print, LENT};
use crate::original::findings;
use crate::samples::joined;
use crate::table::Table;
use std::collections::{BTreeMap, HashSet};
use std::io::{self, Read, Write};
use std::path::Path;
use std::process::{Command, Stdio};

pub const FILE: &str = "messages.bin";

/// The longest document but those whose length is what they show.
const SHORT: usize = 1_200;

/// The longest output.
const SHORT_OUTPUT: usize = 6_000;

/// A document and what is printed for it.
pub struct Record {
    pub bytes: Vec<u8>,
    pub output: Vec<u8>,
}

/// What the program is to print for the document.
pub fn output(doc: &[u8]) -> Vec<u8> {
    let mut out = Vec::new();
    print(doc, &mut out).expect("a vector takes all bytes");
    out
}

/// So many documents, none twice: all seeds, cases and edges that are short,
/// one over 65,535 bytes and one with too many findings; then one accepted
/// document after another, with changes of one byte, and noise.
pub fn records(count: usize, seed: u64) -> Vec<Record> {
    let rng = &mut Rng::new(seed);
    let mut kept = Kept::default();
    for ir in seeds::seeds() {
        kept.add(encode(&ir));
    }
    for case in cases() {
        kept.add(encode(&case.ir));
    }
    for ir in cases::edges() {
        kept.add(encode(&ir));
    }
    kept.keep(whole::full_of(rng, 65_536).bytes);
    kept.keep(encode(&alike(82)));
    let mut source = Source::new(seed);
    while kept.records.len() < count {
        let bytes = any_short(rng, &mut source, &kept.accepted);
        kept.add(bytes);
    }
    kept.records
}

/// A document of any kind, mostly short.
fn any_short(rng: &mut Rng, source: &mut Source, accepted: &[Vec<u8>]) -> Vec<u8> {
    match rng.below(20) {
        0..=8 => {
            let fault = rng.of(&cases::pairs());
            encode(&planted::with_fault(rng, fault))
        }
        9..=10 => {
            let size = rng.between(0, 500);
            encode(&valid::document(rng, size))
        }
        11..=16 => {
            let base = rng.below(accepted.len());
            changed(rng, &accepted[base])
        }
        17 => match rng.chance(1, 4) {
            true => {
                let base = rng.below(accepted.len());
                unborn(rng, &accepted[base])
            }
            false => disturb::noise(rng).bytes,
        },
        18 => deep::deep(rng).bytes,
        _ => source.next().bytes,
    }
}

/// One byte changed.
fn changed(rng: &mut Rng, bytes: &[u8]) -> Vec<u8> {
    let mut bytes = bytes.to_vec();
    let place = rng.below(bytes.len());
    bytes[place] = match rng.below(3) {
        0 => bytes[place] ^ (1 << rng.below(8)),
        1 => bytes[place].wrapping_add(1),
        _ => rng.byte(),
    };
    bytes
}

/// The document with an ir_version over 1.
fn unborn(rng: &mut Rng, bytes: &[u8]) -> Vec<u8> {
    let mut bytes = bytes.to_vec();
    bytes[1] = rng.between(2, 23) as u8;
    bytes
}

/// A module of so many transitions that differ in nothing but their ids: each
/// pair is found.
pub fn alike(transitions: usize) -> Ir {
    ir(vec![Module {
        enums: vec![enum_decl("State", &["A"])],
        initial_state: Some(text("A")),
        events: vec![group("E", Vec::new())],
        transitions: (0..transitions)
            .map(|id| Transition {
                id,
                pattern: event("E", None),
                ..step("A", "E", "A")
            })
            .collect(),
        ..bare("M")
    }])
}

/// The same with one priority for all.
pub fn ranked(transitions: usize) -> Ir {
    let mut ir = alike(transitions);
    for transition in &mut ir.modules[0].transitions {
        transition.priority = Some(1);
    }
    ir
}

#[derive(Default)]
struct Kept {
    records: Vec<Record>,
    seen: HashSet<Vec<u8>>,
    accepted: Vec<Vec<u8>>,
}

impl Kept {
    /// Keeps a document that is short, and whose output is.
    fn add(&mut self, bytes: Vec<u8>) {
        if bytes.len() <= SHORT && output(&bytes).len() <= SHORT_OUTPUT {
            self.keep(bytes);
        }
    }

    fn keep(&mut self, bytes: Vec<u8>) {
        if !self.seen.insert(bytes.clone()) {
            return;
        }
        if decode(&bytes).is_ok() && bytes.len() <= SHORT {
            self.accepted.push(bytes.clone());
        }
        let output = output(&bytes);
        self.records.push(Record { bytes, output });
    }
}

/// The file: for each record the length of the document as u32, the document,
/// the length of the output as u32 and the output, little-endian.
pub fn file(records: &[Record]) -> Vec<u8> {
    let mut file = Vec::new();
    for part in records.iter().flat_map(|r| [&r.bytes, &r.output]) {
        file.extend((part.len() as u32).to_le_bytes());
        file.extend(part);
    }
    file
}

/// How often each site is found with each cause in what is printed.
pub fn table(records: &[Record]) -> Table {
    let mut table = Table::default();
    for record in records {
        if class(&record.bytes).starts_with("accepted") {
            let ir = decode(&record.bytes).expect("it is accepted");
            let words = crate::sites::findings(&ir).words();
            table.count(&ir, record.bytes.len(), &words);
        }
    }
    table
}

/// The kinds of answer.
const CLASSES: [&str; 14] = [
    "accepted, no finding",
    "accepted, errors",
    "accepted, warnings",
    "accepted, both",
    "refused 1",
    "refused 2",
    "refused 3",
    "refused 4",
    "refused 5",
    "refused 6",
    "refused 7",
    "refused 8",
    "refused 9",
    "short sheet",
];

/// The kind of answer that is due.
fn class(doc: &[u8]) -> &'static str {
    let decoded = decode(doc);
    let Ok(ir) = &decoded else {
        return CLASSES[3 + answer(&decoded).0 as usize];
    };
    let found = findings(ir);
    match (found.errors.len(), found.warnings.len()) {
        (errors, warnings) if 5 * (errors + warnings) > LENT => CLASSES[13],
        (0, 0) => CLASSES[0],
        (_, 0) => CLASSES[1],
        (0, _) => CLASSES[2],
        _ => CLASSES[3],
    }
}

/// Counts by kind of answer.
pub fn classes(records: &[Record]) -> BTreeMap<&'static str, usize> {
    let mut classes = BTreeMap::new();
    for record in records {
        *classes.entry(class(&record.bytes)).or_default() += 1;
    }
    classes
}

/// Each kind of answer is there.
pub fn is_whole(records: &[Record]) -> bool {
    classes(records).len() == CLASSES.len() && table(records).is_whole()
}

pub fn report(records: &[Record]) {
    table(records).print();
    println!();
    for (class, count) in classes(records) {
        println!("{class:<22} {count:>8}");
    }
    println!("{:<22} {:>8}", "all", records.len());
}

/// So many documents put to a program through pipes. True if it prints what
/// is due for each, and, from 2,000 documents on, each kind of answer came.
pub fn program(path: &Path, count: usize, seed: u64) -> Result<bool, String> {
    let rng = &mut Rng::new(!seed);
    let mut source = Source::new(seed);
    let mut seen: BTreeMap<&str, [usize; 2]> = BTreeMap::new();
    let mut failed = 0;
    for number in 0..count {
        let doc = any(rng, &mut source, number);
        let (due, given) = (output(&doc), run(path, &doc)?);
        let class = seen.entry(class(&doc)).or_default();
        class[0] += 1;
        class[1] += usize::from(due == given);
        if due != given {
            failed += 1;
            if failed <= 5 {
                show(&doc, &due, &given);
            }
        }
    }
    println!("{:<22} {:>9} {:>9}", "answer", "documents", "agreed");
    let mut all = [0, 0];
    for (class, counts) in &seen {
        println!("{class:<22} {:>9} {:>9}", counts[0], counts[1]);
        all = [all[0] + counts[0], all[1] + counts[1]];
    }
    println!("{:<22} {:>9} {:>9}", "all", all[0], all[1]);
    let whole = count < 2_000 || seen.len() == CLASSES.len();
    if !whole {
        println!("a kind of answer never came");
    }
    Ok(failed == 0 && whole)
}

/// A document of any kind and size. Some have nearly as many findings as the
/// words hold, or a few more; some are of the length, or have as many
/// findings, up to which a program may do with less memory; some have guards
/// of about the length from which a checker may judge them otherwise, or long
/// ones.
fn any(rng: &mut Rng, source: &mut Source, number: usize) -> Vec<u8> {
    match number % 200 {
        0 => whole::bulky(rng).bytes,
        1 => encode(&alike(rng.of(&[20, 21, 80, 81, 82, 83, 255]))),
        2 => whole::crowded(rng).bytes,
        3 => {
            let list = rng.of(&limits::LISTS);
            encode(&(list.with)(list.limit))
        }
        4 => {
            let base = whole::small(rng).bytes;
            unborn(rng, &base)
        }
        5 => {
            let mut ir = alike(rng.between(1, 40));
            limits::fill(&mut ir, rng.between(4_094, 4_098));
            encode(&ir)
        }
        6 => encode(&guarded(rng)),
        7..=9 => encode(&listed(rng)),
        _ => match rng.below(4) {
            0 => source.next().bytes,
            1 => whole::nearly_sound(rng).bytes,
            2 => {
                let base = whole::nearly_sound(rng).bytes;
                changed(rng, &base)
            }
            _ => {
                let fault = rng.of(&cases::pairs());
                encode(&planted::with_fault(rng, fault))
            }
        },
    }
}

/// One transition whose guard joins equalities; names come again, and some of
/// these guards give a name two values.
fn guarded(rng: &mut Rng) -> Ir {
    let many = rng.of(&[2, 30, 31, 32, 33, 34, 300, 3_000]);
    let names = rng.of(&pools().each_ref());
    let other = rng.below(2 * many);
    let equal = |place: usize| {
        let name = called(rng, names, many);
        let value = int(u64::from(place == other));
        match rng.chance(1, 2) {
            true => binary(BinOp::Eq, path(&[name]), value),
            false => binary(BinOp::Eq, value, path(&[name])),
        }
    };
    let guard = joined(BinOp::LogicAnd, (0..many).map(equal).collect());
    one(|module| {
        module.transitions = vec![Transition {
            guard: Some(guard),
            ..step("A", "E", "A")
        }];
    })
}

/// How many entries a list has: few, about as many as are judged otherwise, or
/// very many.
fn length(rng: &mut Rng) -> usize {
    rng.of(&[0, 1, 3, 14, 15, 16, 17, 18, 40, 255])
}

/// One of so many of the names.
fn called<'a>(rng: &mut Rng, names: &'a [String], many: usize) -> &'a str {
    &names[rng.below(many.min(names.len()))]
}

/// A literal, a name, or a variant by its path.
fn value(rng: &mut Rng, names: &[String], many: usize) -> Expr {
    match rng.below(4) {
        0 | 1 => int(1),
        2 => path(&[called(rng, names, many)]),
        _ => {
            let mode = format!("Mode{}", rng.below(3));
            path(&[&mode, called(rng, names, many)])
        }
    }
}

/// An output with an argument, or any group's unit or only one.
fn emitted(rng: &mut Rng, names: &[String], many: usize) -> OutputExpr {
    match rng.below(6) {
        0 | 1 => emit("E", Some("f"), vec![value(rng, names, many)]),
        2 => emit(called(rng, names, many), None, Vec::new()),
        _ => {
            let group = called(rng, names, many).to_string();
            emit(&group, Some(called(rng, names, many)), Vec::new())
        }
    }
}

/// A pattern of the event that has fields, or of one that has none.
fn binding(rng: &mut Rng, fields: usize, names: &[String], many: usize) -> EventPattern {
    let field = |k: usize| -> PatternField {
        let name = match rng.below(8) {
            0 => None,
            1 => Some(called(rng, names, many).to_string()),
            _ => Some(names[k].clone()),
        };
        pattern(name.as_deref(), PatternExpr::Wildcard)
    };
    let fields: Vec<PatternField> = (0..fields).map(field).collect();
    match rng.below(6) {
        0 => event("E", Some(unit_pattern(called(rng, names, many)))),
        1 => event("E", None),
        _ => event("E", Some(field_pattern("f", fields))),
    }
}

/// Up to three modules whose lists are short or very long, of names that are
/// declared, repeated or unknown, and in some share a lane or a print.
fn listed(rng: &mut Rng) -> Ir {
    let modules = rng.between(1, 3);
    let module = |k: usize| {
        let many = rng.of(&[3, 30, 400]);
        let names = rng.of(&pools().each_ref()).as_slice();
        let some = |rng: &mut Rng| -> Vec<&str> {
            let many_of = length(rng);
            (0..many_of).map(|_| called(rng, names, many)).collect()
        };
        let fields = length(rng);
        let typed: Vec<(&str, Type)> = names[..fields]
            .iter()
            .map(|n| (n.as_str(), bit(8)))
            .collect();
        let mut events = vec![with_fields("f", &typed)];
        events.extend(some(rng).into_iter().take(254).map(unit));
        let transition = |id: usize| Transition {
            id,
            priority: Some(id as u32),
            pattern: binding(rng, fields, names, many),
            guard: rng.chance(1, 3).then(|| value(rng, names, many)),
            assignments: some(rng)
                .into_iter()
                .map(|n| set(n, value(rng, names, many)))
                .collect(),
            emits: (0..length(rng).min(20))
                .map(|_| emitted(rng, names, many))
                .collect(),
            ..step("A", "E", "A")
        };
        let transitions = (0..3).map(transition).collect();
        let mut enums = vec![enum_decl("State", &["A", "B"])];
        for mode in ["Mode0", "Mode1", "Mode2"] {
            enums.push(enum_decl(mode, &some(rng)));
        }
        let mut outputs = vec![group("E", vec![with_fields("f", &[("g", bit(8))])])];
        for _ in 0..rng.of(&[0, 1, 3, 18, 60]) {
            let units = some(rng).into_iter().map(unit).collect();
            outputs.push(group(called(rng, names, many), units));
        }
        Module {
            enums,
            initial_state: Some(text("A")),
            transitions,
            events: vec![group("E", events)],
            outputs,
            vars: some(rng)
                .into_iter()
                .map(|n| var(n, bit(8), value(rng, names, many)))
                .collect(),
            properties: some(rng)
                .into_iter()
                .map(|n| property(n, holds(value(rng, names, many))))
                .collect(),
            ..bare(&format!("M{k}"))
        }
    };
    ir((0..modules).map(module).collect())
}

fn show(doc: &[u8], due: &[u8], given: &[u8]) {
    let hex: Vec<String> = doc.iter().map(|b| format!("{b:02x}")).collect();
    let text = String::from_utf8_lossy;
    println!(
        "{}\ndue:\n{}given:\n{}",
        hex.join(" "),
        text(due),
        text(given)
    );
}

/// What the program prints when it reads the document to its end. It must end
/// by itself; it need not read more bytes than a document may have.
pub fn run(path: &Path, doc: &[u8]) -> Result<Vec<u8>, String> {
    let failed = |e: io::Error| format!("{}: {e}", path.display());
    let mut command = Command::new(path);
    let piped = command.stdin(Stdio::piped()).stdout(Stdio::piped());
    let mut child = piped.spawn().map_err(failed)?;
    let mut input = child.stdin.take().expect("it is piped");
    let mut output = child.stdout.take().expect("it is piped");
    let mut given = Vec::new();
    std::thread::scope(|scope| {
        scope.spawn(move || input.write_all(doc));
        output.read_to_end(&mut given)
    })
    .map_err(failed)?;
    match child.wait().map_err(failed)?.code() {
        Some(_) => Ok(given),
        None => Err(format!("{} was ended by a signal", path.display())),
    }
}
