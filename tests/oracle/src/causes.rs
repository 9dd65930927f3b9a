//! The causes that the original gives, for a replay by the typing layer: each
//! record has a document and steps over it, each with the place of an item
//! and the cause that is due.

use crate::decode::decode;
use crate::encode::{itemise, Item};
use crate::generate::cases::{self, cases};
use crate::generate::rng::Rng;
use crate::generate::{planted, valid};
use crate::lang::ir::Ir;
use crate::sites::{findings, Words};
use std::collections::{BTreeMap, HashSet};

pub const FILE: &str = "vectors.bin";

const SEED: u64 = 0xca5e;

/// What a step is about, numbered from 0. The first four are where a module's
/// lists stand; a pattern's bindings hold for the guard, sets and emits that
/// follow it.
#[derive(Debug, Clone, Copy, PartialEq, Eq, PartialOrd, Ord)]
pub enum Kind {
    Enums,
    Vars,
    Events,
    Outputs,
    Init,
    Pattern,
    Guard,
    Set,
    Emit,
    OnErrorEmit,
    Property,
    Assumption,
    // Of these due is 1 where the original gives the site, else 0.
    /// A guard that has a type: site 10.
    NoBool,
    /// A version string: site 4.
    Version,
    /// A formula's bounds: site 20.
    Bound,
    /// A guard: site 25, and site 26.
    AlwaysFalse,
    Contradiction,
}

/// The kinds whose due is 1 or 0, each with its name and its site.
pub const GIVEN: [(Kind, &str, u32); 5] = [
    (Kind::NoBool, "guard no bool", 10),
    (Kind::Version, "version", 4),
    (Kind::Bound, "bound", 20),
    (Kind::AlwaysFalse, "guard false", 25),
    (Kind::Contradiction, "contradiction", 26),
];

/// The kinds that have a cause, each with its name and its site.
pub const JUDGED: [(Kind, &str, u32); 8] = [
    (Kind::Init, "init", 5),
    (Kind::Pattern, "pattern", 8),
    (Kind::Guard, "guard", 9),
    (Kind::Set, "set", 12),
    (Kind::Emit, "emit", 13),
    (Kind::OnErrorEmit, "on_error", 17),
    (Kind::Property, "property", 19),
    (Kind::Assumption, "assumption", 19),
];

#[derive(Debug, Clone, Copy, PartialEq, Eq)]
pub struct Step {
    pub kind: Kind,
    pub due: u32,
    pub place: usize,
}

pub struct Record {
    pub bytes: Vec<u8>,
    pub steps: Vec<Step>,
}

/// Every step of a document, with what the original says of each.
pub fn record(ir: &Ir) -> Record {
    let encoded = itemise(ir);
    assert_eq!(decode(&encoded.bytes).as_ref(), Ok(ir), "it is accepted");
    let mut walk = Walk::new(findings(ir).words());
    for item in &encoded.items {
        walk.item(item);
    }
    walk.end_module();
    Record {
        bytes: encoded.bytes,
        steps: walk.steps,
    }
}

/// Goes through the items of a document and knows where it stands. A module's
/// on_error comes before its lists, and its steps after them.
struct Walk {
    due: BTreeMap<[u32; 4], u32>,
    steps: Vec<Step>,
    later: Vec<Step>,
    modules: u32,
    vars: u32,
    transitions: u32,
    emits: u32,
    sets: u32,
    properties: u32,
    /// The kind of the next output or formula.
    within: Kind,
}

impl Walk {
    fn new(words: Vec<Words>) -> Walk {
        let due = words.into_iter().map(|w| ([w[0], w[1], w[2], w[3]], w[4]));
        Walk {
            due: due.collect(),
            steps: Vec::new(),
            later: Vec::new(),
            modules: 0,
            vars: 0,
            transitions: 0,
            emits: 0,
            sets: 0,
            properties: 0,
            within: Kind::Enums,
        }
    }

    fn item(&mut self, item: &Item) {
        let at = item.at;
        match item.label {
            "Module" => self.start_module(),
            "Module.version" if !item.absent => self.given(Kind::Version, [4, 0, 0], at),
            "Module.on_error" => self.within = Kind::OnErrorEmit,
            "Module.enums" => self.step(Kind::Enums, 0, at),
            "Module.events" => self.step(Kind::Events, 0, at),
            "Module.outputs" => self.step(Kind::Outputs, 0, at),
            "Module.vars" => self.step(Kind::Vars, 0, at),
            "VarDecl.init" => {
                self.vars += 1;
                self.judged(Kind::Init, [5, self.vars - 1, 0], at);
            }
            "Transition" => self.start_transition(),
            "Transition.pattern" => self.judged(Kind::Pattern, [8, self.transition(), 0], at),
            "Transition.guard" if !item.absent => self.guard(at),
            "OutputExpr" => self.emit(at),
            "Assignment.value" => self.set(at),
            "Module.properties" => self.within = Kind::Property,
            "Module.assumptions" => self.within = Kind::Assumption,
            "Property.formula" => {
                self.properties += 1;
                self.judged(self.within, [19, self.properties - 1, 0], at);
                self.given(Kind::Bound, [20, self.properties - 1, 0], at);
            }
            _ => (),
        }
    }

    fn start_module(&mut self) {
        self.end_module();
        self.modules += 1;
        self.vars = 0;
        self.transitions = 0;
        self.emits = 0;
        self.properties = 0;
    }

    fn end_module(&mut self) {
        self.steps.append(&mut self.later);
    }

    fn start_transition(&mut self) {
        self.within = Kind::Emit;
        self.transitions += 1;
        self.emits = 0;
        self.sets = 0;
    }

    fn transition(&self) -> u32 {
        self.transitions - 1
    }

    fn emit(&mut self, at: usize) {
        let emit = self.emits;
        self.emits += 1;
        match self.within {
            Kind::OnErrorEmit => {
                let due = self.cause([17, emit, 0]);
                self.later.push(Step {
                    kind: Kind::OnErrorEmit,
                    due,
                    place: at,
                });
            }
            _ => self.judged(Kind::Emit, [13, self.transition(), emit], at),
        }
    }

    /// The value of an unknown variable is not typed.
    fn set(&mut self, at: usize) {
        let set = self.sets;
        self.sets += 1;
        if self.found([11, self.transition(), set]).is_none() {
            self.judged(Kind::Set, [12, self.transition(), set], at);
        }
    }

    fn guard(&mut self, at: usize) {
        let place = self.transition();
        self.judged(Kind::Guard, [9, place, 0], at);
        if self.found([9, place, 0]).is_none() {
            self.given(Kind::NoBool, [10, place, 0], at);
        }
        self.given(Kind::AlwaysFalse, [25, place, 0], at);
        if self.found([25, place, 0]).is_none() {
            self.given(Kind::Contradiction, [26, place, 0], at);
        }
    }

    fn given(&mut self, kind: Kind, finding: [u32; 3], at: usize) {
        self.step(kind, self.found(finding).is_some().into(), at);
    }

    fn judged(&mut self, kind: Kind, finding: [u32; 3], at: usize) {
        self.step(kind, self.cause(finding), at);
    }

    fn step(&mut self, kind: Kind, due: u32, place: usize) {
        self.steps.push(Step { kind, due, place });
    }

    fn cause(&self, finding: [u32; 3]) -> u32 {
        self.found(finding).unwrap_or(0)
    }

    /// The cause of the finding with this site and these places, if given.
    fn found(&self, [site, first, second]: [u32; 3]) -> Option<u32> {
        let key = [self.modules - 1, site, first, second];
        self.due.get(&key).copied()
    }
}

/// How often each kind has each of its causes, at least.
pub const LEAST: usize = 3;

/// The file has at most so many bytes.
pub const MOST_BYTES: usize = 298_000;

/// The kept records, none twice: every case; edges; every operator on every
/// pair of types; full tables; planted documents until each
/// kind has each of its causes often enough; and more of them as they come.
pub fn records() -> Vec<Record> {
    let rng = &mut Rng::new(SEED);
    let mut kept = Kept::default();
    for case in cases() {
        assert_eq!(findings(&case.ir).words(), case.due);
        kept.add(record(&case.ir));
    }
    for ir in cases::edges() {
        kept.add(record(&ir));
    }
    kept.operators();
    kept.add(record(&cases::full()));
    for (kind, fault) in wanted() {
        let due = if fault.1 == 0 { 1 } else { fault.1 };
        while kept.count(kind, due) < LEAST {
            let record = record(&planted::with_fault(rng, fault));
            if record.steps.iter().any(|s| (s.kind, s.due) == (kind, due)) {
                kept.add(record);
            }
        }
    }
    loop {
        let next = record(&planted::document(rng));
        if kept.bytes + next.file_bytes() > MOST_BYTES {
            return kept.records;
        }
        kept.add(next);
    }
}

/// Every kind with every fault it can show.
fn wanted() -> Vec<(Kind, (u32, u32))> {
    let mut wanted = Vec::new();
    for (kind, _, site) in JUDGED.into_iter().chain(GIVEN) {
        let pairs = cases::pairs().into_iter();
        wanted.extend(pairs.filter(|pair| pair.0 == site).map(|pair| (kind, pair)));
    }
    wanted
}

#[derive(Default)]
struct Kept {
    records: Vec<Record>,
    seen: HashSet<Vec<u8>>,
    bytes: usize,
}

impl Kept {
    fn add(&mut self, record: Record) {
        if self.seen.insert(record.bytes.clone()) {
            self.bytes += record.file_bytes();
            self.records.push(record);
        }
    }

    /// Every operator, and those without a cause compared with other types.
    fn operators(&mut self) {
        let all = cases::operators();
        let mut typed = Vec::new();
        for (ir, inits) in cases::with_inits(&all).iter().zip(all.chunks(250)) {
            let record = record(ir);
            let steps = record.steps.iter().filter(|step| step.kind == Kind::Init);
            let dues = steps.skip(cases::sound().vars.len()).map(|step| step.due);
            let sound = inits.iter().zip(dues).filter(|(_, due)| *due == 0);
            typed.extend(sound.flat_map(|(init, _)| cases::compared(init)));
            self.add(record);
        }
        for ir in cases::with_inits(&typed) {
            self.add(record(&ir));
        }
    }

    fn count(&self, kind: Kind, due: u32) -> usize {
        let steps = self.records.iter().flat_map(|record| &record.steps);
        steps.filter(|s| (s.kind, s.due) == (kind, due)).count()
    }
}

impl Record {
    /// The steps that type each expression, pattern, output and formula once.
    pub fn typed(mut self) -> Record {
        self.steps.retain(|step| step.kind <= Kind::Assumption);
        self
    }

    /// Those of them that come before an expression is typed: the lists of a
    /// module, and the patterns, which bind.
    pub fn patterns(mut self) -> Record {
        self.steps
            .retain(|step| step.kind <= Kind::Outputs || step.kind == Kind::Pattern);
        self
    }

    /// Its bytes in the file.
    fn file_bytes(&self) -> usize {
        8 + self.bytes.len() + 4 * self.steps.len()
    }
}

/// The file: for each record the length of the document as u32, the document,
/// how many steps there are as u32, and each step in four bytes: kind, due
/// and the place as u16, all little-endian.
pub fn file(records: &[Record]) -> Vec<u8> {
    let mut bytes = Vec::new();
    for record in records {
        bytes.extend((record.bytes.len() as u32).to_le_bytes());
        bytes.extend(&record.bytes);
        bytes.extend((record.steps.len() as u32).to_le_bytes());
        for step in &record.steps {
            bytes.extend([step.kind as u8, step.due as u8]);
            bytes.extend((step.place as u16).to_le_bytes());
        }
    }
    bytes
}

/// How often each kind has each cause.
pub fn counts(records: &[Record]) -> BTreeMap<(Kind, u32), usize> {
    let mut counts = BTreeMap::new();
    for step in records.iter().flat_map(|record| &record.steps) {
        *counts.entry((step.kind, step.due)).or_default() += 1;
    }
    counts
}

/// So many documents: three planted ones, then one of any content.
pub fn many(count: usize, seed: u64) -> Vec<Record> {
    let rng = &mut Rng::new(seed);
    let mut records = Vec::new();
    for place in 0..count {
        let size = rng.between(100, 2_000);
        records.push(record(&match place % 4 {
            3 => valid::document(rng, size),
            _ => planted::document(rng),
        }));
    }
    records
}

/// The line that the replay prints when it answers all as is due.
pub fn due_line(records: &[Record]) -> String {
    let steps = records.iter().flat_map(|record| &record.steps);
    let judged: Vec<&Step> = steps.filter(|step| step.kind > Kind::Outputs).collect();
    let sound = judged.iter().filter(|step| step.due == 0).count();
    format!(
        "{} documents: {sound} items without a fault, {} with one, 0 answered otherwise",
        records.len(),
        judged.len() - sound
    )
}

/// Counts by kind and cause; a dash where a kind can't give a cause.
pub fn report(records: &[Record]) {
    let counts = counts(records);
    let heads = JUDGED.map(|(_, name, _)| format!("{name:>11}"));
    println!("{:>11}{}", "cause", heads.concat());
    for cause in 0..=31 {
        let cells = JUDGED.map(|(kind, _, site)| {
            let can = cause == 0 || cases::pairs().contains(&(site, cause));
            match counts.get(&(kind, cause)) {
                Some(count) => format!("{count:>11}"),
                None => format!("{:>11}", if can { "0" } else { "-" }),
            }
        });
        println!("{cause:>11}{}", cells.concat());
    }
    println!("\n{:>14}{:>11}{:>11}", "kind", "given", "not");
    for (kind, name, _) in GIVEN {
        let of = |due| counts.get(&(kind, due)).unwrap_or(&0);
        println!("{name:>14}{:>11}{:>11}", of(1), of(0));
    }
    println!("\nwhat the replay is to print:\n{}", due_line(records));
}
