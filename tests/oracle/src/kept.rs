//! The documents with findings that the repository keeps, each with what the
//! original finds in it.

use crate::decode::{answer, decode};
use crate::encode::encode;
use crate::generate::cases::{self, cases};
use crate::generate::rng::Rng;
use crate::generate::{crowded, planted, valid, whole, Document, Source, LONGEST};
use crate::lang::ir::Ir;
use crate::original;
use crate::rearranged::rearranged;
use crate::samples::every_pair;
use crate::sites::{self, Words};
use crate::table::Table;
use std::collections::{BTreeMap, HashSet};

pub const FILE: &str = "findings.bin";

const SEED: u64 = 0xf1d5;

/// The words that the replay lends where a document is refused.
const LENT: usize = 16_380;

/// How often each site is found with each of its causes, at least.
pub const LEAST: usize = 5;

/// A document and its findings, or its refusal.
pub struct Record {
    pub bytes: Vec<u8>,
    /// 0 and both counts, else the refusal's number, its place and 0.
    pub number: u32,
    pub answer: [u64; 2],
    pub words: Vec<Words>,
}

/// What the original says of the document with 16,380 words lent.
fn record(bytes: Vec<u8>) -> Record {
    let decoded = decode(&bytes);
    let refused = |bytes, number, place| Record {
        bytes,
        number,
        answer: [place, 0],
        words: Vec::new(),
    };
    let Ok(ir) = &decoded else {
        let (number, place) = answer(&decoded);
        return refused(bytes, number, place);
    };
    let found = original::findings(ir);
    let counts = [found.errors.len() as u64, found.warnings.len() as u64];
    let all = counts[0] + counts[1];
    if 5 * all as usize > LENT {
        return refused(bytes, 10, all);
    }
    Record {
        bytes,
        number: 0,
        answer: counts,
        words: sites::findings(ir).words(),
    }
}

/// The records, none twice, and the same on every run: all cases and edges;
/// planted documents until each site has each of its causes often enough;
/// crowded ones and such of any content; rearranged copies; damaged ones; and
/// those with more findings than the words hold.
pub fn records() -> Vec<Record> {
    let rng = &mut Rng::new(SEED);
    let mut kept = Kept::default();
    for case in cases() {
        kept.add(encode(&case.ir));
    }
    for ir in cases::edges().iter().chain([&cases::full()]) {
        kept.add(encode(ir));
    }
    for pair in cases::pairs() {
        while kept.times(pair) < LEAST {
            let ir = planted::with_fault(rng, pair);
            kept.copies(rng, &ir);
        }
    }
    for size in [0, 100, 300, 1_000, 2_000].repeat(6) {
        let ir = valid::document(rng, size);
        kept.copies(rng, &ir);
    }
    let sixteen = crowded::sixteen(rng);
    kept.copies(rng, &sixteen);
    kept.crowded(rng);
    kept.damaged(&mut Source::new(SEED));
    kept.add(every_pair().bytes);
    kept.add(whole::full_of(rng, LONGEST + 1).bytes);
    kept.records
}

#[derive(Default)]
struct Kept {
    records: Vec<Record>,
    seen: HashSet<Vec<u8>>,
    times: BTreeMap<(u32, u32), usize>,
}

impl Kept {
    fn add(&mut self, bytes: Vec<u8>) {
        if !self.seen.insert(bytes.clone()) {
            return;
        }
        let record = record(bytes);
        for [_, site, _, _, cause] in &record.words {
            *self.times.entry((*site, *cause)).or_default() += 1;
        }
        self.records.push(record);
    }

    fn times(&self, pair: (u32, u32)) -> usize {
        self.times.get(&pair).copied().unwrap_or(0)
    }

    /// The document and, where it has one, a rearranged copy.
    fn copies(&mut self, rng: &mut Rng, ir: &Ir) {
        self.add(encode(ir));
        if let Some(other) = rearranged(rng, ir) {
            self.add(encode(&other.ir));
        }
    }

    /// Modules of 255 transitions: three whose findings the words hold, and
    /// one, of 16 such modules, whose findings they don't.
    fn crowded(&mut self, rng: &mut Rng) {
        let mut long = 0;
        while long < 3 {
            let ir = crowded::one(rng);
            let full = ir.modules.iter().any(|m| m.transitions.len() == 255);
            let bytes = encode(&ir);
            if full && record(bytes.clone()).number == 0 {
                self.copies(rng, &ir);
                long += 1;
            }
        }
        let ir = crowded::full(rng);
        self.copies(rng, &ir);
    }

    /// 15 documents with each refusal from 2 to 9, not one of them long.
    fn damaged(&mut self, source: &mut Source) {
        let mut times = [0; 10];
        while times[2..].iter().any(|times| *times < 15) {
            let Document { bytes, .. } = source.next();
            let (number, _) = answer(&decode(&bytes));
            let times = &mut times[number as usize];
            if number > 1 && bytes.len() < 1_000 && *times < 15 {
                *times += 1;
                self.add(bytes);
            }
        }
    }
}

/// The file: for each record the length of the document as u32, the document,
/// the number as u8, the answer as two u32, and each finding in six bytes:
/// module, site, first (u16), second and cause, all little-endian.
pub fn file(records: &[Record]) -> Vec<u8> {
    let mut bytes = Vec::new();
    for record in records {
        bytes.extend((record.bytes.len() as u32).to_le_bytes());
        bytes.extend(&record.bytes);
        bytes.push(record.number as u8);
        for word in record.answer {
            bytes.extend((word as u32).to_le_bytes());
        }
        for [module, site, first, second, cause] in &record.words {
            let byte = |word: u32| u8::try_from(word).expect("it fits a byte");
            bytes.extend([byte(*module), byte(*site)]);
            let first = u16::try_from(*first).expect("it fits two bytes");
            bytes.extend(first.to_le_bytes());
            bytes.extend([byte(*second), byte(*cause)]);
        }
    }
    bytes
}

/// How often each site is found with each cause.
pub fn table(records: &[Record]) -> Table {
    let mut table = Table::default();
    for record in records.iter().filter(|record| record.number == 0) {
        let ir = decode(&record.bytes).expect("it is accepted");
        table.count(&ir, record.bytes.len(), &record.words);
    }
    table
}

/// How often each number is answered.
pub fn numbers(records: &[Record]) -> [usize; 11] {
    let mut numbers = [0; 11];
    for record in records {
        numbers[record.number as usize] += 1;
    }
    numbers
}

/// The line that the replay prints when it answers all as is due.
pub fn due_line(records: &[Record]) -> String {
    let accepted = records.iter().filter(|record| record.number == 0);
    let findings: usize = records.iter().map(|record| record.words.len()).sum();
    let accepted = accepted.count();
    format!(
        "{accepted} documents with {findings} findings, {} refused, 0 answered otherwise",
        records.len() - accepted
    )
}

pub fn report(records: &[Record]) {
    table(records).print();
    println!();
    for (number, times) in numbers(records).iter().enumerate().skip(1) {
        println!("{:>14}{times:>14}", format!("refused {number}"));
    }
    println!("\nwhat the replay is to print:\n{}", due_line(records));
}
