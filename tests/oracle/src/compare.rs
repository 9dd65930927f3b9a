//! The library beside the decoder, document by document.

use crate::decode::{answer, decode};
use crate::encode::{encode, itemise};
use crate::generate::damage::TELLING;
use crate::generate::{seeds, Document, Source};
use crate::lang::ir::Ir;
use crate::offer::Reader;
use crate::original::findings;
use std::collections::BTreeMap;
use std::panic::{catch_unwind, AssertUnwindSafe};

/// Documents of one class.
#[derive(Default)]
struct Class {
    documents: usize,
    accepted: usize,
    agreed: usize,
}

/// What has been seen so far.
#[derive(Default)]
struct Tally {
    classes: BTreeMap<&'static str, Class>,
    /// Documents whose maker knew the answer.
    known: usize,
    /// Accepted documents the original ran on.
    judged: usize,
    with_errors: usize,
    with_warnings: usize,
    failed: usize,
}

/// Random documents of all classes. True if all agree.
pub fn compare(read: Reader, count: usize, seed: u64) -> bool {
    let mut source = Source::new(seed);
    let mut tally = Tally::default();
    for _ in 0..count {
        tally.document(read, &source.next());
    }
    tally.report()
}

/// Each small document with every byte value at every place, with a telling
/// byte put in at every place, and cut at every place. True if all agree.
pub fn sweep(read: Reader) -> bool {
    let mut tally = Tally::default();
    for ir in seeds::seeds() {
        let bytes = itemise(&ir).bytes;
        for place in 0..bytes.len() {
            sweep_place(read, &mut tally, &bytes, place);
        }
    }
    tally.report()
}

fn sweep_place(read: Reader, tally: &mut Tally, bytes: &[u8], place: usize) {
    let mut see = |class, parts: [&[u8]; 3]| {
        let document = Document {
            class,
            bytes: parts.concat(),
            due: None,
        };
        tally.document(read, &document);
    };
    let (front, rest) = bytes.split_at(place);
    see("cut", [front, &[], &[]]);
    for byte in 0..=255 {
        see("every byte", [front, &[byte], &rest[1..]]);
    }
    for byte in TELLING {
        see("byte put in", [front, &[byte], rest]);
    }
}

impl Tally {
    fn document(&mut self, read: Reader, document: &Document) {
        let decoded = decode(&document.bytes);
        let here = answer(&decoded);
        let library = read(&document.bytes);
        let class = self.classes.entry(document.class).or_default();
        class.documents += 1;
        class.agreed += usize::from(here == library);
        class.accepted += usize::from(decoded.is_ok());
        self.known += usize::from(document.due.is_some());
        if here != library {
            self.fail(document, &format!("decoder {here:?}, library {library:?}"));
        }
        if let Some(due) = document.due.filter(|due| *due != here) {
            self.fail(document, &format!("decoder {here:?}, due {due:?}"));
        }
        if let Ok(ir) = decoded {
            self.accepted(document, &ir);
        }
    }

    /// An accepted document is the encoding of its content, and the original
    /// takes that content.
    fn accepted(&mut self, document: &Document, ir: &Ir) {
        if encode(ir) != document.bytes {
            self.fail(document, "encoding the decoded document gives other bytes");
        }
        match catch_unwind(AssertUnwindSafe(|| findings(ir))) {
            Ok(found) => {
                self.judged += 1;
                self.with_errors += usize::from(!found.errors.is_empty());
                self.with_warnings += usize::from(!found.warnings.is_empty());
            }
            Err(_) => self.fail(document, "the original panics"),
        }
    }

    /// Prints the first few failures, counts all.
    fn fail(&mut self, document: &Document, what: &str) {
        self.failed += 1;
        if self.failed <= 5 {
            println!("{}: {what}\n{}", document.class, hex(&document.bytes));
        }
    }

    fn report(&self) -> bool {
        println!(
            "{:<20} {:>9} {:>9} {:>9}",
            "class", "documents", "accepted", "agreed"
        );
        let mut all = Class::default();
        for (name, class) in &self.classes {
            class.line(name);
            all.documents += class.documents;
            all.accepted += class.accepted;
            all.agreed += class.agreed;
        }
        all.line("all");
        println!("answers the maker knew: {}", self.known);
        println!(
            "the original ran on {} accepted documents: {} with errors, {} with warnings",
            self.judged, self.with_errors, self.with_warnings
        );
        println!("failures: {}", self.failed);
        self.failed == 0
    }
}

impl Class {
    fn line(&self, name: &str) {
        println!(
            "{name:<20} {:>9} {:>9} {:>9}",
            self.documents, self.accepted, self.agreed
        );
    }
}

/// Two digits a byte, with spaces between.
pub fn hex(bytes: &[u8]) -> String {
    let digits: Vec<String> = bytes.iter().map(|b| format!("{b:02x}")).collect();
    digits.join(" ")
}
