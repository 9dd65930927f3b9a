//! The library's messages beside the original's, document by document.

use crate::compare::hex;
use crate::decode::{answer, decode};
use crate::generate::rng::Rng;
use crate::generate::{whole, Document, Source};
use crate::offer::Teller;
use crate::original::findings;

/// What a byte holds before a call.
const OLD: u8 = 0xEE;

/// So many messages of a document are asked for.
const ASKED: usize = 12;

#[derive(Default)]
struct Tally {
    documents: usize,
    accepted: usize,
    messages: usize,
    failed: usize,
}

/// Random documents of all classes, and more of those with findings of every
/// kind. True if all agree.
pub fn compare(tell: Teller, count: usize, seed: u64) -> bool {
    let mut source = Source::new(seed);
    let rng = &mut Rng::new(!seed);
    let mut tally = Tally::default();
    for _ in 0..count {
        let document = match rng.below(100) {
            0..=19 => whole::nearly_sound(rng),
            _ => source.next(),
        };
        tally.document(tell, rng, &document);
    }
    println!(
        "{} documents, {} accepted, {} messages",
        tally.documents, tally.accepted, tally.messages
    );
    println!("failures: {}", tally.failed);
    tally.failed == 0
}

impl Tally {
    fn document(&mut self, tell: Teller, rng: &mut Rng, document: &Document) {
        self.documents += 1;
        let bytes = &document.bytes[..];
        let decoded = decode(bytes);
        let Ok(ir) = &decoded else {
            let (number, place) = answer(&decoded);
            return self.refusal(tell, bytes, 0, 300, (number, [place, 0]));
        };
        self.accepted += 1;
        let found = findings(ir);
        let all = found.errors.len() + found.warnings.len();
        for past in [all as u64, u64::MAX] {
            self.refusal(tell, bytes, past, 300, (11, [past, 0]));
        }
        let messages = found.errors.iter().chain(&found.warnings);
        for (number, message) in messages.enumerate() {
            if all <= ASKED || rng.below(all) < ASKED {
                self.message(tell, bytes, number as u64, message.as_bytes());
            }
        }
    }

    /// No byte is changed.
    fn refusal(
        &mut self,
        tell: Teller,
        doc: &[u8],
        number: u64,
        room: usize,
        due: (u32, [u64; 2]),
    ) {
        let mut text = vec![OLD; room];
        let given = tell(doc, number, &mut text);
        if given != due || text.iter().any(|&byte| byte != OLD) {
            self.fail(
                doc,
                &format!("message {number}: due {due:?}, given {given:?}"),
            );
        }
    }

    /// With more bytes than are needed, with just as many, and with one less.
    fn message(&mut self, tell: Teller, doc: &[u8], number: u64, message: &[u8]) {
        self.messages += 1;
        let length = message.len() as u64;
        for more in [0, 3] {
            let mut due = message.to_vec();
            due.resize(message.len() + more, OLD);
            let mut text = vec![OLD; message.len() + more];
            let given = tell(doc, number, &mut text);
            if given != (0, [length, 0]) || text != due {
                let (due, text) = (
                    String::from_utf8_lossy(&due),
                    String::from_utf8_lossy(&text),
                );
                self.fail(
                    doc,
                    &format!("message {number}: due {due}, given {given:?} {text}"),
                );
            }
        }
        self.refusal(tell, doc, number, message.len() - 1, (12, [length, 0]));
    }

    fn fail(&mut self, doc: &[u8], what: &str) {
        self.failed += 1;
        if self.failed <= 10 {
            println!("{what}\n  {}", hex(doc));
        }
    }
}
