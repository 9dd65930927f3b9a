//! The library's findings beside the original's, document by document, and
//! what a rearrangement of transitions leaves of them.

use crate::decode::{answer, decode};
use crate::encode::encode;
use crate::generate::rng::Rng;
use crate::generate::{whole, Document, Source};
use crate::lang::ir::Ir;
use crate::offer::Finder;
use crate::original;
use crate::rearranged::{multiset, rearranged, Rearranged};
use crate::samples::every_pair;
use crate::shapes::Shapes;
use crate::sites::{self, Words};
use crate::table::Table;

/// What a word holds before a call.
const OLD: u32 = 0xABCD_EF01;

/// In a run of so many documents every site with every cause it can give, and
/// every shape, must occur.
pub const WHOLE_RUN: usize = 20_000;

/// What has been seen so far.
#[derive(Default)]
struct Tally {
    documents: usize,
    accepted: usize,
    table: Table,
    shapes: Shapes,
    rearranged: usize,
    /// Findings before and after a rearrangement, and those whose words or
    /// place in the list it changed.
    kept: usize,
    moved: usize,
    failed: usize,
}

/// Random documents of all classes, and more of those with findings of every
/// kind. True if all agree.
pub fn compare(find: Finder, count: usize, seed: u64) -> bool {
    let mut source = Source::new(seed);
    let rng = &mut Rng::new(!seed);
    let mut tally = Tally::default();
    for _ in 0..count {
        let document = match rng.below(100) {
            0..=19 => whole::nearly_sound(rng),
            20..=21 => whole::crowded(rng),
            _ => source.next(),
        };
        tally.document(find, rng, &document);
    }
    tally.every_pair(find);
    tally.report()
}

/// The findings of an accepted document: how many errors and warnings there
/// are, and the words of all.
#[derive(Debug, PartialEq)]
struct Given {
    counts: [u64; 2],
    words: Vec<Words>,
}

impl Tally {
    fn document(&mut self, find: Finder, rng: &mut Rng, document: &Document) {
        self.documents += 1;
        let decoded = decode(&document.bytes);
        match &decoded {
            Ok(ir) => self.accepted(find, rng, document, ir),
            Err(_) => self.refused(find, document, answer(&decoded)),
        }
    }

    /// The refusal, and no word changed.
    fn refused(&mut self, find: Finder, document: &Document, due: (u32, u64)) {
        let mut words = [OLD; 7];
        let given = find(&document.bytes, &mut words);
        if given != (due.0, [due.1, 0]) || words != [OLD; 7] {
            self.fail(document, &format!("refusal due {due:?}, given {given:?}"));
        }
    }

    fn accepted(&mut self, find: Finder, rng: &mut Rng, document: &Document, ir: &Ir) {
        self.accepted += 1;
        self.shapes.count(ir);
        let words = self.beside(find, document, ir);
        self.table.count(ir, document.bytes.len(), &words);
        if let Some(other) = rearranged(rng, ir) {
            let bytes = encode(&other.ir);
            let class = "rearranged";
            let copy = Document::new(class, bytes, None);
            self.beside(find, &copy, &other.ir);
            self.rearranged(find, document, &other, &copy);
        }
    }

    /// The library beside the original: with more words than are needed, with
    /// just as many, and with one less. Gives the original's.
    fn beside(&mut self, find: Finder, document: &Document, ir: &Ir) -> Vec<Words> {
        let found = sites::findings(ir);
        let words = found.words().concat();
        let counts = [found.errors.len() as u64, found.warnings.len() as u64];
        for more in [0, 3] {
            let mut due = words.clone();
            due.resize(words.len() + more, OLD);
            let mut sheet = vec![OLD; words.len() + more];
            let given = find(&document.bytes, &mut sheet);
            if given != (0, counts) || sheet != due {
                self.fail(
                    document,
                    &format!("due {counts:?} {due:?}, given {given:?} {sheet:?}"),
                );
            }
        }
        if !words.is_empty() {
            let mut sheet = vec![OLD; words.len() - 1];
            let given = find(&document.bytes, &mut sheet);
            let all = (words.len() / 5) as u64;
            if given != (10, [all, 0]) || sheet.iter().any(|&word| word != OLD) {
                self.fail(document, &format!("10 at {all} due, given {given:?}"));
            }
        }
        found.words()
    }

    /// The library alone, before and after the rearrangement: the same counts,
    /// and the same findings, each as often, once places are renamed.
    fn rearranged(
        &mut self,
        find: Finder,
        document: &Document,
        other: &Rearranged,
        copy: &Document,
    ) {
        self.rearranged += 1;
        let (before, after) = (given(find, document), given(find, copy));
        let (Some(before), Some(after)) = (before, after) else {
            return self.fail(document, "a rearrangement changes what is refused");
        };
        let left = other.left(&before.words);
        let found = multiset(after.words.iter().copied());
        if before.counts != after.counts || left != found {
            self.fail(
                document,
                &format!(
                    "rearranged: {:?} {left:?} due, {:?} {found:?} given",
                    before.counts, after.counts
                ),
            );
        }
        let both = before.words.iter().zip(&after.words);
        self.kept += after.words.len();
        self.moved += both.filter(|(before, after)| before != after).count();
    }

    /// More findings than any lent words are likely to hold: they are counted,
    /// and no word is changed.
    fn every_pair(&mut self, find: Finder) {
        let document = Document::new("every pair", every_pair().bytes, None);
        let ir = decode(&document.bytes).expect("it is accepted");
        let found = original::findings(&ir);
        let all = (found.errors.len() + found.warnings.len()) as u64;
        let mut words = [OLD; 16_380];
        let given = find(&document.bytes, &mut words);
        if given != (10, [all, 0]) || words != [OLD; 16_380] {
            self.fail(&document, &format!("10 at {all} due, given {given:?}"));
        }
    }

    /// Prints the first few failures, counts all.
    fn fail(&mut self, document: &Document, what: &str) {
        self.failed += 1;
        if self.failed <= 5 {
            let hex: Vec<String> = document.bytes.iter().map(|b| format!("{b:02x}")).collect();
            println!("{}: {what}\n{}", document.class, hex.join(" "));
        }
    }

    fn report(&self) -> bool {
        self.table.print();
        println!();
        self.shapes.print();
        println!(
            "\n{} documents, {} accepted, {} findings",
            self.documents,
            self.accepted,
            self.table.findings()
        );
        println!(
            "{} rearranged, {} findings in them, {} of these with other words or at another place",
            self.rearranged, self.kept, self.moved
        );
        println!("failures: {}", self.failed);
        self.failed == 0 && (self.documents < WHOLE_RUN || self.is_whole())
    }

    /// Every site with every cause it can give, and every shape, did occur.
    fn is_whole(&self) -> bool {
        let whole = self.table.is_whole() && self.shapes.is_whole() && self.moved > 0;
        if !whole {
            println!("a site, a cause or a shape never occurred, or one that cannot");
        }
        whole
    }
}

/// The library's findings, with as many words lent as it asks for.
fn given(find: Finder, document: &Document) -> Option<Given> {
    let mut words = Vec::new();
    let mut answer = find(&document.bytes, &mut words);
    if let (10, [count, 0]) = answer {
        words = vec![OLD; 5 * count as usize];
        answer = find(&document.bytes, &mut words);
    }
    let (0, counts) = answer else {
        return None;
    };
    let five = |words: &[u32]| words.try_into().expect("five words a finding");
    Some(Given {
        counts,
        words: words.chunks(5).map(five).collect(),
    })
}

#[cfg(test)]
mod tests {
    use super::*;
    use crate::generate::build::*;
    use crate::lang::ir::Transition;

    /// The original in the library's place.
    fn right(doc: &[u8], words: &mut [u32]) -> (u32, [u64; 2]) {
        let decoded = decode(doc);
        let Ok(ir) = &decoded else {
            let (number, place) = answer(&decoded);
            return (number, [place, 0]);
        };
        let whole = original::findings(ir);
        let counts = [whole.errors.len() as u64, whole.warnings.len() as u64];
        let all = counts[0] + counts[1];
        if words.len() < 5 * all as usize {
            return (10, [all, 0]);
        }
        let found = sites::findings(ir).words().concat();
        words[..found.len()].copy_from_slice(&found);
        (0, counts)
    }

    /// One cause otherwise.
    fn wrong_cause(doc: &[u8], words: &mut [u32]) -> (u32, [u64; 2]) {
        let answer = right(doc, words);
        if let Some(finding) = words.chunks_mut(5).find(|f| f[1] == 12) {
            finding[4] ^= 1;
        }
        answer
    }

    /// A word written past the findings.
    fn too_far(doc: &[u8], words: &mut [u32]) -> (u32, [u64; 2]) {
        let answer = right(doc, words);
        let end = 5 * (answer.1[0] + answer.1[1]) as usize;
        if let (0, Some(word)) = (answer.0, words.get_mut(end)) {
            *word = 0;
        }
        answer
    }

    /// A word written where the sheet is short.
    fn spoilt(doc: &[u8], words: &mut [u32]) -> (u32, [u64; 2]) {
        let answer = right(doc, words);
        if let (10, Some(word)) = (answer.0, words.first_mut()) {
            *word = 0;
        }
        answer
    }

    /// The first of all pairs at 24 alone.
    fn pairs_once(doc: &[u8], words: &mut [u32]) -> (u32, [u64; 2]) {
        let mut all = vec![OLD; 5_000];
        let (0, [errors, warnings]) = right(doc, &mut all) else {
            return right(doc, words);
        };
        let mut findings: Vec<&[u32]> = all.chunks(5).collect();
        findings.truncate((errors + warnings) as usize);
        let mut pairs = 0;
        findings.retain(|finding| {
            pairs += usize::from(finding[1] == 24);
            finding[1] != 24 || pairs < 2
        });
        let found = findings.concat();
        let count = findings.len() as u64;
        if words.len() < found.len() {
            return (10, [count, 0]);
        }
        words[..found.len()].copy_from_slice(&found);
        (0, [errors, count - errors])
    }

    #[test]
    fn wrong_finders_are_found_out() {
        let failures = |find: Finder| {
            let rng = &mut Rng::new(5);
            let mut tally = Tally::default();
            let three = Document::new("three", encode(&three()), None);
            tally.document(find, rng, &three);
            for _ in 0..200 {
                let document = whole::nearly_sound(rng);
                tally.document(find, rng, &document);
            }
            tally.failed
        };
        assert_eq!(failures(right), 0);
        for wrong in [wrong_cause, too_far, spoilt, pairs_once] {
            assert!(failures(wrong) > 0);
        }
    }

    /// Three transitions of one state and pattern with two guards.
    fn three() -> Ir {
        let with = |id, guard| Transition {
            id,
            guard,
            ..step("A", "E", "A")
        };
        one(|m| {
            m.transitions = vec![
                with(0, None),
                with(1, Some(boolean(true))),
                with(2, Some(boolean(true))),
            ]
        })
    }

    /// What is found by the order of transitions differs after a
    /// rearrangement, whatever the original says.
    #[test]
    fn rearrangements_are_judged_alone() {
        let ir = three();
        let before = Document::new("before", encode(&ir), None);
        let judge = |find: Finder| {
            let rng = &mut Rng::new(2);
            let mut tally = Tally::default();
            for _ in 0..20 {
                let other = rearranged(rng, &ir).expect("it has transitions");
                let after = Document::new("after", encode(&other.ir), None);
                tally.rearranged(find, &before, &other, &after);
            }
            assert!(tally.moved > 0);
            tally.failed
        };
        assert_eq!(judge(right), 0);
        assert!(judge(pairs_once) > 0);
    }

    /// A long run that lacks a site, or a shape, is no good.
    #[test]
    fn runs_that_lack_something() {
        let mut tally = Tally::default();
        assert!(tally.report());
        tally.documents = WHOLE_RUN;
        assert!(!tally.report());
    }
}
