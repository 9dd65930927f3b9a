//! Answers worked out by hand from document 01, and what the generators owe.

use crate::compare::{compare, sweep};
use crate::decode::{answer, decode};
use crate::encode::{encode, itemise};
use crate::generate::rng::Rng;
use crate::generate::{build, depth, limits, seeds, valid, Source};
use crate::original;
use crate::samples::samples;
use crate::vectors::{file, vectors};
use std::collections::BTreeSet;

fn bytes(hex: &str) -> Vec<u8> {
    let byte = |digits| u8::from_str_radix(digits, 16).expect("two digits");
    hex.split_whitespace().map(byte).collect()
}

fn read(doc: &[u8]) -> (u32, u64) {
    answer(&decode(doc))
}

/// The answer for these bytes in hexadecimal.
fn hex(doc: &str) -> (u32, u64) {
    read(&bytes(doc))
}

/// A module named M up to its enums: place 4 is its name, 6 its version, 7
/// its on_error, 8 its enums.
const MODULE: &str = "82 01 81 8b 61 4d f6 f6";

/// The same up to the type of a variable x, which stands at place 16.
const TYPE: &str = "82 01 81 8b 61 4d f6 f6 80 f6 80 80 81 83 61 78";

/// The same up to that variable's initial value, at place 18.
const INIT: &str = "82 01 81 8b 61 4d f6 f6 80 f6 80 80 81 83 61 78 81 00";

/// The same up to the formula of a property p, at place 18.
const FORMULA: &str = "82 01 81 8b 61 4d f6 f6 80 f6 80 80 80 80 81 82 61 70";

/// The same up to a transition's id, at place 15.
const TRANSITION: &str = "82 01 81 8b 61 4d f6 f6 80 f6 80 80 80 81 88";

fn after(front: &str, rest: &str) -> (u32, u64) {
    hex(&format!("{front} {rest}"))
}

#[test]
fn the_worked_example() {
    let doc = bytes(
        "82 01 81 8b 61 4d f6 f6 81 82 65 53 74 61 74 65 83 61 41 61 42 61 43 61 41 81 82 61 45 \
         82 82 00 62 67 6f 82 00 64 73 74 6f 70 80 80 81 88 00 61 41 82 61 45 82 00 62 67 6f f6 \
         61 42 80 80 f6 80 80",
    );
    let ir = decode(&doc).expect("it is accepted");
    assert_eq!(ir, seeds::worked_example());
    assert_eq!(encode(&ir), doc);
    let found = original::findings(&ir);
    assert!(found.errors.is_empty());
    assert_eq!(
        found.warnings,
        [
            "module 'M': state 'C' is unreachable from the initial state",
            "module 'M': event 'stop' is never used in any transition pattern (dead event)"
        ]
    );
}

#[test]
fn the_smallest() {
    assert_eq!(hex("82 00 80"), (0, 0));
    assert_eq!(hex("82 01 80"), (0, 0));
    assert_eq!(after(MODULE, "80 f6 80 80 80 80 80 80"), (0, 0));
}

#[test]
fn bulky() {
    // The length comes first, whatever the bytes are.
    assert_eq!(read(&vec![0xff; 65_536]), (1, 0));
    // At the limit the bytes are read: a number where an array is due.
    assert_eq!(read(&vec![0x00; 65_535]), (4, 0));
}

#[test]
fn torn() {
    // Before the first item, a second and a third that are due.
    assert_eq!(hex(""), (2, 0));
    assert_eq!(hex("82"), (2, 1));
    assert_eq!(hex("82 01"), (2, 2));
    // Inside a head.
    assert_eq!(hex("82 18"), (2, 1));
    assert_eq!(hex("82 01 99 01"), (2, 2));
    // A missing argument comes before the kind: a byte string's here.
    assert_eq!(hex("82 5b 00"), (2, 1));
    // Inside a name: the place is the name's start.
    assert_eq!(hex("82 01 81 8b 62 4d"), (2, 4));
    // Missing bytes come before the alphabet.
    assert_eq!(hex("82 01 81 8b 62 2d"), (2, 4));
}

#[test]
fn padded() {
    // Information 28 to 31 of any major type, before kind.
    assert_eq!(hex("9c"), (3, 0));
    assert_eq!(hex("1f"), (3, 0));
    assert_eq!(hex("82 fc"), (3, 1));
    assert_eq!(hex("82 ff"), (3, 1));
    // Longer heads than needed, at their edges.
    assert_eq!(hex("98 02"), (3, 0));
    assert_eq!(hex("82 18 17"), (3, 1));
    assert_eq!(hex("82 19 00 ff"), (3, 1));
    assert_eq!(hex("82 1a 00 00 ff ff"), (3, 1));
    assert_eq!(hex("82 1b 00 00 00 00 ff ff ff ff"), (3, 1));
    // Long heads come before kind, and before 9.
    assert_eq!(hex("82 78 17"), (3, 1));
    assert_eq!(hex("82 18 02"), (3, 1));
}

#[test]
fn misfiled() {
    // Another kind: a map, then a text string whose bytes are missing.
    assert_eq!(hex("a2"), (4, 0));
    assert_eq!(hex("82 78 50"), (4, 1));
    // Another field count, of a struct at once.
    assert_eq!(hex("83"), (4, 0));
    assert_eq!(hex("9b ff ff ff ff ff ff ff ff"), (4, 0));
    assert_eq!(hex("82 01 81 8a"), (4, 3));
    // Major type 7 takes no argument, even as the last byte.
    assert_eq!(hex("82 f8"), (4, 1));
    assert_eq!(hex("82 fb"), (4, 1));
    assert_eq!(hex("82 f7"), (4, 1));
    // null where no option is, and false where one is.
    assert_eq!(hex("82 f6"), (4, 1));
    assert_eq!(hex("82 01 81 8b 61 4d f4"), (4, 6));
}

#[test]
fn data_enums() {
    // Count 0 at the array; then the case item; then the count at the array.
    assert_eq!(after(TYPE, "80"), (4, 16));
    assert_eq!(after(TYPE, "83"), (2, 17));
    assert_eq!(after(TYPE, "83 18"), (2, 17));
    assert_eq!(after(TYPE, "83 1c"), (3, 17));
    assert_eq!(after(TYPE, "83 61"), (4, 17));
    // Unknown cases of any size, at the case item, whatever the count.
    assert_eq!(after(TYPE, "83 03"), (4, 17));
    assert_eq!(after(TYPE, "81 1b 00 00 00 01 00 00 00 00"), (4, 17));
    // Known cases with another count.
    assert_eq!(after(TYPE, "82 00"), (4, 16));
    assert_eq!(after(TYPE, "81 01"), (4, 16));
    assert_eq!(after(TYPE, "9b 00 00 00 01 00 00 00 01 00"), (4, 16));
    // A case without fields is an array all the same.
    assert_eq!(after(TYPE, "00"), (4, 16));
    assert_eq!(after(TYPE, "81 00"), (2, 18));
}

#[test]
fn operators() {
    // Unary: cases 0 to 2. Binary: 0 to 15.
    assert_eq!(after(INIT, "83 03 02"), (2, 21));
    assert_eq!(after(INIT, "83 03 03"), (4, 20));
    assert_eq!(after(INIT, "84 04 0f"), (2, 21));
    assert_eq!(after(INIT, "84 04 10"), (4, 20));
    assert_eq!(after(INIT, "84 04 19 01 00"), (4, 20));
    // The count comes before the operator.
    assert_eq!(after(INIT, "83 04 10"), (4, 18));
    // A bool is false or true alone.
    assert_eq!(after(INIT, "82 01 f4 80 80 80"), (0, 0));
    assert_eq!(after(INIT, "82 01 f6"), (4, 20));
}

#[test]
fn outsize() {
    // 17 modules, at the list's head, before any of them.
    assert_eq!(hex("82 01 91"), (5, 2));
    assert_eq!(hex("82 01 90"), (2, 3));
    // 256 enums; 255 are awaited.
    assert_eq!(after(MODULE, "99 01 00"), (5, 8));
    assert_eq!(after(MODULE, "98 ff"), (2, 10));
    // An empty name, and 65 bytes even where they are missing.
    assert_eq!(hex("82 01 81 8b 60"), (5, 4));
    assert_eq!(hex("82 01 81 8b 78 41"), (5, 4));
    assert_eq!(hex("82 01 81 8b 78 40"), (2, 4));
    // An optional name may be absent, not empty; a version may be empty.
    assert_eq!(after(MODULE, "80 60"), (5, 9));
    assert_eq!(hex("82 01 81 8b 61 4d 60"), (2, 7));
    // Width and priority below 2^32.
    assert_eq!(after(TYPE, "82 01 1a ff ff ff ff"), (2, 23));
    assert_eq!(after(TYPE, "82 01 1b 00 00 00 01 00 00 00 00"), (5, 18));
    let priority = |rest| {
        after(
            TRANSITION,
            &format!("00 61 41 82 61 45 f6 f6 61 41 80 80 {rest}"),
        )
    };
    assert_eq!(priority("1a ff ff ff ff 80 80"), (0, 0));
    assert_eq!(priority("1b 00 00 00 01 00 00 00 00"), (5, 27));
    // An id may be any u64.
    assert_eq!(after(TRANSITION, "1b ff ff ff ff ff ff ff ff"), (2, 24));
    // Nine segments in a path; eight are awaited; none is enough.
    assert_eq!(after(INIT, "82 02 89"), (5, 20));
    assert_eq!(after(INIT, "82 02 88"), (2, 21));
    assert_eq!(after(INIT, "82 02 80 80 80 80"), (0, 0));
}

#[test]
fn smudged() {
    // A hyphen in a name, a letter beyond ASCII, the last byte of three.
    assert_eq!(hex("82 01 81 8b 61 2d"), (6, 4));
    assert_eq!(hex("82 01 81 8b 62 c3 a9"), (6, 4));
    assert_eq!(hex("82 01 81 8b 63 41 5f 20"), (6, 4));
    // Letters, digits and underscores at their edges.
    assert_eq!(hex("82 01 81 8b 67 41 5a 61 7a 30 39 5f"), (2, 12));
    // A version string: 32 to 126.
    assert_eq!(hex("82 01 81 8b 61 4d 61 1f"), (6, 6));
    assert_eq!(hex("82 01 81 8b 61 4d 61 7f"), (6, 6));
    assert_eq!(hex("82 01 81 8b 61 4d 62 20 7e"), (2, 9));
}

#[test]
fn nested() {
    // 31 levels of not and a leaf: depth 32.
    let nots = |levels: usize| "83 03 00 ".repeat(levels);
    assert_eq!(after(INIT, &(nots(31) + "82 01 f5 80 80 80")), (0, 0));
    // 32 levels: the leaf would start at depth 33, there or not.
    assert_eq!(after(INIT, &(nots(32) + "82 01 f5 80 80 80")), (7, 18 + 96));
    assert_eq!(after(INIT, &nots(32)), (7, 18 + 96));
    assert_eq!(after(INIT, &(nots(32) + "1c")), (7, 18 + 96));
    // Faults of the parent come first: case, count, operator.
    assert_eq!(after(INIT, &(nots(31) + "83 05")), (4, 18 + 94));
    assert_eq!(after(INIT, &(nots(31) + "84 03")), (4, 18 + 93));
    assert_eq!(after(INIT, &(nots(31) + "83 03 03")), (4, 18 + 95));
    // The right child too: 31 levels of plus under the left, then a leaf.
    let pluses = "84 04 00 82 01 f5 ".repeat(32);
    assert_eq!(after(INIT, &pluses), (7, 18 + 31 * 6 + 3));
    // Formulas count alike, and a formula's expression is its child.
    let nexts = |levels: usize| "82 07 ".repeat(levels);
    assert_eq!(
        after(FORMULA, &(nexts(31) + "82 00 82 61 45 f6 80")),
        (0, 0)
    );
    assert_eq!(after(FORMULA, &nexts(32)), (7, 18 + 64));
    assert_eq!(after(FORMULA, &(nexts(30) + "82 02 82 01 f5 80")), (0, 0));
    assert_eq!(
        after(FORMULA, &(nexts(31) + "82 02 82 01 f5 80")),
        (7, 18 + 64)
    );
    // A pattern is no child.
    assert_eq!(after(FORMULA, &(nexts(31) + "82 00")), (2, 18 + 64));
    // The bound of always comes before its child.
    assert_eq!(after(FORMULA, &(nexts(31) + "83 09")), (2, 18 + 64));
    assert_eq!(after(FORMULA, &(nexts(31) + "83 09 00")), (7, 18 + 65));
}

#[test]
fn overhang() {
    assert_eq!(hex("82 00 80 00"), (8, 3));
    assert_eq!(hex("82 00 80 ff ff"), (8, 3));
}

#[test]
fn unborn() {
    assert_eq!(hex("82 02 80"), (9, 1));
    assert_eq!(hex("82 02"), (9, 1));
    assert_eq!(hex("82 1b ff ff ff ff ff ff ff ff"), (9, 1));
}

/// All agree with themselves: what the makers know holds, accepted documents
/// encode back to their bytes, and the original runs on them.
#[test]
fn generated_documents() {
    assert!(compare(read, 5_000, 7));
}

#[test]
fn swept_documents() {
    assert!(sweep(read));
}

#[test]
fn seeds_show_the_whole_grammar() {
    let labels = |ir| {
        let items = itemise(&ir).items;
        items.into_iter().map(|item| (item.label, item.absent))
    };
    let shown: BTreeSet<_> = seeds::seeds().into_iter().flat_map(labels).collect();
    let rng = &mut Rng::new(3);
    let random = (0..300).map(|_| valid::document(rng, 1_000));
    let used: BTreeSet<_> = random.flat_map(labels).collect();
    assert_eq!(used, shown);
    // Nine options; those of the two patterns share a label.
    assert_eq!(shown.iter().filter(|(_, absent)| *absent).count(), 8);
}

#[test]
fn lists_at_their_limits() {
    for list in limits::LISTS {
        assert_eq!(read(&encode(&(list.with)(list.limit))), (0, 0));
        let over = itemise(&(list.with)(list.limit + 1));
        assert_eq!(over.answer().0, 5);
        assert_eq!(read(&over.bytes), over.answer());
    }
}

#[test]
fn depths_at_every_site() {
    let rng = &mut Rng::new(5);
    for site in 0..depth::SITES {
        let deepest = encode(&depth::at_site(rng, site, 32));
        assert_eq!(read(&deepest), (0, 0));
        let over = itemise(&depth::at_site(rng, site, 33));
        assert_eq!(over.answer().0, 7);
        assert_eq!(read(&over.bytes), over.answer());
    }
}

#[test]
fn exact_lengths() {
    for target in 1_000..1_200 {
        let mut ir = build::one(|_| ());
        limits::fill(&mut ir, target);
        let doc = encode(&ir);
        assert_eq!((doc.len(), read(&doc)), (target, (0, 0)));
    }
}

#[test]
fn samples_are_sound() {
    for sample in samples() {
        let ir = decode(&sample.bytes).expect("it is accepted");
        let found = original::findings(&ir);
        assert_eq!(found.errors, [""; 0]);
    }
}

#[test]
fn kept_vectors() {
    let all = vectors();
    let kept = file(&all);
    assert!(kept == file(&vectors()), "the same on every run");
    assert!(kept.len() < 1_200_000);
    for number in 0..10 {
        let times = all.iter().filter(|v| v.answer.0 == number).count();
        let least = if number == 1 { 2 } else { 15 };
        assert!(times >= least, "{times} vectors with answer {number}");
    }
}

#[test]
fn same_seed_same_documents() {
    let (mut one, mut two) = (Source::new(9), Source::new(9));
    for _ in 0..500 {
        assert_eq!(one.next().bytes, two.next().bytes);
    }
}
