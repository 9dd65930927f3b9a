//! The documents the repository keeps, each with its answer.

use crate::decode::{answer, decode};
use crate::encode::{itemise, Encoded};
use crate::generate::damage::{patches, Patch};
use crate::generate::disturb::*;
use crate::generate::rng::Rng;
use crate::generate::whole::*;
use crate::generate::*;
use std::collections::{BTreeMap, HashSet};

pub const FILE: &str = "vectors.bin";

const SEED: u64 = 0x0ffe;

/// A document and its answer.
pub struct Vector {
    pub class: &'static str,
    pub bytes: Vec<u8>,
    pub answer: (u32, u64),
}

/// How many patches of each class are kept.
const PATCHES: [(&str, usize); 16] = [
    ("torn", 300),
    ("torn tail", 750),
    ("reserved", 150),
    ("padded", 250),
    ("kind", 350),
    ("null", 110),
    ("count", 350),
    ("list length", 60),
    ("case", 150),
    ("other case", 80),
    ("outsize", 460),
    ("unborn", 20),
    ("smudged", 200),
    ("within", 220),
    ("changed byte", 350),
    ("moved item", 100),
];

/// All of them, none twice, and the same on every run.
pub fn vectors() -> Vec<Vector> {
    let rng = &mut Rng::new(SEED);
    let seeds: Vec<Encoded> = seeds::seeds().iter().map(itemise).collect();
    let mut all = vec![Document::new("empty", Vec::new(), Some((2, 0)))];
    for ir in seeds::seeds() {
        all.push(Document::whole("seed", itemise(&ir)));
    }
    all.extend(at_limits(rng));
    all.extend(kept_patches(rng, &seeds));
    all.extend(accepted(rng));
    all.extend(disturbed(rng, &seeds));
    all.extend(longest(rng));
    let mut seen = HashSet::new();
    all.retain(|document| seen.insert(document.bytes.clone()));
    all.into_iter().map(judged).collect()
}

/// The decoder's answer, which must be the maker's where that one knows it.
fn judged(document: Document) -> Vector {
    let answer = answer(&decode(&document.bytes));
    if let Some(due) = document.due {
        assert_eq!(answer, due, "class {}", document.class);
    }
    Vector {
        class: document.class,
        bytes: document.bytes,
        answer,
    }
}

/// Each list at its limit and one over; each site at depth 32 and 33.
fn at_limits(rng: &mut Rng) -> Vec<Document> {
    let mut all = Vec::new();
    for list in limits::LISTS {
        for entries in [list.limit, list.limit + 1] {
            all.push(at_limit(&(list.with)(entries)));
        }
    }
    for site in (0..depth::SITES).cycle().take(3 * depth::SITES) {
        for depth in [32, 33] {
            let encoded = itemise(&depth::at_site(rng, site, depth));
            all.push(Document::whole("depth", encoded));
        }
        let deeper = itemise(&depth::at_site(rng, site, 33));
        all.push(deep::torn(rng, &deeper));
        all.push(deep::damaged(rng, &deeper));
    }
    all
}

/// Patches of the seeds by class, from every place of the grammar in turn.
fn kept_patches(rng: &mut Rng, seeds: &[Encoded]) -> Vec<Document> {
    let mut all = Vec::new();
    let mut choice = by_class(rng, seeds);
    for (class, most) in PATCHES {
        let places = choice.remove(class).expect("a class of patches");
        let mut lists: Vec<_> = places.into_values().map(Vec::into_iter).collect();
        let mut kept = Vec::new();
        while kept.len() < most && !lists.is_empty() {
            lists.retain_mut(|list| list.next().map(|one| kept.push(one)).is_some());
        }
        for (seed, patch) in kept.into_iter().take(most) {
            all.push(Document::patched(&seeds[seed], &patch));
        }
    }
    all
}

/// Patches with the number of their seed, by label of the item.
type Places = BTreeMap<&'static str, Vec<(usize, Patch)>>;

/// The patches of some items of each label, by class: those of one item
/// shuffled, one item after another.
fn by_class(rng: &mut Rng, seeds: &[Encoded]) -> BTreeMap<&'static str, Places> {
    let mut classes: BTreeMap<&'static str, Places> = BTreeMap::new();
    let mut taken: BTreeMap<(&str, bool), usize> = BTreeMap::new();
    for (number, seed) in seeds.iter().enumerate() {
        for (index, item) in seed.items.iter().enumerate() {
            let times = taken.entry((item.label, item.absent)).or_default();
            *times += 1;
            if *times > 5 {
                continue;
            }
            let mut all = patches(seed, index);
            rng.shuffle(&mut all);
            for patch in all {
                let places = classes.entry(patch.class).or_default();
                places.entry(item.label).or_default().push((number, patch));
            }
        }
    }
    classes
}

/// Accepted documents of every size.
fn accepted(rng: &mut Rng) -> Vec<Document> {
    let mut all = Vec::new();
    all.extend((0..150).map(|_| small(rng)));
    all.extend((0..24).map(|_| middle(rng)));
    all.extend((0..3).map(|_| large(rng)));
    all.push(Document::whole("full length", full_of(rng, LONGEST)));
    all
}

/// Faults without a plan, in seeds and in longer documents.
fn disturbed(rng: &mut Rng, seeds: &[Encoded]) -> Vec<Document> {
    let mut all: Vec<Document> = (0..60).map(|_| noise(rng)).collect();
    let in_seeds: [(usize, Maker); 4] = [
        (80, noise_after),
        (50, overhang),
        (100, flips),
        (100, two_faults),
    ];
    for (count, maker) in in_seeds {
        for _ in 0..count {
            let seed = rng.below(seeds.len());
            all.push(maker(rng, &seeds[seed]));
        }
    }
    let in_longer: [(usize, usize, Maker); 5] = [
        (10, 2_000, patched),
        (5, 2_000, flips),
        (5, 2_000, two_faults),
        (2, 2_000, overhang),
        (3, 55_000, patched),
    ];
    for (count, size, maker) in in_longer {
        for _ in 0..count {
            let base = itemise(&valid::document(rng, size));
            all.push(maker(rng, &base));
        }
    }
    all
}

type Maker = fn(&mut Rng, &Encoded) -> Document;

/// The last places there are, and over 65,535 bytes: by one and otherwise
/// right, and by more and otherwise refused at once.
fn longest(rng: &mut Rng) -> Vec<Document> {
    let mut torn = full_of(rng, LONGEST);
    let last = torn.items.last().expect("a document has items").at;
    torn.bytes.pop();
    let mut more = full_of(rng, LONGEST - 1).bytes;
    more.push(0);
    vec![
        Document::new("torn", torn.bytes, Some((2, last as u64))),
        Document::new("overhang", more, Some((8, LONGEST as u64 - 1))),
        Document::whole("bulky", full_of(rng, LONGEST + 1)),
        Document::new("bulky", vec![0xff; LONGEST + 100], Some((1, 0))),
    ]
}

/// The file: for each vector the length as u32, the document, the number as
/// u8 and the place as u32, all little-endian.
pub fn file(vectors: &[Vector]) -> Vec<u8> {
    let mut bytes = Vec::new();
    for vector in vectors {
        let (number, place) = vector.answer;
        bytes.extend((vector.bytes.len() as u32).to_le_bytes());
        bytes.extend(&vector.bytes);
        bytes.push(number as u8);
        bytes.extend((place as u32).to_le_bytes());
    }
    bytes
}

/// Counts by class and by number.
pub fn report(vectors: &[Vector]) {
    let mut classes: BTreeMap<&str, (usize, usize, usize)> = BTreeMap::new();
    let mut numbers = [0; 10];
    for vector in vectors {
        let class = classes.entry(vector.class).or_default();
        class.0 += 1;
        class.1 += usize::from(vector.answer.0 == 0);
        class.2 += vector.bytes.len();
        numbers[vector.answer.0 as usize] += 1;
    }
    println!(
        "{:<20} {:>9} {:>9} {:>9}",
        "class", "documents", "accepted", "bytes"
    );
    for (class, (documents, accepted, bytes)) in classes {
        println!("{class:<20} {documents:>9} {accepted:>9} {bytes:>9}");
    }
    println!("\n{:<20} {:>9}", "answer", "documents");
    println!("{:<20} {:>9}", "accepted", numbers[0]);
    for (number, documents) in numbers.iter().enumerate().skip(1) {
        println!("{:<20} {documents:>9}", format!("refused {number}"));
    }
    println!("{:<20} {:>9}", "all", vectors.len());
}
