//! Documents of every class: accepted ones of every size, each limit and one
//! over it, and damaged ones. Everything follows from the seed.

pub mod build;
pub mod cases;
pub mod crowded;
pub mod damage;
pub mod deep;
pub mod depth;
pub mod disturb;
pub mod limits;
pub mod planted;
pub mod rng;
pub mod seeds;
pub mod typed;
pub mod valid;
pub mod whole;

use crate::encode::{itemise, Encoded};
use damage::Patch;
use rng::Rng;
use std::rc::Rc;

pub const LONGEST: usize = 65_535;

/// A document to read.
pub struct Document {
    pub class: &'static str,
    pub bytes: Vec<u8>,
    /// The answer, where the maker knows it.
    pub due: Option<(u32, u64)>,
}

impl Document {
    /// Too many bytes are refused whatever else is due.
    pub fn new(class: &'static str, bytes: Vec<u8>, due: Option<(u32, u64)>) -> Document {
        let due = match bytes.len() > LONGEST {
            true => Some((1, 0)),
            false => due,
        };
        Document { class, bytes, due }
    }

    /// An undamaged encoding: its items tell the answer.
    pub fn whole(class: &'static str, encoded: Encoded) -> Document {
        let due = encoded.answer();
        Document::new(class, encoded.bytes, Some(due))
    }

    pub fn patched(base: &Encoded, patch: &Patch) -> Document {
        Document::new(patch.class, patch.apply(&base.bytes), patch.due)
    }
}

/// Documents of all classes, one after another.
pub struct Source {
    rng: Rng,
    seeds: Vec<Rc<Encoded>>,
}

impl Source {
    pub fn new(seed: u64) -> Source {
        let seeds = seeds::seeds();
        Source {
            rng: Rng::new(seed),
            seeds: seeds.iter().map(|ir| Rc::new(itemise(ir))).collect(),
        }
    }

    /// The next document. Small ones are many, long ones few.
    pub fn next(&mut self) -> Document {
        let rng = &mut self.rng;
        match rng.below(1000) {
            0..=79 => whole::small(rng),
            80..=99 => whole::nearly_sound(rng),
            100..=129 => whole::middle(rng),
            130..=132 => whole::large(rng),
            133 => whole::full(rng),
            134..=163 => whole::long_list(rng),
            164..=165 => whole::bulky(rng),
            166..=215 => deep::deep(rng),
            216..=218 => deep::far_too_deep(rng),
            219..=248 => disturb::noise(rng),
            _ => {
                let base = self.base();
                self.damaged(&base)
            }
        }
    }

    /// An accepted document to damage, most often a seed.
    fn base(&mut self) -> Rc<Encoded> {
        let rng = &mut self.rng;
        let size = match rng.below(200) {
            0 => rng.between(4_000, 60_000),
            1..=20 => rng.between(300, 4_000),
            21..=90 => rng.between(0, 300),
            _ => {
                let seed = rng.below(self.seeds.len());
                return self.seeds[seed].clone();
            }
        };
        Rc::new(itemise(&valid::document(rng, size)))
    }

    fn damaged(&mut self, base: &Encoded) -> Document {
        let rng = &mut self.rng;
        match rng.below(12) {
            0 => disturb::two_faults(rng, base),
            1 => disturb::flips(rng, base),
            2 => disturb::noise_after(rng, base),
            3 => disturb::overhang(rng, base),
            _ => disturb::patched(rng, base),
        }
    }
}
