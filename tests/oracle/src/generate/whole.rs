//! Undamaged encodings: of every size, and with a list or the length at its
//! limit or over it.

use super::rng::Rng;
use super::{crowded, limits, planted, valid, Document, LONGEST};
use crate::encode::{itemise, Encoded};
use crate::lang::ir::Ir;

pub fn small(rng: &mut Rng) -> Document {
    let size = rng.between(0, 400);
    Document::whole("accepted small", itemise(&valid::document(rng, size)))
}

/// Mostly sound, so that the original's findings are few and of every kind.
pub fn nearly_sound(rng: &mut Rng) -> Document {
    Document::whole("nearly sound", itemise(&planted::document(rng)))
}

/// Names repeated everywhere; many transitions, many modules, and seldom as
/// many of both as there may be.
pub fn crowded(rng: &mut Rng) -> Document {
    let ir = match rng.below(40) {
        0 => crowded::full(rng),
        1..=19 => crowded::one(rng),
        _ => crowded::sixteen(rng),
    };
    Document::whole("crowded", itemise(&ir))
}

pub fn middle(rng: &mut Rng) -> Document {
    let size = rng.between(1_000, 4_000);
    Document::whole("accepted middle", itemise(&valid::document(rng, size)))
}

pub fn large(rng: &mut Rng) -> Document {
    let size = rng.between(40_000, 62_000);
    Document::whole("accepted large", itemise(&valid::document(rng, size)))
}

/// Exactly the longest length, or one to either side.
pub fn full(rng: &mut Rng) -> Document {
    let length = rng.of(&[LONGEST - 1, LONGEST, LONGEST, LONGEST + 1]);
    Document::whole("full length", full_of(rng, length))
}

/// A document of exactly this length, right but for its length.
pub fn full_of(rng: &mut Rng, length: usize) -> Encoded {
    let size = rng.between(1_000, 40_000);
    let mut ir = valid::document(rng, size);
    limits::fill(&mut ir, length);
    itemise(&ir)
}

/// Over 65,535 bytes, by one or by far.
pub fn bulky(rng: &mut Rng) -> Document {
    let any = rng.between(LONGEST + 1, 200_000);
    let length = rng.of(&[LONGEST + 1, LONGEST + 2, any]);
    let mut bytes = vec![rng.byte(); length];
    bytes[..3].copy_from_slice(&[0x82, 0x01, 0x80]);
    Document::new("bulky", bytes, Some((1, 0)))
}

/// A list at its limit, next to it, or well over it.
pub fn long_list(rng: &mut Rng) -> Document {
    let list = rng.of(&limits::LISTS);
    let n = list.limit;
    let entries = rng.of(&[n - 1, n, n, n + 1, n + 1, n + 2, 2 * n, 23, 24]);
    at_limit(&(list.with)(entries))
}

/// Class by whether the list's limit is kept.
pub fn at_limit(ir: &Ir) -> Document {
    let encoded = itemise(ir);
    let class = match encoded.answer() {
        (0, _) => "list within",
        _ => "list over",
    };
    Document::whole(class, encoded)
}
