//! Accepted documents with one item damaged, or two, or without a plan.

use super::damage::{patches, Patch, TELLING};
use super::rng::Rng;
use super::Document;
use crate::encode::Encoded;

/// One patch of one item.
pub fn patched(rng: &mut Rng, base: &Encoded) -> Document {
    let index = rng.below(base.items.len());
    let patch = any_patch(rng, base, index);
    Document::patched(base, &patch)
}

/// A patch of the item with this index. Classes of patches are alike likely.
pub fn any_patch(rng: &mut Rng, base: &Encoded, index: usize) -> Patch {
    let mut all = patches(base, index);
    let mut classes: Vec<_> = all.iter().map(|patch| patch.class).collect();
    classes.dedup();
    let class = rng.of(&classes);
    all.retain(|patch| patch.class == class);
    let one = rng.below(all.len());
    all.swap_remove(one)
}

/// Two damaged items: the left one's refusal is given. Only a data enum's
/// count waits for the item after it, its case.
pub fn two_faults(rng: &mut Rng, base: &Encoded) -> Document {
    let left = rng.below(base.items.len() - 1);
    let right = rng.between(left + 1, base.items.len() - 1);
    let first = any_patch(rng, base, left);
    let second = any_patch(rng, base, right);
    if first.to > second.from {
        return Document::patched(base, &first);
    }
    let bytes = first.apply(&second.apply(&base.bytes));
    let refused = matches!(first.due, Some((number, _)) if number != 0);
    let decided = refused && right > left + 1;
    let due = first.due.filter(|_| decided);
    Document::new("two faults", bytes, due)
}

/// A few bytes changed anywhere.
pub fn flips(rng: &mut Rng, base: &Encoded) -> Document {
    let mut bytes = base.bytes.clone();
    for _ in 0..rng.between(1, 3) {
        let place = rng.below(bytes.len());
        bytes[place] = match rng.below(3) {
            0 => bytes[place] ^ (1 << rng.below(8)),
            1 => rng.byte(),
            _ => rng.of(&TELLING),
        };
    }
    Document::new("flips", bytes, None)
}

/// Bytes without a plan, uniform or telling ones; half the time they stand
/// past the first heads.
pub fn noise(rng: &mut Rng) -> Document {
    let length = rng.between(0, 80);
    let mut bytes = noise_bytes(rng, length);
    if rng.chance(1, 2) {
        bytes.splice(0..0, [0x82, 0x01, 0x81, 0x8b]);
    }
    let due = bytes.is_empty().then_some((2, 0));
    Document::new("noise", bytes, due)
}

fn noise_bytes(rng: &mut Rng, length: usize) -> Vec<u8> {
    let uniform = rng.chance(1, 2);
    (0..length)
        .map(|_| match uniform {
            true => rng.byte(),
            false => rng.of(&TELLING),
        })
        .collect()
}

/// Sound items up to a place, then noise.
pub fn noise_after(rng: &mut Rng, base: &Encoded) -> Document {
    let at = rng.of(&base.items).at;
    let length = rng.between(1, 40);
    let noise = noise_bytes(rng, length);
    let bytes = [&base.bytes[..at], &noise].concat();
    Document::new("noise after items", bytes, None)
}

/// Bytes after the document: any, or the document again.
pub fn overhang(rng: &mut Rng, base: &Encoded) -> Document {
    let length = rng.between(1, 9);
    let more = match rng.below(4) {
        0 => base.bytes.clone(),
        _ => noise_bytes(rng, length),
    };
    let due = Some((8, base.bytes.len() as u64));
    Document::new("overhang", [&base.bytes[..], &more].concat(), due)
}
