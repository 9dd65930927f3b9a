//! Documents about depth: 32, 33 and far more, torn and damaged there.

use super::build::{int, one, var};
use super::damage::TELLING;
use super::disturb::any_patch;
use super::rng::Rng;
use super::{depth, Document};
use crate::encode::{itemise, Encoded};
use crate::lang::ir::Type;

/// Depth 32, next to it, or well over it, at any site.
pub fn deep(rng: &mut Rng) -> Document {
    let levels = rng.of(&[31, 32, 32, 32, 33, 33, 34, 40, 200]);
    let site = rng.below(depth::SITES);
    let encoded = itemise(&depth::at_site(rng, site, levels));
    match rng.below(4) {
        0 if levels > 32 => torn(rng, &encoded),
        1 if levels > 32 => damaged(rng, &encoded),
        _ => Document::whole("depth", encoded),
    }
}

/// Items before the expression or formula at depth 33.
fn before(encoded: &Encoded) -> usize {
    let shallow = |depth| depth <= 32;
    let items = encoded.items.iter();
    items.take_while(|item| shallow(item.depth)).count()
}

/// The end, or any bytes, where depth 33 starts: 7 comes before any byte is
/// looked at.
pub fn torn(rng: &mut Rng, encoded: &Encoded) -> Document {
    let at = encoded.items[before(encoded)].at;
    let mut bytes = encoded.bytes[..at].to_vec();
    for _ in 0..rng.below(4) {
        bytes.push(rng.of(&TELLING));
    }
    Document::new("depth torn", bytes, Some((7, at as u64)))
}

/// A change just before depth 33 starts. A fault there is given, else 7 is.
pub fn damaged(rng: &mut Rng, encoded: &Encoded) -> Document {
    let before = before(encoded);
    let at = encoded.items[before].at;
    let index = before - 1 - rng.below(before.min(6));
    let patch = any_patch(rng, encoded, index);
    let due = match patch.due {
        Some((0, _)) => patch.shifts(at).map(|place| (7, place as u64)),
        due => due,
    };
    Document::new("depth damaged", patch.apply(&encoded.bytes), due)
}

/// Tens of thousands of levels: refused at depth 33 all the same.
pub fn far_too_deep(rng: &mut Rng) -> Document {
    let site = itemise(&one(|m| m.vars = vec![var("x", Type::Bool, int(0))]));
    let init = site.find("VarDecl.init").expect("it has a variable");
    let at = site.items[init].at;
    let level = rng.of(&[[0x83, 0x03, 0x00], [0x84, 0x04, 0x0f]]);
    let levels = rng.between(33, 21_000);
    let bytes = [&site.bytes[..at], &level.repeat(levels)].concat();
    Document::new("depth far over", bytes, Some((7, (at + 3 * 32) as u64)))
}
