//! A document with the transitions of one module in another order, and what
//! document 01's renaming makes of its findings.

use crate::generate::rng::Rng;
use crate::lang::ir::Ir;
use crate::sites::Words;

/// The document after the rearrangement.
pub struct Rearranged {
    pub ir: Ir,
    module: usize,
    /// For the place of each transition before, its place after.
    to: Vec<u32>,
}

/// A module of the document with two transitions or more, rearranged; none if
/// it has no such module.
pub fn rearranged(rng: &mut Rng, ir: &Ir) -> Option<Rearranged> {
    let mut modules: Vec<usize> = (0..ir.modules.len()).collect();
    modules.retain(|&module| ir.modules[module].transitions.len() > 1);
    if modules.is_empty() {
        return None;
    }
    let module = rng.of(&modules);
    let before = &ir.modules[module].transitions;
    let from = order(rng, before.len());
    let mut to = vec![0; from.len()];
    for (after, before) in from.iter().enumerate() {
        to[*before] = after as u32;
    }
    let transitions = from.iter().map(|&place| before[place].clone()).collect();
    let mut ir = ir.clone();
    ir.modules[module].transitions = transitions;
    Some(Rearranged { ir, module, to })
}

/// The places in another order: two of them exchanged, all turned round, or any.
fn order(rng: &mut Rng, count: usize) -> Vec<usize> {
    let mut places: Vec<usize> = (0..count).collect();
    match rng.below(4) {
        0 => {
            let first = rng.below(count - 1);
            let second = rng.between(first + 1, count - 1);
            places.swap(first, second);
        }
        1 => places.reverse(),
        _ => rng.shuffle(&mut places),
    }
    places
}

/// Two transitions, at 14, 15 and 24.
fn is_pair(site: u32) -> bool {
    [14, 15, 24].contains(&site)
}

/// The place of a transition stands first at 6 to 13, 25 and 26.
fn is_of_transition(site: u32) -> bool {
    (6..=13).contains(&site) || [25, 26].contains(&site)
}

impl Rearranged {
    /// The finding with the place of each transition after the rearrangement
    /// for its place before.
    fn renamed(&self, finding: Words) -> Words {
        let [module, site, first, second, cause] = finding;
        let to = |place: u32| self.to[place as usize];
        match site {
            _ if module as usize != self.module => finding,
            _ if is_pair(site) => [module, site, to(first), to(second), cause],
            _ if is_of_transition(site) => [module, site, to(first), second, cause],
            _ => finding,
        }
    }

    /// The findings after the rearrangement that those before it leave, as a
    /// multiset: sorted, the places of each pair in rising order.
    pub fn left(&self, before: &[Words]) -> Vec<Words> {
        multiset(before.iter().map(|finding| self.renamed(*finding)))
    }
}

/// Sorted, the places of each pair in rising order.
pub fn multiset(findings: impl Iterator<Item = Words>) -> Vec<Words> {
    let rising = |[module, site, first, second, cause]: Words| match is_pair(site) {
        true => [module, site, first.min(second), first.max(second), cause],
        false => [module, site, first, second, cause],
    };
    let mut all: Vec<Words> = findings.map(rising).collect();
    all.sort_unstable();
    all
}
