//! How often each site and each cause is found.

use crate::decode::decode;
use crate::encode::encode;
use crate::generate::cases::pairs;
use crate::generate::planted;
use crate::generate::rng::Rng;
use crate::lang::ir::Ir;
use crate::sites::{findings, Words, WITH_CAUSE};
use std::collections::{BTreeMap, BTreeSet};

/// Findings by site and cause; those at site 19 are counted by property and
/// by assumption too.
#[derive(Default)]
pub struct Table {
    pub documents: usize,
    bytes: usize,
    without: usize,
    counts: BTreeMap<(u32, u32), usize>,
    assumptions: BTreeMap<u32, usize>,
}

impl Table {
    /// The findings of so many documents.
    pub fn of(count: usize, seed: u64) -> Table {
        let rng = &mut Rng::new(seed);
        let mut table = Table::default();
        for _ in 0..count {
            table.add(&planted::document(rng));
        }
        table
    }

    fn add(&mut self, ir: &Ir) {
        let bytes = encode(ir);
        let read = decode(&bytes).expect("a planted document is accepted");
        assert_eq!(&read, ir, "it is what was encoded");
        self.count(&read, bytes.len(), &findings(&read).words());
    }

    /// Counts the findings of a document of so many bytes.
    pub fn count(&mut self, ir: &Ir, bytes: usize, all: &[Words]) {
        self.documents += 1;
        self.bytes += bytes;
        self.without += usize::from(all.is_empty());
        for &[module, site, first, _, cause] in all {
            *self.counts.entry((site, cause)).or_default() += 1;
            let properties = ir.modules[module as usize].properties.len();
            if site == 19 && first as usize >= properties {
                *self.assumptions.entry(cause).or_default() += 1;
            }
        }
    }

    /// The pairs that can occur, and no other, did; at both kinds of formula.
    pub fn is_whole(&self) -> bool {
        let due: BTreeSet<_> = pairs().into_iter().collect();
        let seen: BTreeSet<_> = self.counts.keys().copied().collect();
        let formulas = seen.iter().filter(|(site, _)| *site == 19);
        due == seen
            && formulas.clone().all(|(_, cause)| self.property(*cause) > 0)
            && formulas.count() == self.assumptions.len()
    }

    /// All that were counted.
    pub fn findings(&self) -> usize {
        self.counts.values().sum()
    }

    fn assumption(&self, cause: u32) -> usize {
        self.assumptions.get(&cause).copied().unwrap_or(0)
    }

    fn property(&self, cause: u32) -> usize {
        self.at(19, cause) - self.assumption(cause)
    }

    fn at(&self, site: u32, cause: u32) -> usize {
        self.counts.get(&(site, cause)).copied().unwrap_or(0)
    }

    pub fn print(&self) {
        println!(
            "{} documents, {} bytes, {} without findings\n",
            self.documents, self.bytes, self.without
        );
        let heads = [
            "cause",
            "5 init",
            "8 pattern",
            "9 guard",
            "12 set",
            "13 emit",
            "17 on_error",
            "19 property",
            "19 assumption",
        ];
        println!("{}", heads.map(|head| format!("{head:>14}")).concat());
        for cause in 1..=31 {
            let mut line = format!("{cause:>14}");
            for site in WITH_CAUSE {
                let count = match site {
                    19 => self.property(cause),
                    _ => self.at(site, cause),
                };
                line += &cell(site, cause, count);
            }
            line += &cell(19, cause, self.assumption(cause));
            println!("{line}");
        }
        println!();
        for (site, _) in pairs().into_iter().filter(|(_, cause)| *cause == 0) {
            println!("{:>14}{:>14}", format!("site {site}"), self.at(site, 0));
        }
    }
}

/// A count, or a dash where the pair can't occur.
fn cell(site: u32, cause: u32, count: usize) -> String {
    match pairs().contains(&(site, cause)) || count > 0 {
        true => format!("{count:>14}"),
        false => format!("{:>14}", "-"),
    }
}
