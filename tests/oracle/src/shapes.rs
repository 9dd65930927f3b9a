//! How many documents have each of the shapes that findings depend on: lists
//! at their limits, and every kind of name twice.

use crate::lang::ir::*;
use std::collections::HashSet;

/// A shape: its name, and whether a document has it.
type Shape = (&'static str, fn(&Ir) -> bool);

const SHAPES: [Shape; 19] = [
    ("255 transitions", |ir| {
        any(ir, |m| m.transitions.len() == 255)
    }),
    ("16 modules", |ir| ir.modules.len() == 16),
    ("16 modules of 255 transitions", |ir| {
        let full = |m: &Module| m.transitions.len() == 255;
        ir.modules.len() == 16 && ir.modules.iter().all(full)
    }),
    ("a module's name twice", |ir| {
        twice(ir.modules.iter().map(|m| &m.name))
    }),
    ("an enum's name twice", |ir| {
        any(ir, |m| twice(m.enums.iter().map(|e| &e.name)))
    }),
    ("State twice", |ir| {
        let states = |m: &Module| m.enums.iter().filter(|e| e.name == "State").count();
        any(ir, |m| states(m) > 1)
    }),
    ("a variant of an enum twice", |ir| {
        any(ir, |m| m.enums.iter().any(|e| twice(e.variants.iter())))
    }),
    ("a state twice", |ir| {
        let states = |m: &Module| m.enums.iter().find(|e| e.name == "State").cloned();
        any(ir, |m| states(m).is_some_and(|e| twice(e.variants.iter())))
    }),
    ("a variable's name twice", |ir| {
        any(ir, |m| twice(m.vars.iter().map(|v| &v.name)))
    }),
    ("a group of events twice", |ir| {
        any(ir, |m| twice(m.events.iter().map(|g| &g.name)))
    }),
    ("an event of a group twice", |ir| {
        any(ir, |m| m.events.iter().any(variant_twice))
    }),
    ("a group of outputs twice", |ir| {
        any(ir, |m| twice(m.outputs.iter().map(|g| &g.name)))
    }),
    ("an output of a group twice", |ir| {
        any(ir, |m| m.outputs.iter().any(variant_twice))
    }),
    ("a property's name twice", |ir| {
        any(ir, |m| twice(m.properties.iter().map(|p| &p.name)))
    }),
    ("a property's name for an assumption", |ir| {
        any(ir, |m| {
            let named = |name: &str| m.properties.iter().any(|p| p.name == name);
            m.assumptions.iter().any(|p| named(&p.name))
        })
    }),
    ("a binding twice", |ir| {
        any(ir, |m| {
            m.transitions.iter().any(|t| binding_twice(&t.pattern))
        })
    }),
    ("a set of a variable twice", |ir| {
        let sets = |t: &Transition| twice(t.assignments.iter().map(|a| &a.var));
        any(ir, |m| m.transitions.iter().any(sets))
    }),
    ("a transition's id twice", |ir| {
        any(ir, |m| twice(m.transitions.iter().map(|t| t.id)))
    }),
    ("a transition twice", |ir| {
        any(ir, |m| {
            let equal = |i: usize, j: usize| m.transitions[i] == m.transitions[j];
            (0..m.transitions.len()).any(|j| (0..j).any(|i| equal(i, j)))
        })
    }),
];

fn any(ir: &Ir, module: impl Fn(&Module) -> bool) -> bool {
    ir.modules.iter().any(module)
}

/// Whether two entries are equal.
fn twice<T: std::hash::Hash + Eq>(entries: impl Iterator<Item = T>) -> bool {
    let mut seen = HashSet::new();
    let mut entries = entries;
    entries.any(|entry| !seen.insert(entry))
}

fn variant_twice(group: &ConstructorGroup) -> bool {
    twice(group.variants.iter().map(|variant| match variant {
        ConstructorVariant::Unit { name } | ConstructorVariant::Struct { name, .. } => name,
    }))
}

fn binding_twice(pattern: &EventPattern) -> bool {
    match &pattern.variant {
        Some(PatternVariant::Struct { fields, .. }) => {
            twice(fields.iter().filter_map(|field| field.name.as_ref()))
        }
        _ => false,
    }
}

/// How many documents had each shape.
#[derive(Default)]
pub struct Shapes([usize; SHAPES.len()]);

impl Shapes {
    pub fn count(&mut self, ir: &Ir) {
        for ((_, has), count) in SHAPES.iter().zip(&mut self.0) {
            *count += usize::from(has(ir));
        }
    }

    pub fn print(&self) {
        for ((name, _), count) in SHAPES.iter().zip(&self.0) {
            println!("{name:<36} {count:>8}");
        }
    }

    /// Each shape was there.
    pub fn is_whole(&self) -> bool {
        self.0.iter().all(|count| *count > 0)
    }
}
