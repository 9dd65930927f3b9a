//! Documents whose one long list, or whose whole length, is what is asked.

use super::build::*;
use crate::encode::encode;
use crate::lang::ir::*;

/// A list of the grammar: its limit, and a document with that many entries.
#[derive(Clone, Copy)]
pub struct List {
    pub limit: usize,
    pub with: fn(usize) -> Ir,
}

const fn list(limit: usize, with: fn(usize) -> Ir) -> List {
    List { limit, with }
}

/// Every list of the grammar, those of shared types at each of their sites.
pub const LISTS: [List; 24] = [
    list(16, |n| ir(vec![bare("M"); n])),
    list(255, |n| one(|m| m.enums = vec![enum_decl("S", &[]); n])),
    list(255, |n| {
        one(|m| m.enums = vec![enum_decl("S", &vec!["v"; n])])
    }),
    list(255, |n| one(|m| m.events = vec![group("E", Vec::new()); n])),
    list(255, |n| {
        one(|m| m.outputs = vec![group("O", Vec::new()); n])
    }),
    list(255, |n| {
        one(|m| m.events = vec![group("E", vec![unit("u"); n])])
    }),
    list(255, |n| {
        one(|m| m.outputs = vec![group("O", vec![unit("u"); n])])
    }),
    list(255, |n| {
        let fields = vec![("f", Type::Bool); n];
        one(|m| m.events = vec![group("E", vec![with_fields("s", &fields)])])
    }),
    list(255, |n| {
        let fields = vec![("f", Type::Bool); n];
        one(|m| m.outputs = vec![group("O", vec![with_fields("s", &fields)])])
    }),
    list(255, |n| {
        one(|m| m.vars = vec![var("x", Type::Bool, int(0)); n])
    }),
    list(255, |n| {
        one(|m| m.transitions = vec![step("A", "E", "A"); n])
    }),
    list(255, |n| {
        with_step(Transition {
            emits: vec![emit("O", None, Vec::new()); n],
            ..step("A", "E", "A")
        })
    }),
    list(255, |n| {
        with_step(Transition {
            emits: vec![emit("O", None, vec![int(0); n])],
            ..step("A", "E", "A")
        })
    }),
    list(255, |n| {
        with_step(Transition {
            assignments: vec![set("x", int(0)); n],
            ..step("A", "E", "A")
        })
    }),
    list(255, |n| {
        with_step(Transition {
            pattern: event("E", Some(wildcards(n))),
            ..step("A", "E", "A")
        })
    }),
    list(255, |n| fallback(vec![emit("O", None, Vec::new()); n])),
    list(255, |n| fallback(vec![emit("O", None, vec![int(0); n])])),
    list(255, |n| {
        one(|m| m.properties = vec![property("p", holds(int(0))); n])
    }),
    list(255, |n| {
        one(|m| m.assumptions = vec![property("p", holds(int(0))); n])
    }),
    list(255, |n| {
        with_property(Formula::InputIs {
            pattern: event("E", Some(wildcards(n))),
        })
    }),
    list(255, |n| {
        with_property(Formula::OutputHas {
            pattern: output("O", Some(wildcards(n))),
        })
    }),
    list(8, |n| {
        with_step(Transition {
            guard: Some(path(&vec!["s"; n])),
            ..step("A", "E", "A")
        })
    }),
    list(8, |n| with_property(holds(path(&vec!["s"; n])))),
    list(8, |n| {
        let long = PatternExpr::EnumVariant {
            path: vec![text("s"); n],
        };
        with_step(Transition {
            pattern: event("E", Some(field_pattern("f", vec![pattern(None, long)]))),
            ..step("A", "E", "A")
        })
    }),
];

fn with_step(transition: Transition) -> Ir {
    one(|m| m.transitions = vec![transition])
}

fn with_property(formula: Formula) -> Ir {
    one(|m| m.properties = vec![property("p", formula)])
}

fn fallback(emits: Vec<OutputExpr>) -> Ir {
    one(|m| {
        m.on_error = Some(OnError {
            next_state: text("A"),
            emits,
        })
    })
}

fn wildcards(n: usize) -> PatternVariant {
    field_pattern("f", vec![pattern(None, PatternExpr::Wildcard); n])
}

/// Lengthens the document to exactly `target` bytes, by enums of long names
/// in its last module and by that module's version string. The document must
/// have a module, and be shorter than the target by 300 bytes or more.
pub fn fill(ir: &mut Ir, target: usize) {
    let gap = |ir: &Ir| target - encode(ir).len();
    let module = |ir: &mut Ir, change: &dyn Fn(&mut Module)| {
        change(ir.modules.last_mut().expect("the document has a module"))
    };
    module(ir, &|m| m.version = Some(String::new()));
    // A name of 64 bytes takes 66.
    while gap(ir) > 13_500 {
        module(ir, &|m| m.enums.push(filler(200)));
    }
    let names = (gap(ir) - 100) / 66;
    module(ir, &|m| m.enums.push(filler(names)));
    while gap(ir) > 60 {
        module(ir, &|m| {
            last(&mut m.enums).variants.push(text("ffffffffff"))
        });
    }
    // A string of 24 bytes has a longer head than one of 23: a version string
    // can't make up 24.
    if gap(ir) == 24 {
        module(ir, &|m| last(&mut m.enums).name.push('f'));
    }
    let rest = gap(ir);
    let version = if rest > 24 { rest - 1 } else { rest };
    module(ir, &|m| m.version = Some("1".repeat(version)));
}

fn last(enums: &mut [EnumDecl]) -> &mut EnumDecl {
    enums.last_mut().expect("an enum was pushed")
}

fn filler(names: usize) -> EnumDecl {
    EnumDecl {
        name: text("F"),
        variants: vec!["f".repeat(64); names],
    }
}
