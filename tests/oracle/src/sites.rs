//! The original's findings as document 01's five words.
//!
//! Site and cause are read off the wording of each message. Places are found
//! by asking the original about parts of a module: its declarations with one
//! initial value, one set, one pair of transitions and so on. What it says of
//! the parts, one after another, must be what it says of the whole.

use crate::lang::ir::*;
use crate::lang::validator::{module_warnings, validate_module};
use crate::original;
use std::collections::BTreeMap;
use std::ops::RangeInclusive;

/// Module, site, first, second, cause.
pub type Words = [u32; 5];

/// A finding with its message.
#[derive(Debug, Clone, PartialEq)]
pub struct Finding {
    pub words: Words,
    pub message: String,
}

/// All errors by module, and all warnings by module.
pub struct Found {
    pub errors: Vec<Finding>,
    pub warnings: Vec<Finding>,
}

impl Found {
    /// The words of all findings in order.
    pub fn words(&self) -> Vec<Words> {
        let all = self.errors.iter().chain(&self.warnings);
        all.map(|finding| finding.words).collect()
    }
}

/// The findings of a document. It fails if the parts do not make the whole.
pub fn findings(ir: &Ir) -> Found {
    let of = |judge: fn(&Module) -> Vec<Finding>| {
        let mut all = Vec::new();
        for (place, module) in ir.modules.iter().enumerate() {
            for mut finding in judge(module) {
                finding.words[0] = place as u32;
                all.push(finding);
            }
        }
        all
    };
    let found = Found {
        errors: of(errors),
        warnings: of(warnings),
    };
    let whole = original::findings(ir);
    assert_eq!(messages(&found.errors), whole.errors, "errors by parts");
    assert_eq!(
        messages(&found.warnings),
        whole.warnings,
        "warnings by parts"
    );
    found
}

fn messages(findings: &[Finding]) -> Vec<String> {
    findings.iter().map(|f| f.message.clone()).collect()
}

/// The wording of each site's messages: `*` is a name or a number, `@` the
/// rest of the message.
const SITES: [(u32, &str); 26] = [
    (1, "module '*' has no State enum variants"),
    (2, "module '*' initial state '*' is not a State variant"),
    (3, "module '*' has transitions but no initial state"),
    (4, "module '*' invalid version header '@"),
    (5, "module '*' var '*' init: @"),
    (6, "module '*' transition #*: state '*' is not a State variant"),
    (7, "module '*' transition #*: next state '*' is not a State variant"),
    (8, "module '*' transition #*: event pattern: @"),
    (9, "module '*' transition #*: guard: @"),
    (10, "module '*' transition #*: guard must be bool: @"),
    (11, "module '*' transition #*: set unknown variable '*'"),
    (12, "module '*' transition #*: set '*': @"),
    (13, "module '*' transition #*: emit: @"),
    (14, "module '*' state '*': duplicate priority * for the same event pattern (transitions #* and #*)"),
    (15, "module '*' state '*': duplicate transitions #* and #* - identical event pattern and guard; the second is unreachable"),
    (16, "module '*' on_error: next state '*' is not a State variant"),
    (17, "module '*' on_error emit: @"),
    (18, "module '*' has duplicate property/assumption name '*'"),
    (19, "module '*' property '*': @"),
    (20, "module '*' property '*': always[N] requires N >= 1"),
    (21, "module '*': state '*' is unreachable from the initial state"),
    (22, "module '*': event '*' is never used in any transition pattern (dead event)"),
    (23, "module '*': variable '*' is never read or written (unused)"),
    (24, "module '*' state '*': transitions #* and #* share an event pattern with different guards and no priorities; first match wins in source order (add distinct `priority N;` to pin the intent)"),
    (25, "module '*': transition #* has a guard that is always false (dead transition)"),
    (26, "module '*': transition #* guard is impossible: '*' is compared equal to both * and *"),
];

/// The sites that have a cause.
pub const WITH_CAUSE: [u32; 7] = [5, 8, 9, 12, 13, 17, 19];

/// The wording of each cause, in the same form.
const CAUSES: [(u32, &str); 34] = [
    (1, "unknown event group '*'"),
    (2, "unknown event variant '*' in group '*'"),
    (3, "event variant '*' has * fields, pattern has *"),
    (4, "duplicate pattern binding '*'"),
    (5, "event variant '*' is unit but pattern has fields"),
    (6, "event variant '*' has fields but pattern is unit"),
    (7, "literal * does not fit bit<*>"),
    (8, "integer literal cannot match bool"),
    (9, "integer literal cannot match enum"),
    (10, "boolean literal cannot match non-bool"),
    (11, "enum variant path [@"),
    (12, "enum variant pattern cannot match non-enum"),
    (13, "unknown output group '*'"),
    (14, "bare output '*' is ambiguous; name a variant"),
    (15, "unknown output variant '*' in group '*'"),
    (16, "output '*' has * args, variant expects *"),
    (17, "operand of ! must be bool, found @"),
    (17, "left operand must be bool, found @"),
    (17, "right operand must be bool, found @"),
    (17, "formula expression must be bool, found @"),
    (18, "bit_not requires bitvector"),
    (19, "negation requires bitvector"),
    (20, "empty path"),
    (21, "unknown identifier '*'"),
    (22, "unknown enum type '*'"),
    (23, "unknown variant '*' in enum '*'"),
    (24, "unsupported path length *"),
    (25, "shift left operand must be bitvector"),
    (
        26,
        "shift right operand must be bitvector or integer literal",
    ),
    (27, "bitwidth mismatch: bit<*> vs bit<*>"),
    (
        28,
        "bitwise/arithmetic operator requires bitvector operands",
    ),
    (29, "integer literal cannot be used as bool"),
    (30, "type mismatch: @"),
    (
        31,
        "formula input patterns do not bind variables in Phase 1",
    ),
];

/// What may stand before a cause: the field or the argument it is about.
const WITHIN: [&str; 2] = ["field '*': @", "arg for '*': @"];

/// The rest of the text after the wording, if the text has it.
fn rest<'a>(wording: &str, text: &'a str) -> Option<&'a str> {
    let end = wording.find(['*', '@']).unwrap_or(wording.len());
    let (plain, next) = wording.split_at(end);
    let text = text.strip_prefix(plain)?;
    if next.is_empty() {
        return text.is_empty().then_some(text);
    }
    if next.starts_with('@') {
        return Some(text);
    }
    let other = |b: u8| !b.is_ascii_alphanumeric() && b != b'_';
    let end = text.bytes().position(other).unwrap_or(text.len());
    match end {
        0 => None,
        _ => rest(&next[1..], &text[end..]),
    }
}

/// The number of a cause, if the text is one's.
fn cause(text: &str) -> Option<u32> {
    let within = WITHIN.iter().find_map(|wording| rest(wording, text));
    let text = within.unwrap_or(text);
    only(CAUSES.iter().filter_map(|(number, wording)| {
        rest(wording, text)?;
        Some(*number)
    }))
}

/// Site and cause of a message. Every wording begins with the module's name.
fn site(message: &str) -> (u32, u32) {
    let after = rest("module '*'@", message).unwrap_or(message);
    let fits = SITES.iter().filter_map(|(number, wording)| {
        let rest = rest(wording.strip_prefix("module '*'")?, after)?;
        let cause = match WITH_CAUSE.contains(number) {
            true => cause(rest)?,
            false => 0,
        };
        Some((*number, cause))
    });
    only(fits).unwrap_or_else(|| panic!("a message of no site: {message}"))
}

/// The only one, or none.
fn only<T>(mut all: impl Iterator<Item = T>) -> Option<T> {
    let first = all.next()?;
    assert!(all.next().is_none(), "two wordings fit one message");
    Some(first)
}

fn error_messages(module: &Module) -> Vec<String> {
    let errors = validate_module(module).into_iter();
    errors.map(|e| e.message).collect()
}

/// The findings of one module, made of what is said of its parts.
struct Parts {
    ask: fn(&Module) -> Vec<String>,
    findings: Vec<Finding>,
}

/// Where a finding without places stands.
const NOWHERE: [usize; 2] = [0, 0];

impl Parts {
    fn new(ask: fn(&Module) -> Vec<String>) -> Parts {
        Parts {
            ask,
            findings: Vec::new(),
        }
    }

    /// Adds what is said of the part at these sites.
    fn add(&mut self, part: &Module, sites: RangeInclusive<u32>, places: [usize; 2]) {
        self.add_after(0, part, sites, places);
    }

    /// The same without the first so many, which are of something else.
    fn add_after(
        &mut self,
        passed: usize,
        part: &Module,
        sites: RangeInclusive<u32>,
        places: [usize; 2],
    ) {
        for finding in self.said(part, sites, places).split_off(passed) {
            self.findings.push(finding);
        }
    }

    /// What is said of the part at these sites. The only transition of a part
    /// is #0 there, and has its own place in the whole module.
    fn said(&self, part: &Module, sites: RangeInclusive<u32>, places: [usize; 2]) -> Vec<Finding> {
        let mut findings = Vec::new();
        for mut message in (self.ask)(part) {
            let (site, cause) = site(&message);
            if !sites.contains(&site) {
                continue;
            }
            if (6..=13).contains(&site) {
                let label = format!("transition #{}: ", places[0]);
                message = message.replacen("transition #0: ", &label, 1);
            }
            let [first, second] = places.map(|place| place as u32);
            findings.push(Finding {
                words: [0, site, first, second, cause],
                message,
            });
        }
        findings
    }
}

/// The module with its declarations alone; no initial value is at fault.
fn declarations(module: &Module) -> Module {
    let plain = |var: &VarDecl| VarDecl {
        init: Expr::Bool { value: true },
        ..var.clone()
    };
    Module {
        name: module.name.clone(),
        enums: module.enums.clone(),
        events: module.events.clone(),
        outputs: module.outputs.clone(),
        vars: module.vars.iter().map(plain).collect(),
        ..Module::default()
    }
}

/// Pairs of places of transitions with one state and one pattern, by the
/// state's name. Of no other pair is anything said: the whole would have more
/// messages than the parts.
fn pairs(module: &Module) -> Vec<[usize; 2]> {
    let mut by_state: BTreeMap<&str, Vec<usize>> = BTreeMap::new();
    for (place, transition) in module.transitions.iter().enumerate() {
        by_state.entry(&transition.state).or_default().push(place);
    }
    let mut pairs = Vec::new();
    for places in by_state.values() {
        for (earlier, i) in places.iter().enumerate() {
            for j in &places[earlier + 1..] {
                if module.transitions[*i].pattern == module.transitions[*j].pattern {
                    pairs.push([*i, *j]);
                }
            }
        }
    }
    pairs
}

fn both(module: &Module, places: [usize; 2]) -> Vec<Transition> {
    places.map(|i| module.transitions[i].clone()).to_vec()
}

/// Errors of one module.
fn errors(module: &Module) -> Vec<Finding> {
    let mut parts = Parts::new(error_messages);
    let mut part = declarations(module);
    head_errors(&mut parts, module);
    for (i, var) in module.vars.iter().enumerate() {
        let plain = std::mem::replace(&mut part.vars[i].init, var.init.clone());
        parts.add(&part, 5..=5, [i, 0]);
        part.vars[i].init = plain;
    }
    for (i, transition) in module.transitions.iter().enumerate() {
        transition_errors(&mut parts, &mut part, i, transition);
    }
    for places in pairs(module) {
        part.transitions = both(module, places);
        parts.add(&part, 14..=15, places);
    }
    part.transitions.clear();
    if let Some(on_error) = &module.on_error {
        on_error_errors(&mut parts, &mut part, on_error);
    }
    part.on_error = None;
    property_errors(&mut parts, &part, module);
    let whole = error_messages(module);
    assert_eq!(messages(&parts.findings), whole, "the errors of a module");
    parts.findings
}

/// Sites 1 to 4: no place is named.
fn head_errors(parts: &mut Parts, module: &Module) {
    parts.add(module, 1..=4, NOWHERE);
}

/// Sites 6 to 13: the transition alone, with one set, with one emit.
fn transition_errors(parts: &mut Parts, part: &mut Module, i: usize, whole: &Transition) {
    let plain = Transition {
        emits: Vec::new(),
        assignments: Vec::new(),
        ..whole.clone()
    };
    part.transitions = vec![plain];
    parts.add(part, 6..=10, [i, 0]);
    for (k, set) in whole.assignments.iter().enumerate() {
        part.transitions[0].assignments = vec![set.clone()];
        parts.add(part, 11..=12, [i, k]);
    }
    part.transitions[0].assignments.clear();
    for (k, emit) in whole.emits.iter().enumerate() {
        part.transitions[0].emits = vec![emit.clone()];
        parts.add(part, 13..=13, [i, k]);
    }
}

/// Sites 16 and 17: on_error without emits, and with one.
fn on_error_errors(parts: &mut Parts, part: &mut Module, whole: &OnError) {
    let with = |emits| OnError {
        next_state: whole.next_state.clone(),
        emits,
    };
    part.on_error = Some(with(Vec::new()));
    parts.add(part, 16..=16, NOWHERE);
    for (k, emit) in whole.emits.iter().enumerate() {
        part.on_error = Some(with(vec![emit.clone()]));
        parts.add(part, 17..=17, [k, 0]);
    }
}

/// Sites 18 to 20. A name is at fault if it adds a message to those of the
/// properties and assumptions before it.
fn property_errors(parts: &mut Parts, declared: &Module, whole: &Module) {
    let count = whole.properties.len() + whole.assumptions.len();
    let mut before = declared.clone();
    for p in 0..count {
        let passed = parts.said(&before, 18..=18, NOWHERE).len();
        add_property(&mut before, whole, p);
        parts.add_after(passed, &before, 18..=18, [p, 0]);
    }
    for p in 0..count {
        let mut part = declared.clone();
        add_property(&mut part, whole, p);
        parts.add(&part, 19..=20, [p, 0]);
    }
}

/// Adds the property or assumption at a place to its own list.
fn add_property(part: &mut Module, whole: &Module, p: usize) {
    match p.checked_sub(whole.properties.len()) {
        None => part.properties.push(whole.properties[p].clone()),
        Some(a) => part.assumptions.push(whole.assumptions[a].clone()),
    }
}

/// Warnings of one module.
fn warnings(module: &Module) -> Vec<Finding> {
    let mut parts = Parts::new(module_warnings);
    state_warnings(&mut parts, module);
    event_warnings(&mut parts, module);
    let mut part = module.clone();
    for (i, var) in module.vars.iter().enumerate() {
        part.vars = vec![var.clone()];
        parts.add(&part, 23..=23, [i, 0]);
    }
    let mut part = declarations(module);
    for places in pairs(module) {
        part.transitions = both(module, places);
        parts.add(&part, 24..=24, places);
    }
    for (i, transition) in module.transitions.iter().enumerate() {
        part.transitions = vec![transition.clone()];
        parts.add(&part, 25..=26, [i, 0]);
    }
    let whole = module_warnings(module);
    assert_eq!(messages(&parts.findings), whole, "the warnings of a module");
    parts.findings
}

/// Site 21: the first State enum with one of its variants.
fn state_warnings(parts: &mut Parts, module: &Module) {
    let mut part = module.clone();
    let states = part.enums.iter_mut().find(|e| e.name == "State");
    let Some(variants) = states.map(|e| std::mem::take(&mut e.variants)) else {
        return;
    };
    for (v, variant) in variants.into_iter().enumerate() {
        let states = part.enums.iter_mut().find(|e| e.name == "State");
        states.expect("it was found before").variants = vec![variant];
        parts.add(&part, 21..=21, [v, 0]);
    }
}

/// Site 22. An event is used by its group's name and its own: a copy of it, in
/// a group of that name after all others, adds a message if it is not.
fn event_warnings(parts: &mut Parts, module: &Module) {
    let mut part = module.clone();
    let passed = parts.said(&part, 22..=22, NOWHERE).len();
    for (g, group) in module.events.iter().enumerate() {
        for (v, variant) in group.variants.iter().enumerate() {
            part.events.push(ConstructorGroup {
                name: group.name.clone(),
                variants: vec![variant.clone()],
            });
            parts.add_after(passed, &part, 22..=22, [g, v]);
            part.events.pop();
        }
    }
}
