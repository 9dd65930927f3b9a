//! Crowded documents: every kind of name repeated, and as many transitions and
//! modules as there may be.

use super::build::*;
use super::planted;
use super::rng::Rng;
use crate::encode::encode;
use crate::generate::LONGEST;
use crate::lang::ir::*;

/// A module with up to 255 transitions, beside others with few.
pub fn one(rng: &mut Rng) -> Ir {
    let others = rng.of(&[0, 0, 1, 2]);
    let count = rng.of(&[100, 200, 254, 255, 255, 255]);
    let mut modules = vec![rich(rng, count)];
    for _ in 0..others {
        let few = rng.below(6);
        modules.push(rich(rng, few));
    }
    rng.shuffle(&mut modules);
    within(ir(modules))
}

/// 16 modules with some transitions each.
pub fn sixteen(rng: &mut Rng) -> Ir {
    let module = |rng: &mut Rng| {
        let few = rng.below(12);
        rich(rng, few)
    };
    within(ir((0..16).map(|_| module(rng)).collect()))
}

/// 16 modules of 255 transitions, each as short as may be.
pub fn full(rng: &mut Rng) -> Ir {
    within(ir((0..16).map(|_| lean(rng, 255)).collect()))
}

/// The document, with transitions left out from its end until it is short
/// enough.
fn within(mut ir: Ir) -> Ir {
    while encode(&ir).len() > LONGEST {
        let longest = ir.modules.iter_mut().max_by_key(|m| m.transitions.len());
        let cut = longest.and_then(|m| m.transitions.pop());
        cut.expect("the declarations alone are short enough");
    }
    ir
}

/// A module of planted faults with each list longer by entries of the same
/// names, and so many transitions.
fn rich(rng: &mut Rng, count: usize) -> Module {
    let mut module = planted::module(rng);
    repeat(rng, &mut module.enums);
    for one in &mut module.enums {
        repeat(rng, &mut one.variants);
    }
    for groups in [&mut module.events, &mut module.outputs] {
        repeat(rng, groups);
        for group in groups {
            repeat(rng, &mut group.variants);
        }
    }
    repeat(rng, &mut module.vars);
    repeat(rng, &mut module.properties);
    repeat(rng, &mut module.assumptions);
    let made = module.transitions.clone();
    let states = rng.of(&[&["A"][..], &["A", "B"], &["A", "B", "C", "idle", "Z", "x"]]);
    let patterns = rng.of(&[2, 5, 12]);
    let patterns: Vec<EventPattern> = (0..patterns).map(|_| any_pattern(rng)).collect();
    while module.transitions.len() < count {
        let copied = !made.is_empty() && rng.chance(1, 4);
        let next = match copied {
            true => made[rng.below(made.len())].clone(),
            false => plain(rng, states, &patterns),
        };
        module.transitions.push(next);
    }
    module.transitions.truncate(count);
    rng.shuffle(&mut module.transitions);
    module
}

/// Some entries a second time, at any place.
fn repeat<T: Clone>(rng: &mut Rng, list: &mut Vec<T>) {
    for _ in 0..rng.below(3).min(list.len()) {
        let entry = list[rng.below(list.len())].clone();
        let place = rng.below(list.len() + 1);
        list.insert(place, entry);
    }
}

fn any_pattern(rng: &mut Rng) -> EventPattern {
    let group = rng.of(&["E", "E", "F", "Z"]);
    let variant = match rng.below(3) {
        0 => None,
        _ => Some(unit_pattern(rng.of(&["go", "data", "stop", "tick"]))),
    };
    event(group, variant)
}

/// A transition of a few states, patterns, guards and priorities.
fn plain(rng: &mut Rng, states: &[&str], patterns: &[EventPattern]) -> Transition {
    let is = |value| binary(BinOp::Eq, path(&["x"]), int(value));
    let guard = match rng.below(8) {
        0 => Some(boolean(false)),
        1 => Some(path(&["f"])),
        2 => Some(is(1)),
        3 => Some(binary(BinOp::LogicAnd, is(1), is(2))),
        _ => None,
    };
    let mut made = Transition {
        id: rng.of(&[0, 1, 7, 300]),
        pattern: patterns[rng.below(patterns.len())].clone(),
        guard,
        priority: rng.of(&[None, None, None, Some(0), Some(1)]),
        ..step(rng.of(states), "E", rng.of(states))
    };
    if rng.chance(1, 10) {
        made.assignments.push(set(rng.of(&["x", "ghost"]), int(0)));
    }
    if rng.chance(1, 10) {
        let output = emit(rng.of(&["O", "Q"]), None, Vec::new());
        made.emits.push(output);
    }
    made
}

/// A module with a name of each kind twice, and transitions without anything
/// that may be absent but, here and there, a guard or a priority.
fn lean(rng: &mut Rng, count: usize) -> Module {
    const LETTERS: [&str; 12] = ["A", "B", "C", "D", "E", "F", "G", "H", "I", "J", "K", "L"];
    let states = &LETTERS[..rng.of(&[4, 8, 12])];
    let groups = &["E", "F", "G", "H"][..rng.of(&[1, 2, 4])];
    let transition = |rng: &mut Rng| Transition {
        id: rng.below(24),
        guard: rng.chance(1, 20).then(|| boolean(rng.chance(1, 2))),
        priority: rng.chance(1, 2).then(|| rng.below(4) as u32),
        ..step(rng.of(states), rng.of(groups), rng.of(states))
    };
    let mut declared = groups.to_vec();
    declared.push("E");
    Module {
        enums: vec![
            enum_decl("State", &["A", "B", "A", "C", "D", "E"]),
            enum_decl("State", &["A"]),
        ],
        initial_state: Some(text("A")),
        events: declared
            .iter()
            .map(|name| group(name, vec![unit("u"), unit("u")]))
            .collect(),
        outputs: vec![group("O", vec![unit("u"), unit("u")]); 2],
        vars: vec![var("x", Type::Bool, boolean(true)); 2],
        transitions: (0..count).map(|_| transition(rng)).collect(),
        properties: vec![property("p", holds(boolean(true))); 2],
        ..bare("M")
    }
}
