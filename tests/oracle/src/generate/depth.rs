//! Expressions and formulas of an exact depth, at every site that takes one.

use super::build::*;
use super::rng::Rng;
use crate::lang::ir::*;

/// A chain of `not` expressions of this depth.
pub fn nots(depth: usize) -> Expr {
    (1..depth).fold(boolean(true), |e, _| unary(UnaryOp::Not, e))
}

/// A chain of `next` formulas of this depth, over an input pattern.
pub fn nexts(depth: usize) -> Formula {
    let leaf = Formula::InputIs {
        pattern: event("E", None),
    };
    (1..depth).fold(leaf, |f, _| over(1, 0, f))
}

/// A chain of this depth, `formulas` of it formulas and the rest expressions.
pub fn halves(formulas: usize, depth: usize) -> Formula {
    let leaf = holds(nots(depth - formulas));
    (1..formulas).fold(leaf, |f, _| over(2, 0, f))
}

/// An expression of exactly this depth, of any shape.
pub fn expr(rng: &mut Rng, depth: usize) -> Expr {
    if depth == 1 {
        return leaf(rng);
    }
    let deep = expr(rng, depth - 1);
    match rng.below(3) {
        0 => unary(rng.of(&UNARY_OPS), deep),
        1 => binary(rng.of(&BIN_OPS), deep, leaf(rng)),
        _ => binary(rng.of(&BIN_OPS), leaf(rng), deep),
    }
}

fn leaf(rng: &mut Rng) -> Expr {
    match rng.below(4) {
        0 => int(rng.next() >> rng.below(64)),
        1 => boolean(rng.chance(1, 2)),
        2 => path(&[]),
        _ => path(&["x"]),
    }
}

/// A formula of exactly this depth, of any shape. Its deepest part is an
/// expression of depth `exprs`, or a pattern when that is 0.
pub fn formula(rng: &mut Rng, depth: usize, exprs: usize) -> Formula {
    if depth == exprs + 1 {
        return match exprs {
            0 => leaf_formula(rng),
            _ => holds(expr(rng, exprs)),
        };
    }
    let deep = formula(rng, depth - 1, exprs);
    match rng.below(3) {
        0 => over(rng.below(ONE_CHILD), rng.next() >> rng.below(64), deep),
        1 => join(rng.below(TWO_CHILDREN), deep, leaf_formula(rng)),
        _ => join(rng.below(TWO_CHILDREN), leaf_formula(rng), deep),
    }
}

fn leaf_formula(rng: &mut Rng) -> Formula {
    if rng.chance(1, 2) {
        Formula::InputIs {
            pattern: event("E", None),
        }
    } else {
        Formula::OutputHas {
            pattern: output("O", None),
        }
    }
}

/// How many sites take an expression or a formula.
pub const SITES: usize = 8;

/// A document with an expression or formula of this depth at the site.
pub fn at_site(rng: &mut Rng, site: usize, depth: usize) -> Ir {
    let exprs = rng.below(depth);
    one(|m| match site {
        0 => m.vars = vec![var("x", Type::Bool, expr(rng, depth))],
        1 => m.transitions = vec![guarded(expr(rng, depth))],
        2 => m.transitions = vec![emitting(expr(rng, depth))],
        3 => m.transitions = vec![setting(expr(rng, depth))],
        4 => m.on_error = Some(fallback(expr(rng, depth))),
        5 => m.properties = vec![property("p", formula(rng, depth, 0))],
        6 => m.properties = vec![property("p", formula(rng, depth, exprs))],
        _ => m.assumptions = vec![property("p", formula(rng, depth, exprs))],
    })
}

fn guarded(guard: Expr) -> Transition {
    Transition {
        guard: Some(guard),
        ..step("A", "E", "B")
    }
}

fn emitting(arg: Expr) -> Transition {
    Transition {
        emits: vec![emit("O", None, vec![arg])],
        ..step("A", "E", "B")
    }
}

fn setting(value: Expr) -> Transition {
    Transition {
        assignments: vec![set("x", value)],
        ..step("A", "E", "B")
    }
}

fn fallback(arg: Expr) -> OnError {
    OnError {
        next_state: text("A"),
        emits: vec![emit("O", None, vec![arg])],
    }
}
