//! Random accepted documents of about a given size. Names come mostly from
//! small pools, so that many of them meet in later layers.

use super::build::*;
use super::depth;
use super::rng::Rng;
use crate::encode::encode;
use crate::lang::ir::*;

const ENUMS: &[&str] = &["State", "State", "Mode", "Kind"];
const STATES: &[&str] = &["A", "B", "C", "idle", "busy", "done"];
const GROUPS: &[&str] = &["E", "In", "Out"];
const VARIANTS: &[&str] = &["go", "stop", "data", "tick"];
const VARS: &[&str] = &["x", "y", "count", "flag", "state", "mode"];
const FIELDS: &[&str] = &["a", "b", "len", "x"];
const PROPERTIES: &[&str] = &["safe", "live", "p1", "p2", "p3"];
const POOLS: [&[&str]; 7] = [ENUMS, STATES, GROUPS, VARIANTS, VARS, FIELDS, PROPERTIES];

const NAME_BYTES: &[u8] = b"abcdefghijklmnopqrstuvwxyzABCDEFGHIJKLMNOPQRSTUVWXYZ0123456789_";

/// Values at the edges of head widths and limits.
pub const EDGES: [u64; 14] = [
    0,
    1,
    2,
    23,
    24,
    0xff,
    0x100,
    0xffff,
    0x1_0000,
    0xffff_ffff,
    0x1_0000_0000,
    1 << 63,
    u64::MAX - 1,
    u64::MAX,
];

/// An accepted document of about `size` bytes, at most 65,535.
pub fn document(rng: &mut Rng, size: usize) -> Ir {
    let mut ir = Ir {
        ir_version: rng.below(2) as u32,
        modules: Vec::new(),
    };
    let most = 1 + (size / 100).min(15);
    let modules = if size < 8 { 0 } else { rng.between(1, most) };
    for _ in 0..modules {
        ir.modules.push(module(rng, size / modules));
    }
    while encode(&ir).len() > 65_535 {
        shorten(&mut ir);
    }
    ir
}

/// Drops a transition, or the last module if it has none.
fn shorten(ir: &mut Ir) {
    let module = ir.modules.last_mut().expect("a long document has a module");
    if module.transitions.pop().is_none() {
        ir.modules.pop();
    }
}

fn module(rng: &mut Rng, size: usize) -> Module {
    let part = size / 20;
    Module {
        name: name(rng, &["M", "Main", "Link"]),
        version: option(rng, version),
        on_error: option(rng, |rng| on_error(rng, part)),
        enums: fill(rng, part, 20, enum_decl),
        initial_state: option(rng, |rng| name(rng, STATES)),
        events: fill(rng, part, 30, constructor_group),
        outputs: fill(rng, part, 30, constructor_group),
        vars: fill(rng, part, 20, var_decl),
        transitions: fill(rng, 8 * part, 100, transition),
        properties: fill(rng, 2 * part, 60, property),
        assumptions: fill(rng, part, 60, property),
    }
}

/// As many entries of about `cost` bytes as fit the room; now and then none.
fn fill<T>(rng: &mut Rng, room: usize, cost: usize, entry: fn(&mut Rng) -> T) -> Vec<T> {
    if rng.chance(1, 6) {
        return Vec::new();
    }
    let count = room / cost + usize::from(rng.chance(room % cost, cost));
    (0..count.min(255)).map(|_| entry(rng)).collect()
}

fn option<T>(rng: &mut Rng, item: impl FnOnce(&mut Rng) -> T) -> Option<T> {
    rng.chance(2, 3).then(|| item(rng))
}

/// Up to `most` entries, mostly few.
fn some<T>(rng: &mut Rng, most: usize, entry: impl Fn(&mut Rng) -> T) -> Vec<T> {
    let count = if rng.chance(1, 40) {
        most
    } else {
        rng.below(4)
    };
    (0..count).map(|_| entry(rng)).collect()
}

/// A name from the pool, from any pool, or from nowhere.
fn name(rng: &mut Rng, pool: &[&str]) -> String {
    match rng.below(40) {
        0 => random_name(rng),
        1..=3 => {
            let pool = rng.of(&POOLS);
            text(rng.of(pool))
        }
        _ => text(rng.of(pool)),
    }
}

fn random_name(rng: &mut Rng) -> String {
    let any = rng.between(1, 64);
    let length = rng.of(&[1, 2, 22, 23, 24, 25, 63, 64, any]);
    (0..length)
        .map(|_| char::from(rng.of(NAME_BYTES)))
        .collect()
}

fn version(rng: &mut Rng) -> String {
    if rng.chance(2, 3) {
        return text(rng.of(&["1.0", "1.2.3", "1", "1.", "", "1.2.3.4", "v1.0", "10.20"]));
    }
    let any = rng.between(0, 64);
    let length = rng.of(&[0, 1, 23, 24, 64, any]);
    (0..length)
        .map(|_| char::from(rng.between(32, 126) as u8))
        .collect()
}

fn number(rng: &mut Rng) -> u64 {
    match rng.below(4) {
        0 => rng.of(&EDGES),
        1 => rng.next() >> rng.below(64),
        _ => rng.below(24) as u64,
    }
}

fn word(rng: &mut Rng) -> u32 {
    number(rng) as u32
}

fn on_error(rng: &mut Rng, room: usize) -> OnError {
    OnError {
        next_state: name(rng, STATES),
        emits: fill(rng, room, 20, output_expr),
    }
}

fn enum_decl(rng: &mut Rng) -> EnumDecl {
    EnumDecl {
        name: name(rng, ENUMS),
        variants: some(rng, 40, |rng| name(rng, STATES)),
    }
}

fn ty(rng: &mut Rng) -> Type {
    match rng.below(3) {
        0 => Type::Bool,
        1 => bit(rng.of(&[0, 1, 8, 8, 16, 63, 64, 65, 255, 256, 65_536, u32::MAX])),
        _ => Type::Enum {
            name: name(rng, ENUMS),
        },
    }
}

fn constructor_group(rng: &mut Rng) -> ConstructorGroup {
    ConstructorGroup {
        name: name(rng, GROUPS),
        variants: some(rng, 30, constructor_variant),
    }
}

fn constructor_variant(rng: &mut Rng) -> ConstructorVariant {
    let name = name(rng, VARIANTS);
    if rng.chance(1, 2) {
        return ConstructorVariant::Unit { name };
    }
    let fields = some(rng, 20, |rng| FieldDecl {
        name: self::name(rng, FIELDS),
        ty: ty(rng),
    });
    ConstructorVariant::Struct { name, fields }
}

fn var_decl(rng: &mut Rng) -> VarDecl {
    VarDecl {
        name: name(rng, VARS),
        ty: ty(rng),
        init: short_expr(rng),
    }
}

fn transition(rng: &mut Rng) -> Transition {
    Transition {
        id: number(rng) as usize,
        state: name(rng, STATES),
        pattern: EventPattern {
            group: name(rng, GROUPS),
            variant: option(rng, pattern_variant),
        },
        guard: option(rng, guard),
        next_state: name(rng, STATES),
        emits: some(rng, 6, output_expr),
        assignments: some(rng, 6, assignment),
        priority: option(rng, word),
    }
}

fn pattern_variant(rng: &mut Rng) -> PatternVariant {
    let name = name(rng, VARIANTS);
    if rng.chance(1, 2) {
        return PatternVariant::Unit { name };
    }
    let fields = some(rng, 20, |rng| PatternField {
        name: option(rng, |rng| self::name(rng, FIELDS)),
        pattern: pattern_expr(rng),
    });
    PatternVariant::Struct { name, fields }
}

fn pattern_expr(rng: &mut Rng) -> PatternExpr {
    match rng.below(5) {
        0 => PatternExpr::Wildcard,
        1 => PatternExpr::Bind {
            name: name(rng, FIELDS),
        },
        2 => PatternExpr::Int { value: number(rng) },
        3 => PatternExpr::Bool {
            value: rng.chance(1, 2),
        },
        _ => PatternExpr::EnumVariant {
            path: random_path(rng),
        },
    }
}

/// Mostly one or two segments, as the checker knows them.
fn random_path(rng: &mut Rng) -> Vec<String> {
    match rng.below(10) {
        0..=4 => vec![name(rng, VARS)],
        5..=7 => vec![name(rng, ENUMS), name(rng, STATES)],
        _ => {
            let segments = rng.below(9);
            (0..segments).map(|_| name(rng, STATES)).collect()
        }
    }
}

fn output_expr(rng: &mut Rng) -> OutputExpr {
    OutputExpr {
        group: name(rng, GROUPS),
        variant: option(rng, |rng| name(rng, VARIANTS)),
        args: some(rng, 10, short_expr),
    }
}

fn assignment(rng: &mut Rng) -> Assignment {
    Assignment {
        var: name(rng, VARS),
        value: short_expr(rng),
    }
}

fn short_expr(rng: &mut Rng) -> Expr {
    let size = rng.between(1, 3);
    expr(rng, size, 32)
}

fn guard(rng: &mut Rng) -> Expr {
    if rng.chance(1, 60) {
        return depth::expr(rng, 32);
    }
    let size = rng.between(1, 12);
    expr(rng, size, 32)
}

/// An expression of about `size` nodes, at most `deepest` deep.
fn expr(rng: &mut Rng, size: usize, deepest: usize) -> Expr {
    if size <= 1 || deepest == 1 {
        return match rng.below(4) {
            0 => int(number(rng)),
            1 => boolean(rng.chance(1, 2)),
            _ => Expr::Path {
                path: random_path(rng),
            },
        };
    }
    if rng.chance(1, 4) {
        let op = rng.of(&UNARY_OPS);
        return unary(op, expr(rng, size - 1, deepest - 1));
    }
    let left = rng.between(1, size - 1);
    let op = rng.of(&BIN_OPS);
    let first = expr(rng, left, deepest - 1);
    binary(op, first, expr(rng, size - left, deepest - 1))
}

fn property(rng: &mut Rng) -> Property {
    let formula = if rng.chance(1, 60) {
        let exprs = rng.below(32);
        depth::formula(rng, 32, exprs)
    } else {
        let size = rng.between(1, 8);
        formula(rng, size, 32)
    };
    Property {
        name: name(rng, PROPERTIES),
        formula,
    }
}

/// A formula of about `size` nodes, at most `deepest` deep.
fn formula(rng: &mut Rng, size: usize, deepest: usize) -> Formula {
    if size <= 1 || deepest <= 2 {
        return leaf_formula(rng, deepest);
    }
    if rng.chance(1, 2) {
        let kind = rng.below(ONE_CHILD);
        let bound = number(rng);
        return over(kind, bound, formula(rng, size - 1, deepest - 1));
    }
    let left = rng.between(1, size - 1);
    let kind = rng.below(TWO_CHILDREN);
    let first = formula(rng, left, deepest - 1);
    join(kind, first, formula(rng, size - left, deepest - 1))
}

fn leaf_formula(rng: &mut Rng, deepest: usize) -> Formula {
    let group = name(rng, GROUPS);
    match rng.below(4) {
        0 => Formula::InputIs {
            pattern: EventPattern {
                group,
                variant: option(rng, pattern_variant),
            },
        },
        1 => Formula::OutputHas {
            pattern: OutputPattern {
                group,
                variant: option(rng, pattern_variant),
            },
        },
        _ => {
            let size = rng.between(1, 5);
            holds(expr(rng, size, deepest - 1))
        }
    }
}
