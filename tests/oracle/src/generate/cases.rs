//! Small documents for every site, and for every cause at every site that can
//! give it, each with the findings that are due. All but a few are one sound
//! module with one change.

use super::build::*;
use crate::lang::ir::*;
use crate::sites::Words;

/// A document and its findings.
pub struct Case {
    pub ir: Ir,
    pub due: Vec<Words>,
}

/// Causes of an expression, of a pattern, and of an output's own.
pub const OF_EXPRESSIONS: std::ops::RangeInclusive<u32> = 17..=30;
pub const OF_PATTERNS: std::ops::RangeInclusive<u32> = 1..=12;
pub const OF_OUTPUTS: std::ops::RangeInclusive<u32> = 13..=16;
/// A binding in a formula's pattern.
pub const BINDING: u32 = 31;

/// Every site with every cause it can give; cause 0 for a site without one.
/// No other pair can occur: sites 5, 9 and 12 type expressions alone, 8 judges
/// patterns, 13 and 17 outputs with their arguments, and 19 formulas, whose
/// own patterns can only bind.
pub fn pairs() -> Vec<(u32, u32)> {
    let mut pairs = Vec::new();
    for site in 1..=26 {
        match site {
            5 | 9 | 12 => pairs.extend(OF_EXPRESSIONS.map(|cause| (site, cause))),
            8 => pairs.extend(OF_PATTERNS.map(|cause| (site, cause))),
            13 | 17 => {
                pairs.extend(OF_OUTPUTS.map(|cause| (site, cause)));
                pairs.extend(OF_EXPRESSIONS.map(|cause| (site, cause)));
            }
            19 => {
                pairs.extend(OF_EXPRESSIONS.map(|cause| (site, cause)));
                pairs.push((site, BINDING));
            }
            _ => pairs.push((site, 0)),
        }
    }
    pairs
}

/// All cases.
pub fn cases() -> Vec<Case> {
    let mut all = vec![case(sound(), &[])];
    all.extend(of_heads());
    for cause in OF_EXPRESSIONS {
        all.extend(of_expression(cause));
    }
    for cause in OF_PATTERNS {
        let pattern = faulty_pattern(cause);
        let third = Transition { pattern, ..third() };
        all.push(with_third(third, &[[0, 8, 2, 0, cause]]));
    }
    for cause in OF_OUTPUTS {
        for output in faulty_outputs(cause) {
            all.extend(of_output(&output, cause));
        }
    }
    all.extend(of_output(&send(int(1), int(0), mode()), 29));
    all.extend(of_output(&send(path(&["y"]), boolean(true), mode()), 30));
    all.extend(of_formula(&holds(int(1)), 17));
    all.extend(of_formula(&binding_formula(), BINDING));
    all.extend(of_transitions());
    all.extend(of_lists());
    all
}

fn case(module: Module, due: &[Words]) -> Case {
    Case {
        ir: ir(vec![module]),
        due: due.to_vec(),
    }
}

/// The sound module with a change.
fn changed(change: impl FnOnce(&mut Module), due: &[Words]) -> Case {
    let mut module = sound();
    change(&mut module);
    case(module, due)
}

/// The sound module with a third transition, at place 2.
fn with_third(third: Transition, due: &[Words]) -> Case {
    changed(|m| m.transitions.push(third), due)
}

/// A module without findings.
pub fn sound() -> Module {
    let fields = [("n", bit(8)), ("ok", Type::Bool), ("m", enum_type("Mode"))];
    Module {
        version: Some(text("1.0")),
        enums: vec![
            enum_decl("State", &["A", "B"]),
            enum_decl("Mode", &["on", "off"]),
        ],
        initial_state: Some(text("A")),
        events: vec![group("E", vec![unit("go"), with_fields("data", &fields)])],
        outputs: vec![
            group("O", vec![unit("ack"), with_fields("send", &fields)]),
            group("Q", vec![unit("only")]),
            group("None", Vec::new()),
        ],
        vars: vec![
            var("x", bit(8), int(0)),
            var("y", bit(16), int(1)),
            var("f", Type::Bool, boolean(false)),
            var("m", enum_type("Mode"), mode()),
        ],
        transitions: vec![
            Transition {
                pattern: event("E", Some(unit_pattern("go"))),
                emits: vec![send(path(&["x"]), path(&["f"]), path(&["m"]))],
                assignments: vec![set("y", int(2))],
                ..step("A", "E", "B")
            },
            Transition {
                id: 1,
                state: text("B"),
                next_state: text("A"),
                ..third()
            },
        ],
        properties: vec![property("safe", holds(in_state("A")))],
        assumptions: vec![property("fair", over(2, 0, holds(in_state("B"))))],
        ..bare("M")
    }
}

/// A transition that can follow those of the sound module.
fn third() -> Transition {
    let bound = pattern(Some("k"), PatternExpr::Wildcard);
    let fields = vec![bound, wildcard(), wildcard()];
    Transition {
        id: 2,
        pattern: data(fields),
        ..step("A", "E", "B")
    }
}

fn data(fields: Vec<PatternField>) -> EventPattern {
    event("E", Some(field_pattern("data", fields)))
}

fn wildcard() -> PatternField {
    pattern(None, PatternExpr::Wildcard)
}

fn mode() -> Expr {
    path(&["Mode", "on"])
}

fn in_state(state: &str) -> Expr {
    binary(BinOp::Eq, path(&["state"]), path(&["State", state]))
}

fn send(n: Expr, ok: Expr, m: Expr) -> OutputExpr {
    emit("O", Some("send"), vec![n, ok, m])
}

/// Sites 1 to 4.
fn of_heads() -> Vec<Case> {
    let states = |variants: &[&str]| vec![enum_decl("State", variants)];
    vec![
        case(bare("M"), &[[0, 1, 0, 0, 0]]),
        case(
            Module {
                enums: states(&[]),
                ..bare("M")
            },
            &[[0, 1, 0, 0, 0]],
        ),
        case(
            Module {
                enums: states(&["A"]),
                initial_state: Some(text("B")),
                ..bare("M")
            },
            &[[0, 2, 0, 0, 0], [0, 21, 0, 0, 0]],
        ),
        changed(|m| m.initial_state = None, &[[0, 3, 0, 0, 0]]),
        changed(|m| m.version = Some(text("1")), &[[0, 4, 0, 0, 0]]),
    ]
}

/// An expression at fault in the sound module, with every binding or none.
pub fn faulty_expr(cause: u32) -> Expr {
    let (x, y, f, m) = (path(&["x"]), path(&["y"]), path(&["f"]), path(&["m"]));
    match cause {
        17 => unary(UnaryOp::Not, int(1)),
        18 => unary(UnaryOp::BitNot, f),
        19 => unary(UnaryOp::Neg, m),
        20 => path(&[]),
        21 => path(&["ghost"]),
        22 => path(&["Ghost", "on"]),
        23 => path(&["Mode", "ghost"]),
        24 => path(&["Mode", "on", "on"]),
        25 => binary(BinOp::ShiftLeft, f, int(1)),
        26 => binary(BinOp::ShiftRight, x, f),
        27 => binary(BinOp::Plus, x, y),
        28 => binary(BinOp::BitXor, f.clone(), f),
        29 => binary(BinOp::Eq, f, int(1)),
        30 => binary(BinOp::Lt, x, y),
        _ => panic!("no cause of an expression"),
    }
}

/// The cause at each kind of place that takes an expression.
fn of_expression(cause: u32) -> Vec<Case> {
    let bad = || faulty_expr(cause);
    let guarded = Transition {
        guard: Some(bad()),
        ..third()
    };
    let setting = Transition {
        assignments: vec![set("x", int(0)), set("f", bad())],
        ..third()
    };
    let mut all = vec![
        changed(|m| m.vars[2].init = bad(), &[[0, 5, 2, 0, cause]]),
        with_third(guarded, &[[0, 9, 2, 0, cause]]),
        with_third(setting, &[[0, 12, 2, 1, cause]]),
    ];
    all.extend(of_output(&send(path(&["x"]), boolean(true), bad()), cause));
    all.extend(of_formula(&over(1, 0, holds(bad())), cause));
    all
}

/// An output at fault as the second emit of a transition and of on_error.
fn of_output(output: &OutputExpr, cause: u32) -> Vec<Case> {
    let emits = || vec![emit("Q", None, Vec::new()), output.clone()];
    let emitting = Transition {
        emits: emits(),
        ..third()
    };
    let on_error = OnError {
        next_state: text("A"),
        emits: emits(),
    };
    vec![
        with_third(emitting, &[[0, 13, 2, 1, cause]]),
        changed(|m| m.on_error = Some(on_error), &[[0, 17, 1, 0, cause]]),
    ]
}

/// A formula at fault as a property and as an assumption.
fn of_formula(formula: &Formula, cause: u32) -> Vec<Case> {
    let bad = || property("bad", formula.clone());
    vec![
        changed(|m| m.properties.push(bad()), &[[0, 19, 1, 0, cause]]),
        changed(|m| m.assumptions.push(bad()), &[[0, 19, 2, 0, cause]]),
    ]
}

fn binding_formula() -> Formula {
    let fields = vec![wildcard(), pattern(Some("k"), PatternExpr::Wildcard)];
    Formula::InputIs {
        pattern: data(fields),
    }
}

/// A pattern at fault in the sound module.
pub fn faulty_pattern(cause: u32) -> EventPattern {
    let literal = |value| pattern(None, PatternExpr::Int { value });
    let bound = |name| pattern(Some(name), PatternExpr::Wildcard);
    let truth = || pattern(None, PatternExpr::Bool { value: true });
    let variant = |path: &[&str]| {
        let path = texts(path);
        pattern(None, PatternExpr::EnumVariant { path })
    };
    match cause {
        1 => event("Ghost", None),
        2 => event("E", Some(unit_pattern("ghost"))),
        3 => data(vec![wildcard(), wildcard()]),
        4 => data(vec![bound("k"), wildcard(), bound("k")]),
        5 => event("E", Some(field_pattern("go", Vec::new()))),
        6 => event("E", Some(unit_pattern("data"))),
        7 => data(vec![literal(256), wildcard(), wildcard()]),
        8 => data(vec![bound("k"), literal(0), wildcard()]),
        9 => data(vec![bound("k"), wildcard(), literal(0)]),
        10 => data(vec![truth(), wildcard(), wildcard()]),
        11 => data(vec![wildcard(), wildcard(), variant(&["State", "A"])]),
        12 => data(vec![wildcard(), variant(&["Mode", "on"]), wildcard()]),
        _ => panic!("no cause of a pattern"),
    }
}

/// Outputs at fault before any argument is looked at.
pub fn faulty_outputs(cause: u32) -> Vec<OutputExpr> {
    match cause {
        13 => vec![emit("Ghost", None, Vec::new())],
        14 => vec![
            emit("O", None, Vec::new()),
            emit("None", None, vec![path(&[])]),
        ],
        15 => vec![emit("O", Some("ghost"), Vec::new())],
        16 => vec![
            emit("O", Some("ack"), vec![path(&[])]),
            emit("O", Some("send"), vec![int(1), boolean(true)]),
            emit("Q", None, vec![int(1)]),
        ],
        _ => panic!("no cause of an output"),
    }
}

/// Sites 6, 7, 10, 11, 14, 15, 24, 25 and 26.
fn of_transitions() -> Vec<Case> {
    let x = || path(&["x"]);
    let is = |value| binary(BinOp::Eq, x(), int(value));
    let guarded = |guard| Transition {
        guard: Some(guard),
        ..third()
    };
    let twice = |one: Transition, other: Transition, due: Words| {
        changed(|m| m.transitions.extend([one, other]), &[due])
    };
    let ranked = || Transition {
        priority: Some(7),
        ..guarded(is(1))
    };
    vec![
        with_third(
            Transition {
                state: text("Z"),
                ..third()
            },
            &[[0, 6, 2, 0, 0]],
        ),
        with_third(
            Transition {
                next_state: text("Z"),
                ..third()
            },
            &[[0, 7, 2, 0, 0]],
        ),
        with_third(guarded(x()), &[[0, 10, 2, 0, 0]]),
        with_third(guarded(path(&["k"])), &[[0, 10, 2, 0, 0]]),
        with_third(
            Transition {
                assignments: vec![set("x", x()), set("k", path(&[]))],
                ..third()
            },
            &[[0, 11, 2, 1, 0]],
        ),
        twice(ranked(), ranked(), [0, 14, 2, 3, 0]),
        twice(guarded(is(1)), guarded(is(1)), [0, 15, 2, 3, 0]),
        twice(guarded(is(1)), third(), [0, 24, 2, 3, 0]),
        with_third(guarded(boolean(false)), &[[0, 25, 2, 0, 0]]),
        with_third(
            guarded(binary(BinOp::LogicAnd, is(1), is(2))),
            &[[0, 26, 2, 0, 0]],
        ),
    ]
}

/// Sites 16, 18, 20, 21, 22 and 23.
fn of_lists() -> Vec<Case> {
    let lost = OnError {
        next_state: text("Z"),
        emits: Vec::new(),
    };
    let always = |bound| over(3, bound, holds(boolean(true)));
    vec![
        changed(|m| m.on_error = Some(lost), &[[0, 16, 0, 0, 0]]),
        changed(
            |m| m.assumptions.push(property("safe", always(1))),
            &[[0, 18, 2, 0, 0]],
        ),
        changed(
            |m| m.properties.push(property("bad", over(0, 0, always(0)))),
            &[[0, 20, 1, 0, 0]],
        ),
        changed(|m| m.enums[0].variants.push(text("C")), &[[0, 21, 2, 0, 0]]),
        changed(
            |m| m.events.push(group("F", vec![unit("go")])),
            &[[0, 22, 1, 0, 0]],
        ),
        changed(
            |m| m.vars.push(var("z", Type::Bool, boolean(true))),
            &[[0, 23, 4, 0, 0]],
        ),
    ]
}

/// The sound module with these initial values of variables after its own, as
/// many in a document as may be.
pub fn with_inits(inits: &[Expr]) -> Vec<Ir> {
    let module = |inits: &[Expr]| {
        let mut module = sound();
        let more = inits.iter().map(|init| var("v", Type::Bool, init.clone()));
        module.vars.extend(more);
        ir(vec![module])
    };
    inits.chunks(250).map(module).collect()
}

/// Every operator on operands of every type: two widths, a literal, a bool,
/// an enum, and State by its own name and by `state`.
pub fn operators() -> Vec<Expr> {
    let operands = [
        path(&["x"]),
        path(&["y"]),
        int(1),
        path(&["f"]),
        path(&["m"]),
        path(&["State", "A"]),
        path(&["state"]),
    ];
    let mut all = Vec::new();
    for left in &operands {
        all.extend(UNARY_OPS.map(|op| unary(op, left.clone())));
        for right in &operands {
            all.extend(BIN_OPS.map(|op| binary(op, left.clone(), right.clone())));
        }
    }
    all
}

/// The expression compared with a value of each type that an operator makes.
pub fn compared(expr: &Expr) -> [Expr; 3] {
    let with = |name| binary(BinOp::Eq, expr.clone(), path(&[name]));
    ["x", "y", "f"].map(with)
}

/// Version strings, bounds, guards that contradict themselves or nearly so,
/// and literals on widths, at their edges.
pub fn edges() -> Vec<Ir> {
    let one = |change: &dyn Fn(&mut Module)| {
        let mut module = sound();
        change(&mut module);
        ir(vec![module])
    };
    let mut all = Vec::new();
    for version in VERSIONS {
        all.push(one(&|m| m.version = Some(text(version))));
    }
    all.push(one(&|m| m.properties = bounds()));
    all.push(one(&|m| {
        for guard in guards() {
            m.transitions.push(Transition {
                guard: Some(guard),
                ..third()
            });
        }
    }));
    all.push(one(&|m| {
        for (place, width) in WIDTHS.iter().enumerate() {
            let name = format!("w{place}");
            let declared = with_fields(&name, &[("w", bit(*width))]);
            m.events[0].variants.push(declared);
            for value in around(*width) {
                let fields = vec![pattern(None, PatternExpr::Int { value })];
                m.transitions.push(Transition {
                    pattern: event("E", Some(field_pattern(&name, fields))),
                    ..step("A", "E", "B")
                });
            }
        }
    }));
    all
}

const VERSIONS: [&str; 16] = [
    "", ".", "1", "1.", ".1", "1.0", "1.2.", "1..2", "1.2.3", "1.2.3.", "1.2.3.4", "10.20.30",
    "1.a", "1.0 ", "/.:", "09.90",
];

const WIDTHS: [u32; 8] = [0, 1, 8, 32, 63, 64, 65, u32::MAX];

/// Values next to the largest of a width.
fn around(width: u32) -> Vec<u64> {
    match width {
        0..=63 => vec![0, 1, (1 << width) - 1, 1 << width, u64::MAX],
        _ => vec![0, 1 << 63, u64::MAX],
    }
}

/// Equalities joined in many shapes, some of which contradict each other.
fn guards() -> Vec<Expr> {
    let is = |name: &str, value| binary(BinOp::Eq, path(&[name]), int(value));
    let turned = |name: &str, value| binary(BinOp::Eq, int(value), path(&[name]));
    let and = |left, right| binary(BinOp::LogicAnd, left, right);
    let or = |left, right| binary(BinOp::LogicOr, left, right);
    let not = |inner| unary(UnaryOp::Not, inner);
    let other = |op| binary(op, path(&["x"]), int(2));
    vec![
        is("x", 1),
        and(is("x", 1), is("x", 1)),
        and(is("x", 1), is("x", 2)),
        and(is("x", 2), turned("x", 1)),
        and(turned("x", 0), turned("x", u64::MAX)),
        and(is("x", 1), is("y", 2)),
        and(and(is("x", 1), is("y", 2)), and(is("x", 1), is("y", 2))),
        and(and(is("x", 1), is("y", 2)), and(is("y", 3), is("x", 1))),
        and(is("x", 1), and(boolean(true), and(is("y", 1), is("x", 2)))),
        and(and(and(is("x", 1), path(&["f"])), is("y", 1)), is("x", 2)),
        and(is("k", 1), is("k", 2)),
        and(is("state", 1), is("state", 2)),
        or(is("x", 1), is("x", 2)),
        and(is("x", 1), or(is("x", 2), is("x", 3))),
        and(is("x", 1), not(is("x", 2))),
        not(and(is("x", 1), is("x", 2))),
        and(is("x", 1), other(BinOp::NotEq)),
        and(is("x", 1), other(BinOp::Le)),
        binary(BinOp::BitAnd, is("x", 1), is("x", 2)),
        and(
            binary(BinOp::Eq, path(&["Mode", "on"]), int(1)),
            binary(BinOp::Eq, path(&["Mode", "on"]), int(2)),
        ),
        and(
            binary(BinOp::Eq, path(&["x"]), path(&["x"])),
            binary(BinOp::Eq, int(1), int(2)),
        ),
        boolean(false),
        boolean(true),
        not(boolean(true)),
        and(boolean(false), boolean(false)),
    ]
}

/// Bounds of 0 and 1 in formulas of each kind.
fn bounds() -> Vec<Property> {
    let truth = || holds(boolean(true));
    let mut formulas = Vec::new();
    for bound in [0, 1, u64::MAX] {
        formulas.push(over(3, bound, truth()));
        formulas.push(over(4, bound, truth()));
        formulas.push(over(4, bound, over(3, 0, truth())));
        formulas.push(over(3, 1, over(4, bound, truth())));
    }
    for kind in 0..ONE_CHILD {
        formulas.push(over(kind, 1, over(3, 0, truth())));
        formulas.push(over(kind, 0, over(3, 1, truth())));
    }
    for kind in 0..TWO_CHILDREN {
        formulas.push(join(kind, truth(), over(3, 0, truth())));
        formulas.push(join(kind, over(3, 0, truth()), truth()));
        formulas.push(join(kind, over(4, 0, truth()), truth()));
    }
    let named = |(n, formula)| property(&format!("p{n}"), formula);
    formulas.into_iter().enumerate().map(named).collect()
}

/// A module with as many variables, enums, groups and bindings as there may
/// be. The transitions' guards name the first and the last of each.
pub fn full() -> Ir {
    let named = |front: &str, n: usize| format!("{front}{n}");
    let all = |front: &'static str| (0..255).map(move |n| named(front, n));
    let var_of = |name: String| var(&name, Type::Bool, boolean(true));
    let field = |name: String| FieldDecl {
        name,
        ty: Type::Bool,
    };
    let every = ConstructorVariant::Struct {
        name: text("all"),
        fields: all("d").map(field).collect(),
    };
    let bound = |name: String| pattern(Some(&name), PatternExpr::Wildcard);
    let empty = |name: String| group(&name, Vec::new());
    let mut enums: Vec<EnumDecl> = all("e").map(|name| enum_decl(&name, &["on"])).collect();
    enums[254] = enum_decl("State", &["A", "B"]);
    let mut events: Vec<ConstructorGroup> = all("g").map(empty).collect();
    events[254] = group("E", vec![unit("go"), every]);
    let mut outputs: Vec<ConstructorGroup> = all("o").map(empty).collect();
    outputs[254] = group("O", vec![with_fields("flag", &[("a", Type::Bool)])]);
    let every = field_pattern("all", all("b").map(bound).collect());
    let and = |left, right| binary(BinOp::LogicAnd, left, right);
    let ends = |front: &str| and(path(&[&named(front, 0)]), path(&[&named(front, 254)]));
    let guarded = |place: usize, guard: Expr| Transition {
        id: place,
        pattern: event("E", Some(every.clone())),
        guard: Some(guard),
        emits: vec![emit("O", None, vec![path(&["b254"])])],
        priority: Some(place as u32),
        ..step("A", "E", "B")
    };
    ir(vec![Module {
        enums,
        initial_state: Some(text("A")),
        events,
        outputs,
        vars: all("v").map(var_of).collect(),
        transitions: vec![
            guarded(0, and(ends("v"), ends("b"))),
            guarded(1, path(&["b255"])),
            Transition {
                guard: Some(path(&["b0"])),
                ..step("B", "g0", "A")
            },
        ],
        properties: vec![
            property(
                "p",
                holds(binary(
                    BinOp::Eq,
                    path(&["e0", "on"]),
                    path(&["State", "A"]),
                )),
            ),
            property("q", holds(path(&["b254"]))),
        ],
        ..bare("M")
    }])
}
