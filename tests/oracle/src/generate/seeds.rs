//! Small accepted documents that together show every part of the grammar.
//! Most damaged documents are made from these.

use super::build::*;
use super::depth;
use crate::lang::ir::*;

pub fn seeds() -> Vec<Ir> {
    let mut all = vec![
        Ir {
            ir_version: 0,
            modules: Vec::new(),
        },
        ir(Vec::new()),
        one(|_| ()),
        ir(vec![bare("A"), bare("B")]),
        worked_example(),
    ];
    all.extend(heads());
    all.extend(declarations());
    all.extend(transitions());
    all.extend(expressions());
    all.extend(formulas());
    all.extend(deepest());
    all
}

/// The input of document 01's example.
pub fn worked_example() -> Ir {
    one(|m| {
        m.enums = vec![enum_decl("State", &["A", "B", "C"])];
        m.initial_state = Some(text("A"));
        m.events = vec![group("E", vec![unit("go"), unit("stop")])];
        m.transitions = vec![Transition {
            pattern: event("E", Some(unit_pattern("go"))),
            ..step("A", "E", "B")
        }];
    })
}

/// Version, initial state, on_error, and names of each head width.
fn heads() -> Vec<Ir> {
    vec![
        one(|m| m.version = Some(String::new())),
        one(|m| {
            m.version = Some(text("1.0 ~"));
            m.initial_state = Some(text("A"));
        }),
        one(|m| m.name = "n".repeat(64)),
        one(|m| {
            m.name = "N".repeat(23);
            m.initial_state = Some("0".repeat(24));
        }),
        one(|m| m.version = Some("9".repeat(64))),
        one(|m| m.on_error = Some(on_error(Vec::new()))),
        one(|m| {
            m.on_error = Some(on_error(vec![
                emit("O", None, Vec::new()),
                emit("O", Some("v"), vec![int(1), boolean(true)]),
            ]))
        }),
    ]
}

fn on_error(emits: Vec<OutputExpr>) -> OnError {
    OnError {
        next_state: text("A"),
        emits,
    }
}

fn declarations() -> Vec<Ir> {
    let fields = [("a", Type::Bool), ("b", bit(8)), ("c", enum_type("State"))];
    vec![
        one(|m| {
            m.enums = vec![
                enum_decl("State", &["idle", "busy_2"]),
                enum_decl("Mode", &[]),
            ]
        }),
        one(|m| {
            m.events = vec![
                group("E", vec![unit("go"), with_fields("data", &fields)]),
                group("F", Vec::new()),
            ]
        }),
        one(|m| m.outputs = vec![group("O", vec![with_fields("v", &[]), unit("u")])]),
        one(|m| {
            m.vars = vec![
                var("x", Type::Bool, boolean(false)),
                var("y", bit(u32::MAX), int(24)),
                var("z", enum_type("State"), path(&["State", "A"])),
            ]
        }),
    ]
}

fn transitions() -> Vec<Ir> {
    vec![
        one(|m| m.transitions = vec![step("A", "E", "B")]),
        one(|m| {
            m.transitions = vec![Transition {
                id: 300,
                pattern: event("E", Some(unit_pattern("go"))),
                guard: Some(boolean(true)),
                priority: Some(7),
                ..step("A", "E", "B")
            }]
        }),
        one(|m| {
            m.transitions = vec![Transition {
                pattern: event("E", Some(field_pattern("data", every_pattern()))),
                ..step("A", "E", "B")
            }]
        }),
        one(|m| {
            m.transitions = vec![Transition {
                emits: vec![
                    emit("O", None, Vec::new()),
                    emit("O", Some("v"), vec![path(&["x"])]),
                ],
                assignments: vec![
                    set("x", int(0)),
                    set("y", unary(UnaryOp::Neg, path(&["y"]))),
                ],
                ..step("A", "E", "B")
            }]
        }),
        one(|m| {
            m.transitions = vec![
                step("A", "E", "B"),
                Transition {
                    id: 1,
                    guard: Some(boolean(false)),
                    priority: Some(u32::MAX),
                    ..step("B", "E", "A")
                },
            ]
        }),
    ]
}

fn every_pattern() -> Vec<PatternField> {
    let path = texts(&["State", "A"]);
    vec![
        pattern(None, PatternExpr::Wildcard),
        pattern(Some("n"), PatternExpr::Bind { name: text("k") }),
        pattern(None, PatternExpr::Int { value: 256 }),
        pattern(Some("p"), PatternExpr::Bool { value: true }),
        pattern(None, PatternExpr::EnumVariant { path }),
    ]
}

/// Numbers of each head width, every operator, paths of 0 and 8 segments.
fn expressions() -> Vec<Ir> {
    let numbers = [
        0,
        23,
        24,
        0xff,
        0x100,
        0xffff,
        0x1_0000,
        0xffff_ffff,
        0x1_0000_0000,
        u64::MAX,
    ];
    let long = ["a", "b", "c", "d", "e", "f", "g", "h"];
    let flat = |op: &BinOp| binary(*op, int(0), int(1));
    vec![
        with_args(numbers.map(int).to_vec()),
        with_args(
            UNARY_OPS
                .map(|op| unary(op, unary(op, boolean(true))))
                .to_vec(),
        ),
        with_args(BIN_OPS[..8].iter().map(flat).collect()),
        with_args(BIN_OPS[8..].iter().map(flat).collect()),
        with_args(vec![path(&[]), path(&long)]),
        one(|m| {
            let empty = PatternExpr::EnumVariant { path: Vec::new() };
            let full = PatternExpr::EnumVariant { path: texts(&long) };
            let fields = vec![pattern(None, empty), pattern(None, full)];
            m.transitions = vec![Transition {
                pattern: event("E", Some(field_pattern("d", fields))),
                ..step("A", "E", "A")
            }]
        }),
        one(|m| {
            let sum = binary(BinOp::Plus, path(&["x"]), int(1));
            let guard = binary(BinOp::LogicAnd, boolean(true), sum);
            m.transitions = vec![Transition {
                guard: Some(guard),
                ..step("A", "E", "A")
            }]
        }),
    ]
}

fn with_args(args: Vec<Expr>) -> Ir {
    one(|m| m.on_error = Some(on_error(vec![emit("O", None, args)])))
}

/// Every case of Formula, as properties and as assumptions.
fn formulas() -> Vec<Ir> {
    let leaf = || holds(boolean(true));
    let input = |variant| Formula::InputIs {
        pattern: event("E", variant),
    };
    let output_has = |variant| Formula::OutputHas {
        pattern: output("O", variant),
    };
    let field = pattern(Some("n"), PatternExpr::Wildcard);
    let fields = field_pattern("data", vec![field]);
    let mut all = vec![
        one(|m| {
            m.properties = vec![
                property("p", input(None)),
                property("q", output_has(Some(unit_pattern("u")))),
            ]
        }),
        one(|m| {
            m.properties = vec![property("p", input(Some(fields.clone())))];
            m.assumptions = vec![property("q", output_has(Some(fields.clone())))];
        }),
        one(|m| m.assumptions = vec![property("a", leaf()), property("b", output_has(None))]),
    ];
    for kind in 0..ONE_CHILD {
        all.push(one(|m| {
            m.properties = vec![property("p", over(kind, 24, leaf()))]
        }));
    }
    for kind in 0..TWO_CHILDREN {
        all.push(one(|m| {
            m.assumptions = vec![property("p", join(kind, leaf(), input(None)))]
        }));
    }
    all
}

/// Depth 32 at its plainest.
fn deepest() -> Vec<Ir> {
    vec![
        one(|m| m.vars = vec![var("x", Type::Bool, depth::nots(32))]),
        one(|m| m.properties = vec![property("p", depth::nexts(32))]),
        one(|m| m.assumptions = vec![property("p", depth::halves(16, 32))]),
    ]
}
