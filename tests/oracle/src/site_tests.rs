//! The original's findings as five words, on documents made by hand.

use crate::causes::{self, Kind};
use crate::decode::decode;
use crate::encode::encode;
use crate::generate::build::*;
use crate::generate::cases::{self, cases, pairs, sound};
use crate::generate::rng::Rng;
use crate::generate::{seeds, valid};
use crate::kept;
use crate::lang::ir::*;
use crate::messages;
use crate::samples::samples;
use crate::sites::{findings, Words};
use crate::table::Table;
use std::collections::{BTreeMap, BTreeSet};

/// The words of a document that is read from its bytes.
fn words(ir: &Ir) -> Vec<Words> {
    let read = decode(&encode(ir)).expect("it is accepted");
    assert_eq!(&read, ir);
    findings(&read).words()
}

/// The words of one module.
fn of(module: Module) -> Vec<Words> {
    words(&ir(vec![module]))
}

/// The words of the sound module with a change.
fn changed(change: impl FnOnce(&mut Module)) -> Vec<Words> {
    let mut module = sound();
    change(&mut module);
    of(module)
}

const NONE: [Words; 0] = [];

#[test]
fn the_worked_example() {
    let due = [[0, 21, 2, 0, 0], [0, 22, 0, 1, 0]];
    assert_eq!(words(&seeds::worked_example()), due);
}

#[test]
fn every_case() {
    for case in cases() {
        assert_eq!(words(&case.ir), case.due);
    }
}

#[test]
fn every_pair_has_a_case() {
    let all = cases().into_iter().flat_map(|case| case.due);
    let shown: BTreeSet<_> = all.map(|[_, site, _, _, cause]| (site, cause)).collect();
    assert_eq!(shown, pairs().into_iter().collect());
    let causes: BTreeSet<u32> = shown.iter().map(|(_, cause)| *cause).collect();
    assert_eq!(causes, (0..=31).collect());
    let sites: BTreeSet<u32> = shown.iter().map(|(site, _)| *site).collect();
    assert_eq!(sites, (1..=26).collect());
}

/// Document 01's settled examples but (6) to (10), by their numbers.
#[test]
fn settled_examples() {
    let version = |v: &str| changed(|m| m.version = Some(text(v)));
    assert_eq!(version("1"), [[0, 4, 0, 0, 0]]);
    assert_eq!(version("1."), [[0, 4, 0, 0, 0]]);
    assert_eq!(version("1.0"), NONE);
    assert_eq!(version("1.2.3"), NONE);
    assert_eq!(version("1.2.3.4"), [[0, 4, 0, 0, 0]]);
    let init = |left: Expr| {
        let sum = binary(BinOp::Eq, left, path(&["y"]));
        changed(|m| m.vars[2].init = sum)
    };
    let one_and_one = binary(BinOp::Plus, int(1), int(1));
    assert_eq!(init(one_and_one), [[0, 5, 2, 0, 30]]);
    assert_eq!(init(int(1)), NONE);
    let always = |bound| {
        let formula = over(3, bound, holds(boolean(true)));
        changed(|m| m.properties = vec![property("p", formula)])
    };
    assert_eq!(always(0), [[0, 20, 0, 0, 0]]);
    assert_eq!(always(1), NONE);
}

/// Examples (6) to (10): a literal on a width.
#[test]
fn literals_and_widths() {
    let on = |value, width| {
        changed(|m| {
            m.events[0]
                .variants
                .push(with_fields("word", &[("w", bit(width))]));
            let fields = vec![pattern(None, PatternExpr::Int { value })];
            m.transitions.push(Transition {
                pattern: event("E", Some(field_pattern("word", fields))),
                ..step("A", "E", "B")
            });
        })
    };
    assert_eq!(on(1, 0), [[0, 8, 2, 0, 7]]);
    assert_eq!(on(0, 0), NONE);
    assert_eq!(on(255, 8), NONE);
    assert_eq!(on(256, 8), [[0, 8, 2, 0, 7]]);
    assert_eq!(on(u64::MAX, 64), NONE);
    assert_eq!(on(u64::MAX, 63), [[0, 8, 2, 0, 7]]);
    assert_eq!(on(u64::MAX, u32::MAX), NONE);
}

/// Example (13), and that the right conjunct counts first.
#[test]
fn conjuncts_from_the_right() {
    let is = |name: &str, value| binary(BinOp::Eq, path(&[name]), int(value));
    let and = |left, right| binary(BinOp::LogicAnd, left, right);
    let said = |guard| {
        let mut module = sound();
        module.transitions[0].guard = Some(guard);
        let found = findings(&ir(vec![module]));
        found.warnings.last().map(|last| last.message.clone())
    };
    let clash = |name, earlier, later| {
        let what = format!("'{name}' is compared equal to both {earlier} and {later}");
        Some(format!(
            "module 'M': transition #0 guard is impossible: {what}"
        ))
    };
    assert_eq!(said(and(is("x", 1), is("x", 2))), clash("x", 2, 1));
    let four = and(and(is("x", 1), is("y", 4)), and(is("x", 2), is("y", 3)));
    assert_eq!(said(four), clash("y", 3, 4));
    let turned = binary(BinOp::Eq, int(5), path(&["x"]));
    assert_eq!(said(and(turned, is("x", 6))), clash("x", 6, 5));
    // Only conjuncts count, and a false guard is never a clash.
    let either = binary(BinOp::LogicOr, is("x", 1), is("x", 2));
    assert_eq!(said(and(either, is("x", 3))), None);
}

/// The findings use the first enum called State, typing the last.
#[test]
fn two_state_enums() {
    let states = vec![enum_decl("State", &["A"]), enum_decl("State", &["B"])];
    let module = Module {
        enums: states,
        initial_state: Some(text("A")),
        events: vec![group("E", Vec::new())],
        vars: vec![var("v", Type::Bool, path(&["A"]))],
        transitions: vec![Transition {
            guard: Some(binary(BinOp::Eq, path(&["B"]), path(&["state"]))),
            ..step("A", "E", "B")
        }],
        ..bare("M")
    };
    assert_eq!(
        of(module),
        [[0, 5, 0, 0, 21], [0, 7, 0, 0, 0], [0, 23, 0, 0, 0]]
    );
}

/// A later variable or enum of one name replaces the earlier; the first group
/// and the first variant of a name count.
#[test]
fn repeated_declarations() {
    let module = Module {
        enums: vec![
            enum_decl("State", &["A", "A"]),
            enum_decl("Mode", &["on"]),
            enum_decl("Mode", &["off"]),
        ],
        initial_state: Some(text("A")),
        events: vec![
            group(
                "E",
                vec![unit("go"), with_fields("go", &[("a", Type::Bool)])],
            ),
            group("E", vec![unit("stop")]),
        ],
        outputs: vec![
            group("O", vec![unit("u")]),
            group("O", vec![unit("u"), unit("v")]),
        ],
        vars: vec![
            var("x", Type::Bool, path(&["Mode", "on"])),
            var("x", bit(8), path(&["Mode", "off"])),
        ],
        transitions: vec![
            Transition {
                pattern: event("E", Some(unit_pattern("go"))),
                guard: Some(path(&["x"])),
                emits: vec![
                    emit("O", None, Vec::new()),
                    emit("O", Some("v"), Vec::new()),
                ],
                ..step("A", "E", "A")
            },
            Transition {
                pattern: event("E", Some(unit_pattern("stop"))),
                ..step("A", "E", "A")
            },
        ],
        ..bare("M")
    };
    assert_eq!(
        of(module),
        [
            [0, 5, 0, 0, 23],
            [0, 10, 0, 0, 0],
            [0, 13, 0, 1, 15],
            [0, 8, 1, 0, 2],
        ]
    );
}

/// `PatternField.name` binds, `PatternExpr::Bind` doesn't; after a faulty
/// pattern the guard sees the bindings made so far, that of the fault too.
#[test]
fn bindings() {
    let third = |fields: Vec<PatternField>, guard: &str| {
        changed(|m| {
            m.transitions.push(Transition {
                pattern: event("E", Some(field_pattern("data", fields))),
                guard: Some(path(&[guard])),
                ..step("A", "E", "B")
            })
        })
    };
    let wild = || pattern(None, PatternExpr::Wildcard);
    let named = |name| pattern(Some(name), PatternExpr::Wildcard);
    let bind = pattern(None, PatternExpr::Bind { name: text("k") });
    let zero = pattern(Some("k"), PatternExpr::Int { value: 0 });
    assert_eq!(third(vec![wild(), named("k"), wild()], "k"), NONE);
    assert_eq!(third(vec![wild(), bind, wild()], "k"), [[0, 9, 2, 0, 21]]);
    // A binding before the fault, at it, and after it.
    let due = [0, 8, 2, 0, 8];
    assert_eq!(
        third(vec![named("j"), zero.clone(), named("l")], "k"),
        [due]
    );
    assert_eq!(
        third(vec![named("j"), zero.clone(), named("l")], "j"),
        [due, [0, 10, 2, 0, 0]]
    );
    assert_eq!(
        third(vec![named("j"), zero, named("l")], "l"),
        [due, [0, 9, 2, 0, 21]]
    );
    // A second binding of a name leaves the first.
    let twice = vec![wild(), named("k"), named("k")];
    assert_eq!(third(twice, "k"), [[0, 8, 2, 0, 4]]);
    // A binding hides a variable, and "state" hides a binding.
    let hides = vec![named("f"), wild(), wild()];
    assert_eq!(third(hides, "f"), [[0, 10, 2, 0, 0]]);
    let hidden = vec![wild(), named("state"), wild()];
    assert_eq!(third(hidden, "state"), [[0, 10, 2, 0, 0]]);
}

/// Pairs of places, by state name and then by place; ids may repeat.
#[test]
fn pairs_of_transitions() {
    let make = |state: &str, guard, priority| Transition {
        guard,
        priority,
        ..step(state, "E", "a")
    };
    let no = || Some(boolean(false));
    let module = Module {
        enums: vec![enum_decl("State", &["b", "a"])],
        initial_state: Some(text("b")),
        events: vec![group("E", Vec::new()), group("F", Vec::new())],
        transitions: vec![
            make("b", None, None),
            make("a", None, Some(1)),
            make("b", no(), None),
            make("a", no(), Some(1)),
            make("Z", None, None),
            make("b", None, None),
            make("a", None, Some(2)),
            make("Z", None, None),
            make("a", None, None),
            Transition {
                pattern: event("F", None),
                ..make("a", None, Some(1))
            },
        ],
        ..bare("M")
    };
    assert_eq!(
        of(module),
        [
            [0, 6, 4, 0, 0],
            [0, 6, 7, 0, 0],
            [0, 15, 4, 7, 0],
            [0, 14, 1, 3, 0],
            [0, 15, 0, 5, 0],
            [0, 24, 0, 2, 0],
            [0, 24, 2, 5, 0],
            [0, 25, 2, 0, 0],
            [0, 25, 3, 0, 0],
        ]
    );
}

/// Patterns are equal or not; that they overlap says nothing.
#[test]
fn overlapping_patterns() {
    let module = Module {
        enums: vec![enum_decl("State", &["A"])],
        initial_state: Some(text("A")),
        events: vec![group("E", vec![unit("go")])],
        transitions: vec![
            step("A", "E", "A"),
            Transition {
                pattern: event("E", Some(unit_pattern("go"))),
                ..step("A", "E", "A")
            },
        ],
        ..bare("M")
    };
    assert_eq!(of(module), NONE);
}

/// An event is used by the names of its group and its own; a pattern without
/// variant uses those of the first group of its name.
#[test]
fn dead_events() {
    let module = |pattern| Module {
        enums: vec![enum_decl("State", &["A"])],
        initial_state: Some(text("A")),
        events: vec![
            group("F", vec![unit("go")]),
            group("E", vec![unit("go"), unit("go")]),
            group("E", vec![unit("stop"), unit("go")]),
        ],
        transitions: vec![Transition {
            pattern,
            ..step("A", "E", "A")
        }],
        ..bare("M")
    };
    assert_eq!(
        of(module(event("E", None))),
        [[0, 22, 0, 0, 0], [0, 22, 2, 0, 0]]
    );
    // An event can be used by a pattern that is at fault.
    assert_eq!(
        of(module(event("E", Some(unit_pattern("stop"))))),
        [
            [0, 8, 0, 0, 2],
            [0, 22, 0, 0, 0],
            [0, 22, 1, 0, 0],
            [0, 22, 1, 1, 0],
            [0, 22, 2, 1, 0],
        ]
    );
}

/// A name on a chain need not be declared; a variant counts by its name.
#[test]
fn reachable_states() {
    let module = Module {
        enums: vec![
            enum_decl("State", &["A", "B", "C", "B", "C"]),
            enum_decl("State", &["D"]),
        ],
        initial_state: Some(text("X")),
        events: vec![group("E", Vec::new())],
        transitions: vec![
            step("Y", "E", "B"),
            step("X", "E", "Y"),
            step("C", "E", "A"),
        ],
        ..bare("M")
    };
    assert_eq!(
        of(module),
        [
            [0, 2, 0, 0, 0],
            [0, 6, 0, 0, 0],
            [0, 6, 1, 0, 0],
            [0, 7, 1, 0, 0],
            [0, 21, 0, 0, 0],
            [0, 21, 2, 0, 0],
            [0, 21, 4, 0, 0],
        ]
    );
}

/// A variable is used by a set to it, in a guard or in an emit's argument, as
/// a path of one name; not in a set's value, a formula or an initial value.
#[test]
fn unused_variables() {
    let flag = |name: &str| var(name, Type::Bool, path(&["v0"]));
    let module = Module {
        enums: vec![enum_decl("State", &["A"])],
        initial_state: Some(text("A")),
        events: vec![group("E", Vec::new())],
        outputs: vec![group("O", vec![with_fields("o", &[("a", Type::Bool)])])],
        on_error: Some(OnError {
            next_state: text("A"),
            emits: vec![emit("O", None, vec![path(&["v4"])])],
        }),
        vars: ["v0", "v1", "v2", "v3", "v4", "v5", "v6", "v0"]
            .map(flag)
            .to_vec(),
        transitions: vec![Transition {
            guard: Some(unary(UnaryOp::Not, path(&["v1"]))),
            emits: vec![emit("O", None, vec![path(&["v2"])])],
            assignments: vec![set("v3", path(&["v5"]))],
            ..step("A", "E", "A")
        }],
        properties: vec![property("p", holds(path(&["v6"])))],
        ..bare("M")
    };
    assert_eq!(
        of(module),
        [
            [0, 23, 0, 0, 0],
            [0, 23, 5, 0, 0],
            [0, 23, 6, 0, 0],
            [0, 23, 7, 0, 0],
        ]
    );
}

/// The first cause wins: left goes first, an operand before its operator, an
/// enum before its variant before the length, a count before the arguments.
#[test]
fn first_causes() {
    let init = |init: Expr| changed(|m| m.vars[0].init = init);
    let wrong = |op, left, right| init(binary(op, left, right));
    let (f, ghost) = (|| path(&["f"]), || path(&["ghost"]));
    assert_eq!(wrong(BinOp::Plus, f(), ghost()), [[0, 5, 0, 0, 21]]);
    assert_eq!(wrong(BinOp::Plus, path(&[]), ghost()), [[0, 5, 0, 0, 20]]);
    assert_eq!(wrong(BinOp::ShiftLeft, f(), f()), [[0, 5, 0, 0, 25]]);
    assert_eq!(wrong(BinOp::LogicOr, int(1), int(1)), [[0, 5, 0, 0, 17]]);
    assert_eq!(wrong(BinOp::BitAnd, f(), f()), NONE);
    assert_eq!(wrong(BinOp::BitXor, f(), f()), [[0, 5, 0, 0, 28]]);
    let three = |segments: &[&str]| init(path(segments));
    assert_eq!(three(&["Ghost", "ghost", "x"]), [[0, 5, 0, 0, 22]]);
    assert_eq!(three(&["Mode", "ghost", "x"]), [[0, 5, 0, 0, 23]]);
    assert_eq!(three(&["Mode", "on", "x"]), [[0, 5, 0, 0, 24]]);
    let both = join(0, holds(int(1)), holds(ghost()));
    let due = [[0, 19, 0, 0, 17], [0, 20, 0, 0, 0]];
    assert_eq!(
        changed(|m| m.properties = vec![property("p", over(3, 0, both))]),
        due
    );
}

/// Properties then assumptions; all names, then each formula and its bound.
#[test]
fn properties_in_order() {
    let bad = |name: &str, formula: Formula| property(name, formula);
    let zero = || over(3, 0, holds(int(1)));
    assert_eq!(
        changed(|m| {
            m.properties = vec![bad("p", zero()), bad("p", holds(boolean(true)))];
            m.assumptions = vec![bad("q", zero()), bad("p", zero()), bad("q", zero())];
        }),
        [
            [0, 18, 1, 0, 0],
            [0, 18, 3, 0, 0],
            [0, 18, 4, 0, 0],
            [0, 19, 0, 0, 17],
            [0, 20, 0, 0, 0],
            [0, 19, 2, 0, 17],
            [0, 20, 2, 0, 0],
            [0, 19, 3, 0, 17],
            [0, 20, 3, 0, 0],
            [0, 19, 4, 0, 17],
            [0, 20, 4, 0, 0],
        ]
    );
}

/// All errors by module, then all warnings by module, also of one name.
#[test]
fn modules_in_order() {
    let mut first = sound();
    first.vars.push(var("z", Type::Bool, path(&["ghost"])));
    let mut third = first.clone();
    third.enums[0].variants.push(text("C"));
    assert_eq!(
        words(&ir(vec![first, sound(), third])),
        [
            [0, 5, 4, 0, 21],
            [2, 5, 4, 0, 21],
            [0, 23, 4, 0, 0],
            [2, 21, 2, 0, 0],
            [2, 23, 4, 0, 0],
        ]
    );
}

/// Sites 25 and 26 come by transition, and 26 only where 25 does not.
#[test]
fn impossible_guards_by_transition() {
    let is = |value| binary(BinOp::Eq, path(&["x"]), int(value));
    let clash = || Some(binary(BinOp::LogicAnd, is(1), is(2)));
    assert_eq!(
        changed(|m| {
            m.transitions[0].guard = clash();
            m.transitions[1].guard = Some(boolean(false));
            let again = Transition {
                guard: clash(),
                ..step("A", "E", "B")
            };
            m.transitions.push(again);
        }),
        [[0, 26, 0, 0, 0], [0, 25, 1, 0, 0], [0, 26, 2, 0, 0]]
    );
}

/// A version string may hold the wording of another message.
#[test]
fn quoted_versions() {
    let version = "' var 'x' init: empty path";
    assert_eq!(
        changed(|m| m.version = Some(text(version))),
        [[0, 4, 0, 0, 0]]
    );
}

/// The causes in a module with as many names as there may be.
#[test]
fn full_tables() {
    let all = words(&cases::full());
    let errors = all.into_iter().filter(|finding| finding[1] < 21);
    assert_eq!(
        errors.collect::<Vec<_>>(),
        [
            [0, 9, 1, 0, 21],
            [0, 9, 2, 0, 21],
            [0, 19, 0, 0, 30],
            [0, 19, 1, 0, 21],
        ]
    );
}

/// Planted documents reach every pair that can occur, and no other.
#[test]
fn planted_documents() {
    assert!(Table::of(3_000, 3).is_whole());
}

/// A table lacks something if one pair that can occur is not in it, be it only
/// at an assumption, or if one is that cannot.
#[test]
fn tables_that_lack_something() {
    let ir = ir(vec![sound()]);
    let all: Vec<Words> = pairs()
        .into_iter()
        .flat_map(|(site, cause)| [[0, site, 0, 0, cause], [0, site, 1, 0, cause]])
        .collect();
    let is_whole = |words: &[Words]| {
        let mut table = Table::default();
        table.count(&ir, 0, words);
        table.is_whole()
    };
    assert!(is_whole(&all));
    for (site, cause) in pairs() {
        let of = |word: &Words| word[1] == site && word[4] == cause;
        let others: Vec<Words> = all.iter().filter(|word| !of(word)).copied().collect();
        assert!(!is_whole(&others));
        let first = |word: &Words| of(word) && word[2] == 1;
        let others: Vec<Words> = all.iter().filter(|word| !first(word)).copied().collect();
        assert_eq!(is_whole(&others), site != 19);
    }
    assert!(!is_whole(&[&all[..], &[[0, 5, 0, 0, 31]]].concat()));
}

/// The parts make the whole, whatever the document holds.
#[test]
fn random_documents() {
    let rng = &mut Rng::new(11);
    for _ in 0..300 {
        let size = rng.between(0, 3_000);
        words(&valid::document(rng, size));
    }
    for sample in samples() {
        let ir = decode(&sample.bytes).expect("it is accepted");
        assert!(findings(&ir).errors.is_empty());
    }
}

#[test]
fn kept_causes() {
    let all = causes::records();
    let kept = causes::file(&all);
    assert!(
        kept == causes::file(&causes::records()),
        "the same each time"
    );
    assert!(kept.len() <= causes::MOST_BYTES);
    let counts = causes::counts(&all);
    for (kind, name, site) in causes::JUDGED {
        assert!(counts[&(kind, 0)] > 100, "{name} without a cause");
        for (_, cause) in pairs().into_iter().filter(|pair| pair.0 == site) {
            assert!(counts[&(kind, cause)] >= causes::LEAST, "{name} {cause}");
        }
    }
    for (kind, name, _) in causes::GIVEN {
        assert!(counts[&(kind, 0)] > 100, "{name} not given");
        assert!(counts[&(kind, 1)] >= causes::LEAST, "{name} given");
    }
}

/// The kept findings: each site with each cause, each refusal, and no more
/// bytes than there may be.
#[test]
fn kept_findings() {
    let all = kept::records();
    let file = kept::file(&all);
    assert!(file == kept::file(&kept::records()), "the same each time");
    assert!(file.len() < 800_000);
    assert!(all.len() >= 500);
    assert!(kept::table(&all).is_whole());
    let mut times = BTreeMap::new();
    for [_, site, _, _, cause] in all.iter().flat_map(|record| &record.words) {
        *times.entry((*site, *cause)).or_insert(0) += 1;
    }
    assert!(times.values().all(|times| *times >= kept::LEAST));
    assert!(kept::numbers(&all).iter().all(|times| *times > 0));
}

/// The kept messages: each kind of answer, each site with each cause, each
/// wording of cause 17, each type as the original shows it, and a list of names.
#[test]
fn kept_messages() {
    let all = messages::records(2_400, 1);
    let file = messages::file(&all);
    assert!(file == messages::file(&messages::records(2_400, 1)));
    assert!(file.len() < 2_000_000);
    assert!(messages::is_whole(&all));
    let outputs = all.iter().map(|r| String::from_utf8_lossy(&r.output));
    let outputs: String = outputs.collect();
    for shown in [
        "operand of ! must be bool, found ",
        "left operand must be bool, found ",
        "right operand must be bool, found ",
        "formula expression must be bool, found ",
        "guard must be bool: guard must be bool, found ",
        "found Bit(",
        "found IntLit",
        "found Enum(\"Mode\")",
        "found Enum(\"State\")",
        "vs Bool",
        "field '",
        "arg for '",
        "enum variant path []",
        "enum variant path [\"",
        "\", \"",
        "18446744073709551615",
        "0 errors, 0 warnings",
        "1 errors, ",
        ", 1 warnings",
    ] {
        assert!(outputs.contains(shown), "{shown}");
    }
}

/// What the program prints for document 01's example.
#[test]
fn the_example_printed() {
    let doc = encode(&seeds::worked_example());
    let due = "warning: module 'M': state 'C' is unreachable from the initial state\n\
               warning: module 'M': event 'stop' is never used in any transition pattern (dead event)\n\
               0 errors, 2 warnings\n";
    assert_eq!(String::from_utf8_lossy(&messages::output(&doc)), due);
    assert_eq!(messages::output(&[]), b"refused 2 at 0\n");
}

/// 3,276 findings are printed, one more is refused with 10.
#[test]
fn short_sheets() {
    let with = |enums: usize| {
        let mut ir = messages::alike(81);
        let lost = (0..enums).map(|n| format!("s{n}"));
        ir.modules[0].enums[0].variants.extend(lost);
        messages::output(&encode(&ir))
    };
    assert!(with(36).ends_with(b"\n3240 errors, 36 warnings\n"));
    assert_eq!(with(37), b"refused 10 at 3277\n");
}

/// The steps of a module with each of its parts, by their places.
#[test]
fn steps_of_a_document() {
    let mut module = sound();
    module.on_error = Some(OnError {
        next_state: text("A"),
        emits: vec![emit("Q", None, vec![int(1)])],
    });
    module.transitions[0].guard = Some(path(&["x"]));
    module.transitions[1].assignments = vec![set("ghost", path(&[])), set("x", path(&[]))];
    let ir = ir(vec![bare("L"), module]);
    let record = causes::record(&ir);
    let steps = record.steps.iter().map(|step| (step.kind, step.due));
    use Kind::*;
    assert_eq!(
        steps.collect::<Vec<_>>(),
        [
            (Enums, 0),
            (Events, 0),
            (Outputs, 0),
            (Vars, 0),
            (Version, 0),
            (Enums, 0),
            (Events, 0),
            (Outputs, 0),
            (Vars, 0),
            (Init, 0),
            (Init, 0),
            (Init, 0),
            (Init, 0),
            (Pattern, 0),
            (Guard, 0),
            (NoBool, 1),
            (AlwaysFalse, 0),
            (Contradiction, 0),
            (Emit, 0),
            (Set, 0),
            (Pattern, 0),
            (Set, 20),
            (Property, 0),
            (Bound, 0),
            (Assumption, 0),
            (Bound, 0),
            (OnErrorEmit, 16),
        ]
    );
    // The item at each place has the head that is due there.
    for step in &record.steps {
        let byte = record.bytes[step.place];
        let due: &[u8] = match step.kind {
            Enums | Events | Outputs | Vars => &[0x80, 0x81, 0x82, 0x83, 0x84],
            Pattern => &[0x82],
            Version => &[0x63],
            Emit | OnErrorEmit => &[0x83],
            _ => &[0x82, 0x83, 0x84],
        };
        assert!(due.contains(&byte), "{step:?}");
    }
}
