//! The benchmark documents: three sound state machines without errors, one
//! as deep as is allowed, one of a growing number of transitions, and one in
//! which every pair is found.

use crate::crowds::{mate, of_block, of_mark, of_one_print, of_roll, of_table};
use crate::encode::encode;
use crate::generate::build::*;
use crate::lang::ir::*;

/// A benchmark document under its file name.
#[derive(Clone)]
pub struct Sample {
    pub name: &'static str,
    pub bytes: Vec<u8>,
}

pub fn samples() -> Vec<Sample> {
    let sample = |name, ir: Ir| Sample {
        name,
        bytes: encode(&ir),
    };
    vec![
        sample("small", ir(vec![mixed("Link", 14, 3)])),
        sample(
            "mixed",
            ir(["North", "South", "East", "West"]
                .map(|name| mixed(name, 124, 20))
                .to_vec()),
        ),
        sample("many", many()),
    ]
}

/// A guard and a formula as deep as is allowed: what costs a call most stack.
pub fn deepest() -> Sample {
    let yes = || Expr::Bool { value: true };
    let guard = (1..32).fold(yes(), |inner, _| binary(BinOp::LogicAnd, inner, yes()));
    let formula = (2..32).fold(holds(yes()), |inner, _| Formula::Not {
        inner: Box::new(inner),
    });
    let module = mixed("Link", 1, 1);
    let module = Module {
        transitions: vec![Transition {
            guard: Some(guard),
            ..module.transitions[0].clone()
        }],
        properties: vec![Property {
            formula,
            ..module.properties[0].clone()
        }],
        ..module
    };
    Sample {
        name: "deepest",
        bytes: encode(&ir(vec![module])),
    }
}

/// One module of the mixed kind with a growing number of transitions.
pub fn growing() -> Vec<Sample> {
    let sizes = [
        ("25", 25),
        ("50", 50),
        ("100", 100),
        ("200", 200),
        ("255", 255),
    ];
    let sample = |(name, transitions)| Sample {
        name,
        bytes: encode(&ir(vec![mixed("Link", transitions, 3)])),
    };
    sizes.map(sample).to_vec()
}

/// One module of the mixed kind in which no name of its transitions is
/// declared: each has several errors.
fn faulty() -> Ir {
    ir(vec![Module {
        events: Vec::new(),
        outputs: Vec::new(),
        vars: Vec::new(),
        ..mixed("Link", 255, 3)
    }])
}

/// Documents made to cost a program most.
pub fn costly() -> Vec<Sample> {
    let all = [
        ("faulty", faulty()),
        ("claims", claims()),
        ("repeats", repeats()),
        ("unused", unused()),
        ("dead", dead()),
        ("unknown", unknown()),
        ("equals", equalities(3_900)),
        ("units", units()),
        ("bindings", bindings()),
        ("sets", sets()),
        ("mentions", mentions()),
        ("lane", one_lane()),
        ("print", one_print()),
        ("shared", claim_lane()),
        ("bound", bound()),
        ("inits", inits()),
        ("variants", variants()),
        ("lengths", lengths()),
        ("listed", listed()),
        ("marks", marks()),
        ("states", states()),
        ("crowd", equal_lane()),
        ("touched", touched_lane()),
        ("apart", bound_lane()),
        ("ordered", ordered()),
        ("longest", longest()),
        ("spelled", first_of(longest_names(255), 300)),
        ("twins", first_of(vec![text("v"); 255], 2_200)),
        ("mates", mates()),
        ("outputs", outputs()),
        ("groups", groups()),
        ("lists", lists()),
        ("rolled", last_of(&of_roll("u", 255))),
        ("alike", last_of(&of_one_print(255))),
        ("stranded", stranded()),
        ("strange", strange()),
        ("unfit", unfit()),
        ("counted", counted()),
        ("values", values()),
        ("judged", judged()),
        ("args", args()),
    ];
    let sample = |(name, ir)| Sample {
        name,
        bytes: encode(&ir),
    };
    let mut all = all.map(sample).to_vec();
    all.push(Sample {
        name: "wide",
        bytes: widened(&encode(&ir(vec![mixed("Link", 124, 20)])), 32),
    });
    all
}

/// One transition whose guard is 3,200 equalities of names on one lane.
fn equal_lane() -> Ir {
    let equal = |n: &String| binary(BinOp::Eq, path(&[n.as_str()]), int(0));
    guarded(of_table("", 3_200).iter().map(equal).collect())
}

/// One transition whose guard mentions one of 255 variables on one lane 3,400
/// times.
fn touched_lane() -> Ir {
    first_of(of_table("v", 255), 1_700)
}

/// 17 transitions whose patterns bind 255 fields on one lane.
fn bound_lane() -> Ir {
    binding(&of_table("f", 255), 17)
}

/// A module of 254 states of the longest names, which begin alike, with a
/// transition from each and a second one from the last.
fn ordered() -> Ir {
    let names: Vec<String> = (0..254)
        .map(|k| format!("{}{k:03}", "s".repeat(61)))
        .collect();
    let states: Vec<&str> = names.iter().map(String::as_str).collect();
    let from = |id: usize| Transition {
        id,
        ..step(states[id.min(253)], "E", states[0])
    };
    ir(vec![Module {
        enums: vec![enum_decl("State", &states)],
        initial_state: Some(text(states[0])),
        events: vec![group("E", Vec::new())],
        transitions: (0..255).map(from).collect(),
        ..bare("M")
    }])
}

/// So many names of as many bytes as there may be.
fn longest_names(many: usize) -> Vec<String> {
    (0..many)
        .map(|k| format!("{k:03}{}", "v".repeat(61)))
        .collect()
}

/// Three modules of 255 variables of the longest names that nothing mentions.
fn longest() -> Ir {
    let named = |n: &String| var(n, bit(8), int(0));
    let module = |k: usize| Module {
        vars: longest_names(255).iter().map(named).collect(),
        ..mixed(&format!("M{k}"), 0, 0)
    };
    ir((0..3).map(module).collect())
}

/// A document with longer names: each string is followed by underscores up to
/// so many bytes, but for those that mean something by themselves.
fn widened(doc: &[u8], width: usize) -> Vec<u8> {
    const KEPT: [&[u8]; 3] = [b"state", b"State", b"1.0"];
    let mut out = Vec::new();
    let mut at = 0;
    while at < doc.len() {
        let more = match doc[at] & 31 {
            0..=23 => 0,
            long => 1 << (long - 24),
        };
        let next = at + 1 + more;
        if doc[at] >> 5 != 3 {
            out.extend(&doc[at..next]);
            at = next;
            continue;
        }
        assert_eq!(more, 0, "the names of this document are short");
        let end = next + usize::from(doc[at] & 31);
        match KEPT.contains(&&doc[next..end]) {
            true => out.extend(&doc[at..end]),
            false => {
                out.extend([0x78, width as u8]);
                out.extend(&doc[next..end]);
                out.extend(vec![b'_'; width - (end - next)]);
            }
        }
        at = end;
    }
    out
}

/// 11 modules of as many properties and assumptions as there may be, all of
/// different names.
fn claims() -> Ir {
    claimed((0..510).map(|k| format!("p{k:03}")).collect(), 11)
}

/// The same of 9 modules, with names that the port has on one of its 1,024
/// lanes by its first key.
fn claim_lane() -> Ir {
    claimed(of_table("p", 510), 9)
}

/// So many modules of properties and assumptions of 510 names.
fn claimed(names: Vec<String>, modules: usize) -> Ir {
    let named = |n: &String| property(n, holds(boolean(true)));
    let module = |k: usize| Module {
        properties: names[..255].iter().map(named).collect(),
        assumptions: names[255..].iter().map(named).collect(),
        ..bare(&format!("M{k}"))
    };
    ir((0..modules).map(module).collect())
}

/// One transition whose guard is so many equalities of as many names.
fn equalities(many: usize) -> Ir {
    let equal = |k: u8| {
        let name: String = [k / 16, k % 16]
            .map(|d| char::from(b'a' + d))
            .iter()
            .collect();
        move |j: u8| {
            let name = format!("{name}{}", char::from(b'a' + j));
            binary(BinOp::Eq, path(&[&name]), int(0))
        }
    };
    let all = (0..=255).flat_map(|k| (0..16).map(equal(k))).take(many);
    guarded(all.collect())
}

/// One transition whose guard joins these.
fn guarded(all: Vec<Expr>) -> Ir {
    let module = mixed("Link", 1, 1);
    ir(vec![Module {
        transitions: vec![Transition {
            guard: Some(joined(BinOp::LogicAnd, all)),
            ..module.transitions[0].clone()
        }],
        ..module
    }])
}

/// The same as a document: what a call keeps of a long guard takes stack.
pub fn longest_guard() -> Sample {
    Sample {
        name: "equals",
        bytes: encode(&equalities(3_900)),
    }
}

/// A guard of 2,000 such equalities in a module with 3 outputs of 255 variants:
/// those take stack too.
pub fn roomiest() -> Sample {
    let mut whole = equalities(2_000);
    let units = || names("u").iter().map(|n| unit(n)).collect();
    whole.modules[0].outputs = (0..3).map(|k| group(&format!("g{k}"), units())).collect();
    Sample {
        name: "roomiest",
        bytes: encode(&whole),
    }
}

/// Expressions joined by an operator, half of them left and half right.
pub fn joined(op: BinOp, mut row: Vec<Expr>) -> Expr {
    let right = row.split_off(row.len().div_ceil(2));
    match right.is_empty() {
        true => row.remove(0),
        false => binary(op, joined(op, row), joined(op, right)),
    }
}

/// As many names as a list may have, which begin alike.
fn names(start: &str) -> Vec<String> {
    (0..255).map(|k| format!("{start}{k:03}")).collect()
}

fn crowd() -> Vec<VarDecl> {
    let named = |n: &String| var(n, bit(8), int(0));
    names("v").iter().map(named).collect()
}

fn units_of_all() -> Vec<ConstructorVariant> {
    names("u").iter().map(|n| unit(n)).collect()
}

/// A module with as many variables as there may be, and some transitions.
fn crowded(transitions: Vec<Transition>) -> Ir {
    ir(vec![Module {
        vars: crowd(),
        transitions,
        ..mixed("Link", 0, 1)
    }])
}

/// 12 modules alike, under names of their own.
fn twelve(module: Module) -> Ir {
    let named = |k: usize| Module {
        name: format!("M{k}"),
        ..module.clone()
    };
    ir((0..12).map(named).collect())
}

/// 12 modules of 255 variables that nothing mentions.
fn unused() -> Ir {
    twelve(Module {
        vars: crowd(),
        ..mixed("M", 0, 0)
    })
}

/// 12 modules of 255 events that no pattern uses.
fn dead() -> Ir {
    twelve(Module {
        events: vec![group("Net", units_of_all())],
        vars: Vec::new(),
        ..mixed("M", 0, 0)
    })
}

/// 12 modules of 255 properties of one name.
fn repeats() -> Ir {
    twelve(Module {
        properties: vec![property("p", holds(boolean(true))); 255],
        ..bare("M")
    })
}

/// 11 transitions that set a variable which is none of 255, 255 times each.
fn unknown() -> Ir {
    let step = |place: usize| Transition {
        assignments: vec![set("w", int(1)); 255],
        ..mixed_step(3 * place + 2)
    };
    crowded((0..11).map(step).collect())
}

/// One transition whose guard mentions one of 255 variables 4,400 times.
fn mentions() -> Ir {
    let less = binary(BinOp::Lt, path(&["v000"]), path(&["v000"]));
    crowded(vec![Transition {
        guard: Some(joined(BinOp::LogicOr, vec![less; 2_200])),
        ..mixed_step(2)
    }])
}

/// The same of 255 variables whose names the port has on one of its 63 lanes
/// by its first key, 3,600 times.
fn one_lane() -> Ir {
    first_of(of_block("v", 255), 1_800)
}

/// The same of 255 variables whose names have one print, 3,200 times.
fn one_print() -> Ir {
    first_of(of_one_print(255), 1_600)
}

/// One transition whose guard says so many times that the first of some
/// variables is less than itself.
fn first_of(names: Vec<String>, many: usize) -> Ir {
    let vars: Vec<VarDecl> = names.iter().map(|n| var(n, bit(8), int(0))).collect();
    let first = path(&[names[0].as_str()]);
    let less = binary(BinOp::Lt, first.clone(), first);
    ir(vec![Module {
        vars,
        transitions: vec![Transition {
            guard: Some(joined(BinOp::LogicOr, vec![less; many])),
            ..mixed_step(2)
        }],
        ..mixed("Link", 0, 1)
    }])
}

/// The same of a variable and 254 others of one name, which the port has on
/// its lane by the last key, 4,000 times.
fn mates() -> Ir {
    let twin = "v";
    let mut names = vec![mate(twin)];
    names.resize(255, text(twin));
    first_of(names, 2_000)
}

/// 18 transitions that put out the last of 255 units, which has a longer name
/// than the others, 250 times each.
fn outputs() -> Ir {
    last_of(&with_last("u").collect::<Vec<_>>())
}

/// The same of any outputs.
fn last_of(names: &[String]) -> Ir {
    let units = names.iter().map(|n| unit(n)).collect();
    emitting(vec![group("O", units)], "O", &names[names.len() - 1], 18)
}

/// The same of the last of 12 such groups, 3,250 times.
fn lists() -> Ir {
    let units = || with_last("u").map(|n| unit(&n)).collect();
    let groups = (0..12).map(|k| group(&format!("g{k}"), units()));
    emitting(groups.collect(), "g11", "u25499", 13)
}

/// The same of the unit of the last of 255 groups.
fn groups() -> Ir {
    emitting(
        with_last("g").map(|n| group(&n, vec![unit("u")])).collect(),
        "g25499",
        "u",
        18,
    )
}

/// 255 names, of which the last is longer than the others.
fn with_last(start: &str) -> impl Iterator<Item = String> + '_ {
    (0..255).map(move |k| format!("{start}{k:03}{}", if k == 254 { "99" } else { "" }))
}

/// So many transitions that put out one unit 250 times each.
fn emitting(outputs: Vec<ConstructorGroup>, group: &str, unit: &str, many: usize) -> Ir {
    let step = |place: usize| Transition {
        emits: vec![emit(group, Some(unit), Vec::new()); 250],
        ..mixed_step(3 * place + 2)
    };
    ir(vec![Module {
        outputs,
        transitions: (0..many).map(step).collect(),
        ..mixed("Link", 0, 1)
    }])
}

/// 11 transitions with 255 outputs each whose argument is of another type.
fn unfit() -> Ir {
    mistaken(vec![path(&["armed"])])
}

/// The same without the argument.
fn counted() -> Ir {
    mistaken(Vec::new())
}

fn mistaken(args: Vec<Expr>) -> Ir {
    let step = |place: usize| Transition {
        emits: vec![emit("Out", Some("log"), args.clone()); 255],
        ..mixed_step(3 * place + 2)
    };
    ir(vec![Module {
        transitions: (0..11).map(step).collect(),
        ..mixed("Link", 0, 1)
    }])
}

/// 11 transitions with 255 assignments each of a name that is not declared.
fn values() -> Ir {
    let step = |place: usize| Transition {
        assignments: vec![set("v000", path(&["w"])); 255],
        ..mixed_step(3 * place + 2)
    };
    crowded((0..11).map(step).collect())
}

/// 9 such transitions, whose patterns bind 255 fields each.
fn judged() -> Ir {
    let fields = names("f");
    let step = |place: usize| Transition {
        pattern: binding_all(&fields),
        assignments: vec![set("v000", path(&["w"])); 255],
        ..mixed_step(3 * place + 2)
    };
    ir(vec![Module {
        events: event_of_all(&fields),
        vars: crowd(),
        transitions: (0..9).map(step).collect(),
        ..mixed("Link", 0, 1)
    }])
}

/// 11 transitions with 255 outputs each, of which the last argument is at
/// fault.
fn args() -> Ir {
    let sent = || vec![path(&["limit"]), path(&[])];
    let step = |place: usize| Transition {
        emits: vec![emit("Out", Some("send"), sent()); 255],
        ..mixed_step(3 * place + 2)
    };
    ir(vec![Module {
        transitions: (0..11).map(step).collect(),
        ..mixed("Link", 0, 1)
    }])
}

/// 12 modules of 255 states, all but the first of which nothing leads to.
fn stranded() -> Ir {
    let names = names("s");
    let listed: Vec<&str> = names.iter().map(String::as_str).collect();
    twelve(Module {
        enums: vec![enum_decl("State", &listed)],
        initial_state: Some(text("s000")),
        ..bare("M")
    })
}

/// 12 modules of 255 properties of a name that is not declared.
fn strange() -> Ir {
    let named = |k: usize| property(&format!("p{k:03}"), holds(path(&["x"])));
    twelve(Module {
        properties: (0..255).map(named).collect(),
        ..bare("M")
    })
}

/// 16 transitions that set one of 255 variables 255 times each.
fn sets() -> Ir {
    let step = |place: usize| Transition {
        assignments: vec![set("v000", int(1)); 255],
        ..mixed_step(3 * place + 2)
    };
    crowded((0..16).map(step).collect())
}

/// 20 transitions whose patterns bind 255 fields each.
fn bindings() -> Ir {
    binding(&names("f"), 20)
}

/// So many transitions whose patterns bind fields of these names.
fn binding(names: &[String], many: usize) -> Ir {
    let step = |place: usize| Transition {
        pattern: binding_all(names),
        ..mixed_step(3 * place + 2)
    };
    ir(vec![Module {
        events: event_of_all(names),
        transitions: (0..many).map(step).collect(),
        ..mixed("Link", 0, 1)
    }])
}

/// An event of fields of these names.
fn event_of_all(names: &[String]) -> Vec<ConstructorGroup> {
    let fields: Vec<(&str, Type)> = names.iter().map(|n| (n.as_str(), bit(8))).collect();
    vec![group("Net", vec![with_fields("all", &fields)])]
}

/// A pattern that binds them all.
fn binding_all(names: &[String]) -> EventPattern {
    let bound = |n: &String| pattern(Some(n), PatternExpr::Wildcard);
    let fields = names.iter().map(bound).collect();
    event("Net", Some(field_pattern("all", fields)))
}

/// One transition whose pattern binds 255 fields, and whose guard mentions one
/// of 255 variables 3,800 times.
fn bound() -> Ir {
    let less = binary(BinOp::Lt, path(&["v000"]), path(&["v000"]));
    let step = Transition {
        pattern: binding_all(&names("f")),
        guard: Some(joined(BinOp::LogicOr, vec![less; 1_900])),
        ..mixed_step(2)
    };
    ir(vec![Module {
        events: event_of_all(&names("f")),
        vars: crowd(),
        transitions: vec![step],
        ..mixed("Link", 0, 1)
    }])
}

/// 12 modules of 255 variables, each with the first as its first value.
fn inits() -> Ir {
    let named = |n: &String| var(n, bit(8), path(&["v000"]));
    twelve(Module {
        vars: names("v").iter().map(named).collect(),
        ..mixed("M", 0, 0)
    })
}

/// One transition whose guard names the first of 255 variants 3,200 times.
fn variants() -> Ir {
    let all = names("m");
    one_of(&all, 1, &all[0], 1_600)
}

/// The same of the last of names of four to six bytes, in the third of three
/// such enums, 2,600 times.
fn lengths() -> Ir {
    let longer = |(k, n): (usize, String)| n + &"xx"[..k * k % 7 % 3];
    let all: Vec<String> = names("m").into_iter().enumerate().map(longer).collect();
    one_of(&all, 3, &all[254], 1_300)
}

/// The same of the last of names of two bytes, in the last of 20 such enums,
/// 2,600 times.
fn listed() -> Ir {
    let letter = |k: usize| char::from(b'a' + k as u8);
    let name = |k: usize| format!("{}{}", letter(k / 16), letter(k % 16));
    let all: Vec<String> = (0..255).map(name).collect();
    one_of(&all, 20, &all[254], 1_300)
}

/// The same of the first of 255 names that have one mark by the first key,
/// 3,000 times.
fn marks() -> Ir {
    let all = of_mark("m", 255);
    one_of(&all, 1, &all[0], 1_500)
}

/// One transition whose guard is so many equalities of a variant of the last
/// of some enums, all of the same variants, with itself.
fn one_of(names: &[String], enums: usize, name: &str, many: usize) -> Ir {
    let listed: Vec<&str> = names.iter().map(String::as_str).collect();
    let called: Vec<String> = (0..enums).map(|k| format!("Mode{k}")).collect();
    let there = path(&[&called[enums - 1], name]);
    let equal = binary(BinOp::Eq, there.clone(), there);
    let step = Transition {
        guard: Some(joined(BinOp::LogicOr, vec![equal; many])),
        ..mixed_step(2)
    };
    let mut declared = vec![enum_decl("State", &STATES)];
    declared.extend(called.iter().map(|n| enum_decl(n, &listed)));
    ir(vec![Module {
        enums: declared,
        transitions: vec![step],
        ..mixed("Link", 0, 1)
    }])
}

/// One transition whose guard names the first of 255 states 2,500 times.
fn states() -> Ir {
    let names = names("s");
    let listed: Vec<&str> = names.iter().map(String::as_str).collect();
    let there = binary(BinOp::Eq, path(&["state"]), path(&["s000"]));
    let step = Transition {
        guard: Some(joined(BinOp::LogicOr, vec![there; 2_500])),
        ..mixed_step(2)
    };
    ir(vec![Module {
        enums: vec![enum_decl("State", &listed)],
        initial_state: Some(text("s000")),
        vars: Vec::new(),
        transitions: vec![step],
        ..mixed("Link", 0, 0)
    }])
}

/// Five modules of 255 transitions whose patterns name the last of 255 units.
fn units() -> Ir {
    let step = |place: usize| Transition {
        pattern: event("Net", Some(unit_pattern("u254"))),
        ..mixed_step(3 * place + 2)
    };
    let module = |k: usize| Module {
        events: vec![group("Net", units_of_all())],
        transitions: (0..255).map(step).collect(),
        ..mixed(&format!("M{k}"), 0, 1)
    };
    ir((0..5).map(module).collect())
}

/// 16 modules of 255 transitions with one state and one pattern: each pair of
/// a module is found, 518,160 in all.
pub fn every_pair() -> Sample {
    let module = Module {
        enums: vec![enum_decl("State", &["A"])],
        initial_state: Some(text("A")),
        events: vec![group("E", Vec::new())],
        transitions: (0..255)
            .map(|id| Transition {
                id,
                ..step("A", "E", "A")
            })
            .collect(),
        ..bare("M")
    };
    Sample {
        name: "pairs",
        bytes: encode(&ir(vec![module; 16])),
    }
}

const STATES: [&str; 6] = ["Idle", "Opening", "Open", "Busy", "Closing", "Failed"];

/// A module with so many transitions and properties, of every kind of part.
fn mixed(name: &str, transitions: usize, properties: usize) -> Module {
    Module {
        version: Some(text("1.0")),
        on_error: Some(OnError {
            next_state: text("Failed"),
            emits: vec![emit("Out", Some("log"), vec![path(&["retries"])])],
        }),
        enums: vec![
            enum_decl("State", &STATES),
            enum_decl("Mode", &["Plain", "Secure", "Quiet"]),
        ],
        initial_state: Some(text("Idle")),
        events: vec![events(), group("Timer", vec![unit("tick")])],
        outputs: vec![group(
            "Out",
            vec![
                unit("ack"),
                with_fields("log", &[("count", bit(8))]),
                with_fields("send", &[("length", bit(16)), ("last", Type::Bool)]),
            ],
        )],
        vars: vec![
            var("retries", bit(8), int(0)),
            var("limit", bit(16), int(1_000)),
            var("armed", Type::Bool, boolean(false)),
            var("mode", enum_type("Mode"), path(&["Mode", "Plain"])),
        ],
        transitions: (0..transitions).map(mixed_step).collect(),
        properties: (0..properties).map(mixed_property).collect(),
        assumptions: vec![property(
            "ticks",
            over(
                2,
                0,
                over(
                    4,
                    50,
                    Formula::InputIs {
                        pattern: event("Timer", None),
                    },
                ),
            ),
        )],
        ..bare(name)
    }
}

fn events() -> ConstructorGroup {
    let data = [
        ("length", bit(16)),
        ("urgent", Type::Bool),
        ("mode", enum_type("Mode")),
    ];
    group(
        "Net",
        vec![unit("open"), unit("close"), with_fields("data", &data)],
    )
}

/// Three kinds of transition in turn; priorities keep them apart.
fn mixed_step(place: usize) -> Transition {
    let state = STATES[place % STATES.len()];
    let next = STATES[(place * 5 + 1) % STATES.len()];
    let plain = Transition {
        id: place,
        priority: Some(place as u32),
        ..step(state, "Net", next)
    };
    match place % 3 {
        0 => Transition {
            pattern: event("Net", Some(unit_pattern("open"))),
            guard: Some(may_retry(place)),
            emits: vec![emit("Out", Some("ack"), Vec::new())],
            assignments: vec![set(
                "retries",
                binary(BinOp::Plus, path(&["retries"]), int(1)),
            )],
            ..plain
        },
        1 => Transition {
            pattern: event("Net", Some(field_pattern("data", data_pattern(place)))),
            guard: Some(fits()),
            emits: vec![
                emit("Out", Some("send"), vec![path(&["n"]), path(&["armed"])]),
                emit("Out", Some("log"), vec![path(&["retries"])]),
            ],
            assignments: vec![
                set(
                    "limit",
                    binary(BinOp::Minus, path(&["limit"]), path(&["n"])),
                ),
                set("armed", unary(UnaryOp::Not, path(&["armed"]))),
            ],
            ..plain
        },
        _ => Transition {
            pattern: event("Timer", None),
            ..plain
        },
    }
}

fn may_retry(place: usize) -> Expr {
    let few = binary(BinOp::Lt, path(&["retries"]), int(place as u64 % 256));
    binary(BinOp::LogicAnd, few, path(&["armed"]))
}

fn fits() -> Expr {
    let room = binary(BinOp::Ge, path(&["limit"]), path(&["n"]));
    let quiet = binary(BinOp::Eq, path(&["mode"]), path(&["Mode", "Quiet"]));
    binary(BinOp::LogicOr, room, unary(UnaryOp::Not, quiet))
}

fn data_pattern(place: usize) -> Vec<PatternField> {
    let secure = PatternExpr::EnumVariant {
        path: texts(&["Mode", "Secure"]),
    };
    let second = match place % 2 {
        0 => PatternExpr::Bool { value: true },
        _ => PatternExpr::Wildcard,
    };
    vec![
        pattern(Some("n"), PatternExpr::Bind { name: text("n") }),
        pattern(None, second),
        pattern(None, secure),
    ]
}

fn mixed_property(place: usize) -> Property {
    let state = STATES[place % STATES.len()];
    let there = holds(binary(BinOp::Eq, path(&["state"]), path(&["State", state])));
    let opened = Formula::InputIs {
        pattern: event("Net", Some(unit_pattern("open"))),
    };
    let sent = Formula::OutputHas {
        pattern: output("Out", Some(unit_pattern("ack"))),
    };
    let inner = match place % 3 {
        0 => join(2, join(0, there, opened), over(1, 0, sent)),
        1 => join(2, there, over(4, place as u64, sent)),
        _ => join(3, over(0, 0, there), join(1, opened, sent)),
    };
    property(&format!("rule_{place}"), over(2, 0, inner))
}

/// 16 modules of 255 of the shortest transitions: 26 states of one letter,
/// ten groups, each pair of state and group once.
fn many() -> Ir {
    let letters: Vec<String> = ('A'..='Z').map(String::from).collect();
    let groups: Vec<String> = ('a'..='j').map(String::from).collect();
    let states: Vec<&str> = letters.iter().map(String::as_str).collect();
    let module = |number: usize| Module {
        enums: vec![enum_decl("State", &states)],
        initial_state: Some(text("A")),
        events: groups.iter().map(|g| group(g, Vec::new())).collect(),
        transitions: (0..255)
            .map(|place| Transition {
                id: place,
                ..step(
                    states[place % 26],
                    &groups[place / 26],
                    states[(place + 1) % 26],
                )
            })
            .collect(),
        ..bare(states[number])
    };
    ir((0..16).map(module).collect())
}
