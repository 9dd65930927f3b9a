//! The example documents: each in hexadecimal with an item on each line, and
//! what is printed for it.

use crate::encode::{head, itemise, Encoded, Item, Role, TEXT};
use crate::generate::build::*;
use crate::generate::{depth, seeds};
use crate::lang::ir::*;
use std::fmt::Write;

/// An example under its file name. The sentence says what it shows.
pub struct Example {
    pub name: &'static str,
    pub sentence: &'static str,
    pub made: Made,
}

/// How an example's bytes are made.
pub enum Made {
    /// By the items of a document, each on a line.
    Lines(Vec<Line>),
    /// By a command, since the bytes are many.
    Command(&'static str),
}

/// The bytes of an item, how deep it stands, and what it is.
pub struct Line {
    pub bytes: Vec<u8>,
    level: usize,
    comment: String,
}

pub fn examples() -> Vec<Example> {
    let whole = |name, sentence, ir: Ir| Example {
        name,
        sentence,
        made: Made::Lines(lines(&itemise(&ir))),
    };
    let mut all = vec![
        whole(
            "worked_example",
            "Document 01's worked example: a state that no transition leads to, and an event that none uses.",
            seeds::worked_example(),
        ),
        whole(
            "sound",
            "A module of an organ offer in which nothing is found.",
            ir(vec![offer()]),
        ),
        whole(
            "changed_transition",
            "The document sound with one byte of a transition changed, in the name of its next state: it still reads, and an error and a warning say what is wrong.",
            changed_transition(),
        ),
        whole(
            "sum_of_literals",
            "A guard 1 + 1 == cold with a 16-bit cold: the sum of two literals has 8 bits, so the types differ, where 1 == cold would do.",
            with_guards(&[binary(BinOp::Eq, binary(BinOp::Plus, int(1), int(1)), path(&["cold"]))]),
        ),
        whole(
            "ambiguous",
            "Two transitions with one state and one pattern, different guards and no priorities: a warning.",
            ambiguous([0, 1]),
        ),
        whole(
            "ambiguous_shuffled",
            "The transitions of ambiguous in the other order: the warning is still there, about the same two ids.",
            ambiguous([1, 0]),
        ),
        whole(
            "two_states",
            "Two enums called State: the initial state is looked for in the first, a name in a guard in the last.",
            two_states(),
        ),
        whole(
            "bindings",
            "The name of a pattern's field binds, a Bind pattern does not: the first guard has a type, the second has an unknown identifier.",
            bindings(),
        ),
        whole(
            "unknown_set",
            "A set to an unknown variable is one error: its value, an unknown identifier, is not typed.",
            unknown_set(),
        ),
        whole(
            "conjuncts",
            "A guard cold == 1 && cold == 2: the conjuncts are taken from right to left, so the values are named as 2 and 1.",
            with_guards(&[binary(BinOp::LogicAnd, is_cold(1), is_cold(2))]),
        ),
        whole(
            "overlapping_patterns",
            "A pattern for any event of a group and one for an event of it overlap and are not equal: nothing is found.",
            overlapping(),
        ),
    ];
    all.extend(refusals());
    all
}

/// One document for each refusal.
fn refusals() -> Vec<Example> {
    let damaged = |name, sentence, change: &dyn Fn(&mut Vec<Line>)| {
        let mut made = lines(&itemise(&seeds::worked_example()));
        change(&mut made);
        Example {
            name,
            sentence,
            made: Made::Lines(made),
        }
    };
    let item = |front: &'static str, bytes: Vec<u8>, comment: &'static str| {
        move |made: &mut Vec<Line>| {
            let found = made.iter_mut().find(|line| line.comment.starts_with(front));
            let line = found.expect("the example has such an item");
            line.bytes = bytes.clone();
            line.comment = format!("{front}: {comment}");
        }
    };
    let smudged = [head(TEXT, 6), b"go-now".to_vec()].concat();
    vec![
        Example {
            name: "refused_1",
            sentence: "Bulky: over 65,535 bytes, which no small document has; the command puts zeros after a sound one.",
            made: Made::Command("{ ./hex documents/sound.hex; head -c 65536 /dev/zero; }"),
        },
        damaged(
            "refused_2",
            "Torn: the bytes end inside the name of a state.",
            &|made| {
                made.truncate(12);
                let line = made.last_mut().expect("twelve lines are left");
                line.bytes = vec![0x67, 0x57, 0x61, 0x69];
                line.comment = "EnumDecl.variant: a name of seven bytes, and three of them".to_string();
            },
        ),
        damaged(
            "refused_3",
            "Padded: an id of 0 in a longer head than it needs.",
            &item("Transition.id", vec![0x18, 0x00], "0, in two bytes"),
        ),
        damaged(
            "refused_4",
            "Misfiled: a number where the transition's state is due.",
            &item("Transition.state", vec![0x01], "a number where a name is due"),
        ),
        damaged(
            "refused_5",
            "Outsize: an empty name.",
            &item("Transition.next_state", vec![0x60], "an empty name"),
        ),
        damaged(
            "refused_6",
            "Smudged: a hyphen in a name.",
            &item("ConstructorVariant::Unit.name", smudged, "\"go-now\""),
        ),
        Example {
            name: "refused_7",
            sentence: "Nested: an initial value of 33 levels; the last of them would start at depth 33.",
            made: Made::Lines(lines(&itemise(&one(|m| {
                m.vars = vec![var("x", Type::Bool, depth::nots(33))]
            })))),
        },
        damaged(
            "refused_8",
            "Overhang: a byte follows the document.",
            &|made| {
                made.push(Line {
                    bytes: vec![0x00],
                    level: 0,
                    comment: "a byte too many".to_string(),
                })
            },
        ),
        damaged(
            "refused_9",
            "Unborn: an ir_version over 1.",
            &item("Ir.ir_version", vec![0x02], "2"),
        ),
        Example {
            name: "refused_10",
            sentence: "Short sheet: 82 equal transitions make 3,321 pairs, and 16,380 words hold 3,276 findings; the command writes the transition 82 times.",
            made: Made::Command(
                "{ echo 82 01 81 8b 61 4d f6 f6 81 82 65 53 74 61 74 65 81 61 41 61 41 81 82 61 45 80 80 80 98 52; \
                 yes 88 00 61 41 82 61 45 f6 f6 61 41 80 80 f6 | head -n 82; echo 80 80; } | ./hex",
            ),
        },
    ]
}

/// An offer waits, is made, and is taken, or lapses once the organ has been
/// cold too long.
fn offer() -> Module {
    let made = |state: &str, variant, next: &str| Transition {
        pattern: event("Desk", Some(variant)),
        ..step(state, "Desk", next)
    };
    let hours = vec![pattern(Some("hours"), PatternExpr::Wildcard)];
    let long = binary(BinOp::Gt, path(&["hours"]), path(&["cold"]));
    Module {
        version: Some(text("1.0")),
        enums: vec![enum_decl("State", &["Waiting", "Made", "Taken"])],
        initial_state: Some(text("Waiting")),
        events: vec![group(
            "Desk",
            vec![
                unit("offer"),
                unit("take"),
                with_fields("tick", &[("hours", bit(16))]),
            ],
        )],
        vars: vec![var("cold", bit(16), int(24))],
        transitions: vec![
            made("Waiting", unit_pattern("offer"), "Made"),
            Transition {
                id: 1,
                ..made("Made", unit_pattern("take"), "Taken")
            },
            Transition {
                id: 2,
                guard: Some(long),
                ..made("Made", field_pattern("tick", hours), "Waiting")
            },
        ],
        ..bare("Offer")
    }
}

fn is_cold(value: u64) -> Expr {
    binary(BinOp::Eq, path(&["cold"]), int(value))
}

fn changed_transition() -> Ir {
    let mut module = offer();
    module.transitions[1].next_state = text("Tahen");
    ir(vec![module])
}

/// The offer module with these guards on transitions of other events.
fn with_guards(guards: &[Expr]) -> Ir {
    let mut module = offer();
    for (place, guard) in guards.iter().enumerate() {
        module.transitions[place].guard = Some(guard.clone());
    }
    ir(vec![module])
}

/// The offer module with two ways to go on from Waiting, in this order.
fn ambiguous(order: [usize; 2]) -> Ir {
    let mut module = offer();
    let plain = module.transitions.remove(0);
    let guarded = Transition {
        id: 7,
        guard: Some(is_cold(0)),
        next_state: text("Taken"),
        ..plain.clone()
    };
    let two = [plain, guarded];
    for place in order.iter().rev() {
        module.transitions.insert(0, two[*place].clone());
    }
    ir(vec![module])
}

fn two_states() -> Ir {
    let mut module = offer();
    module.enums.push(enum_decl("State", &["Lapsed"]));
    let in_state = |name| binary(BinOp::Eq, path(&["state"]), path(&[name]));
    module.transitions[0].guard = Some(in_state("Lapsed"));
    module.transitions[1].guard = Some(in_state("Made"));
    ir(vec![module])
}

fn bindings() -> Ir {
    let mut module = offer();
    let named = PatternExpr::Bind {
        name: text("hours"),
    };
    let again = Transition {
        id: 3,
        state: text("Taken"),
        pattern: event(
            "Desk",
            Some(field_pattern("tick", vec![pattern(None, named)])),
        ),
        ..module.transitions[2].clone()
    };
    module.transitions.push(again);
    ir(vec![module])
}

fn unknown_set() -> Ir {
    let mut module = offer();
    module.transitions[0].assignments = vec![set("warm", path(&["nobody"]))];
    ir(vec![module])
}

fn overlapping() -> Ir {
    let mut module = offer();
    let any = Transition {
        id: 3,
        ..step("Waiting", "Desk", "Waiting")
    };
    module.transitions.push(any);
    ir(vec![module])
}

/// The items of a document, those inside another one level deeper.
fn lines(encoded: &Encoded) -> Vec<Line> {
    let mut within: Vec<usize> = Vec::new();
    let mut lines = Vec::new();
    for item in &encoded.items {
        within.retain(|end| item.at < *end);
        let own = &encoded.bytes[item.at..item.own];
        lines.push(Line {
            bytes: own.to_vec(),
            level: within.len(),
            comment: comment(item, &encoded.bytes[item.head..item.own]),
        });
        if item.end > item.own {
            within.push(item.end);
        }
    }
    lines
}

/// What an item is, and its value.
fn comment(item: &Item, text: &[u8]) -> String {
    let label = item.label;
    let case = |names: &[&str]| format!("{label} {}", names[item.argument as usize]);
    match item.role {
        _ if item.absent => format!("{label}: null"),
        Role::Record(_) | Role::Choice(_) => label.to_string(),
        Role::Case(_) | Role::Operator(_) => case(names_of(label)),
        Role::List(_) => format!("{label}: {}", item.argument),
        Role::Name | Role::Version => format!("{label} \"{}\"", String::from_utf8_lossy(text)),
        Role::Bool => format!("{label} {}", item.argument == 21),
        _ => format!("{label} {}", item.argument),
    }
}

/// The cases of ir.rs, in its order.
fn names_of(label: &str) -> &'static [&'static str] {
    match label {
        "Type.case" => &["Bool", "Bit", "Enum"],
        "ConstructorVariant.case" | "PatternVariant.case" => &["Unit", "Struct"],
        "PatternExpr.case" => &["Wildcard", "Bind", "Int", "Bool", "EnumVariant"],
        "Expr.case" => &["Int", "Bool", "Path", "Unary", "Binary"],
        "Unary.op" => &["Not", "BitNot", "Neg"],
        "Binary.op" => &[
            "Plus",
            "Minus",
            "Star",
            "ShiftLeft",
            "ShiftRight",
            "Eq",
            "NotEq",
            "Lt",
            "Le",
            "Gt",
            "Ge",
            "BitOr",
            "BitXor",
            "BitAnd",
            "LogicOr",
            "LogicAnd",
        ],
        _ => &[
            "InputIs",
            "OutputHas",
            "Expr",
            "Not",
            "And",
            "Or",
            "Implies",
            "Next",
            "Always",
            "BoundedAlways",
            "BoundedEventually",
            "Eventually",
            "Until",
        ],
    }
}

/// The file of an example that is written in hexadecimal.
pub fn hex_file(sentence: &str, lines: &[Line]) -> String {
    let mut file = format!("# {sentence}\n");
    for line in lines {
        let digits: Vec<String> = line.bytes.iter().map(|b| format!("{b:02x}")).collect();
        let indent = "  ".repeat(line.level);
        let _ = writeln!(file, "{:<30} # {indent}{}", digits.join(" "), line.comment);
    }
    file
}

const README: &str = "# Example documents

Each document of `documents` is written in hexadecimal, an item on each line with what it is (`NAME.hex`), or made by a command that
runs in this folder (`NAME.sh`); what the program prints for it is `NAME.out`. `tests/oracle` writes all of them, the outputs by the
original Rust checker: `cargo run --release --offline -- examples ../../examples`.

    ./hex documents/sound.hex | PROGRAM     # the bytes, to a program that reads a document
    ./check PROGRAM                         # whether it prints for each document what is due

| document | what it shows |
|---|---|
";

/// The table of all examples.
pub fn readme() -> String {
    let mut file = README.to_string();
    for example in examples() {
        let end = match example.made {
            Made::Lines(_) => "hex",
            Made::Command(_) => "sh",
        };
        let (name, sentence) = (example.name, example.sentence);
        let _ = writeln!(file, "| [{name}](documents/{name}.{end}) | {sentence} |");
    }
    file
}
