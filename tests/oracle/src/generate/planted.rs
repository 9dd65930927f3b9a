//! Mostly sound modules with a few faults, planted at chosen sites with
//! chosen causes. Names come from small pools and repeat now and then.

use super::build::*;
use super::cases;
use super::rng::Rng;
use super::typed::{Scope, Typist, Want, NOWHERE};
use crate::lang::ir::*;

const STATES: &[&str] = &["A", "B", "C", "D", "idle", "x"];
const MODES: &[&str] = &["on", "off", "A", "auto"];
const BINDINGS: &[&str] = &["k", "n", "x", "f", "state", "A"];
const PROPERTIES: &[&str] = &["p", "q", "r", "safe"];

/// A document of one to three modules with up to four faults in each.
pub fn document(rng: &mut Rng) -> Ir {
    let modules = rng.of(&[1, 1, 1, 2, 3]);
    ir((0..modules).map(|_| module(rng)).collect())
}

/// A document with this fault alone, or near others.
pub fn with_fault(rng: &mut Rng, fault: (u32, u32)) -> Ir {
    let mut module = sound(rng);
    if rng.chance(1, 3) {
        let other = any_fault(rng);
        plant(rng, &mut module, other);
    }
    plant(rng, &mut module, fault);
    ir(vec![module])
}

/// A module with up to four faults.
pub fn module(rng: &mut Rng) -> Module {
    let mut module = sound(rng);
    for _ in 0..rng.of(&[0, 1, 1, 2, 3, 4]) {
        let fault = any_fault(rng);
        plant(rng, &mut module, fault);
    }
    module
}

fn any_fault(rng: &mut Rng) -> (u32, u32) {
    rng.of(&cases::pairs())
}

/// How many levels stand around a fault: few, and now and then many.
fn levels(rng: &mut Rng, most: usize) -> usize {
    match rng.chance(1, 25) {
        true => rng.between(most / 2, most),
        false => rng.of(&[0, 0, 1, 2, 3]),
    }
}

/// Up to `most` names of the pool, mostly different.
fn names(rng: &mut Rng, pool: &[&str], least: usize, most: usize) -> Vec<String> {
    let mut pool = pool.to_vec();
    rng.shuffle(&mut pool);
    let count = rng.between(least, most.min(pool.len()));
    let mut names = texts(&pool[..count]);
    if count > 1 && rng.chance(1, 12) {
        names[count - 1] = names[0].clone();
    }
    names
}

fn enum_of(name: &str, variants: Vec<String>) -> EnumDecl {
    EnumDecl {
        name: text(name),
        variants,
    }
}

fn sound(rng: &mut Rng) -> Module {
    let mut module = bare(rng.of(&["M", "M", "Link"]));
    declare_enums(rng, &mut module);
    let states = first_states(&module).to_vec();
    module.initial_state = Some(states[0].clone());
    module.version = rng.of(&[None, Some("1.0"), Some("1.2.3")]).map(text);
    module.events = events(rng);
    module.outputs = outputs(rng);
    declare_vars(rng, &mut module);
    for id in 0..rng.between(0, 3) {
        let transition = transition(rng, &module, &states, id);
        module.transitions.push(transition);
    }
    if rng.chance(2, 3) {
        tidy(&mut module, &states);
    }
    on_error(rng, &mut module, &states);
    let scope = Scope::of(&module);
    let typist = &mut Typist { rng, scope: &scope };
    for (place, name) in PROPERTIES.iter().enumerate() {
        if typist.rng.chance(1, 3) {
            let levels = typist.rng.between(1, 4);
            let formula = typist.formula(levels);
            match place % 2 {
                0 => module.properties.push(property(name, formula)),
                _ => module.assumptions.push(property(name, formula)),
            }
        }
    }
    module
}

/// A second State or Mode now and then, with other variants.
fn declare_enums(rng: &mut Rng, module: &mut Module) {
    let states = names(rng, STATES, 2, 4);
    module.enums.push(enum_of("State", states));
    let modes = names(rng, MODES, 1, 3);
    module.enums.push(enum_of("Mode", modes));
    if rng.chance(1, 5) {
        let states = names(rng, STATES, 1, 3);
        module.enums.push(enum_of("State", states));
    }
    if rng.chance(1, 6) {
        let modes = names(rng, MODES, 1, 2);
        module.enums.push(enum_of("Mode", modes));
    }
    if rng.chance(1, 4) {
        let modes = names(rng, MODES, 0, 2);
        module.enums.push(enum_of("Kind", modes));
    }
}

fn first_states(module: &Module) -> &[String] {
    let states = module.enums.iter().find(|e| e.name == "State");
    states.map_or(&[], |e| &e.variants)
}

fn any_type(rng: &mut Rng) -> Type {
    match rng.below(4) {
        0 => Type::Bool,
        1 => enum_type(rng.of(&["Mode", "State"])),
        _ => bit(rng.of(&[0, 1, 8, 8, 16, 63, 64, u32::MAX])),
    }
}

/// A variant with a field of each kind, and maybe more.
fn record(rng: &mut Rng, name: &str) -> ConstructorVariant {
    let width = rng.of(&[0, 1, 8, 8, 16, 63]);
    let mut types = vec![bit(width), Type::Bool, enum_type("Mode")];
    for _ in 0..rng.below(2) {
        types.push(any_type(rng));
    }
    rng.shuffle(&mut types);
    let field = |ty| FieldDecl {
        name: text(rng.of(&["a", "b", "len"])),
        ty,
    };
    ConstructorVariant::Struct {
        name: text(name),
        fields: types.into_iter().map(field).collect(),
    }
}

/// Two groups, sometimes one name twice, sometimes a variant twice.
fn events(rng: &mut Rng) -> Vec<ConstructorGroup> {
    let mut first = vec![unit("go"), record(rng, "data")];
    if rng.chance(1, 8) {
        first.push(record(rng, "go"));
    }
    rng.shuffle(&mut first);
    let other = if rng.chance(1, 8) { "E" } else { "F" };
    let second = match rng.below(3) {
        0 => Vec::new(),
        1 => vec![unit("go")],
        _ => vec![record(rng, "tick"), unit("stop")],
    };
    vec![group("E", first), group(other, second)]
}

fn outputs(rng: &mut Rng) -> Vec<ConstructorGroup> {
    let mut first = vec![unit("ack"), record(rng, "send")];
    if rng.chance(1, 8) {
        first.push(unit("send"));
    }
    rng.shuffle(&mut first);
    let other = if rng.chance(1, 8) { "O" } else { "Q" };
    let only = match rng.chance(1, 2) {
        true => unit("only"),
        false => record(rng, "only"),
    };
    let mut groups = vec![group("O", first), group(other, vec![only])];
    if rng.chance(1, 3) {
        groups.push(group("R", Vec::new()));
    }
    groups
}

/// Bits of two widths, a bool and an enum, and sometimes a name twice.
fn declare_vars(rng: &mut Rng, module: &mut Module) {
    let (one, other) = rng.of(&[(8, 16), (8, 64), (16, 1), (0, 8)]);
    let mut types = vec![
        ("x", bit(one)),
        ("y", bit(other)),
        ("f", Type::Bool),
        ("m", enum_type("Mode")),
    ];
    for _ in 0..rng.of(&[0, 0, 1, 2]) {
        let ty = match rng.chance(1, 6) {
            true => enum_type("Kind"),
            false => any_type(rng),
        };
        types.push((rng.of(&["x", "f", "n", "state", "B"]), ty));
    }
    rng.shuffle(&mut types);
    let none = Expr::Bool { value: true };
    module.vars = types
        .into_iter()
        .map(|(name, ty)| var(name, ty, none.clone()))
        .collect();
    let scope = Scope::of(module);
    let typist = &mut Typist { rng, scope: &scope };
    for var in &mut module.vars {
        let wants = scope.wants();
        let any = &wants[typist.rng.below(wants.len())];
        var.init = typist.sound(any, 3);
    }
}

/// The fields that a pattern's variant is declared with.
fn fields_of<'a>(module: &'a Module, group: &str, variant: &str) -> &'a [FieldDecl] {
    let group = module.events.iter().find(|g| g.name == group);
    let variants = group.map_or(&[][..], |g| &g.variants);
    let called = |v: &&ConstructorVariant| variant_name(v) == variant;
    match variants.iter().find(called) {
        Some(ConstructorVariant::Struct { fields, .. }) => fields,
        _ => &[],
    }
}

fn variant_name(variant: &ConstructorVariant) -> &str {
    match variant {
        ConstructorVariant::Unit { name } | ConstructorVariant::Struct { name, .. } => name,
    }
}

/// What a pattern binds, at fault or not.
fn bindings(module: &Module, pattern: &EventPattern) -> Vec<(String, Type)> {
    let Some(PatternVariant::Struct { name, fields }) = &pattern.variant else {
        return Vec::new();
    };
    let declared = fields_of(module, &pattern.group, name);
    let both = declared.iter().zip(fields);
    both.filter_map(|(d, f)| Some((f.name.clone()?, d.ty.clone())))
        .collect()
}

fn scope_of(module: &Module, transition: &Transition) -> Scope {
    Scope::of(module).with(bindings(module, &transition.pattern))
}

fn transition(rng: &mut Rng, module: &Module, states: &[String], id: usize) -> Transition {
    let pattern = sound_pattern(rng, module);
    let state = &states[rng.below(states.len())];
    let next = &states[rng.below(states.len())];
    let mut transition = Transition {
        id: rng.of(&[id, id, 0, usize::MAX]),
        pattern,
        priority: rng.of(&[None, Some(id as u32), Some(u32::MAX)]),
        ..step(state, "E", next)
    };
    let scope = scope_of(module, &transition);
    let typist = &mut Typist { rng, scope: &scope };
    if typist.rng.chance(1, 2) {
        transition.guard = Some(typist.sound(&Want::Bool, 4));
    }
    for _ in 0..typist.rng.below(3) {
        let var = &module.vars[typist.rng.below(module.vars.len())];
        let value = typist.sound(&Want::of(&var.ty), 3);
        transition.assignments.push(set(&var.name, value));
    }
    for _ in 0..typist.rng.below(3) {
        transition.emits.push(sound_output(typist, module));
    }
    transition
}

fn sound_pattern(rng: &mut Rng, module: &Module) -> EventPattern {
    let group = &module.events[rng.below(module.events.len())];
    if group.variants.is_empty() || rng.chance(1, 5) {
        return event(&group.name, None);
    }
    let variant = &group.variants[rng.below(group.variants.len())];
    let variant = match variant {
        ConstructorVariant::Unit { name } => unit_pattern(name),
        ConstructorVariant::Struct { name, fields } => {
            let fields = fields.iter().map(|f| sound_field(rng, &f.ty));
            let mut fields: Vec<PatternField> = fields.collect();
            bind(rng, &mut fields);
            field_pattern(name, fields)
        }
    };
    event(&group.name, Some(variant))
}

/// Names some fields, each otherwise.
fn bind(rng: &mut Rng, fields: &mut [PatternField]) {
    let mut pool = BINDINGS.to_vec();
    rng.shuffle(&mut pool);
    for (field, name) in fields.iter_mut().zip(pool) {
        field.name = rng.chance(1, 2).then(|| text(name));
    }
}

fn sound_field(rng: &mut Rng, ty: &Type) -> PatternField {
    let literal = match ty {
        _ if rng.chance(1, 3) => PatternExpr::Wildcard,
        _ if rng.chance(1, 3) => PatternExpr::Bind {
            name: text(rng.of(BINDINGS)),
        },
        Type::Bool => PatternExpr::Bool {
            value: rng.chance(1, 2),
        },
        Type::Bit { width } => PatternExpr::Int {
            value: fitting(rng, *width),
        },
        Type::Enum { name } => PatternExpr::EnumVariant {
            path: vec![name.clone(), text(rng.of(MODES))],
        },
    };
    pattern(None, literal)
}

/// A literal that fits the width, often the largest.
fn fitting(rng: &mut Rng, width: u32) -> u64 {
    let largest = match width {
        0 => 0,
        1..=63 => (1 << width) - 1,
        _ => u64::MAX,
    };
    rng.of(&[0, largest, largest, largest / 2])
}

/// An output with fitting arguments; bare where its group has one variant.
fn sound_output(typist: &mut Typist, module: &Module) -> OutputExpr {
    let groups: Vec<_> = module
        .outputs
        .iter()
        .filter(|g| !g.variants.is_empty())
        .collect();
    let group = groups[typist.rng.below(groups.len())];
    let variant = &group.variants[typist.rng.below(group.variants.len())];
    let bare = group.variants.len() == 1 && typist.rng.chance(1, 2);
    let name = (!bare).then(|| variant_name(variant));
    emit(&group.name, name, arguments(typist, variant))
}

fn arguments(typist: &mut Typist, variant: &ConstructorVariant) -> Vec<Expr> {
    let ConstructorVariant::Struct { fields, .. } = variant else {
        return Vec::new();
    };
    let arg = |f: &FieldDecl| typist.sound(&Want::of(&f.ty), 2);
    fields.iter().map(arg).collect()
}

/// Transitions to every state, by every group, with a set of every variable.
fn tidy(module: &mut Module, states: &[String]) {
    let vars = module.vars.iter();
    let mut sets = vars.map(|v| set(&v.name, int(0))).collect();
    for (i, next) in states.iter().enumerate() {
        let group = &module.events[i % module.events.len()].name;
        module.transitions.push(Transition {
            id: 100 + i,
            priority: Some(100 + i as u32),
            assignments: std::mem::take(&mut sets),
            ..step(&states[0], group, next)
        });
    }
}

fn on_error(rng: &mut Rng, module: &mut Module, states: &[String]) {
    if rng.chance(1, 2) {
        return;
    }
    let next_state = states[rng.below(states.len())].clone();
    let scope = Scope::of(module);
    let typist = &mut Typist { rng, scope: &scope };
    let count = typist.rng.below(3);
    let emits = (0..count).map(|_| sound_output(typist, module)).collect();
    module.on_error = Some(OnError { next_state, emits });
}

/// Puts a fault with this site and cause into the module.
pub fn plant(rng: &mut Rng, module: &mut Module, (site, cause): (u32, u32)) {
    match site {
        1..=4 => plant_head(rng, module, site),
        5 => {
            let place = rng.below(module.vars.len());
            let scope = Scope::of(module);
            let levels = levels(rng, 28);
            let typist = &mut Typist { rng, scope: &scope };
            module.vars[place].init = typist.faulty(cause, levels);
        }
        6..=13 | 25 | 26 => {
            let place = some_transition(rng, module);
            let mut changed = module.transitions[place].clone();
            plant_transition(rng, module, &mut changed, site, cause);
            module.transitions[place] = changed;
        }
        14 | 15 | 24 => plant_pair(rng, module, site),
        16 | 17 => plant_on_error(rng, module, site, cause),
        18..=20 => plant_property(rng, module, site, cause),
        _ => plant_unused(rng, module, site),
    }
}

/// The place of a transition, the only one if there was none.
fn some_transition(rng: &mut Rng, module: &mut Module) -> usize {
    if module.transitions.is_empty() {
        let state = text(rng.of(STATES));
        let only = transition(rng, module, &[state], 0);
        module.transitions.push(only);
    }
    rng.below(module.transitions.len())
}

fn plant_head(rng: &mut Rng, module: &mut Module, site: u32) {
    match site {
        1 => match rng.chance(1, 2) {
            true => module.enums.retain(|e| e.name != "State"),
            false => module.enums.insert(0, enum_of("State", Vec::new())),
        },
        2 => module.initial_state = Some(text(rng.of(&["ghost", "x", "on"]))),
        3 => {
            module.initial_state = None;
            some_transition(rng, module);
        }
        _ => {
            let wrong = ["", "1", "1.", "1.2.3.4", "v1.0", "1.0 ", ".1", "1..2"];
            module.version = Some(text(rng.of(&wrong)));
        }
    }
}

fn plant_transition(
    rng: &mut Rng,
    module: &Module,
    transition: &mut Transition,
    site: u32,
    cause: u32,
) {
    let lost = text(rng.of(NOWHERE));
    match site {
        6 => return transition.state = lost,
        7 => return transition.next_state = lost,
        8 => return transition.pattern = faulty_pattern(rng, module, cause),
        _ => (),
    }
    let scope = scope_of(module, transition);
    let levels = levels(rng, 28);
    let typist = &mut Typist { rng, scope: &scope };
    match site {
        9 => transition.guard = Some(typist.faulty(cause, levels)),
        10 => transition.guard = Some(typist.no_bool(3)),
        11 => {
            let value = match typist.rng.chance(1, 2) {
                true => typist.faulty(20, levels),
                false => typist.no_bool(2),
            };
            insert(typist.rng, &mut transition.assignments, set(&lost, value));
        }
        12 => {
            let var = &module.vars[typist.rng.below(module.vars.len())];
            let bad = set(&var.name, typist.faulty(cause, levels));
            insert(typist.rng, &mut transition.assignments, bad);
        }
        13 => {
            let bad = faulty_output(typist, module, cause, levels);
            insert(typist.rng, &mut transition.emits, bad);
        }
        25 => transition.guard = Some(boolean(false)),
        _ => transition.guard = Some(clash(typist)),
    }
}

fn insert<T>(rng: &mut Rng, list: &mut Vec<T>, entry: T) {
    let place = rng.below(list.len() + 1);
    list.insert(place, entry);
}

/// Equalities of one or two names, joined in any shape; mostly a clash.
fn clash(typist: &mut Typist) -> Expr {
    let atoms = typist.rng.between(2, 4);
    let mut guard = atom(typist);
    for _ in 0..atoms {
        let other = match typist.rng.chance(1, 5) {
            true => typist.sound(&Want::Bool, 2),
            false => atom(typist),
        };
        let op = BinOp::LogicAnd;
        guard = match typist.rng.chance(1, 2) {
            true => binary(op, guard, other),
            false => binary(op, other, guard),
        };
    }
    guard
}

fn atom(typist: &mut Typist) -> Expr {
    let name = path(&[typist.rng.of(&["x", "x", "y", "n"])]);
    let value = int(typist.rng.of(&[0, 1, 2]));
    match typist.rng.chance(1, 2) {
        true => binary(BinOp::Eq, name, value),
        false => binary(BinOp::Eq, value, name),
    }
}

/// A struct variant that its group's name and its own lead to.
fn some_record<'a>(
    rng: &mut Rng,
    groups: &'a [ConstructorGroup],
) -> Option<(&'a str, &'a str, &'a [FieldDecl])> {
    let mut records = Vec::new();
    for (g, group) in groups.iter().enumerate() {
        let earlier = |g: &ConstructorGroup| g.name == group.name;
        if groups[..g].iter().any(earlier) {
            continue;
        }
        for (v, variant) in group.variants.iter().enumerate() {
            let name = variant_name(variant);
            let first = group.variants[..v].iter().all(|w| variant_name(w) != name);
            match variant {
                ConstructorVariant::Struct { fields, .. } if first => {
                    records.push((&group.name[..], name, &fields[..]))
                }
                _ => (),
            }
        }
    }
    match records.len() {
        0 => None,
        many => Some(records[rng.below(many)]),
    }
}

/// A pattern with the cause: of the declared fields, one at fault, and names
/// bound before it and after it.
fn faulty_pattern(rng: &mut Rng, module: &Module, cause: u32) -> EventPattern {
    let lost = rng.of(NOWHERE);
    let Some((group, variant, declared)) = some_record(rng, &module.events) else {
        return event(lost, None);
    };
    let fields = declared.iter().map(|f| sound_field(rng, &f.ty));
    let mut fields: Vec<PatternField> = fields.collect();
    bind(rng, &mut fields);
    match cause {
        1 => return event(lost, rng.chance(1, 2).then(|| unit_pattern(variant))),
        2 => return event(group, Some(field_pattern(lost, fields))),
        3 if rng.chance(1, 2) => fields.push(pattern(Some("k"), PatternExpr::Wildcard)),
        3 => {
            fields.pop();
        }
        4 => twice(rng, &mut fields),
        5 => return event(group, Some(field_pattern("go", fields))),
        6 => return event(group, Some(unit_pattern(variant))),
        _ => spoil(rng, &mut fields, declared, cause),
    }
    event(group, Some(field_pattern(variant, fields)))
}

/// A name for two fields, other names before and between them.
fn twice(rng: &mut Rng, fields: &mut [PatternField]) {
    let second = rng.between(1, fields.len() - 1);
    let first = rng.below(second);
    fields[first].name = Some(text("k"));
    fields[second].name = Some(text("k"));
}

/// A pattern with the cause at a field whose type can have it.
fn spoil(rng: &mut Rng, fields: &mut [PatternField], declared: &[FieldDecl], cause: u32) {
    let fits = |ty: &Type| match cause {
        7 => matches!(ty, Type::Bit { width } if *width < 64),
        8 => *ty == Type::Bool,
        9 | 11 => matches!(ty, Type::Enum { .. }),
        10 => *ty != Type::Bool,
        _ => !matches!(ty, Type::Enum { .. }),
    };
    let mut places: Vec<usize> = (0..fields.len()).collect();
    places.retain(|place| fits(&declared[*place].ty));
    if places.is_empty() {
        return;
    }
    let place = rng.of(&places);
    let wrong = wrong_literal(rng, &declared[place].ty, cause);
    fields[place].pattern = wrong;
}

fn wrong_literal(rng: &mut Rng, ty: &Type, cause: u32) -> PatternExpr {
    match (cause, ty) {
        (7, Type::Bit { width }) => PatternExpr::Int {
            value: rng.of(&[1 << width, (1 << width) + 1, u64::MAX]),
        },
        (7..=9, _) => PatternExpr::Int {
            value: rng.of(&[0, 1, u64::MAX]),
        },
        (10, _) => PatternExpr::Bool {
            value: rng.chance(1, 2),
        },
        (11, Type::Enum { name }) => PatternExpr::EnumVariant {
            path: match rng.below(4) {
                0 => Vec::new(),
                1 => vec![name.clone()],
                2 => texts(&["ghost", name]),
                _ => texts(&["on", name, "on"]),
            },
        },
        _ => PatternExpr::EnumVariant {
            path: texts(rng.of(&[&["Mode", "on"][..], &["on"], &[]])),
        },
    }
}

/// An output with the cause: of its own, or of one of its arguments.
fn faulty_output(typist: &mut Typist, module: &Module, cause: u32, levels: usize) -> OutputExpr {
    let lost = typist.rng.of(NOWHERE);
    let Some((group, variant, fields)) = some_record(typist.rng, &module.outputs) else {
        return emit(lost, None, Vec::new());
    };
    let args = fields.iter().map(|f| typist.sound(&Want::of(&f.ty), 2));
    let mut args: Vec<Expr> = args.collect();
    match cause {
        13 => return emit(lost, Some(variant), args),
        14 => return emit(typist.rng.of(&["O", "O", "R"]), None, args),
        15 => return emit(group, Some(lost), args),
        16 if typist.rng.chance(1, 2) => args.push(path(&[])),
        16 => {
            args.pop();
        }
        _ => {
            let place = typist.rng.below(args.len());
            let unfit = match cause {
                29 | 30 if levels < 2 => typist.unfit(&fields[place].ty, cause),
                _ => None,
            };
            args[place] = match unfit {
                Some(unfit) => unfit,
                None => typist.faulty(cause, levels),
            };
            if place + 1 < args.len() && typist.rng.chance(1, 3) {
                args[place + 1] = path(&[]);
            }
        }
    }
    emit(group, Some(variant), args)
}

/// Two transitions of one state and pattern: equal priorities; none and equal
/// guards; none and other guards. Other priorities and guards now and then.
fn plant_pair(rng: &mut Rng, module: &mut Module, site: u32) {
    let place = some_transition(rng, module);
    let mut again = module.transitions[place].clone();
    let given = rng.of(&[0, 1, u32::MAX]);
    let (one, other) = match site {
        14 => (Some(given), Some(given)),
        _ if rng.chance(1, 6) => (Some(given), None),
        _ if rng.chance(1, 6) => (Some(1), Some(2)),
        _ => (None, None),
    };
    module.transitions[place].priority = one;
    again.priority = other;
    let change = match site {
        14 => rng.chance(1, 2),
        15 => false,
        _ => true,
    };
    if change {
        again.guard = match &again.guard {
            Some(_) if rng.chance(1, 2) => None,
            Some(guard) => Some(unary(UnaryOp::Not, guard.clone())),
            None => Some(boolean(rng.chance(1, 2))),
        };
    }
    insert(rng, &mut module.transitions, again);
}

fn plant_on_error(rng: &mut Rng, module: &mut Module, site: u32, cause: u32) {
    let state = first_states(module).first().cloned();
    let mut on_error = module.on_error.take().unwrap_or(OnError {
        next_state: state.unwrap_or(text("A")),
        emits: Vec::new(),
    });
    if site == 16 {
        on_error.next_state = text(rng.of(NOWHERE));
    } else {
        let scope = Scope::of(module);
        let levels = levels(rng, 28);
        let typist = &mut Typist { rng, scope: &scope };
        let bad = faulty_output(typist, module, cause, levels);
        insert(rng, &mut on_error.emits, bad);
    }
    module.on_error = Some(on_error);
}

/// A property or an assumption with the fault.
fn plant_property(rng: &mut Rng, module: &mut Module, site: u32, cause: u32) {
    let scope = Scope::of(module);
    let levels = levels(rng, 20);
    let typist = &mut Typist { rng, scope: &scope };
    let formula = match site {
        18 => typist.formula(2),
        19 => typist.faulty_formula(cause, levels),
        _ => typist.bound_of_zero(levels),
    };
    let names = module.properties.iter().chain(&module.assumptions);
    let names: Vec<String> = names.map(|p| p.name.clone()).collect();
    let name = match site {
        18 if !names.is_empty() => names[rng.below(names.len())].clone(),
        _ => text(rng.of(&["bad", "worse", "p"])),
    };
    let bad = property(&name, formula);
    match rng.chance(1, 2) {
        true => insert(rng, &mut module.properties, bad),
        false => insert(rng, &mut module.assumptions, bad),
    }
}

/// A state, an event or a variable that nothing leads to.
fn plant_unused(rng: &mut Rng, module: &mut Module, site: u32) {
    match site {
        21 => {
            let states = module.enums.iter_mut().find(|e| e.name == "State");
            let Some(states) = states else { return };
            insert(rng, &mut states.variants, text("lost"));
        }
        22 => {
            let place = rng.below(module.events.len());
            let dead = unit(rng.of(&["dead", "go", "stop"]));
            insert(rng, &mut module.events[place].variants, dead);
        }
        _ => {
            let unused = var(rng.of(&["unused", "z"]), any_type(rng), int(0));
            insert(rng, &mut module.vars, unused);
        }
    }
}
