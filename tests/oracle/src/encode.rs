//! `Ir` to bytes by the deterministic encoding, and beside the bytes the list
//! of items they are made of: what is due at each, and where it stands. The
//! generators damage documents item by item with that list.

use crate::lang::ir::*;

pub const UNSIGNED: u8 = 0;
pub const TEXT: u8 = 3;
pub const ARRAY: u8 = 4;
pub const SIMPLE: u8 = 7;
pub const FALSE: u8 = 0xf4;
pub const TRUE: u8 = 0xf5;
pub const NULL: u8 = 0xf6;

/// What is due where an item stands.
#[derive(Debug, Clone, Copy, PartialEq, Eq)]
pub enum Role {
    /// The array of a struct, with its field count.
    Record(u64),
    /// The array of a data enum, with the entry count of each case.
    Choice(&'static [u64]),
    /// The case number in a data enum, with the entry count of each case.
    Case(&'static [u64]),
    /// A bare case number, with the number of cases.
    Operator(u64),
    /// A list, with its limit.
    List(u64),
    Name,
    Version,
    IrVersion,
    /// A number below 2^32.
    Word,
    /// Any u64.
    Number,
    Bool,
}

impl Role {
    /// The major type that is due.
    pub fn major(self) -> u8 {
        match self {
            Role::Record(_) | Role::Choice(_) | Role::List(_) => ARRAY,
            Role::Name | Role::Version => TEXT,
            Role::Bool => SIMPLE,
            _ => UNSIGNED,
        }
    }
}

/// One item of an encoded document.
#[derive(Debug, Clone, Copy)]
pub struct Item {
    /// The field, or the type of an entry.
    pub label: &'static str,
    pub role: Role,
    /// Where it starts, where its head ends, where its own bytes end (of a
    /// string its bytes too), and where the items inside it end.
    pub at: usize,
    pub head: usize,
    pub own: usize,
    pub end: usize,
    /// The argument of its head.
    pub argument: u64,
    /// Null may stand here; and null does stand here.
    pub optional: bool,
    pub absent: bool,
    /// Depth of an expression or formula, 0 for all else.
    pub depth: u32,
}

impl Item {
    /// Items directly inside this one.
    fn children(&self) -> u64 {
        match self.role {
            _ if self.absent => 0,
            Role::Record(_) | Role::Choice(_) | Role::List(_) => self.argument,
            _ => 0,
        }
    }

    /// The refusal an item of the right kind, count and case gives.
    fn fault(&self) -> Option<u32> {
        let over = match self.role {
            _ if self.depth > 32 => return Some(7),
            _ if self.absent => false,
            Role::IrVersion if self.argument > 1 => return Some(9),
            Role::List(limit) => self.argument > limit,
            Role::Name => self.argument == 0 || self.argument > 64,
            Role::Version => self.argument > 64,
            _ => false,
        };
        over.then_some(5)
    }
}

/// An encoded document with its items from left to right.
pub struct Encoded {
    pub bytes: Vec<u8>,
    pub items: Vec<Item>,
}

impl Encoded {
    /// The answer for this document, from its items alone. The strings must
    /// keep to their alphabets.
    pub fn answer(&self) -> (u32, u64) {
        if self.bytes.len() > 65_535 {
            return (1, 0);
        }
        let faults = |item: &Item| Some((item.fault()?, item.at as u64));
        self.items.iter().find_map(faults).unwrap_or((0, 0))
    }

    /// The first item of this label.
    pub fn find(&self, label: &str) -> Option<usize> {
        self.items.iter().position(|item| item.label == label)
    }
}

pub fn encode(ir: &Ir) -> Vec<u8> {
    write(ir).bytes
}

/// The document with its items.
pub fn itemise(ir: &Ir) -> Encoded {
    let mut written = write(ir);
    close(&mut written.items, 0);
    Encoded {
        bytes: written.bytes,
        items: written.items,
    }
}

fn write(ir: &Ir) -> Writer {
    let mut writer = Writer::default();
    writer.ir(ir);
    writer
}

/// Sets `end` of the item and of all inside it; gives the index after them.
fn close(items: &mut [Item], index: usize) -> usize {
    let mut next = index + 1;
    for _ in 0..items[index].children() {
        next = close(items, next);
    }
    items[index].end = items[next - 1].own;
    next
}

/// The shortest head.
pub fn head(major: u8, argument: u64) -> Vec<u8> {
    let width = match argument {
        0..=23 => 0,
        24..=0xff => 1,
        0x100..=0xffff => 2,
        0x1_0000..=0xffff_ffff => 4,
        _ => 8,
    };
    wide_head(major, argument, width)
}

/// A head with so many argument bytes (0, 1, 2, 4 or 8), needed or not.
pub fn wide_head(major: u8, argument: u64, width: usize) -> Vec<u8> {
    let information = match width {
        0 => argument as u8,
        1 => 24,
        2 => 25,
        4 => 26,
        _ => 27,
    };
    let mut bytes = vec![major << 5 | information];
    bytes.extend(&argument.to_be_bytes()[8 - width..]);
    bytes
}

/// Entry counts of the data enums, by case in ir.rs order: the case number
/// and the case's fields.
pub const TYPE: &[u64] = &[1, 2, 2];
pub const CONSTRUCTOR_VARIANT: &[u64] = &[2, 3];
pub const PATTERN_VARIANT: &[u64] = &[2, 3];
pub const PATTERN_EXPR: &[u64] = &[1, 2, 2, 2, 2];
pub const FORMULA: &[u64] = &[2, 2, 2, 2, 3, 3, 3, 2, 2, 3, 3, 2, 3];
pub const EXPR: &[u64] = &[2, 2, 2, 3, 4];

const ENTRIES: u64 = 255;

#[derive(Default)]
struct Writer {
    bytes: Vec<u8>,
    items: Vec<Item>,
    /// The next item may be null.
    optional: bool,
}

// Items of one kind each.
impl Writer {
    fn item(&mut self, label: &'static str, role: Role, argument: u64, text: &str) {
        let at = self.bytes.len();
        self.bytes.extend(head(role.major(), argument));
        let head = self.bytes.len();
        self.bytes.extend(text.as_bytes());
        let own = self.bytes.len();
        self.items.push(Item {
            label,
            role,
            at,
            head,
            own,
            end: own,
            argument,
            optional: std::mem::take(&mut self.optional),
            absent: false,
            depth: 0,
        });
    }

    /// The item just written.
    fn last(&mut self) -> &mut Item {
        self.items.last_mut().expect("an item was written")
    }

    fn number(&mut self, label: &'static str, role: Role, value: u64) {
        self.item(label, role, value, "");
    }

    fn text(&mut self, label: &'static str, role: Role, text: &str) {
        self.item(label, role, text.len() as u64, text);
    }

    fn name(&mut self, label: &'static str, name: &str) {
        self.text(label, Role::Name, name);
    }

    /// false and true are major type 7 with information 20 and 21.
    fn boolean(&mut self, label: &'static str, value: bool) {
        self.item(label, Role::Bool, 20 + u64::from(value), "");
    }

    fn record(&mut self, label: &'static str, fields: u64) {
        self.item(label, Role::Record(fields), fields, "");
    }

    /// The front of a data enum: its array and its case number.
    fn choice(&mut self, names: Names, counts: &'static [u64], case: usize) {
        self.item(names.0, Role::Choice(counts), counts[case], "");
        self.item(names.1, Role::Case(counts), case as u64, "");
    }

    /// The same for an expression or formula at a depth.
    fn node(&mut self, names: Names, counts: &'static [u64], case: usize, depth: u32) {
        self.choice(names, counts, case);
        let array = self.items.len() - 2;
        self.items[array].depth = depth;
    }

    fn list<T>(
        &mut self,
        label: &'static str,
        limit: u64,
        entries: &[T],
        entry: impl Fn(&mut Self, &T),
    ) {
        self.item(label, Role::List(limit), entries.len() as u64, "");
        for e in entries {
            entry(self, e);
        }
    }

    fn option<T>(
        &mut self,
        label: &'static str,
        role: Role,
        value: &Option<T>,
        item: impl Fn(&mut Self, &T),
    ) {
        self.optional = true;
        match value {
            Some(value) => item(self, value),
            None => self.null(label, role),
        }
    }

    fn null(&mut self, label: &'static str, role: Role) {
        self.item(label, Role::Bool, 22, "");
        let item = self.last();
        item.role = role;
        item.absent = true;
    }
}

/// The labels of a data enum's array and of its case number.
type Names = (&'static str, &'static str);

// The types of ir.rs, in its order.
impl Writer {
    fn ir(&mut self, ir: &Ir) {
        self.record("Ir", 2);
        self.number("Ir.ir_version", Role::IrVersion, ir.ir_version.into());
        self.list("Ir.modules", 16, &ir.modules, Self::module);
    }

    fn module(&mut self, m: &Module) {
        self.record("Module", 11);
        self.name("Module.name", &m.name);
        self.option("Module.version", Role::Version, &m.version, |w, v| {
            w.text("Module.version", Role::Version, v)
        });
        self.option(
            "Module.on_error",
            Role::Record(2),
            &m.on_error,
            Self::on_error,
        );
        self.list("Module.enums", ENTRIES, &m.enums, Self::enum_decl);
        self.option(
            "Module.initial_state",
            Role::Name,
            &m.initial_state,
            |w, s| w.name("Module.initial_state", s),
        );
        self.list("Module.events", ENTRIES, &m.events, Self::group);
        self.list("Module.outputs", ENTRIES, &m.outputs, Self::group);
        self.list("Module.vars", ENTRIES, &m.vars, Self::var_decl);
        self.list(
            "Module.transitions",
            ENTRIES,
            &m.transitions,
            Self::transition,
        );
        self.list("Module.properties", ENTRIES, &m.properties, Self::property);
        self.list(
            "Module.assumptions",
            ENTRIES,
            &m.assumptions,
            Self::property,
        );
    }

    fn on_error(&mut self, o: &OnError) {
        self.record("Module.on_error", 2);
        self.name("OnError.next_state", &o.next_state);
        self.list("OnError.emits", ENTRIES, &o.emits, Self::output_expr);
    }

    fn enum_decl(&mut self, e: &EnumDecl) {
        self.record("EnumDecl", 2);
        self.name("EnumDecl.name", &e.name);
        self.list("EnumDecl.variants", ENTRIES, &e.variants, |w, v| {
            w.name("EnumDecl.variant", v)
        });
    }

    fn type_(&mut self, label: &'static str, ty: &Type) {
        let names = (label, "Type.case");
        match ty {
            Type::Bool => self.choice(names, TYPE, 0),
            Type::Bit { width } => {
                self.choice(names, TYPE, 1);
                self.number("Bit.width", Role::Word, (*width).into());
            }
            Type::Enum { name } => {
                self.choice(names, TYPE, 2);
                self.name("Enum.name", name);
            }
        }
    }

    fn field_decl(&mut self, f: &FieldDecl) {
        self.record("FieldDecl", 2);
        self.name("FieldDecl.name", &f.name);
        self.type_("FieldDecl.ty", &f.ty);
    }

    fn group(&mut self, g: &ConstructorGroup) {
        self.record("ConstructorGroup", 2);
        self.name("ConstructorGroup.name", &g.name);
        self.list(
            "ConstructorGroup.variants",
            ENTRIES,
            &g.variants,
            Self::constructor_variant,
        );
    }

    fn constructor_variant(&mut self, v: &ConstructorVariant) {
        let names = ("ConstructorVariant", "ConstructorVariant.case");
        match v {
            ConstructorVariant::Unit { name } => {
                self.choice(names, CONSTRUCTOR_VARIANT, 0);
                self.name("ConstructorVariant::Unit.name", name);
            }
            ConstructorVariant::Struct { name, fields } => {
                self.choice(names, CONSTRUCTOR_VARIANT, 1);
                self.name("ConstructorVariant::Struct.name", name);
                self.list(
                    "ConstructorVariant::Struct.fields",
                    ENTRIES,
                    fields,
                    Self::field_decl,
                );
            }
        }
    }

    fn var_decl(&mut self, v: &VarDecl) {
        self.record("VarDecl", 3);
        self.name("VarDecl.name", &v.name);
        self.type_("VarDecl.ty", &v.ty);
        self.expr("VarDecl.init", &v.init, 1);
    }

    fn transition(&mut self, t: &Transition) {
        self.record("Transition", 8);
        self.number("Transition.id", Role::Number, t.id as u64);
        self.name("Transition.state", &t.state);
        self.record("Transition.pattern", 2);
        self.pattern(&t.pattern.group, &t.pattern.variant);
        self.option(
            "Transition.guard",
            Role::Choice(EXPR),
            &t.guard,
            |w, guard| w.expr("Transition.guard", guard, 1),
        );
        self.name("Transition.next_state", &t.next_state);
        self.list("Transition.emits", ENTRIES, &t.emits, Self::output_expr);
        self.list(
            "Transition.assignments",
            ENTRIES,
            &t.assignments,
            Self::assignment,
        );
        self.option("Transition.priority", Role::Word, &t.priority, |w, p| {
            w.number("Transition.priority", Role::Word, (*p).into())
        });
    }

    /// The two fields of an event or output pattern.
    fn pattern(&mut self, group: &str, variant: &Option<PatternVariant>) {
        self.name("Pattern.group", group);
        self.option(
            "Pattern.variant",
            Role::Choice(PATTERN_VARIANT),
            variant,
            Self::pattern_variant,
        );
    }

    fn pattern_variant(&mut self, v: &PatternVariant) {
        let names = ("Pattern.variant", "PatternVariant.case");
        match v {
            PatternVariant::Unit { name } => {
                self.choice(names, PATTERN_VARIANT, 0);
                self.name("PatternVariant::Unit.name", name);
            }
            PatternVariant::Struct { name, fields } => {
                self.choice(names, PATTERN_VARIANT, 1);
                self.name("PatternVariant::Struct.name", name);
                self.list(
                    "PatternVariant::Struct.fields",
                    ENTRIES,
                    fields,
                    Self::pattern_field,
                );
            }
        }
    }

    fn pattern_field(&mut self, f: &PatternField) {
        self.record("PatternField", 2);
        self.option("PatternField.name", Role::Name, &f.name, |w, n| {
            w.name("PatternField.name", n)
        });
        self.pattern_expr(&f.pattern);
    }

    fn pattern_expr(&mut self, p: &PatternExpr) {
        let names = ("PatternField.pattern", "PatternExpr.case");
        match p {
            PatternExpr::Wildcard => self.choice(names, PATTERN_EXPR, 0),
            PatternExpr::Bind { name } => {
                self.choice(names, PATTERN_EXPR, 1);
                self.name("PatternExpr::Bind.name", name);
            }
            PatternExpr::Int { value } => {
                self.choice(names, PATTERN_EXPR, 2);
                self.number("PatternExpr::Int.value", Role::Number, *value);
            }
            PatternExpr::Bool { value } => {
                self.choice(names, PATTERN_EXPR, 3);
                self.boolean("PatternExpr::Bool.value", *value);
            }
            PatternExpr::EnumVariant { path } => {
                self.choice(names, PATTERN_EXPR, 4);
                self.path("PatternExpr::EnumVariant.path", path);
            }
        }
    }

    fn path(&mut self, label: &'static str, path: &[String]) {
        self.list(label, 8, path, |w, segment| w.name("path segment", segment));
    }

    fn output_expr(&mut self, o: &OutputExpr) {
        self.record("OutputExpr", 3);
        self.name("OutputExpr.group", &o.group);
        self.option("OutputExpr.variant", Role::Name, &o.variant, |w, v| {
            w.name("OutputExpr.variant", v)
        });
        self.list("OutputExpr.args", ENTRIES, &o.args, |w, arg| {
            w.expr("OutputExpr.arg", arg, 1)
        });
    }

    fn assignment(&mut self, a: &Assignment) {
        self.record("Assignment", 2);
        self.name("Assignment.var", &a.var);
        self.expr("Assignment.value", &a.value, 1);
    }

    fn property(&mut self, p: &Property) {
        self.record("Property", 2);
        self.name("Property.name", &p.name);
        self.formula("Property.formula", &p.formula, 1);
    }

    fn formula(&mut self, label: &'static str, f: &Formula, depth: u32) {
        let names = (label, "Formula.case");
        self.node(names, FORMULA, formula_case(f), depth);
        match f {
            Formula::InputIs { pattern } => {
                self.record("InputIs.pattern", 2);
                self.pattern(&pattern.group, &pattern.variant);
            }
            Formula::OutputHas { pattern } => {
                self.record("OutputHas.pattern", 2);
                self.pattern(&pattern.group, &pattern.variant);
            }
            Formula::Expr { expr } => self.expr("Formula::Expr.expr", expr, depth + 1),
            Formula::Not { inner }
            | Formula::Next { inner }
            | Formula::Always { inner }
            | Formula::Eventually { inner } => self.formula("Formula.inner", inner, depth + 1),
            Formula::BoundedAlways { bound, inner }
            | Formula::BoundedEventually { bound, inner } => {
                self.number("Formula.bound", Role::Number, *bound);
                self.formula("Formula.inner", inner, depth + 1);
            }
            Formula::And { left, right }
            | Formula::Or { left, right }
            | Formula::Implies { left, right }
            | Formula::Until { left, right } => {
                self.formula("Formula.left", left, depth + 1);
                self.formula("Formula.right", right, depth + 1);
            }
        }
    }

    fn expr(&mut self, label: &'static str, e: &Expr, depth: u32) {
        let names = (label, "Expr.case");
        match e {
            Expr::Int { value } => {
                self.node(names, EXPR, 0, depth);
                self.number("Expr::Int.value", Role::Number, *value);
            }
            Expr::Bool { value } => {
                self.node(names, EXPR, 1, depth);
                self.boolean("Expr::Bool.value", *value);
            }
            Expr::Path { path } => {
                self.node(names, EXPR, 2, depth);
                self.path("Expr::Path.path", path);
            }
            Expr::Unary { op, expr } => {
                self.node(names, EXPR, 3, depth);
                self.number("Unary.op", Role::Operator(3), *op as u64);
                self.expr("Unary.expr", expr, depth + 1);
            }
            Expr::Binary { op, left, right } => {
                self.node(names, EXPR, 4, depth);
                self.number("Binary.op", Role::Operator(16), *op as u64);
                self.expr("Binary.left", left, depth + 1);
                self.expr("Binary.right", right, depth + 1);
            }
        }
    }
}

fn formula_case(f: &Formula) -> usize {
    match f {
        Formula::InputIs { .. } => 0,
        Formula::OutputHas { .. } => 1,
        Formula::Expr { .. } => 2,
        Formula::Not { .. } => 3,
        Formula::And { .. } => 4,
        Formula::Or { .. } => 5,
        Formula::Implies { .. } => 6,
        Formula::Next { .. } => 7,
        Formula::Always { .. } => 8,
        Formula::BoundedAlways { .. } => 9,
        Formula::BoundedEventually { .. } => 10,
        Formula::Eventually { .. } => 11,
        Formula::Until { .. } => 12,
    }
}
