//! Short makers of `Ir` parts.

use crate::lang::ir::*;

pub fn text(s: &str) -> String {
    s.to_string()
}

pub fn texts(list: &[&str]) -> Vec<String> {
    list.iter().map(|s| text(s)).collect()
}

/// One module `M` with these changes.
pub fn one(change: impl FnOnce(&mut Module)) -> Ir {
    let mut module = bare("M");
    change(&mut module);
    ir(vec![module])
}

pub fn ir(modules: Vec<Module>) -> Ir {
    Ir {
        ir_version: 1,
        modules,
    }
}

/// A module with nothing but its name.
pub fn bare(name: &str) -> Module {
    Module {
        name: text(name),
        ..Module::default()
    }
}

pub fn enum_decl(name: &str, variants: &[&str]) -> EnumDecl {
    EnumDecl {
        name: text(name),
        variants: texts(variants),
    }
}

pub fn bit(width: u32) -> Type {
    Type::Bit { width }
}

pub fn enum_type(name: &str) -> Type {
    Type::Enum { name: text(name) }
}

pub fn group(name: &str, variants: Vec<ConstructorVariant>) -> ConstructorGroup {
    ConstructorGroup {
        name: text(name),
        variants,
    }
}

pub fn unit(name: &str) -> ConstructorVariant {
    ConstructorVariant::Unit { name: text(name) }
}

pub fn with_fields(name: &str, fields: &[(&str, Type)]) -> ConstructorVariant {
    ConstructorVariant::Struct {
        name: text(name),
        fields: fields.iter().map(|(n, ty)| field(n, ty)).collect(),
    }
}

fn field(name: &str, ty: &Type) -> FieldDecl {
    FieldDecl {
        name: text(name),
        ty: ty.clone(),
    }
}

pub fn var(name: &str, ty: Type, init: Expr) -> VarDecl {
    VarDecl {
        name: text(name),
        ty,
        init,
    }
}

/// A transition with nothing but its two states and a bare pattern.
pub fn step(state: &str, group: &str, next_state: &str) -> Transition {
    Transition {
        id: 0,
        state: text(state),
        pattern: event(group, None),
        guard: None,
        next_state: text(next_state),
        emits: Vec::new(),
        assignments: Vec::new(),
        priority: None,
    }
}

pub fn event(group: &str, variant: Option<PatternVariant>) -> EventPattern {
    EventPattern {
        group: text(group),
        variant,
    }
}

pub fn output(group: &str, variant: Option<PatternVariant>) -> OutputPattern {
    OutputPattern {
        group: text(group),
        variant,
    }
}

pub fn unit_pattern(name: &str) -> PatternVariant {
    PatternVariant::Unit { name: text(name) }
}

pub fn field_pattern(name: &str, fields: Vec<PatternField>) -> PatternVariant {
    PatternVariant::Struct {
        name: text(name),
        fields,
    }
}

pub fn pattern(name: Option<&str>, pattern: PatternExpr) -> PatternField {
    PatternField {
        name: name.map(text),
        pattern,
    }
}

pub fn emit(group: &str, variant: Option<&str>, args: Vec<Expr>) -> OutputExpr {
    OutputExpr {
        group: text(group),
        variant: variant.map(text),
        args,
    }
}

pub fn set(var: &str, value: Expr) -> Assignment {
    Assignment {
        var: text(var),
        value,
    }
}

pub fn property(name: &str, formula: Formula) -> Property {
    Property {
        name: text(name),
        formula,
    }
}

pub fn int(value: u64) -> Expr {
    Expr::Int { value }
}

pub fn boolean(value: bool) -> Expr {
    Expr::Bool { value }
}

pub fn path(segments: &[&str]) -> Expr {
    Expr::Path {
        path: texts(segments),
    }
}

pub fn unary(op: UnaryOp, expr: Expr) -> Expr {
    Expr::Unary {
        op,
        expr: Box::new(expr),
    }
}

pub fn binary(op: BinOp, left: Expr, right: Expr) -> Expr {
    Expr::Binary {
        op,
        left: Box::new(left),
        right: Box::new(right),
    }
}

pub fn holds(expr: Expr) -> Formula {
    Formula::Expr { expr }
}

pub const UNARY_OPS: [UnaryOp; 3] = [UnaryOp::Not, UnaryOp::BitNot, UnaryOp::Neg];

pub const BIN_OPS: [BinOp; 16] = [
    BinOp::Plus,
    BinOp::Minus,
    BinOp::Star,
    BinOp::ShiftLeft,
    BinOp::ShiftRight,
    BinOp::Eq,
    BinOp::NotEq,
    BinOp::Lt,
    BinOp::Le,
    BinOp::Gt,
    BinOp::Ge,
    BinOp::BitOr,
    BinOp::BitXor,
    BinOp::BitAnd,
    BinOp::LogicOr,
    BinOp::LogicAnd,
];

/// Kinds of formula with one child, and with two.
pub const ONE_CHILD: usize = 6;
pub const TWO_CHILDREN: usize = 4;

/// The formula of the given kind below `ONE_CHILD`.
pub fn over(kind: usize, bound: u64, inner: Formula) -> Formula {
    let inner = Box::new(inner);
    match kind {
        0 => Formula::Not { inner },
        1 => Formula::Next { inner },
        2 => Formula::Always { inner },
        3 => Formula::BoundedAlways { bound, inner },
        4 => Formula::BoundedEventually { bound, inner },
        _ => Formula::Eventually { inner },
    }
}

/// The formula of the given kind below `TWO_CHILDREN`.
pub fn join(kind: usize, left: Formula, right: Formula) -> Formula {
    let (left, right) = (Box::new(left), Box::new(right));
    match kind {
        0 => Formula::And { left, right },
        1 => Formula::Or { left, right },
        2 => Formula::Implies { left, right },
        _ => Formula::Until { left, right },
    }
}
