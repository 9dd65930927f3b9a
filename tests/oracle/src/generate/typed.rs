//! Expressions and formulas of a wanted type, and such with a fault of a
//! wanted cause. The original says what they are; this only aims.

use super::build::*;
use super::rng::Rng;
use crate::lang::ir::*;

/// Names that are declared nowhere.
pub const NOWHERE: &[&str] = &["ghost", "Nobody", "a0", "Z"];

/// What an expression is to be.
#[derive(Debug, Clone, PartialEq)]
pub enum Want {
    Bool,
    Bit(u32),
    Literal,
    Enum(String),
}

impl Want {
    pub fn of(ty: &Type) -> Want {
        match ty {
            Type::Bool => Want::Bool,
            Type::Bit { width } => Want::Bit(*width),
            Type::Enum { name } => Want::Enum(name.clone()),
        }
    }

    fn is_bits(&self) -> bool {
        matches!(self, Want::Bit(_) | Want::Literal)
    }
}

/// What names mean: the last of a name counts, and bindings come last.
#[derive(Clone)]
pub struct Scope {
    names: Vec<(String, Type)>,
    enums: Vec<EnumDecl>,
}

impl Scope {
    pub fn of(module: &Module) -> Scope {
        let names = module.vars.iter().map(|v| (v.name.clone(), v.ty.clone()));
        Scope {
            names: names.collect(),
            enums: module.enums.clone(),
        }
    }

    pub fn with(&self, bindings: Vec<(String, Type)>) -> Scope {
        let mut scope = self.clone();
        scope.names.extend(bindings);
        scope
    }

    /// The names that are not hidden by a later one or by `state`.
    fn seen(&self) -> Vec<&(String, Type)> {
        let hidden = |i: usize, name: &str| {
            name == "state" || self.names[i + 1..].iter().any(|(later, _)| later == name)
        };
        let all = self.names.iter().enumerate();
        all.filter(|(i, (name, _))| !hidden(*i, name))
            .map(|(_, one)| one)
            .collect()
    }

    fn declared(&self, name: &str) -> Option<&EnumDecl> {
        self.enums.iter().rev().find(|e| e.name == name)
    }

    /// Every path of the wanted type.
    fn paths(&self, want: &Want) -> Vec<Expr> {
        let seen = self.seen();
        let of_type = seen.iter().filter(|(_, ty)| Want::of(ty) == *want);
        let mut paths: Vec<Expr> = of_type.map(|(name, _)| path(&[name])).collect();
        let Want::Enum(name) = want else {
            return paths;
        };
        let variants = self.declared(name).map(|e| &e.variants[..]);
        let variants = variants.unwrap_or(&[]);
        paths.extend(variants.iter().map(|v| path(&[name, v])));
        if name == "State" {
            paths.push(path(&["state"]));
            let plain = variants
                .iter()
                .filter(|v| !seen.iter().any(|(n, _)| n == *v));
            paths.extend(plain.map(|v| path(&[v])));
        }
        paths
    }

    /// Every type that some expression has.
    pub fn wants(&self) -> Vec<Want> {
        let mut wants = vec![Want::Bool, Want::Literal, Want::Bit(8)];
        let named = self.seen().into_iter().map(|(_, ty)| Want::of(ty));
        let listed = self.enums.iter().map(|e| Want::Enum(e.name.clone()));
        for want in named.chain(listed) {
            if !wants.contains(&want) && !self.paths(&want).is_empty() {
                wants.push(want);
            }
        }
        wants
    }
}

/// Makes expressions in a scope.
pub struct Typist<'a> {
    pub rng: &'a mut Rng,
    pub scope: &'a Scope,
}

impl Typist<'_> {
    /// One of the types that pass the test.
    fn want(&mut self, test: impl Fn(&Want) -> bool) -> Want {
        let mut wants = self.scope.wants();
        wants.retain(test);
        let one = self.rng.below(wants.len());
        wants.swap_remove(one)
    }

    fn any(&mut self, levels: usize) -> Expr {
        let want = self.want(|_| true);
        self.sound(&want, levels)
    }

    /// A bool or an enum.
    fn no_bits(&mut self, levels: usize) -> Expr {
        let want = self.want(|want| !want.is_bits());
        self.sound(&want, levels)
    }

    fn bits(&mut self, levels: usize) -> Expr {
        let want = self.want(Want::is_bits);
        self.sound(&want, levels)
    }

    pub fn no_bool(&mut self, levels: usize) -> Expr {
        let want = self.want(|want| *want != Want::Bool);
        self.sound(&want, levels)
    }

    /// An expression of the type, with so many levels or one more.
    pub fn sound(&mut self, want: &Want, levels: usize) -> Expr {
        let known = *want == Want::Bit(8) || self.scope.wants().contains(want);
        if levels <= 1 || !known || self.rng.chance(1, 4) {
            return self.leaf(want);
        }
        let below = levels - 1;
        match want {
            Want::Bool => self.sound_bool(below),
            Want::Bit(8) if self.rng.chance(1, 3) => self.sum_of_literals(below),
            Want::Bit(width) => self.sound_bits(*width, below),
            _ => self.leaf(want),
        }
    }

    fn leaf(&mut self, want: &Want) -> Expr {
        let paths = self.scope.paths(want);
        match want {
            Want::Bool if paths.is_empty() || self.rng.chance(1, 3) => {
                boolean(self.rng.chance(1, 2))
            }
            Want::Literal => self.literal(),
            Want::Bit(8) if paths.is_empty() || self.rng.chance(1, 6) => {
                let op = self.rng.of(&[UnaryOp::BitNot, UnaryOp::Neg]);
                unary(op, self.literal())
            }
            _ if paths.is_empty() => self.literal(),
            _ => paths[self.rng.below(paths.len())].clone(),
        }
    }

    fn literal(&mut self) -> Expr {
        let any = self.rng.next() >> self.rng.below(64);
        int(self.rng.of(&[0, 1, 2, 255, 256, u64::MAX, any]))
    }

    fn sound_bool(&mut self, levels: usize) -> Expr {
        match self.rng.below(5) {
            0 => unary(UnaryOp::Not, self.sound(&Want::Bool, levels)),
            1 => {
                let op = self.rng.of(&[BinOp::LogicAnd, BinOp::LogicOr]);
                self.two(op, &Want::Bool, &Want::Bool, levels)
            }
            2 => {
                let op = self.rng.of(&[BinOp::BitAnd, BinOp::BitOr]);
                self.two(op, &Want::Bool, &Want::Bool, levels)
            }
            _ => {
                let op = self.comparison();
                let want = self.want(|_| true);
                match want {
                    Want::Bit(_) if self.rng.chance(1, 2) => {
                        self.either_way(op, &want, &Want::Literal, levels)
                    }
                    _ => self.two(op, &want, &want, levels),
                }
            }
        }
    }

    fn sound_bits(&mut self, width: u32, levels: usize) -> Expr {
        let want = Want::Bit(width);
        match self.rng.below(4) {
            0 => {
                let op = self.rng.of(&[UnaryOp::BitNot, UnaryOp::Neg]);
                unary(op, self.sound(&want, levels))
            }
            1 => {
                let op = self.shift();
                let left = self.sound(&want, levels);
                binary(op, left, self.bits(levels))
            }
            2 => {
                let op = self.arithmetic();
                self.either_way(op, &want, &Want::Literal, levels)
            }
            _ => {
                let op = self.arithmetic();
                self.two(op, &want, &want, levels)
            }
        }
    }

    /// Literals that make bit<8>.
    fn sum_of_literals(&mut self, levels: usize) -> Expr {
        match self.rng.below(2) {
            0 => {
                let op = self.shift();
                let left = self.literal();
                binary(op, left, self.bits(levels))
            }
            _ => {
                let op = self.arithmetic();
                let left = self.literal();
                binary(op, left, self.literal())
            }
        }
    }

    fn two(&mut self, op: BinOp, left: &Want, right: &Want, levels: usize) -> Expr {
        let left = self.sound(left, levels);
        binary(op, left, self.sound(right, levels))
    }

    fn either_way(&mut self, op: BinOp, one: &Want, other: &Want, levels: usize) -> Expr {
        match self.rng.chance(1, 2) {
            true => self.two(op, one, other, levels),
            false => self.two(op, other, one, levels),
        }
    }

    fn comparison(&mut self) -> BinOp {
        self.rng.of(&BIN_OPS[5..11])
    }

    fn shift(&mut self) -> BinOp {
        self.rng.of(&BIN_OPS[3..5])
    }

    /// An operator on two bitvectors.
    fn arithmetic(&mut self) -> BinOp {
        let ops = [0, 1, 2, 11, 12, 13];
        BIN_OPS[self.rng.of(&ops)]
    }

    fn nowhere(&mut self) -> &'static str {
        self.rng.of(NOWHERE)
    }

    /// An expression with the cause, inside so many levels of others.
    pub fn faulty(&mut self, cause: u32, levels: usize) -> Expr {
        let mut bad = self.fault(cause);
        for _ in 0..levels {
            bad = self.around(bad);
        }
        bad
    }

    /// Something whose first fault is that of the part.
    fn around(&mut self, bad: Expr) -> Expr {
        let op = self.rng.of(&BIN_OPS);
        match self.rng.below(4) {
            0 => unary(self.rng.of(&UNARY_OPS), bad),
            1 => {
                let other = self.rng.of(&[20, 21, 28, 29]);
                binary(op, bad, self.fault(other))
            }
            2 => binary(op, bad, self.any(2)),
            _ => binary(op, self.any(2), bad),
        }
    }

    /// The least expression with the cause.
    fn fault(&mut self, cause: u32) -> Expr {
        match cause {
            17 => self.no_bool_operand(),
            18 => unary(UnaryOp::BitNot, self.no_bits(1)),
            19 => unary(UnaryOp::Neg, self.no_bits(1)),
            20 => path(&[]),
            21 => path(&[self.nowhere()]),
            22 | 23 | 24 => self.faulty_path(cause),
            25 => {
                let op = self.shift();
                let left = self.no_bits(1);
                binary(op, left, self.any(1))
            }
            26 => {
                let op = self.shift();
                let left = self.bits(1);
                binary(op, left, self.no_bits(1))
            }
            27 => self.two_widths(),
            28 => {
                let op = self.arithmetic();
                self.no_bitvectors(op)
            }
            29 => {
                let op = self.comparison();
                self.either_way(op, &Want::Literal, &Want::Bool, 1)
            }
            _ => self.two_types(),
        }
    }

    fn no_bool_operand(&mut self) -> Expr {
        let op = self.rng.of(&[BinOp::LogicAnd, BinOp::LogicOr]);
        let bad = self.no_bool(1);
        match self.rng.below(3) {
            0 => unary(UnaryOp::Not, bad),
            1 => binary(op, bad, self.any(1)),
            _ => binary(op, self.sound(&Want::Bool, 1), bad),
        }
    }

    /// An unknown enum, an unknown variant, or more than two segments.
    fn faulty_path(&mut self, cause: u32) -> Expr {
        let mut known: Vec<(&str, &str)> = Vec::new();
        for e in &self.scope.enums {
            let last = self.scope.declared(&e.name).expect("it is declared");
            known.extend(last.variants.iter().map(|v| (&e.name[..], &v[..])));
        }
        let (name, variant) = match known.len() {
            0 => ("State", "A"),
            many => known[self.rng.below(many)],
        };
        let mut segments = match cause {
            22 => vec![self.nowhere(), variant],
            23 => vec![name, self.nowhere()],
            _ => vec![name, variant, variant],
        };
        let more = self.rng.of(&[0, 0, 0, 1, 5]);
        segments.extend(vec![name; more]);
        path(&segments)
    }

    /// Two bitvectors of different widths, where there are two widths.
    fn two_widths(&mut self) -> Expr {
        let op = self.arithmetic();
        let left = self.want(|want| matches!(want, Want::Bit(_)));
        let mut wants = self.scope.wants();
        wants.retain(|want| matches!(want, Want::Bit(_)) && *want != left);
        match wants.len() {
            0 => self.no_bitvectors(op),
            many => {
                let right = wants[self.rng.below(many)].clone();
                self.two(op, &left, &right, 1)
            }
        }
    }

    fn no_bitvectors(&mut self, op: BinOp) -> Expr {
        let bad = self.no_bits(1);
        match self.rng.below(3) {
            0 => binary(BinOp::BitXor, boolean(true), boolean(false)),
            1 => binary(op, bad, self.bits(1)),
            _ => binary(op, self.bits(1), bad),
        }
    }

    /// A comparison of two types that are not a literal with bits or a bool.
    fn two_types(&mut self) -> Expr {
        let op = self.comparison();
        let left = self.want(|want| *want != Want::Literal);
        let mut wants = self.scope.wants();
        let loose = |want: &Want| {
            *want == Want::Literal && matches!(left, Want::Bit(_) | Want::Bool) || *want == left
        };
        wants.retain(|want| !loose(want));
        let right = wants[self.rng.below(wants.len())].clone();
        self.either_way(op, &left, &right, 1)
    }

    /// An argument that does not fit a field of the type: cause 29 or 30.
    pub fn unfit(&mut self, ty: &Type, cause: u32) -> Option<Expr> {
        let due = Want::of(ty);
        if cause == 29 {
            return (due == Want::Bool).then(|| self.literal());
        }
        let fine =
            |want: &Want| *want == due || *want == Want::Literal && !matches!(due, Want::Enum(_));
        let mut wants = self.scope.wants();
        wants.retain(|want| !fine(want));
        let one = self.rng.below(wants.len());
        let want = wants.swap_remove(one);
        Some(self.sound(&want, 2))
    }

    /// A formula without a fault.
    pub fn formula(&mut self, levels: usize) -> Formula {
        if levels <= 1 {
            return match self.rng.below(4) {
                0 => self.input_is(),
                1 => self.output_has(),
                _ => holds(self.sound(&Want::Bool, 3)),
            };
        }
        let inner = self.formula(levels - 1);
        match self.rng.below(2) {
            0 => self.over(inner),
            _ => join(self.rng.below(TWO_CHILDREN), self.formula(1), inner),
        }
    }

    /// An input pattern that binds nothing; its names may be declared nowhere.
    fn input_is(&mut self) -> Formula {
        let literal = PatternExpr::Int { value: 0 };
        let bind = PatternExpr::Bind { name: text("k") };
        let fields = vec![pattern(None, literal), pattern(None, bind)];
        let variant = match self.rng.below(4) {
            0 => None,
            1 => Some(unit_pattern("go")),
            2 => Some(field_pattern("data", Vec::new())),
            _ => Some(field_pattern(self.nowhere(), fields)),
        };
        Formula::InputIs {
            pattern: event(self.nowhere(), variant),
        }
    }

    /// Never judged, whatever it names or binds.
    fn output_has(&mut self) -> Formula {
        let field = pattern(Some("k"), PatternExpr::Wildcard);
        let variant = field_pattern(self.nowhere(), vec![field]);
        let variant = self.rng.chance(1, 2).then_some(variant);
        Formula::OutputHas {
            pattern: output(self.nowhere(), variant),
        }
    }

    fn over(&mut self, inner: Formula) -> Formula {
        let bound = self.rng.of(&[1, 2, 100, u64::MAX]);
        over(self.rng.below(ONE_CHILD), bound, inner)
    }

    /// A formula with the cause, inside so many levels of others.
    pub fn faulty_formula(&mut self, cause: u32, levels: usize) -> Formula {
        let bad = match cause {
            31 => self.binding(),
            17 if self.rng.chance(1, 2) => holds(self.no_bool(2)),
            _ => {
                let inner = self.rng.below(3);
                holds(self.faulty(cause, inner))
            }
        };
        self.formula_around(bad, levels)
    }

    /// `always[0]`, inside so many levels of others.
    pub fn bound_of_zero(&mut self, levels: usize) -> Formula {
        let inner = self.formula(2);
        self.formula_around(over(3, 0, inner), levels)
    }

    fn formula_around(&mut self, bad: Formula, levels: usize) -> Formula {
        let mut bad = bad;
        for _ in 0..levels {
            let kind = self.rng.below(TWO_CHILDREN);
            bad = match self.rng.below(4) {
                0 => join(kind, bad, self.formula(1)),
                1 => join(kind, bad, holds(path(&[]))),
                2 => join(kind, self.formula(1), bad),
                _ => self.over(bad),
            };
        }
        bad
    }

    /// An input pattern with a named field, after unnamed ones.
    fn binding(&mut self) -> Formula {
        let unnamed = self.rng.below(3);
        let mut fields = vec![pattern(None, PatternExpr::Int { value: 0 }); unnamed];
        fields.push(pattern(Some("k"), PatternExpr::Wildcard));
        let variant = field_pattern(self.nowhere(), fields);
        Formula::InputIs {
            pattern: event("E", Some(variant)),
        }
    }
}
