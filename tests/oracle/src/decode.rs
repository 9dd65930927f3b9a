//! Bytes to `Ir`, or a refusal: document 01's section "Reading" as a plain
//! recursive descent. Items are read from left to right and the first fault
//! is given. It shares no code with the encoder or the generators.

use crate::lang::ir::*;

/// A number from document 01's table, and the place it asks for.
#[derive(Debug, Clone, Copy, PartialEq, Eq)]
pub struct Refusal {
    pub number: u32,
    pub place: u64,
}

const BULKY: u32 = 1;
const TORN: u32 = 2;
const PADDED: u32 = 3;
const MISFILED: u32 = 4;
const OUTSIZE: u32 = 5;
const SMUDGED: u32 = 6;
const NESTED: u32 = 7;
const OVERHANG: u32 = 8;
const UNBORN: u32 = 9;

const DOCUMENT_BYTES: usize = 65_535;
const MODULES: u64 = 16;
const ENTRIES: u64 = 255;
const SEGMENTS: u64 = 8;
const STRING_BYTES: u64 = 64;
const DEPTH: u32 = 32;
const NEWEST_IR: u64 = 1;

/// Major types.
const UNSIGNED: u8 = 0;
const TEXT: u8 = 3;
const ARRAY: u8 = 4;
const SIMPLE: u8 = 7;

/// Head bytes of the only items of major type 7.
const FALSE: u8 = 0xf4;
const TRUE: u8 = 0xf5;
const NULL: u8 = 0xf6;

type Read<T> = Result<T, Refusal>;

fn refuse<T>(number: u32, place: usize) -> Read<T> {
    Err(Refusal {
        number,
        place: place as u64,
    })
}

/// The whole document.
pub fn decode(doc: &[u8]) -> Read<Ir> {
    if doc.len() > DOCUMENT_BYTES {
        return refuse(BULKY, 0);
    }
    let mut cursor = Cursor { doc, at: 0 };
    let ir = cursor.ir()?;
    if cursor.at < doc.len() {
        return refuse(OVERHANG, cursor.at);
    }
    Ok(ir)
}

/// The answer in the form of the library's call: 0 at 0 for an accepted
/// document, else refusal number and place.
pub fn answer(decoded: &Read<Ir>) -> (u32, u64) {
    match decoded {
        Ok(_) => (0, 0),
        Err(refusal) => (refusal.number, refusal.place),
    }
}

/// A head: major type and argument. Of major type 7 the argument is the
/// additional information, 20 to 22.
struct Head {
    major: u8,
    argument: u64,
}

/// The front of a data enum: where its array starts, its entry count, its
/// case number and where that stands.
struct Choice {
    at: usize,
    count: u64,
    case: u64,
    case_at: usize,
}

impl Choice {
    /// A known case: the count must be the case's.
    fn counts(&self, due: u64) -> Read<()> {
        if self.count != due {
            return refuse(MISFILED, self.at);
        }
        Ok(())
    }

    /// No case has this number.
    fn unknown<T>(&self) -> Read<T> {
        refuse(MISFILED, self.case_at)
    }
}

/// The document and where the next item starts.
struct Cursor<'a> {
    doc: &'a [u8],
    at: usize,
}

// Items of one kind each.
impl Cursor<'_> {
    /// The head at the cursor. The faults of a head come in the order of the
    /// tests below and before any fault of kind.
    fn head(&mut self) -> Read<Head> {
        let start = self.at;
        let Some(&first) = self.doc.get(start) else {
            return refuse(TORN, start);
        };
        let (major, information) = (first >> 5, first & 31);
        if information >= 28 {
            return refuse(PADDED, start);
        }
        // Major type 7 takes no argument: three bytes are items, no other is.
        if major == SIMPLE && !matches!(first, FALSE | TRUE | NULL) {
            return refuse(MISFILED, start);
        }
        // Bytes of the argument, and the least that needs so many.
        let (width, least) = match information {
            24 => (1, 24),
            25 => (2, 1 << 8),
            26 => (4, 1 << 16),
            27 => (8, 1 << 32),
            _ => (0, 0),
        };
        let Some(bytes) = self.doc.get(start + 1..start + 1 + width) else {
            return refuse(TORN, start);
        };
        let argument = match width {
            0 => u64::from(information),
            _ => bytes.iter().fold(0, |sum, &b| sum << 8 | u64::from(b)),
        };
        if argument < least {
            return refuse(PADDED, start);
        }
        self.at = start + 1 + width;
        Ok(Head { major, argument })
    }

    /// The argument of an item of the major type that is due.
    fn kind(&mut self, due: u8) -> Read<u64> {
        let start = self.at;
        let head = self.head()?;
        if head.major != due {
            return refuse(MISFILED, start);
        }
        Ok(head.argument)
    }

    /// Any u64.
    fn number(&mut self) -> Read<u64> {
        self.kind(UNSIGNED)
    }

    /// A number below 2^32.
    fn word(&mut self) -> Read<u32> {
        let start = self.at;
        let value = self.number()?;
        match u32::try_from(value) {
            Ok(word) => Ok(word),
            Err(_) => refuse(OUTSIZE, start),
        }
    }

    /// false or true; null is another kind.
    fn boolean(&mut self) -> Read<bool> {
        let start = self.at;
        let information = self.kind(SIMPLE)?;
        match information {
            20 => Ok(false),
            21 => Ok(true),
            _ => refuse(MISFILED, start),
        }
    }

    /// A text string of `least` to 64 bytes, each of them `allowed`. The
    /// length is judged first, then that the bytes are there, then the bytes.
    fn text(&mut self, least: u64, allowed: impl Fn(u8) -> bool) -> Read<String> {
        let start = self.at;
        let length = self.kind(TEXT)?;
        if length < least || length > STRING_BYTES {
            return refuse(OUTSIZE, start);
        }
        let end = self.at + length as usize;
        let Some(bytes) = self.doc.get(self.at..end) else {
            return refuse(TORN, start);
        };
        if !bytes.iter().all(|&b| allowed(b)) {
            return refuse(SMUDGED, start);
        }
        self.at = end;
        Ok(String::from_utf8(bytes.to_vec()).expect("both alphabets are ASCII"))
    }

    /// A name: 1 to 64 letters, digits and underscores.
    fn name(&mut self) -> Read<String> {
        self.text(1, |b| b.is_ascii_alphanumeric() || b == b'_')
    }

    /// A version string: 0 to 64 bytes from 32 to 126.
    fn version(&mut self) -> Read<String> {
        self.text(0, |b| (32..=126).contains(&b))
    }

    /// The array of a struct: exactly its fields.
    fn fields(&mut self, due: u64) -> Read<()> {
        let start = self.at;
        if self.kind(ARRAY)? != due {
            return refuse(MISFILED, start);
        }
        Ok(())
    }

    /// A list: its limit is judged at its head, before any entry.
    fn list<T>(&mut self, limit: u64, entry: impl Fn(&mut Self) -> Read<T>) -> Read<Vec<T>> {
        let start = self.at;
        let count = self.kind(ARRAY)?;
        if count > limit {
            return refuse(OUTSIZE, start);
        }
        let mut entries = Vec::with_capacity(count as usize);
        for _ in 0..count {
            entries.push(entry(self)?);
        }
        Ok(entries)
    }

    /// An option: null alone is absent, else the item itself is due.
    fn option<T>(&mut self, item: impl FnOnce(&mut Self) -> Read<T>) -> Read<Option<T>> {
        if self.doc.get(self.at) == Some(&NULL) {
            self.at += 1;
            return Ok(None);
        }
        item(self).map(Some)
    }

    /// The front of a data enum. An empty array has no case item; else the
    /// case item is judged before the count.
    fn choice(&mut self) -> Read<Choice> {
        let at = self.at;
        let count = self.kind(ARRAY)?;
        if count == 0 {
            return refuse(MISFILED, at);
        }
        let case_at = self.at;
        let case = self.number()?;
        Ok(Choice {
            at,
            count,
            case,
            case_at,
        })
    }

    /// An expression or formula may start down to depth 32; the refusal
    /// comes before any byte is looked at.
    fn starts_at(&self, depth: u32) -> Read<()> {
        if depth > DEPTH {
            return refuse(NESTED, self.at);
        }
        Ok(())
    }
}

// The types of ir.rs, in its order.
impl Cursor<'_> {
    fn ir(&mut self) -> Read<Ir> {
        self.fields(2)?;
        Ok(Ir {
            ir_version: self.ir_version()?,
            modules: self.list(MODULES, Self::module)?,
        })
    }

    fn ir_version(&mut self) -> Read<u32> {
        let start = self.at;
        let value = self.number()?;
        if value > NEWEST_IR {
            return refuse(UNBORN, start);
        }
        Ok(value as u32)
    }

    fn module(&mut self) -> Read<Module> {
        self.fields(11)?;
        Ok(Module {
            name: self.name()?,
            version: self.option(Self::version)?,
            on_error: self.option(Self::on_error)?,
            enums: self.list(ENTRIES, Self::enum_decl)?,
            initial_state: self.option(Self::name)?,
            events: self.list(ENTRIES, Self::constructor_group)?,
            outputs: self.list(ENTRIES, Self::constructor_group)?,
            vars: self.list(ENTRIES, Self::var_decl)?,
            transitions: self.list(ENTRIES, Self::transition)?,
            properties: self.list(ENTRIES, Self::property)?,
            assumptions: self.list(ENTRIES, Self::property)?,
        })
    }

    fn on_error(&mut self) -> Read<OnError> {
        self.fields(2)?;
        Ok(OnError {
            next_state: self.name()?,
            emits: self.list(ENTRIES, Self::output_expr)?,
        })
    }

    fn enum_decl(&mut self) -> Read<EnumDecl> {
        self.fields(2)?;
        Ok(EnumDecl {
            name: self.name()?,
            variants: self.list(ENTRIES, Self::name)?,
        })
    }

    fn type_(&mut self) -> Read<Type> {
        let choice = self.choice()?;
        match choice.case {
            0 => {
                choice.counts(1)?;
                Ok(Type::Bool)
            }
            1 => {
                choice.counts(2)?;
                Ok(Type::Bit {
                    width: self.word()?,
                })
            }
            2 => {
                choice.counts(2)?;
                Ok(Type::Enum { name: self.name()? })
            }
            _ => choice.unknown(),
        }
    }

    fn field_decl(&mut self) -> Read<FieldDecl> {
        self.fields(2)?;
        Ok(FieldDecl {
            name: self.name()?,
            ty: self.type_()?,
        })
    }

    fn constructor_group(&mut self) -> Read<ConstructorGroup> {
        self.fields(2)?;
        Ok(ConstructorGroup {
            name: self.name()?,
            variants: self.list(ENTRIES, Self::constructor_variant)?,
        })
    }

    fn constructor_variant(&mut self) -> Read<ConstructorVariant> {
        let choice = self.choice()?;
        match choice.case {
            0 => {
                choice.counts(2)?;
                Ok(ConstructorVariant::Unit { name: self.name()? })
            }
            1 => {
                choice.counts(3)?;
                Ok(ConstructorVariant::Struct {
                    name: self.name()?,
                    fields: self.list(ENTRIES, Self::field_decl)?,
                })
            }
            _ => choice.unknown(),
        }
    }

    fn var_decl(&mut self) -> Read<VarDecl> {
        self.fields(3)?;
        Ok(VarDecl {
            name: self.name()?,
            ty: self.type_()?,
            init: self.top_expr()?,
        })
    }

    fn transition(&mut self) -> Read<Transition> {
        self.fields(8)?;
        Ok(Transition {
            id: self.number()? as usize,
            state: self.name()?,
            pattern: self.event_pattern()?,
            guard: self.option(Self::top_expr)?,
            next_state: self.name()?,
            emits: self.list(ENTRIES, Self::output_expr)?,
            assignments: self.list(ENTRIES, Self::assignment)?,
            priority: self.option(Self::word)?,
        })
    }

    fn event_pattern(&mut self) -> Read<EventPattern> {
        self.fields(2)?;
        Ok(EventPattern {
            group: self.name()?,
            variant: self.option(Self::pattern_variant)?,
        })
    }

    fn output_pattern(&mut self) -> Read<OutputPattern> {
        self.fields(2)?;
        Ok(OutputPattern {
            group: self.name()?,
            variant: self.option(Self::pattern_variant)?,
        })
    }

    fn pattern_variant(&mut self) -> Read<PatternVariant> {
        let choice = self.choice()?;
        match choice.case {
            0 => {
                choice.counts(2)?;
                Ok(PatternVariant::Unit { name: self.name()? })
            }
            1 => {
                choice.counts(3)?;
                Ok(PatternVariant::Struct {
                    name: self.name()?,
                    fields: self.list(ENTRIES, Self::pattern_field)?,
                })
            }
            _ => choice.unknown(),
        }
    }

    fn pattern_field(&mut self) -> Read<PatternField> {
        self.fields(2)?;
        Ok(PatternField {
            name: self.option(Self::name)?,
            pattern: self.pattern_expr()?,
        })
    }

    fn pattern_expr(&mut self) -> Read<PatternExpr> {
        let choice = self.choice()?;
        match choice.case {
            0 => {
                choice.counts(1)?;
                Ok(PatternExpr::Wildcard)
            }
            1 => {
                choice.counts(2)?;
                Ok(PatternExpr::Bind { name: self.name()? })
            }
            2 => {
                choice.counts(2)?;
                Ok(PatternExpr::Int {
                    value: self.number()?,
                })
            }
            3 => {
                choice.counts(2)?;
                Ok(PatternExpr::Bool {
                    value: self.boolean()?,
                })
            }
            4 => {
                choice.counts(2)?;
                Ok(PatternExpr::EnumVariant { path: self.path()? })
            }
            _ => choice.unknown(),
        }
    }

    fn path(&mut self) -> Read<Vec<String>> {
        self.list(SEGMENTS, Self::name)
    }

    fn output_expr(&mut self) -> Read<OutputExpr> {
        self.fields(3)?;
        Ok(OutputExpr {
            group: self.name()?,
            variant: self.option(Self::name)?,
            args: self.list(ENTRIES, Self::top_expr)?,
        })
    }

    fn assignment(&mut self) -> Read<Assignment> {
        self.fields(2)?;
        Ok(Assignment {
            var: self.name()?,
            value: self.top_expr()?,
        })
    }

    fn property(&mut self) -> Read<Property> {
        self.fields(2)?;
        Ok(Property {
            name: self.name()?,
            formula: self.formula(1)?,
        })
    }

    fn formula(&mut self, depth: u32) -> Read<Formula> {
        self.starts_at(depth)?;
        let choice = self.choice()?;
        match choice.case {
            0 => {
                choice.counts(2)?;
                Ok(Formula::InputIs {
                    pattern: self.event_pattern()?,
                })
            }
            1 => {
                choice.counts(2)?;
                Ok(Formula::OutputHas {
                    pattern: self.output_pattern()?,
                })
            }
            2 => {
                choice.counts(2)?;
                Ok(Formula::Expr {
                    expr: self.expr(depth + 1)?,
                })
            }
            3 => {
                choice.counts(2)?;
                Ok(Formula::Not {
                    inner: self.inner_formula(depth)?,
                })
            }
            4 => {
                choice.counts(3)?;
                Ok(Formula::And {
                    left: self.inner_formula(depth)?,
                    right: self.inner_formula(depth)?,
                })
            }
            5 => {
                choice.counts(3)?;
                Ok(Formula::Or {
                    left: self.inner_formula(depth)?,
                    right: self.inner_formula(depth)?,
                })
            }
            6 => {
                choice.counts(3)?;
                Ok(Formula::Implies {
                    left: self.inner_formula(depth)?,
                    right: self.inner_formula(depth)?,
                })
            }
            7 => {
                choice.counts(2)?;
                Ok(Formula::Next {
                    inner: self.inner_formula(depth)?,
                })
            }
            8 => {
                choice.counts(2)?;
                Ok(Formula::Always {
                    inner: self.inner_formula(depth)?,
                })
            }
            9 => {
                choice.counts(3)?;
                Ok(Formula::BoundedAlways {
                    bound: self.number()?,
                    inner: self.inner_formula(depth)?,
                })
            }
            10 => {
                choice.counts(3)?;
                Ok(Formula::BoundedEventually {
                    bound: self.number()?,
                    inner: self.inner_formula(depth)?,
                })
            }
            11 => {
                choice.counts(2)?;
                Ok(Formula::Eventually {
                    inner: self.inner_formula(depth)?,
                })
            }
            12 => {
                choice.counts(3)?;
                Ok(Formula::Until {
                    left: self.inner_formula(depth)?,
                    right: self.inner_formula(depth)?,
                })
            }
            _ => choice.unknown(),
        }
    }

    /// A child of a formula that stands at `depth`.
    fn inner_formula(&mut self, depth: u32) -> Read<Box<Formula>> {
        self.formula(depth + 1).map(Box::new)
    }

    fn top_expr(&mut self) -> Read<Expr> {
        self.expr(1)
    }

    fn expr(&mut self, depth: u32) -> Read<Expr> {
        self.starts_at(depth)?;
        let choice = self.choice()?;
        match choice.case {
            0 => {
                choice.counts(2)?;
                Ok(Expr::Int {
                    value: self.number()?,
                })
            }
            1 => {
                choice.counts(2)?;
                Ok(Expr::Bool {
                    value: self.boolean()?,
                })
            }
            2 => {
                choice.counts(2)?;
                Ok(Expr::Path { path: self.path()? })
            }
            3 => {
                choice.counts(3)?;
                Ok(Expr::Unary {
                    op: self.unary_op()?,
                    expr: self.inner_expr(depth)?,
                })
            }
            4 => {
                choice.counts(4)?;
                Ok(Expr::Binary {
                    op: self.bin_op()?,
                    left: self.inner_expr(depth)?,
                    right: self.inner_expr(depth)?,
                })
            }
            _ => choice.unknown(),
        }
    }

    /// A child of an expression that stands at `depth`.
    fn inner_expr(&mut self, depth: u32) -> Read<Box<Expr>> {
        self.expr(depth + 1).map(Box::new)
    }

    /// A bare case number.
    fn unary_op(&mut self) -> Read<UnaryOp> {
        let start = self.at;
        Ok(match self.number()? {
            0 => UnaryOp::Not,
            1 => UnaryOp::BitNot,
            2 => UnaryOp::Neg,
            _ => return refuse(MISFILED, start),
        })
    }

    /// A bare case number.
    fn bin_op(&mut self) -> Read<BinOp> {
        let start = self.at;
        Ok(match self.number()? {
            0 => BinOp::Plus,
            1 => BinOp::Minus,
            2 => BinOp::Star,
            3 => BinOp::ShiftLeft,
            4 => BinOp::ShiftRight,
            5 => BinOp::Eq,
            6 => BinOp::NotEq,
            7 => BinOp::Lt,
            8 => BinOp::Le,
            9 => BinOp::Gt,
            10 => BinOp::Ge,
            11 => BinOp::BitOr,
            12 => BinOp::BitXor,
            13 => BinOp::BitAnd,
            14 => BinOp::LogicOr,
            15 => BinOp::LogicAnd,
            _ => return refuse(MISFILED, start),
        })
    }
}
