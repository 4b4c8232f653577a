// Stands in for the analysis that makes a program of source text; here a book is the source. What can't be seen: its rules of types.

use std::collections::HashMap;
use std::num::NonZeroUsize;
use std::sync::Arc;

use either::Either;

use super::{
    Assignment, Call, CallName, CustomFunction, EnumConstruction, EnumMatch, EnumMatchArm,
    Expression, ExpressionInner, FunctionParam, JetHinter, Match, MatchArm, Program,
    SingleExpression, SingleExpressionInner as Single, Statement,
};
use crate::book::Record;
use crate::compile::RawHashJets;
use crate::debug::{CallTracker, TrackedCallName};
use crate::error::Span;
use crate::jet::JetHL;
use crate::num::{NonZeroPow2Usize, Pow2Usize};
use crate::parse::MatchPattern;
use crate::pattern::Pattern;
use crate::str::Identifier;
use crate::table::Legend;
use crate::types::{
    EnumInfo, EnumVariantInfo, ResolvedType, StructuralType, TypeConstructible, UIntType,
};
use crate::value::Value;
use crate::witness::{Parameters, WitnessTypes};
use crate::{Arguments, TemplateProgramWitness};

/// The end of a block that has none.
const NO_END: u16 = 65535;

/// What one record of the book became.
enum Part {
    Type(ResolvedType),
    Value(Value),
    Pattern(Pattern),
    Expression(Expression),
    Statement(Statement),
    Function(CustomFunction),
    /// An expression or a statement that moved into the record that names it: none is named twice.
    Moved,
}

/// Makes the parts in the order of the records, so that whatever a record names is there already.
struct Builder<'a> {
    hinter: &'a dyn JetHinter,
    parts: Vec<Part>,
    tracker: CallTracker,
    arguments: HashMap<u16, Value>,
    legend: Legend,
}

/// A book's program, the arguments of its parameters, and what its handles are.
pub(crate) struct Made {
    pub(crate) program: Program,
    pub(crate) arguments: Arguments,
    pub(crate) legend: Legend,
}

impl Record {
    /// Some of the original's forms are one form in a book, and lower alike. A
    /// record of odd number takes the other one, so that both are seen.
    fn other_form(&self) -> bool {
        self.number % 2 == 1
    }

    /// Every third expression stands in parentheses.
    fn in_parentheses(&self) -> bool {
        self.number % 3 == 0
    }
}

impl Program {
    /// The program whose main expression is the book's last record.
    pub(crate) fn of_book(records: &[Record], hinter: &dyn JetHinter) -> Made {
        let mut builder = Builder {
            hinter,
            parts: Vec::with_capacity(records.len()),
            tracker: CallTracker::default(),
            arguments: HashMap::new(),
            legend: Legend::default(),
        };
        for record in records {
            let part = builder.part(record);
            builder.parts.push(part);
        }
        let Some(Part::Expression(main)) = builder.parts.pop() else {
            panic!("a book ends in an expression");
        };
        let program = Program {
            main,
            parameters: Parameters,
            witness_types: WitnessTypes,
            call_tracker: Arc::new(builder.tracker),
        };
        Made {
            program,
            arguments: Arguments::new(builder.arguments),
            legend: builder.legend,
        }
    }
}

fn name(number: u16) -> Identifier {
    Identifier::from_str_unchecked(&format!("n{number}"))
}

/// An enum of so many variants. What they hold is not asked for.
fn enum_of(variants: u16) -> EnumInfo {
    let variant = EnumVariantInfo::new(name(0), Arc::from([]));
    let variants = vec![variant; variants.into()];
    EnumInfo::new(Arc::from("enum"), variants.into())
}

fn parenthesised(expression: Expression) -> Expression {
    let (ty, span) = (expression.ty.clone(), expression.span);
    let inner = ExpressionInner::Single(SingleExpression {
        inner: Single::Expression(Arc::new(expression)),
        ty: ty.clone(),
        span,
    });
    Expression { inner, ty, span }
}

fn uint(width: u16) -> UIntType {
    Pow2Usize::new(width.into())
        .and_then(UIntType::from_bit_width)
        .expect("READ knows the widths of a hash")
}

impl Builder<'_> {
    fn ty(&self, record: u16) -> ResolvedType {
        match &self.parts[usize::from(record)] {
            Part::Type(ty) => ty.clone(),
            _ => panic!("record {record} is no type"),
        }
    }

    fn value(&self, record: u16) -> Value {
        match &self.parts[usize::from(record)] {
            Part::Value(value) => value.clone(),
            _ => panic!("record {record} is no value"),
        }
    }

    fn pattern(&self, record: u16) -> Pattern {
        match &self.parts[usize::from(record)] {
            Part::Pattern(pattern) => pattern.clone(),
            _ => panic!("record {record} is no pattern"),
        }
    }

    /// A clone shares the body.
    fn function(&self, record: u16) -> CustomFunction {
        match &self.parts[usize::from(record)] {
            Part::Function(function) => function.clone(),
            _ => panic!("record {record} is no function"),
        }
    }

    fn moved(&mut self, record: u16) -> Part {
        std::mem::replace(&mut self.parts[usize::from(record)], Part::Moved)
    }

    fn expression(&mut self, record: u16) -> Expression {
        match self.moved(record) {
            Part::Expression(expression) => expression,
            _ => panic!("record {record} is no expression, or named twice"),
        }
    }

    fn boxed(&mut self, record: u16) -> Arc<Expression> {
        Arc::new(self.expression(record))
    }

    fn expressions<'a>(&mut self, records: impl IntoIterator<Item = &'a u16>) -> Arc<[Expression]> {
        let records = records.into_iter();
        records.map(|record| self.expression(*record)).collect()
    }

    fn statement(&mut self, record: u16) -> Statement {
        match self.moved(record) {
            Part::Statement(statement) => statement,
            _ => panic!("record {record} is no statement, or named twice"),
        }
    }

    fn part(&mut self, record: &Record) -> Part {
        let fields = &record.fields[..];
        match &record.mark {
            b"tu" | b"ts" | b"tp" => Part::Type(self.type_part(record)),
            b"vu" | b"vl" | b"vr" | b"vp" => Part::Value(Value(record.number)),
            b"pi" => Part::Pattern(Pattern::Identifier(name(fields[0]))),
            b"pn" => Part::Pattern(Pattern::Ignore),
            b"pt" => {
                let row = fields[1..].iter().map(|place| self.pattern(*place));
                Part::Pattern(match record.other_form() {
                    true => Pattern::array(row),
                    false => Pattern::tuple(row),
                })
            }
            b"sa" => Part::Statement(Statement::Assignment(Assignment {
                pattern: self.pattern(fields[0]),
                expression: self.expression(fields[1]),
                span: Span(record.number),
            })),
            b"se" => Part::Statement(Statement::Expression(self.expression(fields[0]))),
            b"fn" => Part::Function(self.function_part(record)),
            _ => Part::Expression(self.expression_part(record)),
        }
    }

    fn type_part(&mut self, record: &Record) -> ResolvedType {
        let fields = &record.fields[..];
        let ty = match &record.mark {
            b"ts" => ResolvedType::either(self.ty(fields[0]), self.ty(fields[1])),
            b"tp" => ResolvedType::product(self.ty(fields[0]), self.ty(fields[1])),
            _ => ResolvedType::unit(),
        };
        let structure = StructuralType::from(&ty).into();
        let alike = self.legend.types.insert(structure, record.number);
        assert!(alike.is_none(), "READ refuses a type alike an earlier one");
        ty
    }

    fn function_part(&mut self, record: &Record) -> CustomFunction {
        let span = Span(record.number);
        let [ret, _, rest @ .., body] = &record.fields[..] else {
            panic!("a function has a type, a count and a body");
        };
        let params = rest.chunks_exact(2).map(|param| FunctionParam {
            identifier: name(param[0]),
            ty: self.ty(param[1]),
            span,
        });
        CustomFunction {
            params: params.collect(),
            ret: self.ty(*ret),
            body: Some(self.boxed(*body)),
            span,
        }
    }

    /// An expression is single or a block; both it and what it holds have its record's span.
    fn expression_part(&mut self, record: &Record) -> Expression {
        let span = Span(record.number);
        let fields = &record.fields[..];
        let declared = self.ty(fields[0]);
        let ty = match &record.mark {
            b"el" => {
                let bound = NonZeroPow2Usize::new_unchecked(fields[1].into());
                declared.seen_as_list(bound)
            }
            b"en" => declared.seen_as_enum(enum_of(fields[2])),
            _ => declared,
        };
        let inner = match &record.mark {
            b"eb" => self.block(record),
            _ => ExpressionInner::Single(SingleExpression {
                inner: self.single(record),
                ty: ty.clone(),
                span,
            }),
        };
        let bare = Expression { inner, ty, span };
        match record.in_parentheses() {
            true => parenthesised(bare),
            false => bare,
        }
    }

    fn block(&mut self, record: &Record) -> ExpressionInner {
        let [_, _, rest @ .., end] = &record.fields[..] else {
            panic!("a block has a type, a count and an end");
        };
        let statements = rest.iter().map(|place| self.statement(*place)).collect();
        let end = (*end != NO_END).then(|| self.boxed(*end));
        ExpressionInner::Block(statements, end)
    }

    fn single(&mut self, record: &Record) -> Single {
        let fields = &record.fields[..];
        match &record.mark {
            b"ec" if record.other_form() => {
                self.arguments.insert(record.number, self.value(fields[1]));
                Single::Parameter(TemplateProgramWitness::new(record.number))
            }
            b"ec" => Single::Constant(self.value(fields[1])),
            b"ew" => Single::Witness(TemplateProgramWitness::new(fields[1])),
            b"ev" => Single::Variable(name(fields[1])),
            b"et" if record.other_form() => Single::Array(self.expressions(&fields[2..])),
            b"et" => Single::Tuple(self.expressions(&fields[2..])),
            b"el" => Single::List(self.expressions(&fields[3..])),
            b"e0" if record.other_form() && self.is_empty_tuple(fields[1]) => Single::Option(None),
            b"e0" => Single::Either(Either::Left(self.boxed(fields[1]))),
            b"e1" if record.other_form() => Single::Option(Some(self.boxed(fields[1]))),
            b"e1" => Single::Either(Either::Right(self.boxed(fields[1]))),
            b"en" => Single::EnumConstruction(EnumConstruction {
                variant_index: fields[1].into(),
                payload: fields[4..].iter().map(|place| self.boxed(*place)).collect(),
                span: Span(record.number),
            }),
            b"em" => Single::Match(self.two_arms(record)),
            b"eh" => Single::EnumMatch(self.many_arms(record)),
            _ => Single::Call(self.call(record)),
        }
    }

    fn is_empty_tuple(&self, record: u16) -> bool {
        match &self.parts[usize::from(record)] {
            Part::Expression(Expression {
                inner: ExpressionInner::Single(single),
                ..
            }) => matches!(&single.inner, Single::Tuple(row) if row.is_empty()),
            _ => false,
        }
    }

    /// An arm that binds nothing may have no pattern at all.
    fn arm_pattern(&self, record: &Record, place: usize) -> MatchPattern {
        match self.pattern(record.fields[place]) {
            Pattern::Ignore if record.other_form() => MatchPattern(None),
            pattern => MatchPattern(Some(pattern)),
        }
    }

    fn two_arms(&mut self, record: &Record) -> Match {
        let span = Span(record.number);
        let fields = &record.fields[..];
        let mut arm = |place: usize| MatchArm {
            pattern: self.arm_pattern(record, place),
            expression: self.boxed(fields[place + 1]),
            span,
        };
        let (left, right) = (arm(2), arm(4));
        Match {
            scrutinee: self.boxed(fields[1]),
            left,
            right,
            span,
        }
    }

    fn many_arms(&mut self, record: &Record) -> EnumMatch {
        let span = Span(record.number);
        let arms = record.fields[3..].chunks_exact(2).map(|arm| EnumMatchArm {
            pattern: self.pattern(arm[0]),
            body: self.boxed(arm[1]),
            span,
        });
        EnumMatch {
            arms: arms.collect(),
            scrutinee: self.boxed(record.fields[1]),
            span,
        }
    }

    fn call(&mut self, record: &Record) -> Call {
        self.track(record);
        let fields = &record.fields[..];
        let args = match &record.mark {
            b"cj" => self.expressions(&fields[4..]),
            b"cn" | b"ck" => self.expressions(&fields[1..]),
            b"cf" | b"cq" | b"cy" | b"cw" => self.expressions(&fields[3..]),
            b"ch" => self.expressions(fields[3..].iter().skip(1).step_by(2)),
            _ => self.expressions(&fields[2..]),
        };
        Call {
            name: self.call_name(record),
            args,
            span: Span(record.number),
        }
    }

    fn call_name(&self, record: &Record) -> CallName {
        let fields = &record.fields[..];
        let ty = self.ty(fields[0]);
        match &record.mark {
            b"cj" => CallName::Jet(self.jet(fields[2])),
            b"cl" => CallName::UnwrapLeft(ty),
            b"cr" if record.other_form() => CallName::Unwrap,
            b"cr" => CallName::UnwrapRight(ty),
            b"cd" => CallName::Debug,
            b"ca" => CallName::Assert,
            b"cp" => CallName::Panic,
            b"cn" => CallName::IsNone(ty),
            b"ck" => CallName::TypeCast(ty),
            b"cf" => CallName::Custom(self.function(fields[1])),
            b"cq" => {
                let bound = NonZeroPow2Usize::new_unchecked(fields[2].into());
                CallName::Fold(self.function(fields[1]), bound)
            }
            b"cy" => {
                let size = NonZeroUsize::new(fields[2].into()).expect("a size is 1 or more");
                CallName::ArrayFold(self.function(fields[1]), size)
            }
            b"cw" => {
                let width = Pow2Usize::new_unchecked(fields[2].into());
                CallName::ForWhile(self.function(fields[1]), width)
            }
            b"ch" => {
                let widths = fields[3..].iter().step_by(2).map(|width| uint(*width));
                let jets = RawHashJets::new(self.hinter, widths).expect("the hinter has each jet");
                CallName::RawHash(ty, jets)
            }
            mark => panic!("{mark:?} marks no expression"),
        }
    }

    fn jet(&self, number: u16) -> Box<dyn JetHL> {
        let name = ["verify", "eq_8", "add_8"][usize::from(number)];
        self.hinter
            .parse_jet(name)
            .expect("the hinter has each jet")
    }

    /// Has the tracker give the call a root, if the call has a symbol.
    fn track(&mut self, record: &Record) {
        let fields = &record.fields[..];
        let ty = || self.ty(fields[0]);
        let name = match &record.mark {
            b"cj" | b"ch" => TrackedCallName::Jet,
            b"cl" => TrackedCallName::UnwrapLeft(ty()),
            b"cr" if record.other_form() => TrackedCallName::Unwrap,
            b"cr" => TrackedCallName::UnwrapRight(ty()),
            b"cd" => TrackedCallName::Debug(ty()),
            b"ca" => TrackedCallName::Assert,
            b"cp" => TrackedCallName::Panic,
            _ => return,
        };
        if fields[1] > 0 {
            self.tracker.track_call(Span(record.number), name);
            self.legend.symbols.push(fields[1]);
        }
    }
}
