//! Stands in for customasm's `asm`, but for `matcher/mod.rs`, `defs/ruledef_map.rs` and `resolver/instruction.rs`, which
//! are the published text. The types are the fields and methods that those three name, no more.
use crate::*;

pub use defs::{DefList, RuledefMap};
pub use matcher::{InstructionArgumentKind, InstructionMatch, InstructionMatchResolution, InstructionMatches};

pub mod matcher {
    include!(concat!(env!("CUSTOMASM_SRC"), "/asm/matcher/mod.rs"));
}

pub mod defs {
    use crate::*;

    pub use ruledef_map::RuledefMap;

    pub mod ruledef_map {
        include!(concat!(env!("CUSTOMASM_SRC"), "/asm/defs/ruledef_map.rs"));
    }

    /// Definitions by number.
    pub struct DefList<T> {
        pub defs: Vec<T>,
    }

    impl<T> DefList<T> {
        pub fn new() -> DefList<T> {
            DefList { defs: Vec::new() }
        }

        pub fn get(&self, item_ref: util::ItemRef<T>) -> &T {
            &self.defs[item_ref.get_raw()]
        }

        pub fn get_mut(&mut self, item_ref: util::ItemRef<T>) -> &mut T {
            &mut self.defs[item_ref.get_raw()]
        }
    }
}

pub mod resolver {
    use crate::*;

    pub mod instruction {
        include!(concat!(env!("CUSTOMASM_SRC"), "/asm/resolver/instruction.rs"));
    }

    /// An expression is a constant.
    pub fn eval(
        _report: &mut diagn::Report,
        _fileserver: &mut dyn util::FileServer,
        _opts: &asm::AssemblyOptions,
        _decls: &asm::ItemDecls,
        _defs: &asm::ItemDefs,
        _ctx: &asm::ResolverContext,
        _eval_ctx: &mut expr::EvalContext,
        expr: &expr::Expr,
    ) -> Result<expr::Value, ()> {
        Ok(expr.value().clone())
    }

    /// Named by `resolve_instruction_inner`, which the driver does not call.
    pub fn handle_value_resolution(
        _opts: &asm::AssemblyOptions,
        _report: &mut diagn::Report,
        _span: diagn::Span,
        _can_guess: bool,
        _is_guess: bool,
        _is_stable: bool,
        _is_resolved: &mut bool,
        _suppress_diagn: bool,
        _tag: &str,
        _descr: &str,
        _src: Option<&str>,
        _value: &expr::Value,
    ) -> Result<asm::ResolutionState, ()> {
        unimplemented!()
    }
}

pub enum ResolutionState {
    Resolved,
}

#[derive(Clone)]
pub struct ResolverContext {
    pub guessing: bool,
    pub file_handle_ctx: Option<util::FileServerHandle>,
}

impl ResolverContext {
    pub fn can_guess(&self) -> bool {
        self.guessing
    }
}

pub struct AssemblyOptions {
    pub optimize_instruction_matching: bool,
    pub optimize_statically_known: bool,
}

pub struct ItemDefs {
    pub ruledefs: DefList<Ruledef>,
    pub ruledef_map: RuledefMap,
    pub instructions: DefList<Instruction>,
}

pub struct ItemDecls {
    pub ruledefs: DefList<Ruledef>,
}

pub struct Ruledef {
    pub name: String,
    pub is_subruledef: bool,
    pub rules: Vec<Rule>,
}

impl Ruledef {
    pub fn get_rule(&self, rule_ref: util::ItemRef<Rule>) -> &Rule {
        count::see(|t| t.rules += 1);
        &self.rules[rule_ref.get_raw()]
    }

    pub fn iter_rule_refs(&self) -> impl Iterator<Item = util::ItemRef<Rule>> {
        (0..self.rules.len()).map(util::ItemRef::new)
    }
}

/// `exact_part_count` is the rule's own number of exact parts (document 01).
pub struct Rule {
    pub pattern: RulePattern,
    pub pattern_span: diagn::Span,
    pub exact_part_count: usize,
    pub parameters: Vec<RuleParameter>,
    pub expr: expr::Expr,
}

/// A list of parts that sees which of them are read.
pub struct RulePattern {
    parts: Vec<RulePatternPart>,
}

impl RulePattern {
    pub fn new() -> RulePattern {
        RulePattern { parts: Vec::new() }
    }

    pub fn push(&mut self, part: RulePatternPart) {
        self.parts.push(part);
    }

    /// Asked once in each call of `match_with_rule`; what looks ahead has the parts as a slice.
    #[inline(always)]
    pub fn len(&self) -> usize {
        count::see(|t| t.starts += 1);
        self.parts.len()
    }
}

impl std::ops::Index<usize> for RulePattern {
    type Output = RulePatternPart;

    #[inline(always)]
    fn index(&self, at: usize) -> &RulePatternPart {
        let part = &self.parts[at];
        count::see(|t| {
            t.parts += 1;
            t.parameters += matches!(part, RulePatternPart::ParameterIndex(_)) as u64;
        });
        part
    }
}

impl std::ops::Deref for RulePattern {
    type Target = [RulePatternPart];

    fn deref(&self) -> &[RulePatternPart] {
        &self.parts
    }
}

impl<'a> IntoIterator for &'a RulePattern {
    type Item = &'a RulePatternPart;
    type IntoIter = std::slice::Iter<'a, RulePatternPart>;

    fn into_iter(self) -> Self::IntoIter {
        self.parts.iter()
    }
}

pub enum RulePatternPart {
    Whitespace,
    Exact(char),
    ParameterIndex(usize),
}

pub struct RuleParameter {
    pub name: String,
    pub typ: RuleParameterType,
}

#[derive(Copy, Clone)]
pub enum RuleParameterType {
    Unspecified,
    RuledefRef(util::ItemRef<Ruledef>),
    Unsigned(usize),
    Signed(usize),
    Integer(usize),
}

pub struct Instruction {
    pub matches: InstructionMatches,
    pub encoding_size_guess: Option<usize>,
    pub encoding: expr::Value,
    pub resolved: bool,
}

/// What `match_all` and `resolve_instruction` walk over; the driver calls neither.
pub struct AstTopLevel {
    pub nodes: Vec<AstAny>,
}

pub enum AstAny {
    Instruction(AstInstruction),
    Other,
}

pub struct AstInstruction {
    pub span: diagn::Span,
    pub src: String,
    pub item_ref: Option<util::ItemRef<Instruction>>,
}
