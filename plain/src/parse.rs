//! The grammar, read in one pass; what is read is told to a `Sink`.

use crate::lex::{max_list, Fault, FaultName, Lexer, MAX_DEPTH, T};

#[derive(Clone, Copy, PartialEq, Eq, Debug)]
pub struct Name {
    pub start: usize,
    pub end: usize,
}

#[derive(Clone, Copy, PartialEq, Eq, Debug)]
pub enum What<'b> {
    Whole(i64),
    Truth(bool),
    Range(i64, i64),
    Braces(&'b [i64]),
}

#[derive(Clone, Copy, Debug)]
pub struct Lit<'b> {
    pub what: What<'b>,
    pub start: usize,
    pub end: usize,
}

#[derive(Clone, Copy, PartialEq, Eq, Debug)]
pub enum Kind {
    Int,
    Bool,
    Set,
}

#[derive(Clone, Copy, Debug)]
pub struct Base<'b> {
    pub kind: Kind,
    pub bounds: Option<What<'b>>,
}

#[derive(Clone, Copy, PartialEq, Eq, Debug)]
pub enum GoalWord {
    Satisfy,
    Minimize,
    Maximize,
}

/// Told of the parts of a model in source order.
#[allow(unused_variables)]
pub trait Sink {
    #[inline(always)]
    fn comma(&mut self) {}
    #[inline(always)]
    fn predicate(&mut self, name: Name) {}
    #[inline(always)]
    fn param(&mut self, array: Option<&[Option<usize>]>, is_var: bool, base: Base, name: Name) {}
    #[inline(always)]
    fn predicate_end(&mut self) {}
    #[inline(always)]
    fn decl(&mut self, is_var: bool, length: Option<usize>, base: Base, name: Name) {}
    /// A value follows; `list` tells that it stands in brackets.
    #[inline(always)]
    fn value(&mut self, list: bool) {}
    #[inline(always)]
    fn value_lit(&mut self, lit: Lit) {}
    #[inline(always)]
    fn value_name(&mut self, name: Name) {}
    #[inline(always)]
    fn value_end(&mut self, list: bool) {}
    #[inline(always)]
    fn decl_end(&mut self) {}
    /// All declarations have been told.
    #[inline(always)]
    fn decls_end(&mut self) {}
    #[inline(always)]
    fn constraint(&mut self, name: Name) {}
    #[inline(always)]
    fn arg_list(&mut self) {}
    #[inline(always)]
    fn arg_lit(&mut self, lit: Lit, in_list: bool) {}
    #[inline(always)]
    fn arg_name(&mut self, name: Name, in_list: bool) {}
    #[inline(always)]
    fn arg_list_end(&mut self) {}
    #[inline(always)]
    fn args_end(&mut self) {}
    #[inline(always)]
    fn constraint_end(&mut self) {}
    #[inline(always)]
    fn note(&mut self, depth: usize, name: Name) {}
    #[inline(always)]
    fn note_args(&mut self, depth: usize) {}
    #[inline(always)]
    fn note_args_end(&mut self, depth: usize) {}
    #[inline(always)]
    fn note_end(&mut self, depth: usize) {}
    #[inline(always)]
    fn note_list(&mut self, depth: usize) {}
    #[inline(always)]
    fn note_list_end(&mut self, depth: usize) {}
    #[inline(always)]
    fn note_lit(&mut self, depth: usize, lit: Lit) {}
    /// A float text or a string.
    #[inline(always)]
    fn note_text(&mut self, depth: usize, text: Name, is_float: bool) {}
    #[inline(always)]
    fn solve(&mut self) {}
    #[inline(always)]
    fn goal(&mut self, word: GoalWord) {}
    #[inline(always)]
    fn goal_lit(&mut self, lit: Lit) {}
    #[inline(always)]
    fn goal_name(&mut self, name: Name) {}
    #[inline(always)]
    fn solve_end(&mut self) {}
}

/// The grammar's reader stopped; the fault is kept in the parser.
pub struct Stop;
pub type R<X> = Result<X, Stop>;

#[derive(Clone, Copy)]
enum RawWhat {
    Whole(i64),
    Truth(bool),
    Range(i64, i64),
    Braces,
}

#[derive(Clone, Copy)]
struct RawLit {
    what: RawWhat,
    start: usize,
    end: usize,
}

#[derive(Clone, Copy)]
struct RawBase {
    kind: Kind,
    bounds: Option<RawWhat>,
}

/// The lexer with what the grammars of models and of items share.
pub struct Core<'a> {
    pub lex: Lexer<'a>,
    pub braces: Vec<i64>,
    pub fault: Option<Fault>,
}

impl<'a> Core<'a> {
    pub fn new(lex: Lexer<'a>) -> Self {
        Core {
            lex,
            braces: Vec::new(),
            fault: None,
        }
    }

    #[cold]
    #[inline(never)]
    pub fn stop(&mut self) -> Stop {
        let name = match self.lex.tok {
            T::Float | T::KFloat => FaultName::Float,
            _ => FaultName::Syntax,
        };
        self.stop_as(name)
    }

    #[cold]
    #[inline(never)]
    pub fn stop_as(&mut self, name: FaultName) -> Stop {
        let l = &self.lex;
        self.fault = Some(if l.tok == T::Bad {
            l.fault
        } else {
            Fault {
                name,
                start: l.start,
                end: l.pos,
            }
        });
        Stop
    }

    /// The fault of the whole text after a stop: a fault of the lexer anywhere comes first.
    #[cold]
    pub fn settle(&mut self) -> Fault {
        loop {
            match self.lex.tok {
                T::Bad => return self.lex.fault,
                T::Eof => return self.fault.unwrap(),
                _ => self.lex.next(),
            }
        }
    }

    #[inline(always)]
    pub fn eat(&mut self, t: T) -> R<()> {
        if self.lex.tok != t {
            return Err(self.stop());
        }
        self.lex.next();
        Ok(())
    }

    #[inline(always)]
    fn eat_basic(&mut self, t: T) -> R<()> {
        if self.lex.tok != t {
            return Err(self.stop());
        }
        self.lex.next_basic();
        Ok(())
    }

    #[inline(always)]
    pub fn name(&mut self) -> R<Name> {
        if self.lex.tok != T::Name {
            return Err(self.stop());
        }
        let n = Name {
            start: self.lex.start,
            end: self.lex.pos,
        };
        self.lex.next();
        Ok(n)
    }

    #[inline(always)]
    fn whole(&mut self) -> R<i64> {
        if self.lex.tok != T::Whole {
            return Err(self.stop());
        }
        let v = self.lex.num;
        self.lex.next();
        Ok(v)
    }

    /// `..` and the upper bound of a range; the current token is the lower bound's successor.
    #[inline(always)]
    fn upper(&mut self) -> R<(i64, usize)> {
        self.eat(T::Dots)?;
        if self.lex.tok != T::Whole {
            return Err(self.stop());
        }
        let v = self.lex.num;
        let e = self.lex.pos;
        self.lex.next();
        Ok((v, e))
    }

    /// Numbers in braces into `self.braces`; the end of the closing brace.
    fn braces(&mut self) -> R<usize> {
        self.braces.clear();
        self.eat(T::LBrc)?;
        if self.lex.tok != T::RBrc {
            loop {
                if self.lex.tok != T::Whole {
                    return Err(self.stop());
                }
                if self.braces.len() == max_list() {
                    return Err(self.stop_as(FaultName::TooMany));
                }
                self.braces.push(self.lex.num);
                self.lex.next();
                if self.lex.tok != T::Comma {
                    break;
                }
                self.lex.next();
            }
        }
        let e = self.lex.pos;
        self.eat(T::RBrc)?;
        Ok(e)
    }

    #[inline(always)]
    fn raw_literal(&mut self) -> R<RawLit> {
        let start = self.lex.start;
        let mut end = self.lex.pos;
        let what = match self.lex.tok {
            T::Whole => {
                let v = self.lex.num;
                self.lex.next();
                if self.lex.tok == T::Dots {
                    let (w, e) = self.upper()?;
                    end = e;
                    RawWhat::Range(v, w)
                } else {
                    RawWhat::Whole(v)
                }
            }
            T::True => {
                self.lex.next();
                RawWhat::Truth(true)
            }
            T::False => {
                self.lex.next();
                RawWhat::Truth(false)
            }
            T::LBrc => {
                end = self.braces()?;
                RawWhat::Braces
            }
            _ => return Err(self.stop()),
        };
        Ok(RawLit { what, start, end })
    }

    #[inline(always)]
    fn what(&self, w: RawWhat) -> What<'_> {
        match w {
            RawWhat::Whole(v) => What::Whole(v),
            RawWhat::Truth(b) => What::Truth(b),
            RawWhat::Range(a, b) => What::Range(a, b),
            RawWhat::Braces => What::Braces(&self.braces),
        }
    }

    #[inline(always)]
    pub fn literal(&mut self) -> R<Lit<'_>> {
        let r = self.raw_literal()?;
        Ok(Lit {
            what: self.what(r.what),
            start: r.start,
            end: r.end,
        })
    }

    /// `int .. int` or braces.
    #[inline(always)]
    pub fn index(&mut self) -> R<()> {
        match self.lex.tok {
            T::Whole => {
                self.lex.next();
                self.upper()?;
            }
            T::LBrc => {
                self.braces()?;
            }
            _ => return Err(self.stop()),
        }
        Ok(())
    }

    #[inline(always)]
    pub fn starts_literal(&self) -> bool {
        matches!(self.lex.tok, T::Whole | T::True | T::False | T::LBrc)
    }
}

pub struct Parser<'a, S: Sink> {
    pub core: Core<'a>,
    pub sink: S,
}

impl<'a, S: Sink> Parser<'a, S> {
    pub fn new(src: &'a [u8], end: usize, sink: S) -> Self {
        Parser {
            core: Core::new(Lexer::new(src, end)),
            sink,
        }
    }

    /// Reads a whole model. The sink's own faults are the sink's matter.
    pub fn run(&mut self) -> Result<(), Fault> {
        match self.model() {
            Ok(()) => Ok(()),
            Err(Stop) => Err(self.core.settle()),
        }
    }

    #[inline(always)]
    fn tok(&self) -> T {
        self.core.lex.tok
    }

    fn model(&mut self) -> R<()> {
        self.core.lex.next();
        while self.tok() == T::Predicate {
            self.predicate()?;
        }
        loop {
            match self.tok() {
                T::Var => self.var_decl()?,
                T::Array => self.array_decl()?,
                T::Bool | T::Int | T::Set => self.plain_decl()?,
                _ => break,
            }
        }
        self.sink.decls_end();
        while self.tok() == T::Constraint {
            self.constraint()?;
        }
        self.core.eat(T::Solve)?;
        self.sink.solve();
        self.notes()?;
        let word = match self.tok() {
            T::Satisfy => GoalWord::Satisfy,
            T::Minimize => GoalWord::Minimize,
            T::Maximize => GoalWord::Maximize,
            _ => return Err(self.core.stop()),
        };
        self.core.lex.next();
        self.sink.goal(word);
        if word != GoalWord::Satisfy {
            if self.tok() == T::Name {
                let n = self.core.name()?;
                self.sink.goal_name(n);
            } else {
                let l = self.core.literal()?;
                self.sink.goal_lit(l);
            }
        }
        self.core.eat(T::Semi)?;
        self.sink.solve_end();
        if self.tok() != T::Eof {
            return Err(self.core.stop());
        }
        Ok(())
    }

    fn predicate(&mut self) -> R<()> {
        self.core.lex.next();
        let n = self.core.name()?;
        self.sink.predicate(n);
        let mut comma = false;
        self.core.eat(T::LPar)?;
        while self.tok() != T::RPar || comma {
            let mut array = None;
            if self.tok() == T::Array {
                self.core.lex.next();
                self.core.eat(T::LBrk)?;
                array = Some(self.index_sets()?);
                self.core.eat(T::RBrk)?;
                self.core.eat(T::Of)?;
            }
            let is_var = self.tok() == T::Var;
            if is_var {
                self.core.lex.next();
            }
            let raw = self.base()?;
            self.core.eat(T::Colon)?;
            let name = self.core.name()?;
            let base = Base {
                kind: raw.kind,
                bounds: raw.bounds.map(|w| self.core.what(w)),
            };
            self.sink.param(array.as_deref(), is_var, base, name);
            comma = self.tok() == T::Comma;
            if !comma {
                break;
            }
            self.core.lex.next();
            self.sink.comma();
        }
        self.core.eat(T::RPar)?;
        self.core.eat(T::Semi)?;
        self.sink.predicate_end();
        Ok(())
    }

    /// The index sets of an array, one to six.
    fn index_sets(&mut self) -> R<Vec<Option<usize>>> {
        let mut sets = vec![self.index_set()?];
        while self.tok() == T::Comma {
            self.core.lex.next();
            if sets.len() == 6 && matches!(self.tok(), T::Int | T::Whole) {
                return Err(self.core.stop_as(FaultName::TooMany));
            }
            sets.push(self.index_set()?);
        }
        Ok(sets)
    }

    fn index_set(&mut self) -> R<Option<usize>> {
        if self.tok() == T::Int {
            self.core.lex.next();
            return Ok(None);
        }
        Ok(Some(self.one_to_size()?))
    }

    /// `one ".." size`.
    fn one_to_size(&mut self) -> R<usize> {
        if self.tok() != T::Whole || self.core.lex.num != 1 {
            return Err(self.core.stop());
        }
        self.core.lex.next();
        self.core.eat(T::Dots)?;
        if self.tok() != T::Whole || self.core.lex.num < 0 {
            return Err(self.core.stop());
        }
        if self.core.lex.num > max_list() as i64 {
            return Err(self.core.stop_as(FaultName::TooMany));
        }
        Ok(self.core.whole()? as usize)
    }

    fn base(&mut self) -> R<RawBase> {
        match self.tok() {
            T::Bool => {
                self.core.lex.next();
                Ok(RawBase {
                    kind: Kind::Bool,
                    bounds: None,
                })
            }
            T::Set => {
                self.core.lex.next();
                self.core.eat(T::Of)?;
                Ok(RawBase {
                    kind: Kind::Set,
                    bounds: self.int_base()?,
                })
            }
            _ => Ok(RawBase {
                kind: Kind::Int,
                bounds: self.int_base()?,
            }),
        }
    }

    /// `int`, a range or braces.
    fn int_base(&mut self) -> R<Option<RawWhat>> {
        match self.tok() {
            T::Int => {
                self.core.lex.next();
                Ok(None)
            }
            T::Whole => {
                let lo = self.core.whole()?;
                let (hi, _) = self.core.upper()?;
                Ok(Some(RawWhat::Range(lo, hi)))
            }
            T::LBrc => {
                self.core.braces()?;
                Ok(Some(RawWhat::Braces))
            }
            _ => Err(self.core.stop()),
        }
    }

    /// `bool`, `int` or `set of int`.
    fn plain(&mut self) -> R<Kind> {
        match self.tok() {
            T::Bool => {
                self.core.lex.next();
                Ok(Kind::Bool)
            }
            T::Int => {
                self.core.lex.next();
                Ok(Kind::Int)
            }
            T::Set => {
                self.core.lex.next();
                self.core.eat(T::Of)?;
                self.core.eat(T::Int)?;
                Ok(Kind::Set)
            }
            _ => Err(self.core.stop()),
        }
    }

    fn plain_decl(&mut self) -> R<()> {
        let kind = self.plain()?;
        self.core.eat(T::Colon)?;
        let name = self.core.name()?;
        self.sink
            .decl(false, None, Base { kind, bounds: None }, name);
        self.notes()?;
        self.core.eat(T::Eq)?;
        self.sink.value(false);
        let l = self.core.literal()?;
        self.sink.value_lit(l);
        self.sink.value_end(false);
        self.core.eat(T::Semi)?;
        self.sink.decl_end();
        Ok(())
    }

    fn var_decl(&mut self) -> R<()> {
        self.core.lex.next();
        let raw = self.base()?;
        self.core.eat(T::Colon)?;
        let name = self.core.name()?;
        let base = Base {
            kind: raw.kind,
            bounds: raw.bounds.map(|w| self.core.what(w)),
        };
        self.sink.decl(true, None, base, name);
        self.notes()?;
        if self.tok() == T::Eq {
            self.core.lex.next();
            self.sink.value(false);
            if self.tok() == T::Name {
                let n = self.core.name()?;
                self.sink.value_name(n);
            } else {
                let l = self.core.literal()?;
                self.sink.value_lit(l);
            }
            self.sink.value_end(false);
        }
        self.core.eat(T::Semi)?;
        self.sink.decl_end();
        Ok(())
    }

    fn array_decl(&mut self) -> R<()> {
        self.core.lex.next();
        self.core.eat(T::LBrk)?;
        let length = self.one_to_size()?;
        self.core.eat(T::RBrk)?;
        self.core.eat(T::Of)?;
        let is_var = self.tok() == T::Var;
        let raw = if is_var {
            self.core.lex.next();
            self.base()?
        } else {
            RawBase {
                kind: self.plain()?,
                bounds: None,
            }
        };
        self.core.eat(T::Colon)?;
        let name = self.core.name()?;
        let base = Base {
            kind: raw.kind,
            bounds: raw.bounds.map(|w| self.core.what(w)),
        };
        self.sink.decl(is_var, Some(length), base, name);
        self.notes()?;
        self.core.eat(T::Eq)?;
        self.core.eat(T::LBrk)?;
        self.sink.value(true);
        if self.tok() != T::RBrk {
            let mut n = 0;
            loop {
                if is_var && self.tok() == T::Name {
                    self.room(n)?;
                    let name = Name {
                        start: self.core.lex.start,
                        end: self.core.lex.pos,
                    };
                    self.sink.value_name(name);
                    if self.core.lex.skip_comma() {
                        self.sink.comma();
                        n += 1;
                        self.core.lex.next_basic();
                        continue;
                    }
                    self.core.lex.next_basic();
                } else {
                    if self.core.starts_literal() {
                        self.room(n)?;
                    }
                    let l = self.core.literal()?;
                    self.sink.value_lit(l);
                }
                n += 1;
                if self.tok() != T::Comma {
                    break;
                }
                self.core.lex.next_basic();
                self.sink.comma();
            }
        }
        self.core.eat(T::RBrk)?;
        self.sink.value_end(true);
        self.core.eat(T::Semi)?;
        self.sink.decl_end();
        Ok(())
    }

    /// Refuses an element past the limit; `n` elements stand before it.
    #[inline(always)]
    fn room(&mut self, n: usize) -> R<()> {
        if n >= max_list() {
            return Err(self.core.stop_as(FaultName::TooMany));
        }
        Ok(())
    }

    fn constraint(&mut self) -> R<()> {
        self.core.lex.next_basic();
        let name = self.core.name()?;
        self.sink.constraint(name);
        self.core.eat_basic(T::LPar)?;
        if self.tok() != T::RPar {
            loop {
                match self.tok() {
                    T::Name => {
                        let n = self.core.name()?;
                        self.sink.arg_name(n, false);
                    }
                    T::LBrk => {
                        self.core.lex.next_basic();
                        self.sink.arg_list();
                        self.arg_list()?;
                        self.sink.arg_list_end();
                    }
                    _ => {
                        let l = self.core.literal()?;
                        self.sink.arg_lit(l, false);
                    }
                }
                if self.tok() != T::Comma {
                    break;
                }
                self.core.lex.next_basic();
                self.sink.comma();
            }
        }
        self.core.eat(T::RPar)?;
        self.sink.args_end();
        self.notes()?;
        self.core.eat(T::Semi)?;
        self.sink.constraint_end();
        Ok(())
    }

    #[inline(always)]
    fn arg_list(&mut self) -> R<()> {
        if self.tok() != T::RBrk {
            let mut n = 0;
            loop {
                if self.tok() == T::Name {
                    self.room(n)?;
                    let name = Name {
                        start: self.core.lex.start,
                        end: self.core.lex.pos,
                    };
                    self.sink.arg_name(name, true);
                    if self.core.lex.skip_comma() {
                        self.sink.comma();
                        n += 1;
                        self.core.lex.next_basic();
                        continue;
                    }
                    self.core.lex.next_basic();
                } else if self.tok() == T::Whole && self.core.lex.skip_comma() {
                    // skip_comma moved the end of the token by one
                    self.core.lex.pos -= 1;
                    self.room(n)?;
                    self.core.lex.pos += 1;
                    let l = &self.core.lex;
                    let lit = Lit {
                        what: What::Whole(l.num),
                        start: l.start,
                        end: l.pos - 1,
                    };
                    self.sink.arg_lit(lit, true);
                    self.sink.comma();
                    n += 1;
                    self.core.lex.next_basic();
                    continue;
                } else {
                    if self.core.starts_literal() {
                        self.room(n)?;
                    }
                    let l = self.core.literal()?;
                    self.sink.arg_lit(l, true);
                }
                n += 1;
                if self.tok() != T::Comma {
                    break;
                }
                self.core.lex.next_basic();
                self.sink.comma();
            }
        }
        self.core.eat(T::RBrk)
    }

    #[inline(always)]
    fn notes(&mut self) -> R<()> {
        while self.tok() == T::Colon2 {
            self.core.lex.next();
            if self.tok() != T::Name {
                return Err(self.core.stop());
            }
            self.note(1)?;
        }
        Ok(())
    }

    /// One annotation; the current token is its name.
    fn note(&mut self, depth: usize) -> R<()> {
        let n = self.core.name()?;
        self.sink.note(depth, n);
        if self.tok() == T::LPar {
            self.core.lex.next();
            self.sink.note_args(depth);
            loop {
                if self.tok() == T::LBrk {
                    self.core.lex.next();
                    self.sink.note_list(depth + 1);
                    if self.tok() != T::RBrk {
                        let mut n = 0;
                        loop {
                            self.note_basic(depth + 1, n)?;
                            n += 1;
                            if self.tok() != T::Comma {
                                break;
                            }
                            self.core.lex.next();
                            self.sink.comma();
                        }
                    }
                    self.core.eat(T::RBrk)?;
                    self.sink.note_list_end(depth + 1);
                } else {
                    self.note_basic(depth + 1, 0)?;
                }
                if self.tok() != T::Comma {
                    break;
                }
                self.core.lex.next();
                self.sink.comma();
            }
            self.core.eat(T::RPar)?;
            self.sink.note_args_end(depth);
        }
        self.sink.note_end(depth);
        Ok(())
    }

    /// One argument or element; `n` elements of its list stand before it.
    fn note_basic(&mut self, depth: usize, n: usize) -> R<()> {
        match self.tok() {
            T::Name => {
                if depth > MAX_DEPTH {
                    return Err(self.core.stop_as(FaultName::TooDeep));
                }
                self.room(n)?;
                self.note(depth)
            }
            T::Float | T::Str => {
                self.room(n)?;
                let text = Name {
                    start: self.core.lex.start,
                    end: self.core.lex.pos,
                };
                self.sink.note_text(depth, text, self.tok() == T::Float);
                self.core.lex.next();
                Ok(())
            }
            _ => {
                if self.core.starts_literal() {
                    self.room(n)?;
                }
                let l = self.core.literal()?;
                self.sink.note_lit(depth, l);
                Ok(())
            }
        }
    }
}
