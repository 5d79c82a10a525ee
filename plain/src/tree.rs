//! A plain tree of a model, as the grammar lists its parts: `TreeSink` builds it while a text is read, and
//! `tell` tells another sink what it holds, as if the text were read again.

use crate::parse::*;

pub enum Literal {
    Whole(i64),
    Truth(bool),
    Range(i64, i64),
    Braces(Vec<i64>),
}

pub enum Basic {
    Lit(Literal, Name),
    Named(Name),
}

pub enum Expr {
    One(Basic),
    List(Vec<Basic>),
}

pub enum NoteBasic {
    Lit(Literal, Name),
    Float(Name),
    Str(Name),
    Inner(Note),
}

pub enum NoteArg {
    One(NoteBasic),
    List(Vec<NoteBasic>),
}

pub struct Note {
    pub name: Name,
    pub args: Vec<NoteArg>,
}

pub struct TreeBase {
    pub kind: Kind,
    pub bounds: Option<Literal>,
}

pub struct Param {
    pub array: Option<Vec<Option<usize>>>,
    pub is_var: bool,
    pub base: TreeBase,
    pub name: Name,
}

pub struct Predicate {
    pub name: Name,
    pub params: Vec<Param>,
}

pub struct DeclT {
    pub is_var: bool,
    pub length: Option<usize>,
    pub base: TreeBase,
    pub name: Name,
    pub notes: Vec<Note>,
    pub value: Option<Expr>,
}

pub struct Constraint {
    pub name: Name,
    pub args: Vec<Expr>,
    pub notes: Vec<Note>,
}

#[derive(Default)]
pub struct Tree {
    pub predicates: Vec<Predicate>,
    pub decls: Vec<DeclT>,
    pub constraints: Vec<Constraint>,
    pub notes: Vec<Note>,
    pub goal: Option<(GoalWord, Option<Basic>)>,
}

#[derive(Default, PartialEq)]
enum Where {
    #[default]
    Decl,
    Con,
    Solve,
}

#[derive(Default)]
pub struct TreeSink {
    pub tree: Tree,
    list: Option<Vec<Basic>>,
    stack: Vec<Note>,
    note_lists: Vec<Option<Vec<NoteBasic>>>,
    at: Where,
}

fn lit(w: What) -> Literal {
    match w {
        What::Whole(v) => Literal::Whole(v),
        What::Truth(b) => Literal::Truth(b),
        What::Range(a, b) => Literal::Range(a, b),
        What::Braces(v) => Literal::Braces(v.to_vec()),
    }
}

fn base(b: Base) -> TreeBase {
    TreeBase {
        kind: b.kind,
        bounds: b.bounds.map(lit),
    }
}

impl TreeSink {
    fn basic(&mut self, b: NoteBasic) {
        if let Some(Some(l)) = self.note_lists.last_mut() {
            return l.push(b);
        }
        self.stack.last_mut().unwrap().args.push(NoteArg::One(b));
    }
}

impl Sink for TreeSink {
    fn predicate(&mut self, name: Name) {
        self.tree.predicates.push(Predicate {
            name,
            params: Vec::new(),
        });
    }
    fn param(&mut self, array: Option<&[Option<usize>]>, is_var: bool, b: Base, name: Name) {
        let p = Param {
            array: array.map(<[_]>::to_vec),
            is_var,
            base: base(b),
            name,
        };
        self.tree.predicates.last_mut().unwrap().params.push(p);
    }
    fn decl(&mut self, is_var: bool, length: Option<usize>, b: Base, name: Name) {
        self.tree.decls.push(DeclT {
            is_var,
            length,
            base: base(b),
            name,
            notes: Vec::new(),
            value: None,
        });
    }
    fn value(&mut self, list: bool) {
        self.list = list.then(Vec::new);
    }
    fn value_lit(&mut self, l: Lit) {
        let b = Basic::Lit(
            lit(l.what),
            Name {
                start: l.start,
                end: l.end,
            },
        );
        match &mut self.list {
            Some(v) => v.push(b),
            None => self.tree.decls.last_mut().unwrap().value = Some(Expr::One(b)),
        }
    }
    fn value_name(&mut self, n: Name) {
        let b = Basic::Named(n);
        match &mut self.list {
            Some(v) => v.push(b),
            None => self.tree.decls.last_mut().unwrap().value = Some(Expr::One(b)),
        }
    }
    fn value_end(&mut self, _: bool) {
        if let Some(v) = self.list.take() {
            self.tree.decls.last_mut().unwrap().value = Some(Expr::List(v));
        }
    }
    fn decls_end(&mut self) {
        self.at = Where::Con;
    }
    fn constraint(&mut self, name: Name) {
        self.tree.constraints.push(Constraint {
            name,
            args: Vec::new(),
            notes: Vec::new(),
        });
    }
    fn arg_list(&mut self) {
        self.list = Some(Vec::new());
    }
    fn arg_lit(&mut self, l: Lit, _: bool) {
        let b = Basic::Lit(
            lit(l.what),
            Name {
                start: l.start,
                end: l.end,
            },
        );
        match &mut self.list {
            Some(v) => v.push(b),
            None => self
                .tree
                .constraints
                .last_mut()
                .unwrap()
                .args
                .push(Expr::One(b)),
        }
    }
    fn arg_name(&mut self, n: Name, _: bool) {
        let b = Basic::Named(n);
        match &mut self.list {
            Some(v) => v.push(b),
            None => self
                .tree
                .constraints
                .last_mut()
                .unwrap()
                .args
                .push(Expr::One(b)),
        }
    }
    fn arg_list_end(&mut self) {
        let v = self.list.take().unwrap();
        self.tree
            .constraints
            .last_mut()
            .unwrap()
            .args
            .push(Expr::List(v));
    }
    fn note(&mut self, _: usize, name: Name) {
        self.stack.push(Note {
            name,
            args: Vec::new(),
        });
        self.note_lists.push(None);
    }
    fn note_end(&mut self, depth: usize) {
        self.note_lists.pop();
        let n = self.stack.pop().unwrap();
        if depth > 1 {
            return self.basic(NoteBasic::Inner(n));
        }
        match self.at {
            Where::Decl => self.tree.decls.last_mut().unwrap().notes.push(n),
            Where::Con => self.tree.constraints.last_mut().unwrap().notes.push(n),
            Where::Solve => self.tree.notes.push(n),
        }
    }
    fn note_list(&mut self, _: usize) {
        *self.note_lists.last_mut().unwrap() = Some(Vec::new());
    }
    fn note_list_end(&mut self, _: usize) {
        let v = self.note_lists.last_mut().unwrap().take().unwrap();
        self.stack.last_mut().unwrap().args.push(NoteArg::List(v));
    }
    fn note_lit(&mut self, _: usize, l: Lit) {
        self.basic(NoteBasic::Lit(
            lit(l.what),
            Name {
                start: l.start,
                end: l.end,
            },
        ));
    }
    fn note_text(&mut self, _: usize, text: Name, is_float: bool) {
        self.basic(if is_float {
            NoteBasic::Float(text)
        } else {
            NoteBasic::Str(text)
        });
    }
    fn solve(&mut self) {
        self.at = Where::Solve;
    }
    fn goal(&mut self, word: GoalWord) {
        self.tree.goal = Some((word, None));
    }
    fn goal_lit(&mut self, l: Lit) {
        let b = Basic::Lit(
            lit(l.what),
            Name {
                start: l.start,
                end: l.end,
            },
        );
        self.tree.goal.as_mut().unwrap().1 = Some(b);
    }
    fn goal_name(&mut self, n: Name) {
        self.tree.goal.as_mut().unwrap().1 = Some(Basic::Named(n));
    }
}

impl Literal {
    fn what(&self) -> What<'_> {
        match self {
            Literal::Whole(v) => What::Whole(*v),
            Literal::Truth(b) => What::Truth(*b),
            Literal::Range(a, b) => What::Range(*a, *b),
            Literal::Braces(v) => What::Braces(v),
        }
    }

    fn placed(&self, at: Name) -> Lit<'_> {
        Lit {
            what: self.what(),
            start: at.start,
            end: at.end,
        }
    }
}

impl TreeBase {
    fn base(&self) -> Base<'_> {
        Base {
            kind: self.kind,
            bounds: self.bounds.as_ref().map(Literal::what),
        }
    }
}

/// Tells a sink the parts of a tree in source order.
pub fn tell<S: Sink>(tree: &Tree, sink: &mut S) {
    for p in &tree.predicates {
        tell_predicate(p, sink);
    }
    for d in &tree.decls {
        tell_decl(d, sink);
    }
    sink.decls_end();
    for c in &tree.constraints {
        tell_constraint(c, sink);
    }
    sink.solve();
    tell_notes(&tree.notes, sink);
    let (word, objective) = tree.goal.as_ref().expect("a tree has a goal");
    sink.goal(*word);
    match objective {
        None => {}
        Some(Basic::Named(n)) => sink.goal_name(*n),
        Some(Basic::Lit(l, at)) => sink.goal_lit(l.placed(*at)),
    }
    sink.solve_end();
}

fn tell_predicate<S: Sink>(p: &Predicate, sink: &mut S) {
    sink.predicate(p.name);
    for (i, q) in p.params.iter().enumerate() {
        if i > 0 {
            sink.comma();
        }
        sink.param(q.array.as_deref(), q.is_var, q.base.base(), q.name);
    }
    sink.predicate_end();
}

fn tell_decl<S: Sink>(d: &DeclT, sink: &mut S) {
    sink.decl(d.is_var, d.length, d.base.base(), d.name);
    tell_notes(&d.notes, sink);
    match &d.value {
        None => {}
        Some(Expr::One(b)) => {
            sink.value(false);
            tell_value(b, sink);
            sink.value_end(false);
        }
        Some(Expr::List(v)) => {
            sink.value(true);
            for (i, b) in v.iter().enumerate() {
                if i > 0 {
                    sink.comma();
                }
                tell_value(b, sink);
            }
            sink.value_end(true);
        }
    }
    sink.decl_end();
}

fn tell_value<S: Sink>(b: &Basic, sink: &mut S) {
    match b {
        Basic::Named(n) => sink.value_name(*n),
        Basic::Lit(l, at) => sink.value_lit(l.placed(*at)),
    }
}

fn tell_constraint<S: Sink>(c: &Constraint, sink: &mut S) {
    sink.constraint(c.name);
    for (i, a) in c.args.iter().enumerate() {
        if i > 0 {
            sink.comma();
        }
        match a {
            Expr::One(b) => tell_arg(b, false, sink),
            Expr::List(v) => {
                sink.arg_list();
                for (j, b) in v.iter().enumerate() {
                    if j > 0 {
                        sink.comma();
                    }
                    tell_arg(b, true, sink);
                }
                sink.arg_list_end();
            }
        }
    }
    sink.args_end();
    tell_notes(&c.notes, sink);
    sink.constraint_end();
}

fn tell_arg<S: Sink>(b: &Basic, in_list: bool, sink: &mut S) {
    match b {
        Basic::Named(n) => sink.arg_name(*n, in_list),
        Basic::Lit(l, at) => sink.arg_lit(l.placed(*at), in_list),
    }
}

fn tell_notes<S: Sink>(notes: &[Note], sink: &mut S) {
    for n in notes {
        tell_note(n, 1, sink);
    }
}

fn tell_note<S: Sink>(n: &Note, depth: usize, sink: &mut S) {
    sink.note(depth, n.name);
    if !n.args.is_empty() {
        sink.note_args(depth);
        for (i, a) in n.args.iter().enumerate() {
            if i > 0 {
                sink.comma();
            }
            match a {
                NoteArg::One(b) => tell_note_basic(b, depth + 1, sink),
                NoteArg::List(v) => {
                    sink.note_list(depth + 1);
                    for (j, b) in v.iter().enumerate() {
                        if j > 0 {
                            sink.comma();
                        }
                        tell_note_basic(b, depth + 1, sink);
                    }
                    sink.note_list_end(depth + 1);
                }
            }
        }
        sink.note_args_end(depth);
    }
    sink.note_end(depth);
}

fn tell_note_basic<S: Sink>(b: &NoteBasic, depth: usize, sink: &mut S) {
    match b {
        NoteBasic::Lit(l, at) => sink.note_lit(depth, l.placed(*at)),
        NoteBasic::Float(t) => sink.note_text(depth, *t, true),
        NoteBasic::Str(t) => sink.note_text(depth, *t, false),
        NoteBasic::Inner(n) => tell_note(n, depth, sink),
    }
}
