//! The canonical text, written while the model is read.

use crate::parse::*;

pub struct Text<'a> {
    pub src: &'a [u8],
    pub out: Vec<u8>,
}

pub fn push_num(out: &mut Vec<u8>, v: i64) {
    let mut b = [0u8; 20];
    let mut i = b.len();
    let mut m = v.unsigned_abs();
    loop {
        i -= 1;
        b[i] = b'0' + (m % 10) as u8;
        m /= 10;
        if m == 0 {
            break;
        }
    }
    if v < 0 {
        out.push(b'-');
    }
    out.extend_from_slice(&b[i..]);
}

impl<'a> Text<'a> {
    fn s(&mut self, s: &str) {
        self.out.extend_from_slice(s.as_bytes());
    }

    #[inline(always)]
    fn n(&mut self, n: Name) {
        self.out.extend_from_slice(&self.src[n.start..n.end]);
    }

    #[inline(always)]
    fn what(&mut self, w: What) {
        match w {
            What::Whole(v) => push_num(&mut self.out, v),
            What::Truth(b) => self.s(if b { "true" } else { "false" }),
            What::Range(a, b) => {
                push_num(&mut self.out, a);
                self.s("..");
                push_num(&mut self.out, b);
            }
            What::Braces(v) => {
                self.s("{");
                for (i, &x) in v.iter().enumerate() {
                    if i > 0 {
                        self.s(",");
                    }
                    push_num(&mut self.out, x);
                }
                self.s("}");
            }
        }
    }

    fn base(&mut self, b: Base) {
        match b.kind {
            Kind::Bool => return self.s("bool"),
            Kind::Set => self.s("set of "),
            Kind::Int => {}
        }
        match b.bounds {
            None => self.s("int"),
            Some(w) => self.what(w),
        }
    }

    fn index_set(&mut self, set: Option<usize>) {
        match set {
            None => self.s("int"),
            Some(n) => {
                self.s("1..");
                push_num(&mut self.out, n as i64);
            }
        }
    }

    fn ty(&mut self, array: Option<&[Option<usize>]>, is_var: bool, b: Base) {
        if let Some(sets) = array {
            self.s("array [");
            for (i, set) in sets.iter().enumerate() {
                if i > 0 {
                    self.s(",");
                }
                self.index_set(*set);
            }
            self.s("] of ");
        }
        if is_var {
            self.s("var ");
        }
        self.base(b);
        self.s(": ");
    }
}

impl<'a> Sink for Text<'a> {
    fn comma(&mut self) {
        self.s(",");
    }
    fn predicate(&mut self, name: Name) {
        self.s("predicate ");
        self.n(name);
        self.s("(");
    }
    fn param(&mut self, array: Option<&[Option<usize>]>, is_var: bool, base: Base, name: Name) {
        self.ty(array, is_var, base);
        self.n(name);
    }
    fn predicate_end(&mut self) {
        self.s(");\n");
    }
    fn decl(&mut self, is_var: bool, length: Option<usize>, base: Base, name: Name) {
        self.ty(length.map(Some).as_ref().map(std::slice::from_ref), is_var, base);
        self.n(name);
    }
    fn value(&mut self, list: bool) {
        self.s(if list { " = [" } else { " = " });
    }
    fn value_lit(&mut self, lit: Lit) {
        self.what(lit.what);
    }
    fn value_name(&mut self, name: Name) {
        self.n(name);
    }
    fn value_end(&mut self, list: bool) {
        if list {
            self.s("]");
        }
    }
    fn decl_end(&mut self) {
        self.s(";\n");
    }
    fn constraint(&mut self, name: Name) {
        self.s("constraint ");
        self.n(name);
        self.s("(");
    }
    fn arg_list(&mut self) {
        self.s("[");
    }
    fn arg_lit(&mut self, lit: Lit, _: bool) {
        self.what(lit.what);
    }
    fn arg_name(&mut self, name: Name, _: bool) {
        self.n(name);
    }
    fn arg_list_end(&mut self) {
        self.s("]");
    }
    fn args_end(&mut self) {
        self.s(")");
    }
    fn constraint_end(&mut self) {
        self.s(";\n");
    }
    fn note(&mut self, depth: usize, name: Name) {
        if depth == 1 {
            self.s(" :: ");
        }
        self.n(name);
    }
    fn note_args(&mut self, _: usize) {
        self.s("(");
    }
    fn note_args_end(&mut self, _: usize) {
        self.s(")");
    }
    fn note_list(&mut self, _: usize) {
        self.s("[");
    }
    fn note_list_end(&mut self, _: usize) {
        self.s("]");
    }
    fn note_lit(&mut self, _: usize, lit: Lit) {
        self.what(lit.what);
    }
    fn note_text(&mut self, _: usize, text: Name, _: bool) {
        self.n(text);
    }
    fn solve(&mut self) {
        self.s("solve");
    }
    fn goal(&mut self, word: GoalWord) {
        self.s(match word {
            GoalWord::Satisfy => " satisfy",
            GoalWord::Minimize => " minimize ",
            GoalWord::Maximize => " maximize ",
        });
    }
    fn goal_lit(&mut self, lit: Lit) {
        self.what(lit.what);
    }
    fn goal_name(&mut self, name: Name) {
        self.n(name);
    }
    fn solve_end(&mut self) {
        self.s(";\n");
    }
}
