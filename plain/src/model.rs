//! A model resolved while it is read: names, domains, definitions and constraints with
//! the places of their arguments in one flat array of values.

use crate::lex::{Fault, FaultName};
use crate::names::{hash, Slot, Table};
use crate::parse::*;
use crate::sets::{push_list, Range, SetOp};

pub const NONE: u32 = u32::MAX;
/// Marks a constant's number among the declarations, where the number of variables isn't
/// known yet.
const CONST: u32 = 1 << 31;
/// Of an array: its elements stand side by side in the array of values.
pub const SIDE: u32 = 1 << 31;
/// Of the variables of a linear row, in its `n`.
pub const SIDE_V: u32 = 1 << 30;
pub const COUNT: u32 = SIDE_V - 1;

// Tags of names. The lower two bits are the kind of a scalar.
pub const VAR: u8 = 0;
pub const PAR: u8 = 4;
pub const ARRAY: u8 = 8;

// Kinds of arguments.
pub const I: u8 = 1;
pub const B: u8 = 2;
pub const S: u8 = 3;
const EMPTY: u8 = 4;
const AI: u8 = 5;
const AB: u8 = 6;
const AS: u8 = 7;
const MIXED: u8 = 8;

#[derive(Clone, Copy, PartialEq, Eq, Debug)]
pub enum Rel {
    Eq,
    Ne,
    Le,
    Lt,
}

#[derive(Clone, Copy, PartialEq, Eq, Debug)]
pub enum Ar {
    Plus,
    Times,
    Min,
    Max,
    Div,
    Mod,
}

#[derive(Clone, Copy, PartialEq, Eq, Debug)]
pub enum Lg {
    And,
    Or,
    Xor,
}

#[derive(Clone, Copy, PartialEq, Eq, Debug)]
pub enum SRel {
    Eq,
    Ne,
    Sub,
    Super,
}

/// Elements of an array: `n` places of values, from `off` on in `Model::elems`, or, where
/// `n` has the bit `SIDE`, from `off` on in the array of values itself.
#[derive(Clone, Copy, Debug)]
pub struct Arr {
    pub off: u32,
    pub n: u32,
}

impl Arr {
    #[inline(always)]
    pub fn len(self) -> usize {
        (self.n & COUNT) as usize
    }
    #[inline(always)]
    pub fn side(self) -> bool {
        self.n & SIDE != 0
    }
}

/// A constraint; a `u32` is the place of a value.
#[derive(Clone, Copy, Debug)]
pub enum Con {
    Unknown,
    Cmp(Rel, u32, u32),
    CmpR(Rel, u32, u32, u32),
    Not(u32, u32),
    Lin {
        rel: Rel,
        co: u32,
        vo: u32,
        n: u32,
        c: u32,
    },
    LinR {
        rel: Rel,
        co: u32,
        vo: u32,
        n: u32,
        c: u32,
        r: u32,
    },
    Arith(Ar, u32, u32, u32),
    Pow(u32, u32, u32),
    Abs(u32, u32),
    Elem(u32, Arr, u32),
    ElemSet(u32, Arr, u32),
    Ext {
        max: bool,
        a: u32,
        b: Arr,
    },
    Logic(Lg, u32, u32, u32),
    Every {
        all: bool,
        a: Arr,
        b: u32,
    },
    Parity(Arr),
    Clause(Arr, Arr),
    B2I(u32, u32),
    BLin {
        le: bool,
        co: u32,
        vo: u32,
        n: u32,
        c: u32,
    },
    In(u32, u32),
    InR(u32, u32, u32),
    SetRel(SRel, u32, u32),
    SetRelR(SRel, u32, u32, u32),
    SetOp(SetOp, u32, u32, u32),
    Card(u32, u32),
    AllDiff(Arr),
}

/// The scalars and arrays of a constraint.
pub struct Parts {
    pub sc: [u32; 4],
    pub nsc: usize,
    pub arr: [Arr; 2],
    pub narr: usize,
}

fn lin_arrs(co: u32, vo: u32, n: u32) -> [Arr; 2] {
    let k = n & COUNT;
    [
        Arr {
            off: co,
            n: k | (n & SIDE),
        },
        Arr {
            off: vo,
            n: k | if n & SIDE_V != 0 { SIDE } else { 0 },
        },
    ]
}

impl Con {
    #[inline]
    pub fn parts(&self) -> Parts {
        let z = Arr { off: 0, n: 0 };
        let p = |sc: &[u32], arr: &[Arr]| {
            let mut r = Parts {
                sc: [0; 4],
                nsc: sc.len(),
                arr: [z; 2],
                narr: arr.len(),
            };
            r.sc[..sc.len()].copy_from_slice(sc);
            r.arr[..arr.len()].copy_from_slice(arr);
            r
        };
        match *self {
            Con::Unknown => p(&[], &[]),
            Con::Cmp(_, a, b)
            | Con::Not(a, b)
            | Con::Abs(a, b)
            | Con::B2I(a, b)
            | Con::In(a, b)
            | Con::SetRel(_, a, b)
            | Con::Card(a, b) => p(&[a, b], &[]),
            Con::CmpR(_, a, b, c)
            | Con::Arith(_, a, b, c)
            | Con::Pow(a, b, c)
            | Con::Logic(_, a, b, c)
            | Con::InR(a, b, c)
            | Con::SetRelR(_, a, b, c)
            | Con::SetOp(_, a, b, c) => p(&[a, b, c], &[]),
            Con::Lin { co, vo, n, c, .. } | Con::BLin { co, vo, n, c, .. } => {
                p(&[c], &lin_arrs(co, vo, n))
            }
            Con::LinR {
                co, vo, n, c, r, ..
            } => p(&[c, r], &lin_arrs(co, vo, n)),
            Con::Elem(a, b, c) | Con::ElemSet(a, b, c) => p(&[a, c], &[b]),
            Con::Ext { a, b, .. } => p(&[a], &[b]),
            Con::Every { a, b, .. } => p(&[b], &[a]),
            Con::Parity(a) | Con::AllDiff(a) => p(&[], &[a]),
            Con::Clause(a, b) => p(&[], &[a, b]),
        }
    }

    /// Whether a scalar place that holds `t` is a result place of the row.
    fn result(&self, t: u32) -> bool {
        match *self {
            Con::Cmp(Rel::Eq, a, b)
            | Con::Not(a, b)
            | Con::B2I(a, b)
            | Con::SetRel(SRel::Eq, a, b) => t == a || t == b,
            Con::CmpR(_, _, _, c)
            | Con::Arith(_, _, _, c)
            | Con::Pow(_, _, c)
            | Con::Logic(_, _, _, c)
            | Con::InR(_, _, c)
            | Con::SetRelR(_, _, _, c)
            | Con::SetOp(_, _, _, c)
            | Con::LinR { r: c, .. }
            | Con::Elem(_, _, c)
            | Con::ElemSet(_, _, c)
            | Con::BLin { le: false, c, .. }
            | Con::Abs(_, c)
            | Con::Card(_, c)
            | Con::Ext { a: c, .. }
            | Con::Every { b: c, .. } => t == c,
            _ => false,
        }
    }
}

#[derive(Clone, Copy)]
enum Op {
    Cmp(Rel),
    CmpR(Rel),
    Not,
    Lin(Rel),
    LinR(Rel),
    Arith(Ar),
    Pow,
    Abs,
    Elem,
    ElemSet,
    Ext(bool),
    Logic(Lg),
    Every(bool),
    Parity,
    Clause,
    B2I,
    BLin(bool),
    In,
    InR,
    SetRel(SRel),
    SetRelR(SRel),
    SetOp(SetOp),
    Card,
    AllDiff,
}

type Row = (&'static str, &'static [u8], Op);

static ROWS: &[Row] = &[
    ("int_eq", &[I, I], Op::Cmp(Rel::Eq)),
    ("int_ne", &[I, I], Op::Cmp(Rel::Ne)),
    ("int_le", &[I, I], Op::Cmp(Rel::Le)),
    ("int_lt", &[I, I], Op::Cmp(Rel::Lt)),
    ("int_eq_reif", &[I, I, B], Op::CmpR(Rel::Eq)),
    ("int_ne_reif", &[I, I, B], Op::CmpR(Rel::Ne)),
    ("int_le_reif", &[I, I, B], Op::CmpR(Rel::Le)),
    ("int_lt_reif", &[I, I, B], Op::CmpR(Rel::Lt)),
    ("int_lin_eq", &[AI, AI, I], Op::Lin(Rel::Eq)),
    ("int_lin_ne", &[AI, AI, I], Op::Lin(Rel::Ne)),
    ("int_lin_le", &[AI, AI, I], Op::Lin(Rel::Le)),
    ("int_lin_eq_reif", &[AI, AI, I, B], Op::LinR(Rel::Eq)),
    ("int_lin_ne_reif", &[AI, AI, I, B], Op::LinR(Rel::Ne)),
    ("int_lin_le_reif", &[AI, AI, I, B], Op::LinR(Rel::Le)),
    ("int_plus", &[I, I, I], Op::Arith(Ar::Plus)),
    ("int_times", &[I, I, I], Op::Arith(Ar::Times)),
    ("int_min", &[I, I, I], Op::Arith(Ar::Min)),
    ("int_max", &[I, I, I], Op::Arith(Ar::Max)),
    ("int_div", &[I, I, I], Op::Arith(Ar::Div)),
    ("int_mod", &[I, I, I], Op::Arith(Ar::Mod)),
    ("int_pow", &[I, I, I], Op::Pow),
    ("gecode_int_pow", &[I, I, I], Op::Pow),
    ("int_abs", &[I, I], Op::Abs),
    ("array_int_element", &[I, AI, I], Op::Elem),
    ("array_var_int_element", &[I, AI, I], Op::Elem),
    ("array_int_maximum", &[I, AI], Op::Ext(true)),
    ("array_int_minimum", &[I, AI], Op::Ext(false)),
    ("bool_eq", &[B, B], Op::Cmp(Rel::Eq)),
    ("bool_le", &[B, B], Op::Cmp(Rel::Le)),
    ("bool_lt", &[B, B], Op::Cmp(Rel::Lt)),
    ("bool_eq_reif", &[B, B, B], Op::CmpR(Rel::Eq)),
    ("bool_le_reif", &[B, B, B], Op::CmpR(Rel::Le)),
    ("bool_lt_reif", &[B, B, B], Op::CmpR(Rel::Lt)),
    ("bool_not", &[B, B], Op::Not),
    ("bool_and", &[B, B, B], Op::Logic(Lg::And)),
    ("bool_or", &[B, B, B], Op::Logic(Lg::Or)),
    ("bool_xor", &[B, B, B], Op::Logic(Lg::Xor)),
    ("array_bool_and", &[AB, B], Op::Every(true)),
    ("array_bool_or", &[AB, B], Op::Every(false)),
    ("array_bool_xor", &[AB], Op::Parity),
    ("array_bool_element", &[I, AB, B], Op::Elem),
    ("array_var_bool_element", &[I, AB, B], Op::Elem),
    ("bool_clause", &[AB, AB], Op::Clause),
    ("bool2int", &[B, I], Op::B2I),
    ("bool_lin_eq", &[AI, AB, I], Op::BLin(false)),
    ("bool_lin_le", &[AI, AB, I], Op::BLin(true)),
    ("set_in", &[I, S], Op::In),
    ("set_in_reif", &[I, S, B], Op::InR),
    ("set_eq", &[S, S], Op::SetRel(SRel::Eq)),
    ("set_ne", &[S, S], Op::SetRel(SRel::Ne)),
    ("set_subset", &[S, S], Op::SetRel(SRel::Sub)),
    ("set_superset", &[S, S], Op::SetRel(SRel::Super)),
    ("set_eq_reif", &[S, S, B], Op::SetRelR(SRel::Eq)),
    ("set_ne_reif", &[S, S, B], Op::SetRelR(SRel::Ne)),
    ("set_subset_reif", &[S, S, B], Op::SetRelR(SRel::Sub)),
    ("set_superset_reif", &[S, S, B], Op::SetRelR(SRel::Super)),
    ("set_union", &[S, S, S], Op::SetOp(SetOp::Union)),
    ("set_intersect", &[S, S, S], Op::SetOp(SetOp::Intersect)),
    ("set_diff", &[S, S, S], Op::SetOp(SetOp::Diff)),
    ("set_symdiff", &[S, S, S], Op::SetOp(SetOp::SymDiff)),
    ("set_card", &[S, I], Op::Card),
    ("array_set_element", &[I, AS, S], Op::ElemSet),
    ("array_var_set_element", &[I, AS, S], Op::ElemSet),
    ("fzn_all_different_int", &[AI], Op::AllDiff),
];

/// A declaration's point that isn't a plain range of a whole number or a truth value.
#[derive(Clone, Copy)]
pub struct Special {
    /// The number of scalar variables whose domain point stands before this point; for the
    /// domain of a variable its own number.
    pub after: u32,
    pub what: SpecialWhat,
}

#[derive(Clone, Copy)]
pub enum SpecialWhat {
    Among {
        var: u32,
        set: u32,
    },
    SetBounds {
        var: u32,
        set: u32,
    },
    Def {
        var: u32,
        other: u32,
        is_set: bool,
    },
    Array {
        name: u32,
        arr: Arr,
        set: u32,
        is_set: bool,
    },
}

/// A point that can give a forced step, in point order.
#[derive(Clone, Copy)]
pub enum Cand {
    Dom {
        var: u32,
        value: i64,
    },
    Def {
        var: u32,
        other: u32,
    },
    /// `others` are the variables other than the target, in `Model::others`; where there
    /// would be too many of them (large declared arrays), `n` is `NONE`.
    Con {
        k: u32,
        target: u32,
        others: u32,
        n: u32,
    },
}

#[derive(Clone, Copy, PartialEq, Eq)]
pub enum Goal {
    Satisfy,
    Minimize(u32),
    Maximize(u32),
}

#[derive(Clone, Copy)]
pub struct ArrayInfo {
    pub kind: u8,
    pub arr: Arr,
}

/// A loaded model. `vals` has the variables first, then the constants.
pub struct Model<'a> {
    pub src: &'a [u8],
    pub table: Table,
    pub nvars: usize,
    pub vals: Vec<i64>,
    pub elems: Vec<u32>,
    /// The elements before this place belong to declared arrays.
    pub decl_elems: usize,
    pub arrays: Vec<ArrayInfo>,
    pub var_name: Vec<u32>,
    pub lo: Vec<i64>,
    pub hi: Vec<i64>,
    pub specials: Vec<Special>,
    pub cands: Vec<Cand>,
    pub others: Vec<u32>,
    pub cons: Vec<Con>,
    pub con_name: Vec<u32>,
    pub first_unknown: Option<u32>,
    pub sets: Vec<(u32, u32)>,
    pub ranges: Vec<Range>,
    pub goal: Goal,
}

#[derive(Clone, Copy)]
struct Arg {
    kind: u8,
    off: u32,
    n: u32,
}

struct Decl {
    is_var: bool,
    length: Option<usize>,
    kind: u8,
    bounds: Option<u32>,
    range: Option<(i64, i64)>,
    name: Name,
    hash: u32,
    slot: usize,
    count: usize,
    elems: usize,
    vals: usize,
    all_whole: bool,
    value: u32,
}

const SMALL: std::ops::Range<i64> = -256..1024;

pub struct Builder<'a> {
    pub m: Model<'a>,
    pub fault: Option<Fault>,
    /// A fault is known and no later place counts.
    dead: bool,
    rows: Table,
    row_names: Vec<u8>,
    /// The number of the first constant: `CONST` among the declarations, then the number of
    /// variables.
    base: u32,
    d: Decl,
    small: Vec<u32>,
    // The constraint that is read.
    con: Name,
    args: Vec<Arg>,
    list_elems: usize,
    list_vals: usize,
    list_kind: u8,
    all_whole: bool,
    in_con: bool,
    noted: bool,
    note_ok: bool,
    note_args: usize,
    note_name: Name,
    target: u32,
    nums: Vec<i64>,
}

fn kind_of(k: Kind) -> u8 {
    match k {
        Kind::Int => I,
        Kind::Bool => B,
        Kind::Set => S,
    }
}

fn lit_kind(w: &What) -> u8 {
    match w {
        What::Whole(_) => I,
        What::Truth(_) => B,
        _ => S,
    }
}

const NO_NAME: Name = Name { start: 0, end: 0 };

impl<'a> Builder<'a> {
    pub fn new(src: &'a [u8], end: usize) -> Self {
        let mut row_names = Vec::new();
        let mut rows = Table::new(256);
        let mut at = Vec::new();
        for r in ROWS {
            at.push((row_names.len(), row_names.len() + r.0.len()));
            row_names.extend_from_slice(r.0.as_bytes());
        }
        row_names.resize(row_names.len() + crate::lex::PAD, 0);
        for (i, &(s, e)) in at.iter().enumerate() {
            let h = hash(&row_names, s, e);
            match rows.find(&row_names, &row_names, s, e, h) {
                Ok(_) => unreachable!(),
                Err(slot) => rows.insert(slot, h, s, e, 1, i as u32),
            }
        }
        let mut b = Builder {
            m: Model {
                src,
                table: Table::new(end / 256),
                nvars: 0,
                vals: Vec::new(),
                elems: Vec::new(),
                decl_elems: 0,
                arrays: Vec::new(),
                var_name: Vec::new(),
                lo: Vec::new(),
                hi: Vec::new(),
                specials: Vec::new(),
                cands: Vec::new(),
                others: Vec::new(),
                cons: Vec::new(),
                con_name: Vec::new(),
                first_unknown: None,
                sets: Vec::new(),
                ranges: Vec::new(),
                goal: Goal::Satisfy,
            },
            fault: None,
            dead: false,
            rows,
            row_names,
            base: CONST,
            d: Decl {
                is_var: false,
                length: None,
                kind: 0,
                bounds: None,
                range: None,
                name: NO_NAME,
                hash: 0,
                slot: 0,
                count: 0,
                elems: 0,
                vals: 0,
                all_whole: true,
                value: NONE,
            },
            small: vec![NONE; (SMALL.end - SMALL.start) as usize],
            con: NO_NAME,
            args: Vec::new(),
            list_elems: 0,
            list_vals: 0,
            list_kind: EMPTY,
            all_whole: true,
            in_con: false,
            noted: false,
            note_ok: false,
            note_args: 0,
            note_name: NO_NAME,
            target: NONE,
            nums: Vec::new(),
        };
        // Constants 0 and 1 are the truth values.
        b.m.vals.extend([0, 1]);
        b
    }

    #[cold]
    fn blame(&mut self, name: FaultName, start: usize, end: usize) {
        if self.fault.is_none_or(|f| start < f.start) {
            self.fault = Some(Fault { name, start, end });
        }
    }

    #[inline(always)]
    fn find(&self, n: Name) -> Option<Slot> {
        let h = hash(self.m.src, n.start, n.end);
        match self.m.table.find(self.m.src, self.m.src, n.start, n.end, h) {
            Ok(i) => Some(self.m.table.slots[i]),
            Err(_) => None,
        }
    }

    /// A new constant. Among the declarations `vals` holds only constants.
    #[inline(always)]
    fn constant(&mut self, v: i64) -> u32 {
        let i = self.m.vals.len() as u32;
        self.m.vals.push(v);
        if self.base == CONST {
            CONST | i
        } else {
            i
        }
    }

    /// A constant of its own or a shared one.
    #[inline(always)]
    fn shared(&mut self, v: i64) -> u32 {
        if SMALL.contains(&v) && self.base != CONST {
            let i = (v - SMALL.start) as usize;
            if self.small[i] == NONE {
                self.small[i] = self.constant(v);
            }
            self.small[i]
        } else {
            self.constant(v)
        }
    }

    fn set(&mut self, w: &What) -> u32 {
        let from = self.m.ranges.len() as u32;
        match *w {
            What::Range(a, b) if a <= b => self.m.ranges.push((a, b)),
            What::Braces(v) => {
                self.nums.clear();
                self.nums.extend_from_slice(v);
                push_list(&mut self.m.ranges, &mut self.nums);
            }
            _ => {}
        }
        self.m.sets.push((from, self.m.ranges.len() as u32));
        self.m.sets.len() as u32 - 1
    }

    #[inline(always)]
    fn literal(&mut self, w: &What, in_list: bool) -> u32 {
        match *w {
            What::Whole(v) if in_list => self.constant(v),
            What::Whole(v) => self.shared(v),
            What::Truth(b) => self.base + b as u32,
            _ => {
                let s = self.set(w);
                self.constant(s as i64)
            }
        }
    }

    /// The place of a scalar's value.
    #[inline(always)]
    fn place(&self, s: Slot) -> u32 {
        if s.tag() & PAR != 0 {
            self.base + s.data
        } else {
            s.data
        }
    }

    /// Whether a list literal consists of whole numbers only, side by side.
    fn fit(&self) -> Con {
        let h = hash(self.m.src, self.con.start, self.con.end);
        let Ok(i) = self
            .rows
            .find(&self.row_names, self.m.src, self.con.start, self.con.end, h)
        else {
            return Con::Unknown;
        };
        let (_, sig, op) = ROWS[self.rows.slots[i].data as usize];
        let a = &self.args[..];
        if a.len() != sig.len() {
            return Con::Unknown;
        }
        for (a, &k) in a.iter().zip(sig) {
            if a.kind != k && !(a.kind == EMPTY && k >= AI) {
                return Con::Unknown;
            }
        }
        let v = |i: usize| a[i].off;
        let arr = |i: usize| Arr {
            off: a[i].off,
            n: a[i].n,
        };
        let lin_n = |x: Arr, y: Arr| {
            if x.len() != y.len() {
                return None;
            }
            Some(x.n | if y.side() { SIDE_V } else { 0 })
        };
        match op {
            Op::Cmp(r) => Con::Cmp(r, v(0), v(1)),
            Op::CmpR(r) => Con::CmpR(r, v(0), v(1), v(2)),
            Op::Not => Con::Not(v(0), v(1)),
            Op::Lin(rel) => match lin_n(arr(0), arr(1)) {
                None => Con::Unknown,
                Some(n) => Con::Lin {
                    rel,
                    co: v(0),
                    vo: v(1),
                    n,
                    c: v(2),
                },
            },
            Op::LinR(rel) => match lin_n(arr(0), arr(1)) {
                None => Con::Unknown,
                Some(n) => Con::LinR {
                    rel,
                    co: v(0),
                    vo: v(1),
                    n,
                    c: v(2),
                    r: v(3),
                },
            },
            Op::BLin(le) => match lin_n(arr(0), arr(1)) {
                None => Con::Unknown,
                Some(n) => Con::BLin {
                    le,
                    co: v(0),
                    vo: v(1),
                    n,
                    c: v(2),
                },
            },
            Op::Arith(o) => Con::Arith(o, v(0), v(1), v(2)),
            Op::Pow => Con::Pow(v(0), v(1), v(2)),
            Op::Abs => Con::Abs(v(0), v(1)),
            Op::Elem => Con::Elem(v(0), arr(1), v(2)),
            Op::ElemSet => Con::ElemSet(v(0), arr(1), v(2)),
            Op::Ext(max) => Con::Ext {
                max,
                a: v(0),
                b: arr(1),
            },
            Op::Logic(o) => Con::Logic(o, v(0), v(1), v(2)),
            Op::Every(all) => Con::Every {
                all,
                a: arr(0),
                b: v(1),
            },
            Op::Parity => Con::Parity(arr(0)),
            Op::Clause => Con::Clause(arr(0), arr(1)),
            Op::B2I => Con::B2I(v(0), v(1)),
            Op::In => Con::In(v(0), v(1)),
            Op::InR => Con::InR(v(0), v(1), v(2)),
            Op::SetRel(r) => Con::SetRel(r, v(0), v(1)),
            Op::SetRelR(r) => Con::SetRelR(r, v(0), v(1), v(2)),
            Op::SetOp(o) => Con::SetOp(o, v(0), v(1), v(2)),
            Op::Card => Con::Card(v(0), v(1)),
            Op::AllDiff => Con::AllDiff(arr(0)),
        }
    }

    /// Whether the constraint can give the target a value: it stands in it once, in a
    /// result place or as an element of `int_lin_eq`'s second array.
    fn can_step(&self, con: &Con, t: u32) -> bool {
        let p = con.parts();
        let mut n = p.sc[..p.nsc].iter().filter(|&&x| x == t).count();
        let result = n == 1 && con.result(t);
        for a in &p.arr[..p.narr] {
            if !a.side() {
                let e = &self.m.elems[a.off as usize..][..a.len()];
                n += e.iter().filter(|&&x| x == t).count();
            }
        }
        if n != 1 {
            return false;
        }
        if result {
            return true;
        }
        match *con {
            Con::Lin {
                rel: Rel::Eq,
                vo,
                n,
                ..
            } if n & SIDE_V == 0 => {
                self.m.elems[vo as usize..][..(n & COUNT) as usize].contains(&t)
            }
            _ => false,
        }
    }
}

impl<'a> Sink for Builder<'a> {
    fn decl(&mut self, is_var: bool, length: Option<usize>, base: Base, name: Name) {
        if self.dead {
            return;
        }
        let h = hash(self.m.src, name.start, name.end);
        let slot = match self
            .m
            .table
            .find(self.m.src, self.m.src, name.start, name.end, h)
        {
            Ok(_) => {
                self.blame(FaultName::DuplicateName, name.start, name.end);
                self.dead = true;
                return;
            }
            Err(s) => s,
        };
        let kind = kind_of(base.kind);
        let mut range = None;
        let mut bounds = None;
        if is_var {
            match base.bounds {
                None => {}
                Some(What::Range(a, b)) if kind == I && length.is_none() => range = Some((a, b)),
                Some(w) => {
                    let s = self.set(&w);
                    bounds = Some(s);
                    if kind == I && length.is_none() {
                        let (f, e) = self.m.sets[s as usize];
                        let r = &self.m.ranges[f as usize..e as usize];
                        if r.is_empty() {
                            range = Some((1, 0));
                            bounds = None;
                        } else if let &[r] = r {
                            range = Some(r);
                            bounds = None;
                        }
                    }
                }
            }
        }
        self.d = Decl {
            is_var,
            length,
            kind,
            bounds,
            range,
            name,
            hash: h,
            slot,
            count: 0,
            elems: self.m.elems.len(),
            vals: self.m.vals.len(),
            all_whole: true,
            value: NONE,
        };
    }

    #[inline(always)]
    fn value_lit(&mut self, lit: Lit) {
        if self.dead {
            return;
        }
        self.d.count += 1;
        if lit_kind(&lit.what) != self.d.kind {
            self.blame(FaultName::Kind, lit.start, lit.end);
            return;
        }
        self.d.all_whole &= self.d.kind == I;
        let p = self.literal(&lit.what, true);
        if self.d.length.is_some() {
            self.m.elems.push(p);
        } else {
            self.d.value = p;
        }
    }

    #[inline(always)]
    fn value_name(&mut self, name: Name) {
        if self.dead {
            return;
        }
        self.d.count += 1;
        self.d.all_whole = false;
        match self.find(name) {
            None => self.blame(FaultName::UnknownName, name.start, name.end),
            Some(s) if s.tag() & ARRAY != 0 || s.tag() & 3 != self.d.kind => {
                self.blame(FaultName::Kind, name.start, name.end)
            }
            Some(s) => {
                let p = self.place(s);
                if self.d.length.is_some() {
                    self.m.elems.push(p);
                } else {
                    self.d.value = p;
                }
            }
        }
    }

    fn decl_end(&mut self) {
        if self.dead {
            return;
        }
        let d = &self.d;
        let (name, kind, hash, slot) = (d.name, d.kind, d.hash, d.slot);
        if d.length.is_some_and(|n| n != d.count) {
            self.blame(FaultName::Length, name.start, name.end);
        }
        if self.fault.is_some() {
            self.dead = true;
            return;
        }
        let d = &self.d;
        let m = &mut self.m;
        let (tag, data);
        if let Some(n) = d.length {
            let arr = if d.all_whole {
                m.elems.truncate(d.elems);
                Arr {
                    off: d.vals as u32,
                    n: n as u32 | SIDE,
                }
            } else {
                Arr {
                    off: d.elems as u32,
                    n: n as u32,
                }
            };
            (tag, data) = (ARRAY, m.arrays.len() as u32);
            m.arrays.push(ArrayInfo { kind, arr });
            if let Some(set) = d.bounds {
                let what = SpecialWhat::Array {
                    name: name.start as u32,
                    arr,
                    set,
                    is_set: kind == S,
                };
                m.specials.push(Special {
                    after: m.nvars as u32,
                    what,
                });
            }
        } else if d.is_var {
            let var = m.nvars as u32;
            m.nvars += 1;
            m.var_name.push(name.start as u32);
            let (lo, hi) = d.range.unwrap_or((i64::MIN, i64::MAX));
            m.lo.push(lo);
            m.hi.push(hi);
            if let Some(set) = d.bounds {
                let what = if kind == S {
                    SpecialWhat::SetBounds { var, set }
                } else {
                    SpecialWhat::Among { var, set }
                };
                m.specials.push(Special { after: var, what });
            }
            if d.range.is_some() && lo == hi {
                m.cands.push(Cand::Dom { var, value: lo });
            }
            if d.value != NONE {
                let what = SpecialWhat::Def {
                    var,
                    other: d.value,
                    is_set: kind == S,
                };
                m.specials.push(Special {
                    after: m.nvars as u32,
                    what,
                });
                m.cands.push(Cand::Def {
                    var,
                    other: d.value,
                });
            }
            (tag, data) = (VAR | kind, var);
        } else {
            (tag, data) = (PAR | kind, d.value & !CONST);
        }
        m.table.insert(slot, hash, name.start, name.end, tag, data);
    }

    fn decls_end(&mut self) {
        let m = &mut self.m;
        let n = m.nvars as u32;
        let consts = std::mem::take(&mut m.vals);
        m.vals.reserve(consts.len() + m.nvars);
        m.vals.resize(m.nvars, 0);
        m.vals.extend_from_slice(&consts);
        let fix = |p: &mut u32| {
            if *p & CONST != 0 {
                *p = n + (*p & !CONST);
            }
        };
        m.elems.iter_mut().for_each(fix);
        for a in &mut m.arrays {
            if a.arr.side() {
                a.arr.off += n;
            }
        }
        for s in &mut m.specials {
            match &mut s.what {
                SpecialWhat::Def { other, .. } => fix(other),
                SpecialWhat::Array { arr, .. } if arr.side() => arr.off += n,
                _ => {}
            }
        }
        for c in &mut m.cands {
            if let Cand::Def { other, .. } = c {
                fix(other);
            }
        }
        m.decl_elems = m.elems.len();
        self.base = n;
        self.small[(0 - SMALL.start) as usize] = n;
        self.small[(1 - SMALL.start) as usize] = n + 1;
    }

    #[inline(always)]
    fn constraint(&mut self, name: Name) {
        self.con = name;
        self.args.clear();
        self.in_con = true;
        self.target = NONE;
    }

    #[inline(always)]
    fn arg_list(&mut self) {
        self.list_elems = self.m.elems.len();
        self.list_vals = self.m.vals.len();
        self.list_kind = EMPTY;
        self.all_whole = true;
    }

    #[inline(always)]
    fn arg_lit(&mut self, lit: Lit, in_list: bool) {
        if self.dead {
            return;
        }
        let kind = lit_kind(&lit.what);
        let p = self.literal(&lit.what, in_list);
        if in_list {
            self.element(kind);
            self.all_whole &= kind == I;
            self.m.elems.push(p);
        } else {
            self.args.push(Arg { kind, off: p, n: 0 });
        }
    }

    #[inline(always)]
    fn arg_name(&mut self, name: Name, in_list: bool) {
        if self.dead {
            return;
        }
        let Some(s) = self.find(name) else {
            self.blame(FaultName::UnknownName, name.start, name.end);
            self.dead = true;
            return;
        };
        let tag = s.tag();
        if in_list {
            self.all_whole = false;
            if tag & ARRAY != 0 {
                self.list_kind = MIXED;
            } else {
                self.element(tag & 3);
                let p = self.place(s);
                self.m.elems.push(p);
            }
        } else if tag & ARRAY != 0 {
            let a = self.m.arrays[s.data as usize];
            self.args.push(Arg {
                kind: a.kind + 4,
                off: a.arr.off,
                n: a.arr.n,
            });
        } else {
            let p = self.place(s);
            self.args.push(Arg {
                kind: tag & 3,
                off: p,
                n: 0,
            });
        }
    }

    #[inline(always)]
    fn arg_list_end(&mut self) {
        if self.dead {
            return;
        }
        let n = (self.m.elems.len() - self.list_elems) as u32;
        let arg = if self.all_whole && n > 0 {
            self.m.elems.truncate(self.list_elems);
            Arg {
                kind: self.list_kind,
                off: self.list_vals as u32,
                n: n | SIDE,
            }
        } else {
            Arg {
                kind: self.list_kind,
                off: self.list_elems as u32,
                n,
            }
        };
        self.args.push(arg);
    }

    #[inline(always)]
    fn args_end(&mut self) {
        if self.dead {
            return;
        }
        let con = self.fit();
        let m = &mut self.m;
        if let Con::Unknown = con {
            if m.first_unknown.is_none() {
                m.first_unknown = Some(m.cons.len() as u32);
            }
        }
        m.cons.push(con);
        m.con_name.push(self.con.start as u32);
    }

    #[inline(always)]
    fn constraint_end(&mut self) {
        self.in_con = false;
        if self.dead || self.target == NONE {
            return;
        }
        let k = self.m.cons.len() - 1;
        let con = self.m.cons[k];
        if self.can_step(&con, self.target) {
            let m = &mut self.m;
            let others = m.others.len() as u32;
            let p = con.parts();
            let mut add = |x: u32| {
                if (x as usize) < m.nvars && x != self.target {
                    m.others.push(x);
                }
            };
            p.sc[..p.nsc].iter().for_each(|&x| add(x));
            let mut large = false;
            for a in &p.arr[..p.narr] {
                let (o, n) = (a.off as usize, a.len());
                if a.side() {
                    continue;
                }
                if o + n <= m.decl_elems && n > 256 {
                    large = true;
                    break;
                }
                m.elems[o..o + n].iter().for_each(|&x| add(x));
            }
            let mut n = m.others.len() as u32 - others;
            if large {
                m.others.truncate(others as usize);
                n = NONE;
            }
            m.cands.push(Cand::Con {
                k: k as u32,
                target: self.target,
                others,
                n,
            });
        }
    }

    fn note(&mut self, depth: usize, name: Name) {
        if !self.in_con || self.dead || self.target != NONE {
            return;
        }
        match depth {
            1 => {
                self.noted = &self.m.src[name.start..name.end] == b"defines_var";
                self.note_ok = true;
                self.note_args = 0;
            }
            2 => {
                self.note_args += 1;
                self.note_name = name;
            }
            _ => {}
        }
    }

    fn note_args(&mut self, depth: usize) {
        if depth == 2 {
            self.note_ok = false; // the argument is more than a name
        }
    }

    fn note_list(&mut self, depth: usize) {
        if depth == 2 {
            self.note_ok = false;
        }
    }

    fn note_lit(&mut self, depth: usize, _: Lit) {
        if depth == 2 {
            self.note_ok = false;
        }
    }

    fn note_text(&mut self, depth: usize, _: Name, _: bool) {
        if depth == 2 {
            self.note_ok = false;
        }
    }

    fn note_end(&mut self, depth: usize) {
        if depth != 1 || !self.in_con || self.dead || self.target != NONE {
            return;
        }
        if self.noted && self.note_ok && self.note_args == 1 {
            if let Some(s) = self.find(self.note_name) {
                if s.tag() & (ARRAY | PAR) == 0 {
                    self.target = s.data;
                }
            }
        }
    }

    fn goal_lit(&mut self, lit: Lit) {
        if self.dead {
            return;
        }
        if lit_kind(&lit.what) != I {
            return self.blame(FaultName::Kind, lit.start, lit.end);
        }
        let p = self.literal(&lit.what, false);
        self.aim(p);
    }

    fn goal_name(&mut self, name: Name) {
        if self.dead {
            return;
        }
        match self.find(name) {
            None => self.blame(FaultName::UnknownName, name.start, name.end),
            Some(s) if s.tag() & ARRAY != 0 || s.tag() & 3 != I => {
                self.blame(FaultName::Kind, name.start, name.end)
            }
            Some(s) => {
                let p = self.place(s);
                self.aim(p);
            }
        }
    }

    fn goal(&mut self, word: GoalWord) {
        self.m.goal = match word {
            GoalWord::Satisfy => Goal::Satisfy,
            GoalWord::Minimize => Goal::Minimize(NONE),
            GoalWord::Maximize => Goal::Maximize(NONE),
        };
    }
}

impl<'a> Builder<'a> {
    #[inline(always)]
    fn element(&mut self, kind: u8) {
        if self.list_kind == EMPTY {
            self.list_kind = kind + 4;
        } else if self.list_kind != kind + 4 {
            self.list_kind = MIXED;
        }
    }

    fn aim(&mut self, p: u32) {
        self.m.goal = match self.m.goal {
            Goal::Minimize(_) => Goal::Minimize(p),
            _ => Goal::Maximize(p),
        };
    }
}
