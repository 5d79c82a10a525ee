//! Blocks: printed values, filling, judging.

use crate::lex::{load8, max_list, small, Fault, FaultName, Lexer, T};
use crate::model::*;
use crate::names::hash;
use crate::parse::{Core, Stop, What, R};
use crate::sets::{self, push_list, Range};
use std::collections::HashSet;

#[derive(Clone, Copy, PartialEq, Eq, Debug)]
pub enum Verdict {
    Satisfied,
    /// The place of a name in the model's source, here and below.
    Printed(u32),
    Domain(u32),
    Definition(u32),
    Constraint(u32),
    NotBetter(i64, i64),
    NoValue(u32),
    Unknown(u32),
    TooLarge(u32),
}

pub enum BlockFault {
    /// A fault of the stream: its items, or a name printed twice.
    Stream(Fault),
    Block(Fault),
}

#[derive(PartialEq, Eq, Clone, Copy)]
enum State {
    Holds,
    Fails,
    Unknown,
    TooLarge,
}

#[inline(always)]
fn holds(b: bool) -> State {
    if b {
        State::Holds
    } else {
        State::Fails
    }
}

#[inline(always)]
fn rel<X: Ord>(r: Rel, a: X, b: X) -> bool {
    match r {
        Rel::Eq => a == b,
        Rel::Ne => a != b,
        Rel::Le => a <= b,
        Rel::Lt => a < b,
    }
}

/// A power in 128 bits. It isn't known where the exponent is below 0.
fn power(a: i64, b: i64) -> Result<i128, State> {
    if b < 0 {
        return Err(State::Unknown);
    }
    // Of 0, 1 and -1 the power is that of the same exponent down to 2, even or odd; any other
    // number leaves 128 bits before the exponent is 128.
    let exponent = if a.unsigned_abs() < 2 {
        b.min(2 - b % 2)
    } else {
        b.min(128)
    };
    (a as i128)
        .checked_pow(exponent as u32)
        .ok_or(State::TooLarge)
}

/// What a constraint is evaluated over.
struct Env<'e> {
    v: &'e [i64],
    elems: &'e [u32],
    sets: &'e [(u32, u32)],
    ranges: &'e [Range],
}

impl<'e> Env<'e> {
    #[inline(always)]
    fn g(&self, p: u32) -> i64 {
        self.v[p as usize]
    }

    #[inline(always)]
    fn set(&self, p: u32) -> &'e [Range] {
        let (a, b) = self.sets[self.g(p) as usize];
        &self.ranges[a as usize..b as usize]
    }

    /// The place of the element at `i`, from 0.
    #[inline(always)]
    fn el(&self, a: Arr, i: usize) -> u32 {
        if a.side() {
            a.off + i as u32
        } else {
            self.elems[a.off as usize + i]
        }
    }

    /// Whether an element is `x`.
    #[inline(always)]
    fn has(&self, a: Arr, x: i64) -> bool {
        let o = a.off as usize;
        if a.side() {
            self.v[o..][..a.len()].contains(&x)
        } else {
            self.elems[o..][..a.len()].iter().any(|&p| self.g(p) == x)
        }
    }

    /// The sum of a linear row from the left.
    #[inline]
    fn sum(&self, co: u32, vo: u32, n: u32) -> Option<i128> {
        let k = (n & COUNT) as usize;
        if n & (SIDE | SIDE_V) == SIDE {
            let cs = &self.v[co as usize..][..k];
            let xs = &self.elems[vo as usize..][..k];
            let mut s = 0i64;
            let mut fits = true;
            for (&a, &x) in cs.iter().zip(xs) {
                let (p, o1) = a.overflowing_mul(self.g(x));
                let (t, o2) = s.overflowing_add(p);
                s = t;
                if o1 | o2 {
                    fits = false;
                    break;
                }
            }
            if fits {
                return Some(s as i128);
            }
        }
        self.sum_slow(co, vo, n)
    }

    #[inline(never)]
    fn sum_slow(&self, co: u32, vo: u32, n: u32) -> Option<i128> {
        let k = n & COUNT;
        let a = Arr {
            off: co,
            n: k | (n & SIDE),
        };
        let b = Arr {
            off: vo,
            n: k | if n & SIDE_V != 0 { SIDE } else { 0 },
        };
        let mut s = 0i128;
        for i in 0..k as usize {
            let p = self.g(self.el(a, i)) as i128 * self.g(self.el(b, i)) as i128;
            s = s.checked_add(p)?;
        }
        Some(s)
    }

    #[inline(always)]
    fn bool_sum(&self, co: u32, vo: u32, n: u32) -> i128 {
        let k = n & COUNT;
        let a = Arr {
            off: co,
            n: k | (n & SIDE),
        };
        let b = Arr {
            off: vo,
            n: k | if n & SIDE_V != 0 { SIDE } else { 0 },
        };
        let mut s = 0i128;
        for i in 0..k as usize {
            if self.g(self.el(b, i)) != 0 {
                s += self.g(self.el(a, i)) as i128;
            }
        }
        s
    }

    fn extreme(&self, max: bool, b: Arr) -> Option<i64> {
        let it = (0..b.len()).map(|i| self.g(self.el(b, i)));
        if max {
            it.max()
        } else {
            it.min()
        }
    }

    fn parity(&self, a: Arr) -> bool {
        (0..a.len()).fold(false, |p, i| p ^ (self.g(self.el(a, i)) != 0))
    }

    #[inline(always)]
    fn arith(&self, o: Ar, a: i64, b: i64) -> Option<i128> {
        let (a, b) = (a as i128, b as i128);
        Some(match o {
            Ar::Plus => a + b,
            Ar::Times => a * b,
            Ar::Min => a.min(b),
            Ar::Max => a.max(b),
            Ar::Div if b == 0 => return None,
            Ar::Mod if b == 0 => return None,
            Ar::Div => a / b,
            Ar::Mod => a % b,
        })
    }

    #[inline(always)]
    fn logic(&self, o: Lg, a: i64, b: i64) -> i64 {
        match o {
            Lg::And => a & b,
            Lg::Or => a | b,
            Lg::Xor => a ^ b,
        }
    }

    fn set_rel(&self, r: SRel, a: u32, b: u32) -> bool {
        let (a, b) = (self.set(a), self.set(b));
        match r {
            SRel::Eq => a == b,
            SRel::Ne => a != b,
            SRel::Sub => sets::is_subset(a, b),
            SRel::Super => sets::is_subset(b, a),
        }
    }

    /// The element that an index selects.
    #[inline(always)]
    fn select(&self, a: u32, b: Arr) -> Option<u32> {
        let i = self.g(a);
        if i >= 1 && i as u64 <= b.len() as u64 {
            Some(self.el(b, i as usize - 1))
        } else {
            None
        }
    }

    /// The state of a constraint that fits a row and whose variables all have values.
    #[inline(always)]
    fn state(&self, con: &Con, nums: &mut Vec<i64>, scratch: &mut Vec<Range>) -> State {
        let g = |p: u32| self.g(p);
        holds(match *con {
            Con::Unknown => unreachable!(),
            Con::Cmp(r, a, b) => rel(r, g(a), g(b)),
            Con::CmpR(r, a, b, c) => rel(r, g(a), g(b)) == (g(c) != 0),
            Con::Not(a, b) => g(a) != g(b),
            Con::Lin {
                rel: r,
                co,
                vo,
                n,
                c,
            } => match self.sum(co, vo, n) {
                None => return State::TooLarge,
                Some(s) => rel(r, s, g(c) as i128),
            },
            Con::LinR {
                rel: rr,
                co,
                vo,
                n,
                c,
                r,
            } => match self.sum(co, vo, n) {
                None => return State::TooLarge,
                Some(s) => rel(rr, s, g(c) as i128) == (g(r) != 0),
            },
            Con::Arith(o, a, b, c) => self.arith(o, g(a), g(b)) == Some(g(c) as i128),
            Con::Pow(a, b, c) => match power(g(a), g(b)) {
                Err(state) => return state,
                Ok(p) => p == g(c) as i128,
            },
            Con::Abs(a, b) => (g(a) as i128).abs() == g(b) as i128,
            Con::Elem(a, b, c) => self.select(a, b).is_some_and(|p| g(p) == g(c)),
            Con::ElemSet(a, b, c) => self
                .select(a, b)
                .is_some_and(|p| self.set(p) == self.set(c)),
            Con::Ext { max, a, b } => self.extreme(max, b) == Some(g(a)),
            Con::Logic(o, a, b, c) => self.logic(o, g(a), g(b)) == g(c),
            Con::Every { all: true, a, b } => self.has(a, 0) != (g(b) != 0),
            Con::Every { all: false, a, b } => self.has(a, 1) == (g(b) != 0),
            Con::Parity(a) => self.parity(a),
            Con::Clause(a, b) => self.has(a, 1) || self.has(b, 0),
            Con::B2I(a, b) => g(a) == g(b),
            Con::BLin { le, co, vo, n, c } => rel(
                if le { Rel::Le } else { Rel::Eq },
                self.bool_sum(co, vo, n),
                g(c) as i128,
            ),
            Con::In(a, b) => sets::contains(self.set(b), g(a)),
            Con::InR(a, b, c) => sets::contains(self.set(b), g(a)) == (g(c) != 0),
            Con::SetRel(r, a, b) => self.set_rel(r, a, b),
            Con::SetRelR(r, a, b, c) => self.set_rel(r, a, b) == (g(c) != 0),
            Con::SetOp(o, a, b, c) => {
                scratch.clear();
                sets::combine(o, self.set(a), self.set(b), scratch);
                scratch[..] == *self.set(c)
            }
            Con::Card(a, b) => g(b) >= 0 && sets::size(self.set(a)) == g(b) as u128,
            Con::AllDiff(a) => self.all_diff(a, nums),
        })
    }

    fn all_diff(&self, a: Arr, nums: &mut Vec<i64>) -> bool {
        let n = a.len();
        if n <= 8 {
            return (1..n).all(|i| {
                let x = self.g(self.el(a, i));
                (0..i).all(|j| self.g(self.el(a, j)) != x)
            });
        }
        nums.clear();
        nums.extend((0..n).map(|i| self.g(self.el(a, i))));
        let (lo, hi) = (*nums.iter().min().unwrap(), *nums.iter().max().unwrap());
        let span = hi as i128 - lo as i128;
        if span < 64 * n as i128 {
            let mut bits = vec![0u64; span as usize / 64 + 1];
            for &x in nums.iter() {
                let d = (x - lo) as usize;
                if bits[d / 64] >> (d % 64) & 1 != 0 {
                    return false;
                }
                bits[d / 64] |= 1 << (d % 64);
            }
            return true;
        }
        nums.sort_unstable();
        nums.windows(2).all(|w| w[0] != w[1])
    }
}

/// A model with the values of one block.
pub struct Checker<'a> {
    pub m: Model<'a>,
    vals: Vec<i64>,
    isset: Vec<bool>,
    nset: usize,
    sets: Vec<(u32, u32)>,
    ranges: Vec<Range>,
    const_sets: usize,
    const_ranges: usize,
    /// Per slot of the table of names: the number of the block that printed it last.
    stamps: Vec<u32>,
    stamp: u32,
    before: Option<i64>,
    // Filling: per variable the candidate points that wait for it, as lists of nodes.
    head: Vec<u32>,
    next: Vec<u32>,
    ptr: Vec<u32>,
    ready: Bits,
    /// Per place of `elems` of declared arrays: how many before it have no value.
    gaps: Vec<u32>,
    nums: Vec<i64>,
    scratch: Vec<Range>,
    braces: Vec<i64>,
}

/// What a printed name stands for.
#[derive(Clone, Copy)]
enum Target {
    Nothing,
    Scalar(u8, u32),
    Array(u8, Arr),
}

impl<'a> Checker<'a> {
    pub fn new(mut m: Model<'a>) -> Self {
        let vals = std::mem::take(&mut m.vals);
        let sets = std::mem::take(&mut m.sets);
        let ranges = std::mem::take(&mut m.ranges);
        let mut isset = vec![true; vals.len()];
        isset[..m.nvars].fill(false);
        Checker {
            vals,
            isset,
            nset: 0,
            const_sets: sets.len(),
            const_ranges: ranges.len(),
            sets,
            ranges,
            stamps: vec![0; m.table.slots.len()],
            stamp: 0,
            before: None,
            head: Vec::new(),
            next: Vec::new(),
            ptr: Vec::new(),
            ready: Bits::default(),
            gaps: Vec::new(),
            nums: Vec::new(),
            scratch: Vec::new(),
            braces: Vec::new(),
            m,
        }
    }

    fn env(&self) -> Env<'_> {
        Env {
            v: &self.vals,
            elems: &self.m.elems,
            sets: &self.sets,
            ranges: &self.ranges,
        }
    }

    /// Judges the block whose text stands in `buf` from `from` to `to`. Spans of faults
    /// count from the start of `buf`.
    pub fn block(&mut self, buf: &[u8], from: usize, to: usize) -> Result<Verdict, BlockFault> {
        self.isset[..self.m.nvars].fill(false);
        self.nset = 0;
        self.sets.truncate(self.const_sets);
        self.ranges.truncate(self.const_ranges);
        if self.stamp == u32::MAX {
            self.stamps.fill(0);
            self.stamp = 0;
        }
        self.stamp += 1;
        let mut printed = NONE;
        if from < to {
            printed = self.items(buf, from, to)?;
        }
        if self.nset < self.m.nvars && !self.m.cands.is_empty() {
            self.fill();
        }
        Ok(self.verdict(printed))
    }

    // ---- printed values ----

    fn items(&mut self, buf: &[u8], from: usize, to: usize) -> Result<u32, BlockFault> {
        let mut core = Core::new(Lexer::part(buf, from, to));
        core.braces = std::mem::take(&mut self.braces);
        let mut it = Items {
            doubled: None,
            fault: None,
            printed: NONE,
            others: HashSet::new(),
        };
        let r = self.read_items(&mut core, &mut it);
        let fault = match r {
            Ok(()) => None,
            Err(Stop) => Some(core.settle()),
        };
        self.braces = core.braces;
        if let Some(f) = fault.or(it.doubled) {
            return Err(BlockFault::Stream(f));
        }
        if let Some(f) = it.fault {
            return Err(BlockFault::Block(f));
        }
        Ok(it.printed)
    }

    fn read_items<'b>(&mut self, core: &mut Core<'b>, it: &mut Items<'b>) -> R<()> {
        core.lex.next();
        while core.lex.tok != T::Eof {
            let name = core.name()?;
            let src = core.lex.src;
            let h = hash(src, name.start, name.end);
            let mut target = Target::Nothing;
            let mut known = true;
            let mut off = NONE;
            match self.m.table.find(self.m.src, src, name.start, name.end, h) {
                Ok(i) => {
                    if self.stamps[i] == self.stamp && it.doubled.is_none() {
                        it.doubled = Some(Fault {
                            name: FaultName::DuplicateName,
                            start: name.start,
                            end: name.end,
                        });
                    }
                    self.stamps[i] = self.stamp;
                    let s = self.m.table.slots[i];
                    off = s.off();
                    target = match s.tag() {
                        ARRAY => {
                            let a = self.m.arrays[s.data as usize];
                            Target::Array(a.kind, a.arr)
                        }
                        t if t & PAR != 0 => Target::Scalar(t & 3, self.m.nvars as u32 + s.data),
                        t => Target::Scalar(t & 3, s.data),
                    };
                }
                Err(_) => {
                    known = false;
                    if !it.others.insert(&src[name.start..name.end]) && it.doubled.is_none() {
                        it.doubled = Some(Fault {
                            name: FaultName::DuplicateName,
                            start: name.start,
                            end: name.end,
                        });
                    }
                }
            }
            if it.doubled.is_some() || it.fault.is_some() {
                target = Target::Nothing;
            }
            core.eat(T::Eq)?;
            let mut fault = None;
            let at_name = |n: FaultName| {
                Some(Fault {
                    name: n,
                    start: name.start,
                    end: name.end,
                })
            };
            let mut differs = false;
            let dim = dimension(core);
            if dim > 0 {
                core.lex.next();
                core.eat(T::LPar)?;
                for _ in 0..dim {
                    core.index()?;
                    core.eat(T::Comma)?;
                }
                core.eat(T::LBrk)?;
                let (kind, arr) = match target {
                    Target::Array(k, a) => (k, a),
                    _ => (0, Arr { off: 0, n: 0 }),
                };
                let mut n = 0usize;
                if core.lex.tok != T::RBrk {
                    loop {
                        if kind != 0 && core.lex.tok != T::Bad {
                            let d = self.many(core, kind, arr, &mut n);
                            differs |= d;
                        }
                        if n >= max_list() && core.starts_literal() {
                            return Err(core.stop_as(FaultName::TooMany));
                        }
                        let lit = core.literal()?;
                        if kind != 0 {
                            let (s, e) = (lit.start, lit.end);
                            match self.value(kind, lit.what) {
                                None => {
                                    if fault.is_none() {
                                        fault = Some(Fault {
                                            name: FaultName::Kind,
                                            start: s,
                                            end: e,
                                        });
                                    }
                                }
                                Some(v) => {
                                    if n < arr.len() {
                                        let p = if arr.side() {
                                            arr.off + n as u32
                                        } else {
                                            self.m.elems[arr.off as usize + n]
                                        };
                                        differs |= self.give(kind, p, v);
                                    }
                                }
                            }
                        }
                        n += 1;
                        if core.lex.tok != T::Comma {
                            break;
                        }
                        core.lex.next();
                    }
                }
                core.eat(T::RBrk)?;
                core.eat(T::RPar)?;
                match target {
                    Target::Scalar(..) => fault = at_name(FaultName::Kind),
                    Target::Array(_, a) if a.len() != n => fault = at_name(FaultName::Length),
                    _ => {}
                }
            } else {
                let lit = core.literal()?;
                match target {
                    Target::Nothing => {}
                    Target::Array(..) => fault = at_name(FaultName::Kind),
                    Target::Scalar(kind, p) => {
                        let (s, e) = (lit.start, lit.end);
                        match self.value(kind, lit.what) {
                            None => {
                                fault = Some(Fault {
                                    name: FaultName::Kind,
                                    start: s,
                                    end: e,
                                })
                            }
                            Some(v) => differs = self.give(kind, p, v),
                        }
                    }
                }
            }
            core.eat(T::Semi)?;
            if !known {
                fault = at_name(FaultName::UnknownName);
            }
            if it.fault.is_none() {
                it.fault = fault;
            }
            if differs && it.printed == NONE {
                it.printed = off;
            }
        }
        Ok(())
    }

    /// Elements of the right kind that are followed by a comma, as many as stand there in
    /// plain form, from the current token on. Leaves the next element as current token.
    #[inline(always)]
    fn many(&mut self, core: &mut Core, kind: u8, arr: Arr, n: &mut usize) -> bool {
        let mut differs = false;
        let from = core.lex.start;
        let mut p = from;
        let src = core.lex.src;
        let len = arr.len();
        while *n < len {
            let (v, q) = if kind == I {
                match small(src, p) {
                    Some(x) => x,
                    None => break,
                }
            } else {
                let w = load8(src, p);
                let t = w & 0xff_ffff_ffff == u64::from_le_bytes(*b"true,\0\0\0");
                let f = w & 0xffff_ffff_ffff == u64::from_le_bytes(*b"false,\0\0");
                if kind != B || !(t | f) {
                    break;
                }
                (t as i64, p + 5 - t as usize)
            };
            if src[q] != b',' {
                break;
            }
            let at = if arr.side() {
                arr.off + *n as u32
            } else {
                self.m.elems[arr.off as usize + *n]
            };
            differs |= self.give(kind, at, v);
            *n += 1;
            p = q + 1;
            p += (src[p] == b' ') as usize;
        }
        if p != from {
            core.lex.pos = p;
            core.lex.next();
        }
        differs
    }

    /// The value of a literal, where it has the kind.
    #[inline(always)]
    fn value(&mut self, kind: u8, w: What) -> Option<i64> {
        match w {
            What::Whole(v) if kind == I => Some(v),
            What::Truth(b) if kind == B => Some(b as i64),
            What::Range(a, b) if kind == S => {
                let from = self.ranges.len();
                if a <= b {
                    self.ranges.push((a, b));
                }
                Some(self.new_set(from))
            }
            What::Braces(v) if kind == S => {
                let from = self.ranges.len();
                self.nums.clear();
                self.nums.extend_from_slice(v);
                push_list(&mut self.ranges, &mut self.nums);
                Some(self.new_set(from))
            }
            _ => None,
        }
    }

    fn new_set(&mut self, from: usize) -> i64 {
        self.sets.push((from as u32, self.ranges.len() as u32));
        self.sets.len() as i64 - 1
    }

    fn set_of(&self, v: i64) -> &[Range] {
        let (a, b) = self.sets[v as usize];
        &self.ranges[a as usize..b as usize]
    }

    /// Gives a place its printed value, or tells that it has another one.
    #[inline(always)]
    fn give(&mut self, kind: u8, p: u32, v: i64) -> bool {
        let i = p as usize;
        if !self.isset[i] {
            self.isset[i] = true;
            self.vals[i] = v;
            self.nset += 1;
            return false;
        }
        if kind == S {
            self.set_of(self.vals[i]) != self.set_of(v)
        } else {
            self.vals[i] != v
        }
    }

    // ---- filling ----

    #[inline(always)]
    fn put(&mut self, var: u32, v: i64) {
        self.vals[var as usize] = v;
        self.isset[var as usize] = true;
        self.nset += 1;
    }

    /// Passes over the candidate points. A point that lacks a value waits for one variable
    /// (a definition for either) and is looked at again at its place in a pass once that
    /// has a value.
    fn fill(&mut self) {
        let n = self.m.cands.len();
        self.head.clear();
        self.head.resize(self.m.nvars, NONE);
        self.next.resize(2 * n, NONE);
        self.ptr.clear();
        self.ptr.resize(n, 0);
        let mut ready = std::mem::take(&mut self.ready);
        ready.reset(n);
        self.passes(n as u32, &mut ready);
        self.ready = ready;
    }

    fn passes(&mut self, n: u32, ready: &mut Bits) {
        for i in 0..n {
            if let Some(var) = self.step(i) {
                // All that waits for it stands before `i`.
                self.wake(var, ready);
                if self.nset == self.m.nvars {
                    return;
                }
            }
        }
        // From the place of the last step on, and after the last point from the first.
        let mut at = 0;
        while let Some(i) = ready.from(at).or_else(|| ready.from(0)) {
            ready.remove(i);
            at = i;
            if let Some(var) = self.step(i) {
                self.wake(var, ready);
                if self.nset == self.m.nvars {
                    return;
                }
            }
        }
    }

    #[inline(always)]
    fn wake(&mut self, var: u32, ready: &mut Bits) {
        let mut node = std::mem::replace(&mut self.head[var as usize], NONE);
        while node != NONE {
            ready.insert(node / 2);
            node = self.next[node as usize];
        }
    }

    #[inline(always)]
    fn wait(&mut self, node: u32, var: u32) {
        self.next[node as usize] = self.head[var as usize];
        self.head[var as usize] = node;
    }

    /// The forced step of candidate `i`; the variable that got a value.
    #[inline(always)]
    fn step(&mut self, i: u32) -> Option<u32> {
        match self.m.cands[i as usize] {
            Cand::Dom { var, value } => {
                if self.isset[var as usize] {
                    return None;
                }
                self.put(var, value);
                Some(var)
            }
            Cand::Def { var, other } => {
                match (self.isset[var as usize], self.isset[other as usize]) {
                    (true, true) => None,
                    (false, true) => {
                        self.put(var, self.vals[other as usize]);
                        Some(var)
                    }
                    (true, false) => {
                        self.put(other, self.vals[var as usize]);
                        Some(other)
                    }
                    (false, false) => {
                        // In a list already where this isn't the first look; a second look
                        // follows a value of one of the two, so this is the first.
                        self.wait(2 * i, var);
                        self.wait(2 * i + 1, other);
                        None
                    }
                }
            }
            Cand::Con {
                k,
                target,
                others,
                n,
            } => {
                if self.isset[target as usize] {
                    return None;
                }
                let from = self.ptr[i as usize];
                let con = self.m.cons[k as usize];
                let lack = if n == NONE {
                    self.unset(&con, from, target)
                } else {
                    let o =
                        &self.m.others[others as usize + from as usize..][..(n - from) as usize];
                    o.iter()
                        .position(|&x| !self.isset[x as usize])
                        .map(|at| (from + at as u32, o[at]))
                };
                if let Some((at, var)) = lack {
                    self.ptr[i as usize] = at;
                    self.wait(2 * i, var);
                    return None;
                }
                let v = self.forced(&con, target)?;
                self.put(target, v);
                Some(target)
            }
        }
    }

    /// The first place from number `from` on, of the constraint's places other than the
    /// target's, that has no value.
    fn unset(&self, con: &Con, from: u32, target: u32) -> Option<(u32, u32)> {
        let p = con.parts();
        let mut base = 0usize;
        let from = from as usize;
        for (i, &x) in p.sc[..p.nsc].iter().enumerate() {
            if i >= from && x != target && !self.isset[x as usize] {
                return Some((i as u32, x));
            }
        }
        base += p.nsc;
        for a in &p.arr[..p.narr] {
            let len = a.len();
            if !a.side() && base + len > from {
                let skip = from.saturating_sub(base);
                let e = &self.m.elems[a.off as usize + skip..a.off as usize + len];
                for (i, &x) in e.iter().enumerate() {
                    if !self.isset[x as usize] && x != target {
                        return Some(((base + skip + i) as u32, x));
                    }
                }
            }
            base += len;
        }
        None
    }

    /// The one value of the target with which the constraint holds. All other places have
    /// values, and the target stands in a place that can be solved for.
    fn forced(&mut self, con: &Con, t: u32) -> Option<i64> {
        // A target among the terms of a sum adds nothing to it.
        self.vals[t as usize] = 0;
        let e = self.env();
        let g = |p: u32| e.g(p);
        let fit = |v: i128| i64::try_from(v).ok();
        Some(match *con {
            Con::Cmp(Rel::Eq, a, b) | Con::SetRel(SRel::Eq, a, b) => g(if t == a { b } else { a }),
            Con::Not(a, b) => 1 - g(if t == a { b } else { a }),
            Con::B2I(a, b) => {
                let v = g(if t == a { b } else { a });
                if v != 0 && v != 1 {
                    return None;
                }
                v
            }
            Con::CmpR(r, a, b, _) => rel(r, g(a), g(b)) as i64,
            Con::Lin {
                rel: Rel::Eq,
                co,
                vo,
                n,
                c,
            } => {
                let k = n & COUNT;
                let at = e.elems[vo as usize..][..k as usize]
                    .iter()
                    .position(|&x| x == t)?;
                let a = g(e.el(
                    Arr {
                        off: co,
                        n: k | (n & SIDE),
                    },
                    at,
                ));
                if a != 1 && a != -1 {
                    return None;
                }
                let s = e.sum(co, vo, n)?;
                // a is 1 or -1, so the value is (c - s) * a; past 128 bits it is past 64.
                fit((g(c) as i128).checked_sub(s)?.checked_mul(a as i128)?)?
            }
            Con::LinR {
                rel: r,
                co,
                vo,
                n,
                c,
                ..
            } => rel(r, e.sum(co, vo, n)?, g(c) as i128) as i64,
            Con::Arith(o, a, b, _) => fit(e.arith(o, g(a), g(b))?)?,
            Con::Pow(a, b, _) => fit(power(g(a), g(b)).ok()?)?,
            Con::Abs(a, _) => fit((g(a) as i128).abs())?,
            Con::Elem(a, b, _) | Con::ElemSet(a, b, _) => g(e.select(a, b)?),
            Con::Ext { max, b, .. } => e.extreme(max, b)?,
            Con::Logic(o, a, b, _) => e.logic(o, g(a), g(b)),
            Con::Every { all: true, a, .. } => !e.has(a, 0) as i64,
            Con::Every { all: false, a, .. } => e.has(a, 1) as i64,
            Con::BLin {
                le: false,
                co,
                vo,
                n,
                ..
            } => fit(e.bool_sum(co, vo, n))?,
            Con::InR(a, b, _) => sets::contains(e.set(b), g(a)) as i64,
            Con::SetRelR(r, a, b, _) => e.set_rel(r, a, b) as i64,
            Con::Card(a, _) => i64::try_from(sets::size(e.set(a))).ok()?,
            Con::SetOp(o, a, b, _) => {
                let mut out = std::mem::take(&mut self.scratch);
                out.clear();
                let e = self.env();
                sets::combine(o, e.set(a), e.set(b), &mut out);
                let from = self.ranges.len();
                self.ranges.extend_from_slice(&out);
                self.scratch = out;
                return Some(self.new_set(from));
            }
            _ => return None,
        })
    }

    // ---- judging ----

    fn verdict(&mut self, printed: u32) -> Verdict {
        let objective = match self.m.goal {
            Goal::Satisfy => None,
            Goal::Minimize(p) | Goal::Maximize(p) => {
                self.isset[p as usize].then(|| self.vals[p as usize])
            }
        };
        let before = std::mem::replace(&mut self.before, objective);
        if printed != NONE {
            return Verdict::Printed(printed);
        }
        let whole = self.nset == self.m.nvars;
        if !whole {
            // How many elements of declared arrays have no value, up to each place.
            self.gaps.clear();
            let mut n = 0;
            self.gaps.push(0);
            for &x in &self.m.elems[..self.m.decl_elems] {
                n += !self.isset[x as usize] as u32;
                self.gaps.push(n);
            }
        }
        if let Some(v) = self.declarations(whole) {
            return v;
        }
        let later = if whole {
            self.constraints::<true>()
        } else {
            self.constraints::<false>()
        };
        let undecided = match later {
            Err(k) => return Verdict::Constraint(k),
            Ok(u) => u,
        };
        if let (Some(now), Some(before)) = (objective, before) {
            let better = match self.m.goal {
                Goal::Minimize(_) => now < before,
                _ => now > before,
            };
            if !better {
                return Verdict::NotBetter(now, before);
            }
        }
        if !whole {
            let i = self.isset[..self.m.nvars].iter().position(|&s| !s).unwrap();
            return Verdict::NoValue(self.m.var_name[i]);
        }
        undecided.unwrap_or(Verdict::Satisfied)
    }

    /// The first failing point of the declarations.
    fn declarations(&self, whole: bool) -> Option<Verdict> {
        let m = &self.m;
        let n = m.nvars;
        let (v, s) = (&self.vals[..n], &self.isset[..n]);
        let (lo, hi) = (&m.lo[..n], &m.hi[..n]);
        let out = |i: usize| s[i] & ((v[i] < lo[i]) | (v[i] > hi[i]));
        // Chunks first, so that the common case is free of branches.
        let mut first = None;
        let mut i = 0;
        while i < n {
            let e = (i + 64).min(n);
            let mut any = false;
            for j in i..e {
                any |= out(j);
            }
            if any {
                first = (i..e).find(|&j| out(j));
                break;
            }
            i = e;
        }
        for sp in &m.specials {
            if first.is_some_and(|f| sp.after as usize > f) {
                break;
            }
            let set = |x: u32| {
                let (a, b) = self.sets[x as usize];
                &self.ranges[a as usize..b as usize]
            };
            match sp.what {
                SpecialWhat::Among { var, set: d } => {
                    let i = var as usize;
                    if s[i] && !sets::contains(set(d), v[i]) {
                        return Some(Verdict::Domain(m.var_name[i]));
                    }
                }
                SpecialWhat::SetBounds { var, set: d } => {
                    let i = var as usize;
                    if s[i] && !sets::is_subset(self.set_of(v[i]), set(d)) {
                        return Some(Verdict::Domain(m.var_name[i]));
                    }
                }
                SpecialWhat::Def { var, other, is_set } => {
                    let (i, j) = (var as usize, other as usize);
                    if (whole || self.isset[i] && self.isset[j])
                        && self.vals[i] != self.vals[j]
                        && (!is_set || self.set_of(self.vals[i]) != self.set_of(self.vals[j]))
                    {
                        return Some(Verdict::Definition(m.var_name[i]));
                    }
                }
                SpecialWhat::Array {
                    name,
                    arr,
                    set: d,
                    is_set,
                } => {
                    let d = set(d);
                    let e = self.env();
                    for i in 0..arr.len() {
                        let p = e.el(arr, i) as usize;
                        if !self.isset[p] {
                            continue;
                        }
                        let ok = if is_set {
                            sets::is_subset(self.set_of(self.vals[p]), d)
                        } else {
                            sets::contains(d, self.vals[p])
                        };
                        if !ok {
                            return Some(Verdict::Domain(name));
                        }
                    }
                }
            }
        }
        first.map(|i| Verdict::Domain(m.var_name[i]))
    }

    /// The first failing constraint, or the first undecided one where all variables have
    /// values.
    fn constraints<const WHOLE: bool>(&mut self) -> Result<Option<Verdict>, u32> {
        let mut undecided = None;
        let mut nums = std::mem::take(&mut self.nums);
        let mut scratch = std::mem::take(&mut self.scratch);
        let mut failed = None;
        let e = self.env();
        for (k, con) in self.m.cons.iter().enumerate() {
            if let Con::Unknown = con {
                if undecided.is_none() {
                    undecided = Some(Verdict::Unknown(k as u32));
                }
                continue;
            }
            if !WHOLE && self.lacks(con) {
                continue;
            }
            match e.state(con, &mut nums, &mut scratch) {
                State::Holds => {}
                State::Fails => {
                    failed = Some(k as u32);
                    break;
                }
                State::Unknown => {
                    if undecided.is_none() {
                        undecided = Some(Verdict::Unknown(k as u32));
                    }
                }
                State::TooLarge => {
                    if undecided.is_none() {
                        undecided = Some(Verdict::TooLarge(k as u32));
                    }
                }
            }
        }
        self.nums = nums;
        self.scratch = scratch;
        match failed {
            Some(k) => Err(k),
            None => Ok(undecided),
        }
    }

    /// Whether a variable of the constraint has no value.
    #[inline(always)]
    fn lacks(&self, con: &Con) -> bool {
        let p = con.parts();
        if p.sc[..p.nsc].iter().any(|&x| !self.isset[x as usize]) {
            return true;
        }
        p.arr[..p.narr].iter().any(|a| {
            if a.side() {
                return false;
            }
            let (o, n) = (a.off as usize, a.len());
            if o + n <= self.m.decl_elems {
                return self.gaps[o + n] != self.gaps[o];
            }
            self.m.elems[o..o + n]
                .iter()
                .any(|&x| !self.isset[x as usize])
        })
    }
}

/// Numbers below a bound, with the least one from a place on found in a few steps.
#[derive(Default)]
struct Bits {
    levels: Vec<Vec<u64>>,
}

impl Bits {
    /// Empty, for numbers below `n`.
    fn reset(&mut self, mut n: usize) {
        let mut l = 0;
        loop {
            n = n.div_ceil(64).max(1);
            if l == self.levels.len() {
                self.levels.push(Vec::new());
            }
            self.levels[l].clear();
            self.levels[l].resize(n, 0);
            l += 1;
            if n == 1 {
                break;
            }
        }
        self.levels.truncate(l);
    }

    #[inline(always)]
    fn insert(&mut self, i: u32) {
        let mut i = i as usize;
        for l in &mut self.levels {
            let w = &mut l[i / 64];
            let old = *w;
            *w |= 1 << (i % 64);
            if old != 0 {
                break;
            }
            i /= 64;
        }
    }

    #[inline(always)]
    fn remove(&mut self, i: u32) {
        let mut i = i as usize;
        for l in &mut self.levels {
            let w = &mut l[i / 64];
            *w &= !(1 << (i % 64));
            if *w != 0 {
                break;
            }
            i /= 64;
        }
    }

    /// The least number in it from `i` on.
    #[inline(always)]
    fn from(&self, i: u32) -> Option<u32> {
        let mut i = i as usize;
        let mut l = 0;
        loop {
            // At level l, look in the rest of i's word.
            let level = self.levels.get(l)?;
            let w = level.get(i / 64)? & (u64::MAX << (i % 64));
            if w != 0 {
                i = i / 64 * 64 + w.trailing_zeros() as usize;
                while l > 0 {
                    l -= 1;
                    i = i * 64 + self.levels[l][i].trailing_zeros() as usize;
                }
                return Some(i as u32);
            }
            i = i / 64 + 1;
            l += 1;
        }
    }
}

struct Items<'b> {
    doubled: Option<Fault>,
    fault: Option<Fault>,
    /// The first printed name whose value is another one.
    printed: u32,
    /// Printed names that aren't declared.
    others: HashSet<&'b [u8]>,
}

/// N where the current token is the word `arrayNd`, else 0.
#[inline(always)]
fn dimension(core: &Core) -> usize {
    let l = &core.lex;
    if l.tok != T::Name || l.pos - l.start != 7 {
        return 0;
    }
    let w = &l.src[l.start..l.pos];
    if &w[..5] == b"array" && w[6] == b'd' && (b'1'..=b'6').contains(&w[5]) {
        (w[5] - b'0') as usize
    } else {
        0
    }
}
