//! Zero-copy lexer, one token at a time, over padded bytes.
//!
//! `src` is padded: the bytes from `end` on begin with something that no token runs
//! through (an LF that the text itself ends with, or an LF that the caller added), and at
//! least `PAD` bytes may be read from every place up to `end`. The first byte that is no
//! blank at or after `end` ends the text.

use std::sync::atomic::{AtomicBool, Ordering::Relaxed};

pub const PAD: usize = 32;

static LARGE: AtomicBool = AtomicBool::new(false);

/// From here on large texts are read.
pub fn read_large() {
    LARGE.store(true, Relaxed);
}

/// The greatest length of a model or of what a splitter holds.
pub fn max_bytes() -> usize {
    if LARGE.load(Relaxed) {
        1_073_741_824
    } else {
        16_777_216
    }
}

/// The greatest number of elements of a list in brackets or braces.
pub fn max_list() -> usize {
    if LARGE.load(Relaxed) {
        134_217_728
    } else {
        1_048_576
    }
}

/// The greatest depth of an annotation.
pub const MAX_DEPTH: usize = 32;

#[derive(Clone, Copy, PartialEq, Eq, Debug)]
#[repr(u8)]
pub enum T {
    Eof,
    Bad,
    Name,
    Whole,
    Float,
    Str,
    LPar,
    RPar,
    LBrk,
    RBrk,
    LBrc,
    RBrc,
    Comma,
    Semi,
    Colon,
    Colon2,
    Eq,
    Dots,
    Predicate,
    Array,
    Of,
    Var,
    Bool,
    Int,
    KFloat,
    Set,
    Constraint,
    Solve,
    Satisfy,
    Minimize,
    Maximize,
    True,
    False,
}

#[derive(Clone, Copy, PartialEq, Eq, Debug)]
pub enum FaultName {
    TooLong,
    BadByte,
    TooLarge,
    Float,
    Syntax,
    TooDeep,
    TooMany,
    DuplicateName,
    UnknownName,
    Kind,
    Length,
    Unfinished,
}

/// A named fault with its place.
#[derive(Clone, Copy, PartialEq, Eq, Debug)]
pub struct Fault {
    pub name: FaultName,
    pub start: usize,
    pub end: usize,
}

const BAD: u8 = 0;
const BLANK: u8 = 1;
const WORD: u8 = 2;
const DIGIT: u8 = 3;
const MINUS: u8 = 4;
const QUOTE: u8 = 5;
const PERCENT: u8 = 6;
const COLON: u8 = 7;
const DOT: u8 = 8;
const MARK: u8 = 9; // MARK + n: single-byte mark number n

const MARKS: [T; 9] = [
    T::LPar,
    T::RPar,
    T::LBrk,
    T::RBrk,
    T::LBrc,
    T::RBrc,
    T::Comma,
    T::Semi,
    T::Eq,
];

static CLASS: [u8; 256] = {
    let mut t = [BAD; 256];
    t[b' ' as usize] = BLANK;
    t[b'\t' as usize] = BLANK;
    t[b'\r' as usize] = BLANK;
    t[b'\n' as usize] = BLANK;
    let mut c = 0;
    while c < 26 {
        t[b'a' as usize + c] = WORD;
        t[b'A' as usize + c] = WORD;
        c += 1;
    }
    t[b'_' as usize] = WORD;
    c = 0;
    while c < 10 {
        t[b'0' as usize + c] = DIGIT;
        c += 1;
    }
    t[b'-' as usize] = MINUS;
    t[b'"' as usize] = QUOTE;
    t[b'%' as usize] = PERCENT;
    t[b':' as usize] = COLON;
    t[b'.' as usize] = DOT;
    let m = *b"()[]{},;=";
    c = 0;
    while c < 9 {
        t[m[c] as usize] = MARK + c as u8;
        c += 1;
    }
    t
};

#[inline(always)]
pub fn load8(src: &[u8], p: usize) -> u64 {
    u64::from_le_bytes(src[p..p + 8].try_into().unwrap())
}

/// The first place from `p` on that holds no word byte.
#[inline(always)]
fn word_end(src: &[u8], mut p: usize) -> usize {
    #[cfg(target_arch = "x86_64")]
    loop {
        use std::arch::x86_64::*;
        let chunk: &[u8; 16] = src[p..p + 16].try_into().unwrap();
        // SAFETY: SSE2 is part of x86_64, and `chunk` is 16 readable bytes.
        let mask = unsafe {
            let v = _mm_loadu_si128(chunk.as_ptr() as *const __m128i);
            let low = _mm_or_si128(v, _mm_set1_epi8(0x20));
            let al = _mm_sub_epi8(low, _mm_set1_epi8(b'a' as i8));
            let is_al = _mm_cmpeq_epi8(_mm_min_epu8(al, _mm_set1_epi8(25)), al);
            let dg = _mm_sub_epi8(v, _mm_set1_epi8(b'0' as i8));
            let is_dg = _mm_cmpeq_epi8(_mm_min_epu8(dg, _mm_set1_epi8(9)), dg);
            let is_us = _mm_cmpeq_epi8(v, _mm_set1_epi8(b'_' as i8));
            _mm_movemask_epi8(_mm_or_si128(_mm_or_si128(is_al, is_dg), is_us)) as u32
        };
        if mask != 0xffff {
            return p + (!mask).trailing_zeros() as usize;
        }
        p += 16;
    }
    #[cfg(not(target_arch = "x86_64"))]
    loop {
        let c = CLASS[src[p] as usize];
        if c != WORD && c != DIGIT {
            return p;
        }
        p += 1;
    }
}

#[inline(always)]
fn is_digit(c: u8) -> bool {
    c.wrapping_sub(b'0') < 10
}

fn keyword(w: &[u8]) -> T {
    match w {
        b"of" => T::Of,
        b"var" => T::Var,
        b"int" => T::Int,
        b"set" => T::Set,
        b"bool" => T::Bool,
        b"true" => T::True,
        b"array" => T::Array,
        b"float" => T::KFloat,
        b"solve" => T::Solve,
        b"false" => T::False,
        b"satisfy" => T::Satisfy,
        b"minimize" => T::Minimize,
        b"maximize" => T::Maximize,
        b"predicate" => T::Predicate,
        b"constraint" => T::Constraint,
        _ => T::Name,
    }
}

/// The letters that begin a reserved word.
const KW_FIRST: u32 = {
    let s = *b"ovisbtafmpc";
    let mut m = 0u32;
    let mut i = 0;
    while i < s.len() {
        m |= 1 << (s[i] - b'a');
        i += 1;
    }
    m
};

pub struct Lexer<'a> {
    pub src: &'a [u8],
    pub end: usize,
    /// The next byte to read; the end of the current token.
    pub pos: usize,
    pub tok: T,
    pub start: usize,
    pub num: i64,
    /// The lexical fault where `tok` is `Bad`.
    pub fault: Fault,
    pub count: usize,
}

impl<'a> Lexer<'a> {
    pub fn new(src: &'a [u8], end: usize) -> Self {
        debug_assert!(src.len() >= end + PAD);
        Lexer {
            src,
            end,
            pos: 0,
            tok: T::Eof,
            start: 0,
            num: 0,
            fault: Fault {
                name: FaultName::BadByte,
                start: 0,
                end: 0,
            },
            count: 0,
        }
    }

    /// A lexer of the part of `src` from `from` to `end`.
    pub fn part(src: &'a [u8], from: usize, end: usize) -> Self {
        let mut l = Lexer::new(src, end);
        l.pos = from;
        l
    }

    #[inline(always)]
    fn at(&self, p: usize) -> u8 {
        self.src[p]
    }

    #[inline(never)]
    pub fn next(&mut self) {
        let mut p = self.pos;
        self.count += 1;
        loop {
            let c = self.at(p);
            let class = CLASS[c as usize];
            if class >= MARK {
                if p >= self.end {
                    break;
                }
                self.start = p;
                self.pos = p + 1;
                self.tok = MARKS[(class - MARK) as usize];
                return;
            }
            match class {
                BLANK => {
                    p += 1;
                    continue;
                }
                _ if p >= self.end => break,
                WORD => return self.word(p, c),
                DIGIT | MINUS => return self.number(p),
                PERCENT => {
                    p = find_lf(self.src, p + 1, self.end);
                    continue;
                }
                COLON => {
                    self.start = p;
                    if self.at(p + 1) == b':' && p + 1 < self.end {
                        self.pos = p + 2;
                        self.tok = T::Colon2;
                    } else {
                        self.pos = p + 1;
                        self.tok = T::Colon;
                    }
                    return;
                }
                DOT => {
                    if self.at(p + 1) == b'.' && p + 1 < self.end {
                        self.start = p;
                        self.pos = p + 2;
                        self.tok = T::Dots;
                        return;
                    }
                    return self.bad(p);
                }
                QUOTE => return self.string(p),
                _ => return self.bad(p),
            }
        }
        self.start = self.end;
        self.pos = self.end;
        self.count -= 1;
        self.tok = T::Eof;
    }

    /// As `next`, where a name or a short number right at the place is likely.
    #[inline(always)]
    pub fn next_basic(&mut self) {
        let p = self.pos;
        let c = self.at(p);
        match CLASS[c as usize] {
            WORD if p < self.end => {
                self.count += 1;
                self.word(p, c);
            }
            DIGIT | MINUS if p < self.end => {
                if let Some((v, e)) = small(self.src, p) {
                    self.count += 1;
                    self.start = p;
                    self.pos = e;
                    self.num = v;
                    self.tok = T::Whole;
                } else {
                    self.next();
                }
            }
            _ => self.next(),
        }
    }

    #[inline(always)]
    fn word(&mut self, p: usize, c: u8) {
        let e = word_end(self.src, p + 1);
        self.start = p;
        self.pos = e;
        let f = (c | 0x20).wrapping_sub(b'a');
        self.tok = T::Name;
        if c >= b'a' && KW_FIRST >> (f & 31) & 1 != 0 && e - p <= 10 {
            self.tok = keyword(&self.src[p..e]);
        }
    }

    /// Goes past a comma that stands right after the current token, which is no end.
    #[inline(always)]
    pub fn skip_comma(&mut self) -> bool {
        let hit = self.at(self.pos) == b',';
        if hit {
            self.pos += 1;
            self.count += 1;
        }
        hit
    }

    #[cold]
    fn bad(&mut self, p: usize) {
        self.start = p;
        self.pos = p + 1;
        self.tok = T::Bad;
        self.fault = Fault {
            name: FaultName::BadByte,
            start: p,
            end: p + 1,
        };
    }

    #[cold]
    fn string(&mut self, p: usize) {
        let mut q = p + 1;
        while q < self.end {
            match self.at(q) {
                b'"' => {
                    self.start = p;
                    self.pos = q + 1;
                    self.tok = T::Str;
                    return;
                }
                b'\n' => break,
                b'\\' => {
                    if q + 1 >= self.end || self.at(q + 1) == b'\n' {
                        break;
                    }
                    q += 2;
                }
                _ => q += 1,
            }
        }
        self.bad(p)
    }

    #[inline(always)]
    fn number(&mut self, p: usize) {
        let neg = self.at(p) == b'-';
        // Up to seven digits at once, without a branch on their number.
        if let Some((v, e)) = small(self.src, p) {
            self.start = p;
            self.pos = e;
            self.num = v;
            self.tok = T::Whole;
            return;
        }
        self.number_slow(p, neg)
    }

    #[inline(never)]
    fn number_slow(&mut self, p: usize, neg: bool) {
        let d = p + neg as usize;
        let mut q = d;
        while q < self.end && is_digit(self.at(q)) {
            q += 1;
        }
        if q == d {
            return self.bad(p); // a minus without a digit
        }
        // The bytes from `end` on are no part of the text, but an LF stands between.
        let mut digits = d..q;
        let mut radix = 10u32;
        if q == d + 1 && self.at(d) == b'0' {
            let (r, ok): (u32, fn(u8) -> bool) = match self.at(q) {
                b'x' => (16, |c: u8| c.is_ascii_hexdigit()),
                b'o' => (8, |c: u8| (b'0'..=b'7').contains(&c)),
                _ => (10, |_| false),
            };
            if ok(self.at(q + 1)) {
                radix = r;
                let from = q + 1;
                q = from;
                while ok(self.at(q)) {
                    q += 1;
                }
                digits = from..q;
            }
        }
        if radix == 10 {
            let mut float = false;
            if self.at(q) == b'.' && is_digit(self.at(q + 1)) {
                float = true;
                q += 1;
                while is_digit(self.at(q)) {
                    q += 1;
                }
            }
            if matches!(self.at(q), b'e' | b'E') {
                let sign = matches!(self.at(q + 1), b'+' | b'-') as usize;
                if is_digit(self.at(q + 1 + sign)) {
                    float = true;
                    q += 1 + sign;
                    while is_digit(self.at(q)) {
                        q += 1;
                    }
                }
            }
            if float {
                self.start = p;
                self.pos = q;
                self.tok = T::Float;
                return;
            }
        }
        self.start = p;
        self.pos = q;
        let limit = if neg { 1u64 << 63 } else { (1u64 << 63) - 1 };
        let mut v = 0u128;
        for &c in &self.src[digits] {
            v = v * radix as u128 + (c as char).to_digit(radix).unwrap() as u128;
            if v > limit as u128 {
                self.tok = T::Bad;
                self.fault = Fault {
                    name: FaultName::TooLarge,
                    start: p,
                    end: q,
                };
                return;
            }
        }
        self.num = if neg {
            (v as u64).wrapping_neg() as i64
        } else {
            v as i64
        };
        self.tok = T::Whole;
    }
}

/// A number of one to seven decimal digits at `p` and the place after it, where that byte
/// can't lengthen it.
#[inline(always)]
pub fn small(src: &[u8], p: usize) -> Option<(i64, usize)> {
    let neg = src[p] == b'-';
    let d = p + neg as usize;
    let t = load8(src, d) ^ 0x3030_3030_3030_3030;
    let nd = (t.wrapping_add(0x7676_7676_7676_7676) | t) & 0x8080_8080_8080_8080;
    if nd == 0 {
        return None;
    }
    let n = nd.trailing_zeros() as usize / 8;
    if n == 0 || matches!(src[d + n], b'.' | b'e' | b'E' | b'x' | b'o') {
        return None;
    }
    let t = t << (64 - 8 * n);
    let t = t.wrapping_mul(10).wrapping_add(t >> 8);
    let m = 0x0000_00FF_0000_00FFu64;
    let v = (t & m)
        .wrapping_mul(0x000F_4240_0000_0064)
        .wrapping_add((t >> 16 & m).wrapping_mul(0x0000_2710_0000_0001))
        >> 32;
    Some((if neg { -(v as i64) } else { v as i64 }, d + n))
}

/// The first LF from `p` on, or `end` where none stands before it.
#[inline(always)]
pub fn find_lf(src: &[u8], mut p: usize, end: usize) -> usize {
    #[cfg(target_arch = "x86_64")]
    while p + 16 <= end {
        use std::arch::x86_64::*;
        let chunk: &[u8; 16] = src[p..p + 16].try_into().unwrap();
        // SAFETY: SSE2 is part of x86_64, and `chunk` is 16 readable bytes.
        let mask = unsafe {
            let v = _mm_loadu_si128(chunk.as_ptr() as *const __m128i);
            _mm_movemask_epi8(_mm_cmpeq_epi8(v, _mm_set1_epi8(b'\n' as i8))) as u32
        };
        if mask != 0 {
            return p + mask.trailing_zeros() as usize;
        }
        p += 16;
    }
    while p < end && src[p] != b'\n' {
        p += 1;
    }
    p
}
