//! The table of declared names: open addressing, names compared in the source.

use crate::lex::load8;

#[derive(Clone, Copy, Default)]
pub struct Slot {
    hash: u32,
    off: u32,
    /// 0 for a free slot, else the tag in the top 8 bits and the name's length below.
    len_tag: u32,
    pub data: u32,
}

impl Slot {
    #[inline(always)]
    pub fn off(&self) -> u32 {
        self.off
    }
    #[inline(always)]
    pub fn tag(&self) -> u8 {
        (self.len_tag >> 24) as u8
    }
}

pub struct Table {
    pub slots: Vec<Slot>,
    mask: usize,
    used: usize,
}

const K0: u64 = 0x9E37_79B9_7F4A_7C15;
const K1: u64 = 0xD6E8_FEB8_6659_FD93;

#[inline(always)]
fn fold(a: u64, b: u64) -> u64 {
    let m = (a as u128).wrapping_mul(b as u128);
    m as u64 ^ (m >> 64) as u64
}

/// A hash of the bytes from `start` to `end`; at least 8 bytes may be read past `end`.
#[inline(always)]
pub fn hash(src: &[u8], start: usize, end: usize) -> u32 {
    let len = end - start;
    let mut h = K0 ^ len as u64;
    let mut p = start;
    while end - p >= 16 {
        h = fold(load8(src, p) ^ h, load8(src, p + 8) ^ K1);
        p += 16;
    }
    let (mut a, mut b) = (0, 0);
    let left = end - p;
    if left > 8 {
        a = load8(src, p);
        b = load8(src, p + 8) << (64 - 8 * (left - 8));
    } else if left > 0 {
        a = load8(src, p) << (64 - 8 * left);
    }
    h = fold(a ^ h, b ^ K1);
    (h ^ h >> 32) as u32
}

/// Whether two slices of padded sources are equal.
#[inline(always)]
fn same(a: &[u8], mut p: usize, b: &[u8], mut q: usize, mut len: usize) -> bool {
    while len >= 8 {
        if load8(a, p) != load8(b, q) {
            return false;
        }
        p += 8;
        q += 8;
        len -= 8;
    }
    len == 0 || (load8(a, p) ^ load8(b, q)) << (64 - 8 * len) == 0
}

impl Table {
    pub fn new(guess: usize) -> Self {
        let n = guess.next_power_of_two().max(64);
        Table {
            slots: vec![Slot::default(); n],
            mask: n - 1,
            used: 0,
        }
    }

    /// The slot of a name, or the free slot where it would stand. `own` holds the table's
    /// names, `src` the name asked for.
    #[inline(always)]
    pub fn find(
        &self,
        own: &[u8],
        src: &[u8],
        start: usize,
        end: usize,
        h: u32,
    ) -> Result<usize, usize> {
        let len = end - start;
        let mut i = h as usize & self.mask;
        loop {
            let s = &self.slots[i];
            if s.len_tag == 0 {
                return Err(i);
            }
            if s.hash == h
                && (s.len_tag & 0xff_ffff) as usize == len
                && same(own, s.off as usize, src, start, len)
            {
                return Ok(i);
            }
            i = (i + 1) & self.mask;
        }
    }

    /// Fills a free slot that `find` gave. No slot keeps its place over this call.
    pub fn insert(&mut self, at: usize, h: u32, start: usize, end: usize, tag: u8, data: u32) {
        debug_assert!(tag != 0 && end - start < 1 << 24);
        self.slots[at] = Slot {
            hash: h,
            off: start as u32,
            len_tag: (tag as u32) << 24 | (end - start) as u32,
            data,
        };
        self.used += 1;
        if self.used * 2 > self.slots.len() {
            self.grow();
        }
    }

    #[cold]
    fn grow(&mut self) {
        let n = self.slots.len() * 2;
        let old = std::mem::replace(&mut self.slots, vec![Slot::default(); n]);
        self.mask = n - 1;
        for s in old {
            if s.len_tag != 0 {
                let mut i = s.hash as usize & self.mask;
                while self.slots[i].len_tag != 0 {
                    i = (i + 1) & self.mask;
                }
                self.slots[i] = s;
            }
        }
    }
}
