//! Sets of whole numbers as sorted ranges, each two separated by a number outside.

pub type Range = (i64, i64);

/// Sorts numbers and appends their ranges.
pub fn push_list(out: &mut Vec<Range>, nums: &mut [i64]) {
    if !nums.windows(2).all(|w| w[0] <= w[1]) {
        nums.sort_unstable();
    }
    let mut it = nums.iter().copied();
    let Some(first) = it.next() else { return };
    let (mut lo, mut hi) = (first, first);
    for v in it {
        // v >= hi, so the difference is exact as an unsigned number.
        if (v as i128 - hi as i128) <= 1 {
            hi = v;
        } else {
            out.push((lo, hi));
            (lo, hi) = (v, v);
        }
    }
    out.push((lo, hi));
}

pub fn contains(s: &[Range], v: i64) -> bool {
    let i = s.partition_point(|r| r.1 < v);
    i < s.len() && s[i].0 <= v
}

pub fn is_subset(a: &[Range], b: &[Range]) -> bool {
    let mut j = 0;
    for &(lo, hi) in a {
        while j < b.len() && b[j].1 < lo {
            j += 1;
        }
        if j == b.len() || b[j].0 > lo || b[j].1 < hi {
            return false;
        }
    }
    true
}

pub fn size(s: &[Range]) -> u128 {
    s.iter()
        .map(|r| (r.1 as i128 - r.0 as i128 + 1) as u128)
        .sum()
}

#[derive(Clone, Copy, PartialEq, Eq, Debug)]
pub enum SetOp {
    Union,
    Intersect,
    Diff,
    SymDiff,
}

/// Appends to `out` the set of what `op` keeps of `a` and `b`.
pub fn combine(op: SetOp, a: &[Range], b: &[Range], out: &mut Vec<Range>) {
    let keep = |x: bool, y: bool| match op {
        SetOp::Union => x | y,
        SetOp::Intersect => x & y,
        SetOp::Diff => x & !y,
        SetOp::SymDiff => x ^ y,
    };
    // Edges are the places where membership turns: lo, and hi + 1.
    let edge = |s: &[Range], i: usize| -> i128 {
        match s.get(i / 2) {
            None => i128::MAX,
            Some(r) if i % 2 == 0 => r.0 as i128,
            Some(r) => r.1 as i128 + 1,
        }
    };
    let (mut i, mut j) = (0, 0);
    let mut open: Option<i128> = None;
    loop {
        let (ea, eb) = (edge(a, i), edge(b, j));
        let e = ea.min(eb);
        if e == i128::MAX {
            break;
        }
        i += (ea == e) as usize;
        j += (eb == e) as usize;
        let now = keep(i % 2 == 1, j % 2 == 1);
        match open {
            None if now => open = Some(e),
            Some(lo) if !now => {
                out.push((lo as i64, (e - 1) as i64));
                open = None;
            }
            _ => {}
        }
    }
}

#[cfg(test)]
mod tests {
    use super::*;

    fn list(v: &[i64]) -> Vec<Range> {
        let mut o = vec![];
        push_list(&mut o, &mut v.to_vec());
        o
    }

    fn c(op: SetOp, a: &[Range], b: &[Range]) -> Vec<Range> {
        let mut o = vec![];
        combine(op, a, b, &mut o);
        o
    }

    #[test]
    fn rows() {
        let a = [(1, 3)];
        let b = list(&[5, 3, 5]);
        assert_eq!(b, [(3, 3), (5, 5)]);
        assert_eq!(c(SetOp::Union, &a, &b), list(&[1, 2, 3, 5]));
        assert_eq!(c(SetOp::Intersect, &a, &b), list(&[3]));
        assert_eq!(c(SetOp::Diff, &a, &b), list(&[1, 2]));
        assert_eq!(c(SetOp::SymDiff, &a, &b), list(&[1, 2, 5]));
        assert_eq!(size(&[(i64::MIN, i64::MAX)]), 18446744073709551616);
        assert_eq!(c(SetOp::Union, &[(1, 3)], &[(4, 6)]), [(1, 6)]);
        assert_eq!(
            c(SetOp::Diff, &[(i64::MIN, i64::MAX)], &list(&[i64::MAX])),
            [(i64::MIN, i64::MAX - 1)]
        );
        assert_eq!(
            c(SetOp::SymDiff, &[(1, 9)], &[(4, 6)]),
            list(&[1, 2, 3, 7, 8, 9])
        );
        assert_eq!(
            list(&[i64::MAX, i64::MIN]),
            [(i64::MIN, i64::MIN), (i64::MAX, i64::MAX)]
        );
    }

    #[test]
    fn against_bits() {
        let mut x = 88172645463325252u64;
        let mut rnd = || {
            x ^= x << 13;
            x ^= x >> 7;
            x ^= x << 17;
            x
        };
        let of = |m: u32| {
            list(
                &(0..20)
                    .filter(|i| m >> i & 1 != 0)
                    .map(|i| i as i64)
                    .collect::<Vec<_>>(),
            )
        };
        for _ in 0..20000 {
            let (p, q) = (
                rnd() as u32 & 0xfffff,
                rnd() as u32 & rnd() as u32 & 0xfffff,
            );
            let (a, b) = (of(p), of(q));
            assert_eq!(c(SetOp::Union, &a, &b), of(p | q));
            assert_eq!(c(SetOp::Intersect, &a, &b), of(p & q));
            assert_eq!(c(SetOp::Diff, &a, &b), of(p & !q));
            assert_eq!(c(SetOp::SymDiff, &a, &b), of(p ^ q));
            assert_eq!(is_subset(&a, &b), p & !q == 0);
            assert_eq!(size(&a), p.count_ones() as u128);
            for i in -1..21 {
                assert_eq!(contains(&a, i), i >= 0 && p >> i & 1 != 0);
            }
        }
    }
}
