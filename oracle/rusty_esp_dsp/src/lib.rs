//! Stand-in for the crate of this name that the Rust sources lean on: the three helpers that
//! document 01 decides.

pub mod int {
    /// The largest whole r with r·r ≤ v.
    #[inline]
    pub const fn isqrt(v: u32) -> u32 {
        v.isqrt()
    }
}

pub mod sample {
    /// The exact sum of products in 64 bits, over the shorter of the two lengths.
    #[inline]
    pub fn dot_i16(a: &[i16], b: &[i16]) -> i64 {
        // A product of two 16-bit numbers is at most 2^30, so it is exact in 32 bits.
        a.iter()
            .zip(b)
            .map(|(&x, &y)| i64::from(i32::from(x) * i32::from(y)))
            .sum()
    }

    /// The exact sum of squares in 64 bits.
    #[inline]
    pub fn sum_sq_i16(x: &[i16]) -> i64 {
        dot_i16(x, x)
    }
}

#[cfg(test)]
mod tests {
    use super::int::isqrt;
    use super::sample::{dot_i16, sum_sq_i16};

    fn is_root(v: u32) {
        let (r, v) = (u64::from(isqrt(v)), u64::from(v));
        assert!(r * r <= v && v < (r + 1) * (r + 1), "isqrt({v}) = {r}");
    }

    #[test]
    fn isqrt_is_the_largest_root() {
        (0..1 << 20).for_each(is_root);
        for r in 1..=u16::MAX {
            let square = u32::from(r) * u32::from(r);
            is_root(square - 1);
            is_root(square);
            is_root(square + 1);
        }
        is_root(u32::MAX);
    }

    #[test]
    fn sums_are_exact() {
        assert_eq!(dot_i16(&[], &[]), 0);
        assert_eq!(dot_i16(&[1, -2, 3], &[4, 5, -6]), 4 - 10 - 18);
        assert_eq!(
            dot_i16(&[i16::MIN; 512], &[i16::MAX; 512]),
            -512 * 32_768 * 32_767
        );
        assert_eq!(sum_sq_i16(&[i16::MIN; 512]), 512 << 30);
    }
}
