//! Keccak-p[1600, ROUNDS], the last ROUNDS of the 24 rounds, in ordinary Rust, the lanes in locals.
use crate::constants::last_constants;

pub fn permute<const ROUNDS: usize>(lanes: &mut [u64; 25]) {
    let rot = u64::rotate_left;
    let [mut a0, mut a1, mut a2, mut a3, mut a4, mut a5, mut a6, mut a7, mut a8, mut a9, mut a10, mut a11, mut a12,
        mut a13, mut a14, mut a15, mut a16, mut a17, mut a18, mut a19, mut a20, mut a21, mut a22, mut a23, mut a24] = *lanes;
    for constant in const { last_constants::<ROUNDS>() } {
        let c0 = a0 ^ a5 ^ a10 ^ a15 ^ a20;
        let c1 = a1 ^ a6 ^ a11 ^ a16 ^ a21;
        let c2 = a2 ^ a7 ^ a12 ^ a17 ^ a22;
        let c3 = a3 ^ a8 ^ a13 ^ a18 ^ a23;
        let c4 = a4 ^ a9 ^ a14 ^ a19 ^ a24;
        let d0 = c4 ^ rot(c1, 1);
        let d1 = c0 ^ rot(c2, 1);
        let d2 = c1 ^ rot(c3, 1);
        let d3 = c2 ^ rot(c4, 1);
        let d4 = c3 ^ rot(c0, 1);
        let (b0, b1, b2, b3, b4) = (a0 ^ d0, rot(a6 ^ d1, 44), rot(a12 ^ d2, 43), rot(a18 ^ d3, 21), rot(a24 ^ d4, 14));
        let (b5, b6, b7, b8, b9) = (rot(a3 ^ d3, 28), rot(a9 ^ d4, 20), rot(a10 ^ d0, 3), rot(a16 ^ d1, 45), rot(a22 ^ d2, 61));
        let (b10, b11, b12, b13, b14) = (rot(a1 ^ d1, 1), rot(a7 ^ d2, 6), rot(a13 ^ d3, 25), rot(a19 ^ d4, 8), rot(a20 ^ d0, 18));
        let (b15, b16, b17, b18, b19) = (rot(a4 ^ d4, 27), rot(a5 ^ d0, 36), rot(a11 ^ d1, 10), rot(a17 ^ d2, 15), rot(a23 ^ d3, 56));
        let (b20, b21, b22, b23, b24) = (rot(a2 ^ d2, 62), rot(a8 ^ d3, 55), rot(a14 ^ d4, 39), rot(a15 ^ d0, 41), rot(a21 ^ d1, 2));
        (a0, a1, a2, a3, a4) = (b0 ^ (!b1 & b2), b1 ^ (!b2 & b3), b2 ^ (!b3 & b4), b3 ^ (!b4 & b0), b4 ^ (!b0 & b1));
        (a5, a6, a7, a8, a9) = (b5 ^ (!b6 & b7), b6 ^ (!b7 & b8), b7 ^ (!b8 & b9), b8 ^ (!b9 & b5), b9 ^ (!b5 & b6));
        (a10, a11, a12, a13, a14) = (b10 ^ (!b11 & b12), b11 ^ (!b12 & b13), b12 ^ (!b13 & b14), b13 ^ (!b14 & b10), b14 ^ (!b10 & b11));
        (a15, a16, a17, a18, a19) = (b15 ^ (!b16 & b17), b16 ^ (!b17 & b18), b17 ^ (!b18 & b19), b18 ^ (!b19 & b15), b19 ^ (!b15 & b16));
        (a20, a21, a22, a23, a24) = (b20 ^ (!b21 & b22), b21 ^ (!b22 & b23), b22 ^ (!b23 & b24), b23 ^ (!b24 & b20), b24 ^ (!b20 & b21));
        a0 ^= constant;
    }
    *lanes = [a0, a1, a2, a3, a4, a5, a6, a7, a8, a9, a10, a11, a12, a13, a14, a15, a16, a17, a18, a19, a20, a21, a22, a23, a24];
}
