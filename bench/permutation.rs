//! Keccak-p[1600, 12] in ordinary Rust beside the proved one, in one process.
//!
//!   permutation compare                a million permutations of each, alternating: best, median and ratio
//!   permutation VERSION N              N permutations of one of them, for an instruction count
//!   permutation compare-four           a million permutations of four states abreast, and four million plain ones
//!   permutation four|plain N           N permutations of a state, a quarter of them of each of four
//!
//! The versions: rattle, before, and two of ordinary Rust: rust, with an array and loops, and locals, with the lanes in locals. Of four states: four, the
//! proved code of four states abreast, and plain, which is rattle of one after the other.
mod constants;
mod lanes;
mod measure;

use constants::last_constants;
use std::time::Instant;

extern "C" {
    // crates/bench/src/lib.rt; the array passes as a pointer.
    fn bench_permute(lanes: &mut [u64; 25], count: usize);
    // crates/bench/src/four.rt; the slice passes as a pointer and a length.
    fn bench_permute_four(states: *mut u64, words: usize, count: usize) -> u8;
    // bench_permute of an earlier commit.
    #[cfg(before)]
    fn before_permute(lanes: &mut [u64; 25], count: usize);
}

const ROUNDS: usize = 12;

/// The walk of rho and pi over the lanes: where each lane goes, and by how much it is rotated.
const TARGETS: [usize; 24] = [10, 7, 11, 17, 18, 3, 5, 16, 8, 21, 24, 4, 15, 23, 19, 13, 12, 2, 20, 14, 22, 9, 6, 1];
const ROTATIONS: [u32; 24] = [1, 3, 6, 10, 15, 21, 28, 36, 45, 55, 2, 14, 27, 41, 56, 8, 25, 43, 62, 18, 39, 61, 20, 44];

#[inline(never)]
fn permute(a: &mut [u64; 25]) {
    for constant in const { last_constants::<ROUNDS>() } {
        let mut c = [0u64; 5];
        for x in 0..5 {
            c[x] = a[x] ^ a[x + 5] ^ a[x + 10] ^ a[x + 15] ^ a[x + 20];
        }
        for x in 0..5 {
            let d = c[(x + 4) % 5] ^ c[(x + 1) % 5].rotate_left(1);
            for y in 0..5 {
                a[x + 5 * y] ^= d;
            }
        }
        let mut carried = a[1];
        for t in 0..24 {
            let next = a[TARGETS[t]];
            a[TARGETS[t]] = carried.rotate_left(ROTATIONS[t]);
            carried = next;
        }
        for y in 0..5 {
            let row = [a[5 * y], a[5 * y + 1], a[5 * y + 2], a[5 * y + 3], a[5 * y + 4]];
            for x in 0..5 {
                a[x + 5 * y] = row[x] ^ (!row[(x + 1) % 5] & row[(x + 2) % 5]);
            }
        }
        a[0] ^= constant;
    }
}

#[inline(never)]
fn permute_locals(lanes: &mut [u64; 25]) {
    lanes::permute::<ROUNDS>(lanes)
}

fn rust(lanes: &mut [u64; 25], count: usize) {
    (0..count).for_each(|_| permute(lanes))
}

fn locals(lanes: &mut [u64; 25], count: usize) {
    (0..count).for_each(|_| permute_locals(lanes))
}

/// Permutes the lanes so many times.
enum Permutation {
    Proved(unsafe extern "C" fn(&mut [u64; 25], usize)),
    Rust(fn(&mut [u64; 25], usize)),
}

/// Nanoseconds a permutation over `count` of them from the zero state, and the result.
fn timed(permutation: &Permutation, count: usize) -> (f64, [u64; 25]) {
    let mut lanes = [0u64; 25];
    let start = Instant::now();
    match permutation {
        // The callee reads and writes the 25 words and nothing else.
        Permutation::Proved(f) => unsafe { f(&mut lanes, count) },
        Permutation::Rust(f) => f(&mut lanes, count),
    }
    (start.elapsed().as_nanos() as f64 / count as f64, lanes)
}

/// Permutes each of four states so many times.
type Four = fn(&mut [[u64; 25]; 4], usize) -> f64;

/// Abreast, lane i of state j at 4 i + j: the time of the call alone, in nanoseconds.
fn abreast(states: &mut [[u64; 25]; 4], count: usize) -> f64 {
    let mut words = [0u64; 100];
    (0..100).for_each(|w| words[w] = states[w % 4][w / 4]);
    let start = Instant::now();
    // The callee reads and writes the 100 words and nothing else.
    let status = unsafe { bench_permute_four(words.as_mut_ptr(), words.len(), count) };
    let time = start.elapsed().as_nanos() as f64;
    assert_eq!(status, 0);
    (0..100).for_each(|w| states[w % 4][w / 4] = words[w]);
    time
}

/// One after the other.
fn plain(states: &mut [[u64; 25]; 4], count: usize) -> f64 {
    let start = Instant::now();
    states.iter_mut().for_each(|lanes| unsafe { bench_permute(lanes, count) });
    start.elapsed().as_nanos() as f64
}

/// Nanoseconds a permutation of one state, over `count` of each of four states that differ in their first lanes, and the results.
fn timed_four(four: &Four, count: usize) -> (f64, [[u64; 25]; 4]) {
    let mut states = [[0u64; 25]; 4];
    (0..4).for_each(|j| states[j][0] = j as u64);
    let time = four(&mut states, count);
    (time / (4 * count) as f64, states)
}

fn main() {
    let versions = [
        ("rattle", Permutation::Proved(bench_permute)),
        #[cfg(before)]
        ("before", Permutation::Proved(before_permute)),
        ("rust", Permutation::Rust(rust)),
        ("locals", Permutation::Rust(locals)),
    ];
    let fours: [(&str, Four); 2] = [("four", abreast), ("plain", plain)];
    let words: Vec<String> = std::env::args().skip(1).collect();
    let words: Vec<&str> = words.iter().map(String::as_str).collect();
    match words[..] {
        ["compare"] => measure::compare("1000000 permutations, ns for one", "ns", 15, &versions, |p| timed(p, 1_000_000)),
        ["compare-four"] => measure::compare("1000000 permutations of four states, ns for one state", "ns", 15, &fours, |f| timed_four(f, 1_000_000)),
        [version @ ("four" | "plain"), n] => {
            let found = fours.iter().find(|(v, _)| *v == version).expect("a version's name");
            println!("{:016x?}", timed_four(&found.1, n.parse::<usize>().unwrap() / 4).1.map(|lanes| lanes[0]));
        }
        [version, n] => {
            let found = versions.iter().find(|(v, _)| *v == version).expect("a version's name");
            println!("{:016x}", timed(&found.1, n.parse().unwrap()).1[0]);
        }
        _ => panic!("permutation compare | compare-four | VERSION N"),
    }
}
