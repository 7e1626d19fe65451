//! KT128 and KT256 with four leaves abreast beside the plain calls, in one process; the customization string is empty.
//!
//!   abreast compare                            64 MiB by each and in each way, alternating: best, median and ratio
//!   abreast VERSION KT128|KT256 STEP|one N     the first N bytes of 8 MiB by one of them, for an instruction count
//!
//! The versions: abreast, plain. The ways: absorbed in pieces of STEP bytes, or hashed in one go; 32 bytes of output. Both are proved code.
#[allow(dead_code)] // the versions in Rust, which the other programs have beside the proved code
mod hashing;
mod measure;

use hashing::{Hash, OneGo, Pieces, Proved, Way};

extern "C" {
    // crates/bench_abreast; the words of the four states are locals there.
    fn bench_kt128_pieces_abreast(message: *const u8, message_len: usize, step: usize, out: *mut u8, out_len: usize) -> u8;
    fn bench_kt128_one_go_abreast(message: *const u8, message_len: usize, out: *mut u8, out_len: usize) -> u8;
    fn bench_kt256_pieces_abreast(message: *const u8, message_len: usize, step: usize, out: *mut u8, out_len: usize) -> u8;
    fn bench_kt256_one_go_abreast(message: *const u8, message_len: usize, out: *mut u8, out_len: usize) -> u8;
    fn bench_kt256_pieces(message: *const u8, message_len: usize, step: usize, out: *mut u8, out_len: usize) -> u8;
    fn bench_kt256_one_go(message: *const u8, message_len: usize, out: *mut u8, out_len: usize) -> u8;
    fn bench_kt128_pieces(message: *const u8, message_len: usize, step: usize, out: *mut u8, out_len: usize) -> u8;
    fn bench_kt128_one_go(message: *const u8, message_len: usize, out: *mut u8, out_len: usize) -> u8;
}

fn proved(pieces: Pieces, one_go: OneGo) -> Hash {
    Hash::Proved(Proved { pieces, in_place: None, one_go })
}

fn main() {
    let kt128 = [("abreast", proved(bench_kt128_pieces_abreast, bench_kt128_one_go_abreast)), ("plain", proved(bench_kt128_pieces, bench_kt128_one_go))];
    let kt256 = [("abreast", proved(bench_kt256_pieces_abreast, bench_kt256_one_go_abreast)), ("plain", proved(bench_kt256_pieces, bench_kt256_one_go))];
    let ways = [Way::OneGo, Way::Pieces(1 << 20), Way::Pieces(65536), Way::Pieces(4096)];
    hashing::run_ways(&[("KT128", &kt128), ("KT256", &kt256)], &ways, 8)
}
