//! SHA3-256 and SHAKE128 of FIPS 202 in ordinary Rust beside the proved ones, and OpenSSL's, in one process.
//!
//!   fips202 compare                          64 MiB by each and in each way, alternating: best, median and ratio
//!   fips202 VERSION SHA3-256|SHAKE128 WAY N  the first N bytes of 1 MiB by one of them, for an instruction count
//!
//! The versions: rattle, before, rust, and openssl where it was linked. The ways: STEP, absorbed in pieces of so many bytes; STEP-in-place,
//! the same by calls on lent lanes, which the proved versions alone have; one, hashed in one go; 32 bytes of output.
mod constants;
mod hashing;
mod lanes;
mod measure;
#[cfg(openssl)]
mod openssl;
mod sponge;

#[cfg(before)]
use hashing::Pieces;
use hashing::{Digest, Hash, Proved, Step};
use sponge::Sponge;

extern "C" {
    fn bench_sha3_pieces(message: *const u8, message_len: usize, step: usize, out: *mut u8, out_len: usize) -> u8;
    fn bench_sha3_in_place(message: *const u8, message_len: usize, step: usize, out: *mut u8, out_len: usize) -> u8;
    fn bench_sha3_one_go(message: *const u8, message_len: usize, out: *mut u8, out_len: usize) -> u8;
    fn bench_shake_pieces(message: *const u8, message_len: usize, step: usize, out: *mut u8, out_len: usize) -> u8;
    fn bench_shake_in_place(message: *const u8, message_len: usize, step: usize, out: *mut u8, out_len: usize) -> u8;
    fn bench_shake_one_go(message: *const u8, message_len: usize, out: *mut u8, out_len: usize) -> u8;
}

// The same of an earlier commit.
#[cfg(before)]
extern "C" {
    fn before_sha3_pieces(message: *const u8, message_len: usize, step: usize, out: *mut u8, out_len: usize) -> u8;
    fn before_sha3_one_go(message: *const u8, message_len: usize, out: *mut u8, out_len: usize) -> u8;
    fn before_shake_pieces(message: *const u8, message_len: usize, step: usize, out: *mut u8, out_len: usize) -> u8;
    fn before_shake_one_go(message: *const u8, message_len: usize, out: *mut u8, out_len: usize) -> u8;
}

// Its calls on lent lanes, if it has them.
#[cfg(before_in_place)]
extern "C" {
    fn before_sha3_in_place(message: *const u8, message_len: usize, step: usize, out: *mut u8, out_len: usize) -> u8;
    fn before_shake_in_place(message: *const u8, message_len: usize, step: usize, out: *mut u8, out_len: usize) -> u8;
}
#[cfg(before_in_place)]
const BEFORE_SHA3_IN_PLACE: Option<Pieces> = Some(before_sha3_in_place);
#[cfg(all(before, not(before_in_place)))]
const BEFORE_SHA3_IN_PLACE: Option<Pieces> = None;
#[cfg(before_in_place)]
const BEFORE_SHAKE_IN_PLACE: Option<Pieces> = Some(before_shake_in_place);
#[cfg(all(before, not(before_in_place)))]
const BEFORE_SHAKE_IN_PLACE: Option<Pieces> = None;

/// The function of a rate and a last byte over Keccak-f[1600].
#[inline(never)]
fn rust<const RATE: usize, const LAST: u8>(message: &[u8], step: Step, out: &mut Digest) {
    let mut run = Sponge::<RATE, 24>::new();
    match step {
        Some(step) => message.chunks(step).for_each(|piece| run.absorb(piece)),
        None => run.absorb(message),
    }
    run.finalize(LAST);
    run.squeeze(out);
}

fn main() {
    #[cfg(openssl)]
    if std::env::args().nth(1).as_deref() == Some("compare") {
        println!("openssl is {}", openssl::version());
    }
    let sha3 = [
        ("rattle", Hash::Proved(Proved { pieces: bench_sha3_pieces, in_place: Some(bench_sha3_in_place), one_go: bench_sha3_one_go })),
        #[cfg(before)]
        ("before", Hash::Proved(Proved { pieces: before_sha3_pieces, in_place: BEFORE_SHA3_IN_PLACE, one_go: before_sha3_one_go })),
        ("rust", Hash::Rust(rust::<136, 0x06>)),
        #[cfg(openssl)]
        ("openssl", Hash::Rust(openssl::sha3_256)),
    ];
    let shake = [
        ("rattle", Hash::Proved(Proved { pieces: bench_shake_pieces, in_place: Some(bench_shake_in_place), one_go: bench_shake_one_go })),
        #[cfg(before)]
        ("before", Hash::Proved(Proved { pieces: before_shake_pieces, in_place: BEFORE_SHAKE_IN_PLACE, one_go: before_shake_one_go })),
        ("rust", Hash::Rust(rust::<168, 0x1F>)),
        #[cfg(openssl)]
        ("openssl", Hash::Rust(openssl::shake128)),
    ];
    hashing::run(&[("SHA3-256", &sha3), ("SHAKE128", &shake)]);
}
