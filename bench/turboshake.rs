//! TurboSHAKE128 with D = 1F in ordinary Rust beside the proved one, in one process.
//!
//!   turboshake compare                      64 MiB by each and in each way, alternating: best, median and ratio
//!   turboshake VERSION TurboSHAKE128 WAY N  the first N bytes of 1 MiB by one of them, for an instruction count
//!
//! The versions: rattle, before, rust. The ways: STEP, absorbed in pieces of so many bytes; STEP-in-place, the same by calls on lent lanes, which the proved versions alone have;
//! one, hashed in one go; 32 bytes of output.
mod constants;
mod hashing;
mod lanes;
mod measure;
mod sponge;

#[cfg(before)]
use hashing::Pieces;
use hashing::{Digest, Hash, Proved, Step};
use sponge::Sponge;

extern "C" {
    fn bench_pieces(message: *const u8, message_len: usize, step: usize, out: *mut u8, out_len: usize) -> u8;
    fn bench_in_place(message: *const u8, message_len: usize, step: usize, out: *mut u8, out_len: usize) -> u8;
    fn bench_one_go(message: *const u8, message_len: usize, out: *mut u8, out_len: usize) -> u8;
}

// The same of an earlier commit.
#[cfg(before)]
extern "C" {
    fn before_pieces(message: *const u8, message_len: usize, step: usize, out: *mut u8, out_len: usize) -> u8;
    fn before_one_go(message: *const u8, message_len: usize, out: *mut u8, out_len: usize) -> u8;
}

// Its calls on lent lanes, if it has them.
#[cfg(before_in_place)]
extern "C" {
    fn before_in_place(message: *const u8, message_len: usize, step: usize, out: *mut u8, out_len: usize) -> u8;
}
#[cfg(before_in_place)]
const BEFORE_IN_PLACE: Option<Pieces> = Some(before_in_place);
#[cfg(all(before, not(before_in_place)))]
const BEFORE_IN_PLACE: Option<Pieces> = None;

const DOMAIN: u8 = 0x1F;

#[inline(never)]
fn rust(message: &[u8], step: Step, out: &mut Digest) {
    let mut run = Sponge::<168, 12>::new();
    match step {
        Some(step) => message.chunks(step).for_each(|piece| run.absorb(piece)),
        None => run.absorb(message),
    }
    run.finalize(DOMAIN);
    run.squeeze(out);
}

fn main() {
    let versions = [
        ("rattle", Hash::Proved(Proved { pieces: bench_pieces, in_place: Some(bench_in_place), one_go: bench_one_go })),
        #[cfg(before)]
        ("before", Hash::Proved(Proved { pieces: before_pieces, in_place: BEFORE_IN_PLACE, one_go: before_one_go })),
        ("rust", Hash::Rust(rust)),
    ];
    hashing::run(&[("TurboSHAKE128", &versions)]);
}
