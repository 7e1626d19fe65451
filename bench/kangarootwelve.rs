//! KT128 with an empty customization string in ordinary Rust beside the proved one, in one process.
//!
//!   kangarootwelve compare                   64 MiB by each and in each way, alternating: best, median and ratio
//!   kangarootwelve VERSION KT128 STEP|one N  the first N bytes of 1 MiB by one of them, for an instruction count
//!
//! The versions: rattle, before, rust. The ways: absorbed in pieces of STEP bytes, or hashed in one go; 32 bytes of output. `compare` first
//! holds the Rust to the draft's vectors.
mod constants;
mod hashing;
mod kt128;
mod lanes;
mod measure;
mod sponge;

use hashing::{pattern, Digest, Hash, Proved, Step};
use kt128::{kt128, Kt128, CHUNK};

extern "C" {
    fn bench_kt_pieces(message: *const u8, message_len: usize, step: usize, out: *mut u8, out_len: usize) -> u8;
    fn bench_kt_one_go(message: *const u8, message_len: usize, out: *mut u8, out_len: usize) -> u8;
}

// The same of an earlier commit.
#[cfg(before)]
extern "C" {
    fn before_kt_pieces(message: *const u8, message_len: usize, step: usize, out: *mut u8, out_len: usize) -> u8;
    fn before_kt_one_go(message: *const u8, message_len: usize, out: *mut u8, out_len: usize) -> u8;
}

#[inline(never)]
fn rust(message: &[u8], step: Step, out: &mut Digest) {
    match step {
        Some(step) => {
            let mut run = Kt128::new();
            message.chunks(step).for_each(|piece| run.update(piece));
            run.finalize(&[], out);
        }
        None => kt128(message, &[], out),
    }
}

/// Lengths of M and C, both the pattern, and the digest of 32 bytes that draft-irtf-cfrg-kangarootwelve-16 prints.
const VECTORS: [(usize, usize, &str); 7] = [
    (0, 0, "1ac2d450fc3b4205d19da7bfca1b37513c0803577ac7167f06fe2ce1f0ef39e5"),
    (4913, 0, "cb552e2ec77d9910701d578b457ddf772c12e322e4ee7fe417f92c758f0d59d0"),
    (83521, 0, "8701045e22205345ff4dda05555cbb5c3af1a771c2b89baef37db43d9998b9fe"),
    (8191, 0, "1b577636f723643e990cc7d6a659837436fd6a103626600eb8301cd1dbe553d6"),
    (8192, 0, "48f256f6772f9edfb6a8b661ec92dc93b95ebd05a08a17b39ae3490870c926c3"),
    (8192, 8189, "3ed12f70fb05ddb58689510ab3e4d23c6c6033849aa01e1d8c220a297fedcd0b"),
    (8192, 8190, "6a7c1b6a5cd0d8c9ca943a4a216cc64604559a2ea45f78570a15253d67ba00ae"),
];

/// The Rust gives the draft's digests, in one go and in pieces.
fn check() {
    for (size, custom_size, digest) in VECTORS {
        let (message, custom) = (pattern(size), pattern(custom_size));
        let mut out = [0; 32];
        kt128(&message, &custom, &mut out);
        assert_eq!(hex(&out), digest, "one go of {size} bytes");
        for step in [1, 7, 4096, CHUNK, CHUNK + 1] {
            let mut run = Kt128::new();
            message.chunks(step).for_each(|piece| run.update(piece));
            run.finalize(&custom, &mut out);
            assert_eq!(hex(&out), digest, "{size} bytes in pieces of {step}");
        }
    }
}

fn hex(bytes: &[u8]) -> String {
    bytes.iter().map(|b| format!("{b:02x}")).collect()
}

fn main() {
    if std::env::args().nth(1).as_deref() == Some("compare") {
        check();
    }
    let versions = [
        ("rattle", Hash::Proved(Proved { pieces: bench_kt_pieces, in_place: None, one_go: bench_kt_one_go })),
        #[cfg(before)]
        ("before", Hash::Proved(Proved { pieces: before_kt_pieces, in_place: None, one_go: before_kt_one_go })),
        ("rust", Hash::Rust(rust)),
    ];
    hashing::run(&[("KT128", &versions)]);
}
