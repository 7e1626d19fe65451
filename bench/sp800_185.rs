//! cSHAKE128 and KMAC128 of SP 800-185 in ordinary Rust beside the proved ones, and SHAKE128, whose sponge they are, in one process.
//!
//!   sp800_185 compare                                      64 MiB by each and in each way, alternating: best, median and ratio
//!   sp800_185 VERSION SHAKE128|cSHAKE128|KMAC128 STEP|one N  the first N bytes of 1 MiB by one of them, for an instruction count
//!
//! The versions: rattle, before, rust. The ways: absorbed in pieces of STEP bytes, or hashed in one go; 32 bytes of output. cSHAKE128 has
//! N = "N" and S = "S", KMAC128 a key of 32 bytes and S = "S". `compare` first holds the Rust to NIST's samples.
mod constants;
mod hashing;
mod lanes;
mod measure;
mod sponge;

use hashing::{Digest, Hash, Proved, Step};
use sponge::Sponge;

extern "C" {
    fn bench_shake_pieces(message: *const u8, message_len: usize, step: usize, out: *mut u8, out_len: usize) -> u8;
    fn bench_shake_one_go(message: *const u8, message_len: usize, out: *mut u8, out_len: usize) -> u8;
    fn bench_cshake_pieces(message: *const u8, message_len: usize, step: usize, out: *mut u8, out_len: usize) -> u8;
    fn bench_cshake_one_go(message: *const u8, message_len: usize, out: *mut u8, out_len: usize) -> u8;
    fn bench_kmac_pieces(message: *const u8, message_len: usize, step: usize, out: *mut u8, out_len: usize) -> u8;
    fn bench_kmac_one_go(message: *const u8, message_len: usize, out: *mut u8, out_len: usize) -> u8;
}

// The same of an earlier commit.
#[cfg(before)]
extern "C" {
    fn before_shake_pieces(message: *const u8, message_len: usize, step: usize, out: *mut u8, out_len: usize) -> u8;
    fn before_shake_one_go(message: *const u8, message_len: usize, out: *mut u8, out_len: usize) -> u8;
    fn before_cshake_pieces(message: *const u8, message_len: usize, step: usize, out: *mut u8, out_len: usize) -> u8;
    fn before_cshake_one_go(message: *const u8, message_len: usize, out: *mut u8, out_len: usize) -> u8;
    fn before_kmac_pieces(message: *const u8, message_len: usize, step: usize, out: *mut u8, out_len: usize) -> u8;
    fn before_kmac_one_go(message: *const u8, message_len: usize, out: *mut u8, out_len: usize) -> u8;
}

const RATE: usize = 168;
const SHAKE: u8 = 0x1F;
const CSHAKE: u8 = 0x04;

/// The bytes of x, the most significant first, at least one.
fn bytes_of(x: usize) -> Vec<u8> {
    let bytes = x.to_be_bytes();
    bytes[bytes.iter().position(|&b| b != 0).unwrap_or(bytes.len() - 1)..].to_vec()
}

fn left_encode(x: usize) -> Vec<u8> {
    let bytes = bytes_of(x);
    [vec![bytes.len() as u8], bytes].concat()
}

fn right_encode(x: usize) -> Vec<u8> {
    let bytes = bytes_of(x);
    [bytes.clone(), vec![bytes.len() as u8]].concat()
}

fn encode_string(s: &[u8]) -> Vec<u8> {
    [left_encode(8 * s.len()), s.to_vec()].concat()
}

fn bytepad(content: Vec<u8>) -> Vec<u8> {
    let mut bytes = [left_encode(RATE), content].concat();
    bytes.resize(bytes.len().next_multiple_of(RATE), 0);
    bytes
}

/// The sponge of what goes before the message, the message, and what goes after it.
#[inline(never)]
fn absorbed(before: &[u8], message: &[u8], step: Step, after: &[u8], last: u8, out: &mut Digest) {
    let mut run = Sponge::<RATE, 24>::new();
    run.absorb(before);
    match step {
        Some(step) => message.chunks(step).for_each(|piece| run.absorb(piece)),
        None => run.absorb(message),
    }
    run.absorb(after);
    run.finalize(last);
    run.squeeze(out);
}

/// N and S are not both empty.
fn cshake(message: &[u8], step: Step, name: &[u8], string: &[u8], out: &mut Digest) {
    let before = bytepad([encode_string(name), encode_string(string)].concat());
    absorbed(&before, message, step, &[], CSHAKE, out);
}

fn kmac(key: &[u8], message: &[u8], step: Step, string: &[u8], out: &mut Digest) {
    let before = [bytepad([encode_string(b"KMAC"), encode_string(string)].concat()), bytepad(encode_string(key))].concat();
    absorbed(&before, message, step, &right_encode(8 * out.len()), CSHAKE, out);
}

/// Samples 1 and 2 of cSHAKE128 and 1 to 3 of KMAC128, at each step.
fn check() {
    let key: Vec<u8> = (0x40..0x60).collect();
    let (short, long): (Vec<u8>, Vec<u8>) = ((0..4).collect(), (0..200).collect());
    let tagged = b"My Tagged Application";
    for step in [Some(1), Some(7), Some(167), Some(168), None] {
        let mut out = [0; 32];
        let mut given = |digest: &str, hash: &dyn Fn(&mut Digest)| {
            hash(&mut out);
            assert_eq!(out.iter().map(|b| format!("{b:02x}")).collect::<String>(), digest, "in pieces of {step:?}");
        };
        given("c1c36925b6409a04f1b504fcbca9d82b4017277cb5ed2b2065fc1d3814d5aaf5", &|out| cshake(&short, step, b"", b"Email Signature", out));
        given("c5221d50e4f822d96a2e8881a961420f294b7b24fe3d2094baed2c6524cc166b", &|out| cshake(&long, step, b"", b"Email Signature", out));
        given("e5780b0d3ea6f7d3a429c5706aa43a00fadbd7d49628839e3187243f456ee14e", &|out| kmac(&key, &short, step, b"", out));
        given("3b1fba963cd8b0b59e8c1a6d71888b7143651af8ba0a7070c0979e2811324aa5", &|out| kmac(&key, &short, step, tagged, out));
        given("1f5b4e6cca02209e0dcb5ca635b89a15e271ecc760071dfd805faa38f9729230", &|out| kmac(&key, &long, step, tagged, out));
    }
}

fn main() {
    if std::env::args().nth(1).as_deref() == Some("compare") {
        check();
    }
    let shake128 = [
        ("rattle", Hash::Proved(Proved { pieces: bench_shake_pieces, in_place: None, one_go: bench_shake_one_go })),
        #[cfg(before)]
        ("before", Hash::Proved(Proved { pieces: before_shake_pieces, in_place: None, one_go: before_shake_one_go })),
        ("rust", Hash::Rust(|message, step, out| absorbed(&[], message, step, &[], SHAKE, out))),
    ];
    let cshake128 = [
        ("rattle", Hash::Proved(Proved { pieces: bench_cshake_pieces, in_place: None, one_go: bench_cshake_one_go })),
        #[cfg(before)]
        ("before", Hash::Proved(Proved { pieces: before_cshake_pieces, in_place: None, one_go: before_cshake_one_go })),
        ("rust", Hash::Rust(|message, step, out| cshake(message, step, b"N", b"S", out))),
    ];
    let kmac128 = [
        ("rattle", Hash::Proved(Proved { pieces: bench_kmac_pieces, in_place: None, one_go: bench_kmac_one_go })),
        #[cfg(before)]
        ("before", Hash::Proved(Proved { pieces: before_kmac_pieces, in_place: None, one_go: before_kmac_one_go })),
        ("rust", Hash::Rust(|message, step, out| kmac(&[0x40; 32], message, step, b"S", out))),
    ];
    hashing::run(&[("SHAKE128", &shake128), ("cSHAKE128", &cshake128), ("KMAC128", &kmac128)]);
}
