//! SHA3-256 and SHAKE128 of OpenSSL's libcrypto, which has the permutation in assembly.
use crate::hashing::{Digest, Step};
use std::ffi::{c_char, c_int, c_uint, c_void, CStr};
use std::ptr::null_mut;

extern "C" {
    fn OpenSSL_version(which: c_int) -> *const c_char;
    fn EVP_sha3_256() -> *const c_void;
    fn EVP_shake128() -> *const c_void;
    fn EVP_MD_CTX_new() -> *mut c_void;
    fn EVP_MD_CTX_free(run: *mut c_void);
    fn EVP_DigestInit_ex(run: *mut c_void, function: *const c_void, engine: *mut c_void) -> c_int;
    fn EVP_DigestUpdate(run: *mut c_void, piece: *const c_void, piece_len: usize) -> c_int;
    fn EVP_DigestFinal_ex(run: *mut c_void, out: *mut u8, out_len: *mut c_uint) -> c_int;
    fn EVP_DigestFinalXOF(run: *mut c_void, out: *mut u8, out_len: usize) -> c_int;
}

/// The library's name and version.
pub fn version() -> String {
    // A constant string of the library's.
    unsafe { CStr::from_ptr(OpenSSL_version(0)) }.to_string_lossy().into_owned()
}

/// Absorbs the message into a run of the function, one call for each piece, and has `end` write the output.
fn hash(function: *const c_void, message: &[u8], step: Step, end: impl FnOnce(*mut c_void) -> c_int) {
    let size = step.unwrap_or(message.len().max(1));
    // The library reads the message and keeps none of it; the run is freed here.
    unsafe {
        let run = EVP_MD_CTX_new();
        assert_eq!(EVP_DigestInit_ex(run, function, null_mut()), 1);
        for piece in message.chunks(size) {
            assert_eq!(EVP_DigestUpdate(run, piece.as_ptr().cast(), piece.len()), 1);
        }
        assert_eq!(end(run), 1);
        EVP_MD_CTX_free(run);
    }
}

pub fn sha3_256(message: &[u8], step: Step, out: &mut Digest) {
    // A digest has as many bytes as `out`.
    hash(unsafe { EVP_sha3_256() }, message, step, |run| unsafe { EVP_DigestFinal_ex(run, out.as_mut_ptr(), null_mut()) });
}

pub fn shake128(message: &[u8], step: Step, out: &mut Digest) {
    hash(unsafe { EVP_shake128() }, message, step, |run| unsafe { EVP_DigestFinalXOF(run, out.as_mut_ptr(), out.len()) });
}
