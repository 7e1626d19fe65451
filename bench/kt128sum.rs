//! Writes KT128 of standard input with an empty customization string: 32 bytes in lower-case hex and a line end. It has no limit of its own.
//!
//! tests/slow_digest.py holds the program `digest` to it at the longest input that `digest` takes.
mod constants;
#[allow(dead_code)] // the call in one go, which the benchmark has beside this one
mod kt128;
mod lanes;
mod sponge;

use std::io::Read;

fn main() -> std::io::Result<()> {
    let mut input = std::io::stdin().lock();
    let mut buffer = vec![0; 1 << 20];
    let mut run = kt128::Kt128::new();
    loop {
        match input.read(&mut buffer)? {
            0 => break,
            count => run.update(&buffer[..count]),
        }
    }
    let mut out = [0; 32];
    run.finalize(&[], &mut out);
    let digits: String = out.iter().map(|b| format!("{b:02x}")).collect();
    println!("{digits}");
    Ok(())
}
