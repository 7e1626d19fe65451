//! What the programs that time a hash have in common: the ways to hash, the comparison, and the count of one version.
use crate::measure;
use std::time::Instant;

pub type Digest = [u8; 32];
/// The bytes of a piece, or none in one go.
pub type Step = Option<usize>;

/// How a message is hashed: in pieces of so many bytes, by calls that take a run and give one back or by calls on lent lanes, or in one go.
#[derive(Clone, Copy)]
pub enum Way {
    Pieces(usize),
    InPlace(usize),
    OneGo,
}

/// The ways of a proved hash: crates/bench/src, where a slice passes as a pointer and a length. Not every one has calls on lent lanes.
pub type Pieces = unsafe extern "C" fn(*const u8, usize, usize, *mut u8, usize) -> u8;
pub type OneGo = unsafe extern "C" fn(*const u8, usize, *mut u8, usize) -> u8;

pub struct Proved {
    pub pieces: Pieces,
    pub in_place: Option<Pieces>,
    pub one_go: OneGo,
}

pub enum Hash {
    Proved(Proved),
    Rust(fn(&[u8], Step, &mut Digest)),
}

impl Way {
    fn read(word: &str) -> Way {
        match word.strip_suffix("-in-place") {
            Some(step) => Way::InPlace(step.parse().unwrap()),
            None if word == "one" => Way::OneGo,
            None => Way::Pieces(word.parse().unwrap()),
        }
    }

    fn step(self) -> Step {
        match self {
            Way::Pieces(step) | Way::InPlace(step) => Some(step),
            Way::OneGo => None,
        }
    }

    fn words(self) -> String {
        match self {
            Way::Pieces(step) => format!("in pieces of {step} bytes"),
            Way::InPlace(step) => format!("in pieces of {step} bytes in place"),
            Way::OneGo => "in one go".into(),
        }
    }
}

/// A hash by its name, and the versions of it.
pub type Function<'a> = (&'a str, &'a [(&'a str, Hash)]);

impl Hash {
    fn has(&self, way: Way) -> bool {
        !matches!((self, way), (Hash::Proved(Proved { in_place: None, .. }), Way::InPlace(_)))
    }

    fn call(&self, message: &[u8], way: Way, out: &mut Digest) {
        let (input, size, output) = (message.as_ptr(), message.len(), out.as_mut_ptr());
        // The callees read the message, write the output, and keep neither.
        let status = match (self, way) {
            (Hash::Proved(f), Way::Pieces(step)) => unsafe { (f.pieces)(input, size, step, output, out.len()) },
            (Hash::Proved(f), Way::InPlace(step)) => unsafe { f.in_place.expect("it has no calls on lent lanes")(input, size, step, output, out.len()) },
            (Hash::Proved(f), Way::OneGo) => unsafe { (f.one_go)(input, size, output, out.len()) },
            (Hash::Rust(f), _) => return f(message, way.step(), out),
        };
        assert_eq!(status, 0, "the proved one refuses");
    }
}

/// The draft's pattern, so many bytes.
pub fn pattern(size: usize) -> Vec<u8> {
    (0..size).map(|i| (i % 251) as u8).collect()
}

/// Milliseconds for the message, into a cleared output, and the digest.
fn timed(hash: &Hash, message: &[u8], way: Way) -> (f64, Digest) {
    let mut out = [0; 32];
    let start = Instant::now();
    hash.call(message, way, &mut out);
    (start.elapsed().as_secs_f64() * 1e3, out)
}

/// Those of the versions that have the way; none where the first, the proved one, has not.
fn compare(&(name, versions): &Function, ways: &[Way], size: usize, repeats: usize) {
    let message = pattern(size << 20);
    for &way in ways {
        let those: Vec<(&str, &Hash)> = versions.iter().filter(|(_, hash)| hash.has(way)).map(|(name, hash)| (*name, hash)).collect();
        if versions[0].1.has(way) {
            let what = format!("{name} of {size} MiB {}, ms for all", way.words());
            measure::compare(&what, "ms", repeats, &those, |hash| timed(hash, &message, way));
        }
    }
}

/// The pattern is made in full whatever N is, so that two counts differ by the hashing alone.
fn once(hash: &Hash, way: &str, size: &str, most: usize) {
    let message = pattern(most << 20);
    println!("{:02x?}", timed(hash, &message[..size.parse().unwrap()], Way::read(way)).1);
}

fn found<'a, T>(named: &'a [(&str, T)], name: &str) -> &'a T {
    &named.iter().find(|(n, _)| *n == name).expect("a name").1
}

/// As `run_ways`, in pieces of 4096 and of 7 bytes and in one go, with a length of at most 1 MiB.
pub fn run(functions: &[Function]) {
    run_ways(functions, &[Way::Pieces(4096), Way::Pieces(7), Way::InPlace(7), Way::OneGo], 1)
}

/// Does what the program's words say: `compare`, which goes over the ways, or the name of a version and of its function with a way and a length
/// of at most `most` MiB.
pub fn run_ways(functions: &[Function], ways: &[Way], most: usize) {
    let words: Vec<String> = std::env::args().skip(1).collect();
    let words: Vec<&str> = words.iter().map(String::as_str).collect();
    match words[..] {
        ["compare"] => functions.iter().for_each(|function| compare(function, ways, 64, 9)),
        [version, function, way, n] => {
            let versions = *found(functions, function);
            once(found(versions, version), way, n, most)
        }
        _ => panic!("compare | VERSION FUNCTION STEP|STEP-in-place|one N"),
    }
}
