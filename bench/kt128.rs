//! KT128 in ordinary Rust, in pieces and in one go, over the sponge beside it. It has no limit of its own.
use crate::sponge::Sponge;

type TurboShake128 = Sponge<168, 12>;

pub const CHUNK: usize = 8192;
const FIRST_CHUNK_END: [u8; 8] = [3, 0, 0, 0, 0, 0, 0, 0];
const SINGLE_NODE: u8 = 0x07;
const LEAF: u8 = 0x0B;
const FINAL_NODE: u8 = 0x06;

/// The bytes of x, the most significant first and no leading zero, then their number.
fn length_encode(x: usize) -> Vec<u8> {
    let mut bytes: Vec<u8> = x.to_be_bytes().into_iter().skip_while(|&b| b == 0).collect();
    bytes.push(bytes.len() as u8);
    bytes
}

pub struct Kt128 {
    node: TurboShake128,
    leaf: TurboShake128,
    /// Chunks ended, and bytes of the one in hand.
    ended: usize,
    filled: usize,
}

impl Kt128 {
    pub fn new() -> Self {
        Kt128 { node: TurboShake128::new(), leaf: TurboShake128::new(), ended: 0, filled: 0 }
    }

    pub fn update(&mut self, mut piece: &[u8]) {
        while !piece.is_empty() {
            if self.filled == CHUNK {
                self.end_chunk();
            }
            let (part, rest) = piece.split_at(piece.len().min(CHUNK - self.filled));
            if self.ended == 0 {
                self.node.absorb(part);
            } else {
                self.leaf.absorb(part);
            }
            self.filled += part.len();
            piece = rest;
        }
    }

    fn end_chunk(&mut self) {
        if self.ended == 0 {
            self.node.absorb(&FIRST_CHUNK_END);
        } else {
            let leaf = std::mem::replace(&mut self.leaf, TurboShake128::new());
            self.chain(leaf);
        }
        self.ended += 1;
        self.filled = 0;
    }

    /// Absorbs the chaining value of a leaf into the final node.
    fn chain(&mut self, mut leaf: TurboShake128) {
        let mut value = [0; 32];
        leaf.finalize(LEAF);
        leaf.squeeze(&mut value);
        self.node.absorb(&value);
    }

    pub fn finalize(mut self, custom: &[u8], out: &mut [u8]) {
        self.update(custom);
        self.update(&length_encode(custom.len()));
        if self.ended == 0 {
            self.node.finalize(SINGLE_NODE);
        } else {
            self.end_chunk();
            self.node.absorb(&length_encode(self.ended - 1));
            self.node.absorb(&[0xFF, 0xFF]);
            self.node.finalize(FINAL_NODE);
        }
        self.node.squeeze(out);
    }
}

/// In one go: each chunk that lies wholly in the message is hashed where it lies.
pub fn kt128(message: &[u8], custom: &[u8], out: &mut [u8]) {
    let mut run = Kt128::new();
    let chunks = message.chunks_exact(CHUNK);
    let rest = chunks.remainder();
    for chunk in chunks {
        if run.ended == 0 {
            run.node.absorb(chunk);
            run.node.absorb(&FIRST_CHUNK_END);
        } else {
            let mut leaf = TurboShake128::new();
            leaf.absorb(chunk);
            run.chain(leaf);
        }
        run.ended += 1;
    }
    run.update(rest);
    run.finalize(custom, out);
}
