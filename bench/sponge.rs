//! The sponge in ordinary Rust, over a rate of whole words and a number of rounds: whole blocks word by word from where they lie, the
//! permutation with its lanes in locals.
use crate::lanes::permute;

/// Up to eight bytes as a word, the first the least significant.
fn word(bytes: &[u8]) -> u64 {
    bytes.iter().rev().fold(0, |w, &b| w << 8 | u64::from(b))
}

pub struct Sponge<const RATE: usize, const ROUNDS: usize> {
    lanes: [u64; 25],
    position: usize,
}

impl<const RATE: usize, const ROUNDS: usize> Sponge<RATE, ROUNDS> {
    pub fn new() -> Self {
        Sponge { lanes: [0; 25], position: 0 }
    }

    fn permute(&mut self) {
        permute::<ROUNDS>(&mut self.lanes);
        self.position = 0;
    }

    /// XORs a part of a block into the state at the position: whole words, and the bytes before and after them.
    fn mix(&mut self, part: &[u8]) {
        let (mut lane, shift) = (self.position / 8, self.position % 8);
        let (head, rest) = part.split_at(part.len().min((8 - shift) % 8));
        if !head.is_empty() {
            self.lanes[lane] ^= word(head) << (8 * shift);
            lane += 1;
        }
        let words = rest.chunks_exact(8);
        let tail = word(words.remainder());
        for bytes in words {
            self.lanes[lane] ^= u64::from_le_bytes(bytes.try_into().unwrap());
            lane += 1;
        }
        self.lanes[lane] ^= tail;
        self.position += part.len();
    }

    pub fn absorb(&mut self, mut piece: &[u8]) {
        let room = RATE - self.position;
        if piece.len() < room {
            return self.mix(piece);
        }
        if self.position > 0 {
            self.mix(&piece[..room]);
            self.permute();
            piece = &piece[room..];
        }
        let blocks = piece.chunks_exact(RATE);
        let rest = blocks.remainder();
        for block in blocks {
            for (lane, bytes) in self.lanes.iter_mut().zip(block.chunks_exact(8)) {
                *lane ^= u64::from_le_bytes(bytes.try_into().unwrap());
            }
            permute::<ROUNDS>(&mut self.lanes);
        }
        self.mix(rest);
    }

    /// Ends the message with the byte `last`: a function's own bits, and the first bit of the padding.
    pub fn finalize(&mut self, last: u8) {
        self.mix(&[last]);
        self.lanes[RATE / 8 - 1] ^= 0x80 << 56;
        self.permute();
    }

    pub fn squeeze(&mut self, mut out: &mut [u8]) {
        while !out.is_empty() {
            if self.position == RATE {
                self.permute();
            }
            let shift = self.position % 8;
            let (part, rest) = out.split_at_mut(out.len().min(8 - shift));
            part.copy_from_slice(&self.lanes[self.position / 8].to_le_bytes()[shift..shift + part.len()]);
            self.position += part.len();
            out = rest;
        }
    }
}
