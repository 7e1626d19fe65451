"""The definitions over the bytes that a book holds, with their permutations counted as they are done.

The bytes are joined: blocks are cut from the whole, and nothing is known of the pieces that they came in. A block is permuted once there is
a byte after it, or the close. A book asks again after each call, so what was hashed for it stays hashed.
"""
import functools

import reference


@functools.lru_cache(maxsize=1 << 15)  # the books of a test come to the same states again and again
def permuted(state, rounds):
    """The permutation of a state that is one number of 200 bytes, the least significant first: less work to look up than 25 lanes."""
    lanes = reference.state_of(state.to_bytes(200, "little"))
    return int.from_bytes(reference.bytes_of(reference.permuted(tuple(lanes), rounds)), "little")


class CountedSponge:
    """The sponge over one message."""

    def __init__(self, function):
        self.function = function
        self.state = 0
        self.taken = 0  # the bytes of the message whose blocks are permuted
        self.output = b""  # whole blocks; none before the close
        self.permutations = 0

    def block(self, data=b""):
        self.state = permuted(self.state ^ int.from_bytes(data, "little"), self.function.rounds)
        self.permutations += 1

    def first_bytes(self):
        return self.state.to_bytes(200, "little")[: self.function.rate]

    def absorb(self, message):
        """The message so far."""
        rate = self.function.rate
        while len(message) > self.taken + rate:
            self.block(message[self.taken : self.taken + rate])
            self.taken += rate

    def close(self, message, last):
        """The whole message: what is left of it and the byte `last`, zeros, and 80 in the last byte."""
        rate = self.function.rate
        data = bytearray(message[self.taken :]) + bytes([last])
        data += bytes(-len(data) % rate)
        data[-1] ^= 0x80
        for at in range(0, len(data), rate):
            self.block(data[at : at + rate])
        self.output = self.first_bytes()

    def read(self, size):
        """The first bytes of the output."""
        while len(self.output) < size:
            self.block()
            self.output += self.first_bytes()
        return self.output[:size]


@functools.lru_cache(maxsize=2048)  # the same chunks come again and again in the tests
def closed_leaf(function, chaining, chunk):
    """The chaining value of a chunk, and the permutations that it took."""
    leaf = CountedSponge(function)
    leaf.close(chunk, 0x0B)
    return leaf.read(chaining), leaf.permutations


class CountedTree:
    """KT over S: the final node, and the leaf in hand. A leaf is closed once there is a byte after its chunk, or the close."""

    def __init__(self, function, chaining):
        self.function = function
        self.chaining = chaining
        self.node, self.leaf = CountedSponge(function), CountedSponge(function)
        self.node_bytes = bytearray()  # empty until S_0 has a byte after it
        self.finished = 0  # the number of chunks that have a byte after them
        self.of_leaves = 0  # the permutations of the closed leaves

    @property
    def permutations(self):
        return self.node.permutations + self.leaf.permutations + self.of_leaves

    @property
    def output(self):
        return self.node.output

    def close_leaf(self, chunk):
        value, permutations = closed_leaf(self.function, self.chaining, bytes(chunk))
        self.node_bytes += value
        self.of_leaves += permutations
        self.leaf = CountedSponge(self.function)

    def absorb(self, merged):
        """S so far."""
        while len(merged) > (self.finished + 1) * reference.CHUNK:
            chunk = merged[self.finished * reference.CHUNK : (self.finished + 1) * reference.CHUNK]
            if self.finished:
                self.close_leaf(chunk)
            else:
                self.node_bytes += chunk + b"\x03" + bytes(7)
            self.finished += 1
        self.node.absorb(self.node_bytes or merged)
        if self.finished:
            self.leaf.absorb(merged[self.finished * reference.CHUNK :])

    def close(self, merged):
        """The whole of S."""
        self.absorb(merged)
        if not self.finished:
            return self.node.close(merged, 0x07)
        self.close_leaf(merged[self.finished * reference.CHUNK :])
        self.node_bytes += reference.length_encode(self.finished) + b"\xff\xff"
        self.node.close(self.node_bytes, 0x06)

    def read(self, size):
        return self.node.read(size)
