"""The records and the lines that the list of calls of make_replay_sample.py is made of."""
import reference


def counted(data, n=None):
    return (len(data) if n is None else n).to_bytes(4, "big") + data


def record(op, payload=b"", n=None):
    return op.encode() + counted(payload, n)


def field(number, value):
    return record("S", bytes([number]) + value.to_bytes(8, "big"))


def run_line(phase, *numbers):
    return f"{phase:02x} " + " ".join(f"{v:016x}" for v in numbers)


def lanes_after(data):
    """The lanes once these bytes are in, at the rate 168; the last block, a full one too, is not yet permuted."""
    lanes = [0] * 25
    for at in range(0, len(data), 168):
        if at:
            lanes = reference.keccak_p(lanes, 12)
        lanes = [v ^ w for v, w in zip(lanes, reference.state_of(data[at : at + 168].ljust(200, b"\0")))]
    return lanes
