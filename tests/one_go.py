"""What the calls in one go must answer: their status by the lengths, in document 01's order, and the bytes of one that is done. And what the
permutation and its inverse answer.

Written from documents 01 and 02 and the draft, as transcript.py is, which says the statuses that calls on runs share.
"""
import reference
from inverse import keccak_p_undone
from started_transcript import start_status
from transcript import BAD_SIZE, CHAINING, DONE, TOO_LONG, TOO_MUCH, Limits, custom_status, domain_status, lent_status, read_limit

HOPMAC = {0: reference.hopmac128, 1: reference.hopmac256}  # by the number of the strength
LONGEST_TAG = 64  # of those that the tag check takes
MOST_ROUNDS = 24
TOO_MANY_ROUNDS = 16  # the answer to more


def lengths_status(message_size, size, limit=Limits.SQUEEZE_LIMIT):
    """The answers of a one-go call that its lengths decide: 2, 7 and 6."""
    if message_size > Limits.ABSORB_LIMIT:
        return TOO_LONG
    if size == 0:
        return BAD_SIZE
    return TOO_MUCH if size > limit else DONE


def sponge_status(function, message_size, domain, size):
    """The status of a call in one go of a function that is the sponge: 1, 2, 7, 6, in this order; FIPS 202's have no 1."""
    return domain_status(function, domain) or lengths_status(message_size, size, read_limit(function))


def kt_status(message_size, custom_size, size):
    """The status of a KT call in one go: 2, 4, 7, 6, in this order."""
    status = lengths_status(message_size, size)
    return status if status == TOO_LONG else custom_status(custom_size) or status


def sponge(function, message, domain, size):
    """The status of a one-go call, and the bytes that a done one gives. The domain byte is TurboSHAKE's, else None."""
    status = sponge_status(function, len(message), domain, size)
    return status, function.output(message, domain, size) if status == DONE else None


def permutation(rounds, state, made=reference.keccak_p):
    """The status of the last so many rounds on 200 bytes, and the bytes afterwards, which a refused call leaves as they were."""
    if rounds > MOST_ROUNDS:
        return TOO_MANY_ROUNDS, state
    return DONE, reference.bytes_of(made(reference.state_of(state), rounds))


def inverse(rounds, state):
    """The same of these rounds undone."""
    return permutation(rounds, state, keccak_p_undone)


def kt(rate, message, custom, size):
    status = kt_status(len(message), len(custom), size)
    return status, reference.kangarootwelve(rate, CHAINING[rate], message, custom, size) if status == DONE else None


def kt_lent_status(words, message_size, custom_size, size):
    """The status of a KT call in one go that lends so many words: 12, then as of the plain call."""
    return lent_status(words) or kt_status(message_size, custom_size, size)


def kt_lent(words, rate, message, custom, size):
    status = lent_status(words)
    return (status, None) if status else kt(rate, message, custom, size)


def started_status(function, first_size, custom_size, message_size, size):
    """The status of a call of SP 800-185 in one go: 2, for the message or the key, 4, 7, 6, in this order."""
    status = lengths_status(message_size, size)
    return status if status == TOO_LONG else start_status(function, first_size, custom_size) or status


def started(function, first, custom, message, size):
    """`first` is N of cSHAKE, or the key. Plain KMAC's output length is what is asked."""
    status = started_status(function, len(first), len(custom), len(message), size)
    return status, function.output(first, custom, message, size, size) if status == DONE else None


def hopmac_status(key_size, message_size, custom_size, size):
    """The status of a HopMAC call in one go, in KT's order; the longer of key and message decides 2."""
    return kt_status(max(key_size, message_size), custom_size, size)


def verify_status(key_size, message_size, custom_size, tag_size):
    """The status of the tag check: 2, 4, 7, in this order. A tag that is too long answers 7 as one of no bytes does."""
    return hopmac_status(key_size, message_size, custom_size, tag_size if tag_size <= LONGEST_TAG else 0)


def hopmac(strength, key, message, custom, size):
    status = hopmac_status(len(key), len(message), len(custom), size)
    return status, HOPMAC[strength](key, message, custom, size) if status == DONE else None


def verify(strength, key, message, custom, tag):
    """The status of the tag check, and whether it says yes."""
    status = verify_status(len(key), len(message), len(custom), len(tag))
    return status, status == DONE and HOPMAC[strength](key, message, custom, len(tag)) == tag
