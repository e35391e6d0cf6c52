"""Sheets as docs/CIPHER.md defines them, with the refusals of
docs/REFUSALS.md: seal, open, read and tag.

A sheet's holder is modelled as a list of blocks (`bytes`) and, where a call
adds blocks, a limit. No call changes the list that it is handed: seal gives a
new one. Masks are stepped along from block to block, so that a sheet of m
blocks takes about 2m permutations and 2m steps.
"""

import collections

import fast
import minalpher as mp

TEXT_MAX = 131071
BLOCKS_MAX = 4096

State = collections.namedtuple(
    "State", ["rounds", "key", "nonce", "length", "label_sum", "sum"])


def block_count(length):
    """The number of blocks of a text of that length."""
    return length // mp.BLOCK_SIZE + 1


def blocks_of(data):
    """The blocks of a byte string whose length is a multiple of 32."""
    assert len(data) % mp.BLOCK_SIZE == 0
    return [data[n:n + mp.BLOCK_SIZE]
            for n in range(0, len(data), mp.BLOCK_SIZE)]


# --------------------------------------------------------- masks and blocks

def masks_from(rounds, key, nonce, i):
    """Masks (i, 0), (i + 1, 0), .. of the use text, without end."""
    h = key + mp.USES["text"] + nonce
    w = mp.mask(i, 0, fast.xor(h, fast.forward(rounds, h)))
    while True:
        yield w
        w = mp.step(w)


def enciphered(rounds, w, block):
    return fast.xor(w, fast.forward(rounds, fast.xor(block, w)))


def deciphered(rounds, w, block):
    return fast.xor(w, fast.backward(rounds, fast.xor(block, w)))


def at_odd_masks(cipher, rounds, key, nonce, first, blocks):
    """Each block by `cipher` at its odd mask; `first` is the number of the
    first block."""
    masks = masks_from(rounds, key, nonce, 2 * first - 1)
    done = []
    for block in blocks:
        odd = next(masks)
        next(masks)
        done.append(cipher(rounds, odd, block))
    return done


def seal_blocks(rounds, key, nonce, padded):
    """The sealed blocks of whole blocks, whatever the last one ends in."""
    return at_odd_masks(enciphered, rounds, key, nonce, 1, padded)


def sum_of(rounds, key, nonce, label_sum, blocks):
    """The sum of a sheet of one or more sealed blocks."""
    masks = masks_from(rounds, key, nonce, 1)
    total = label_sum
    for block in blocks[:-1]:
        next(masks)
        even = next(masks)
        total = fast.xor(total, enciphered(rounds, even, block))
    return fast.xor(total, blocks[-1])


def tag_of_sum(rounds, key, nonce, count, total):
    w = mp.turn(next(masks_from(rounds, key, nonce, 2 * count - 1)))
    return enciphered(rounds, w, total)[:mp.TAG_SIZE]


def tag_of_blocks(rounds, key, nonce, label, blocks):
    """The tag of sealed blocks, whatever their last one opens to."""
    total = sum_of(rounds, key, nonce, mp.label_sum(rounds, key, label),
                   blocks)
    return tag_of_sum(rounds, key, nonce, len(blocks), total)


def open_blocks(rounds, key, nonce, first, blocks):
    """Sealed blocks taken back; `first` is the number of the first."""
    return at_odd_masks(deciphered, rounds, key, nonce, first, blocks)


def end_of_text(block):
    """How many bytes stand before the padding of a last block, or None."""
    for n in range(mp.BLOCK_SIZE - 1, -1, -1):
        if block[n] != 0x00:
            return n if block[n] == 0x80 else None
    return None


# ---------------------------------------------------------------- the calls

def seal(rounds, key, nonce, label, text, limit, blocks):
    """The state of the new sheet and its sealed blocks."""
    if len(key) != mp.KEY_SIZE:
        raise mp.Declined(1, "cipher")
    if len(nonce) != mp.NONCE_SIZE:
        raise mp.Declined(2, "cipher")
    if len(label) > mp.LABEL_MAX:
        raise mp.Declined(7, "cipher")
    if len(text) > TEXT_MAX:
        raise mp.Declined(8, "sheet")
    if len(blocks) != 0:
        raise mp.Declined(10, "sheet")
    if limit < block_count(len(text)):
        raise mp.Declined(14, "sheet")
    padded = blocks_of(mp.pad(text))
    sealed = seal_blocks(rounds, key, nonce, padded)
    label_sum = mp.label_sum(rounds, key, label)
    total = sum_of(rounds, key, nonce, label_sum, sealed)
    return State(rounds, key, nonce, len(text), label_sum, total), sealed


def open_sheet(rounds, key, nonce, label, tag_given, blocks):
    """The state of the sheet that the blocks are."""
    if len(key) != mp.KEY_SIZE:
        raise mp.Declined(1, "cipher")
    if len(nonce) != mp.NONCE_SIZE:
        raise mp.Declined(2, "cipher")
    if len(tag_given) != mp.TAG_SIZE:
        raise mp.Declined(3, "cipher")
    if len(label) > mp.LABEL_MAX:
        raise mp.Declined(7, "cipher")
    m = len(blocks)
    if m == 0 or m > BLOCKS_MAX:
        raise mp.Declined(10, "sheet")
    label_sum = mp.label_sum(rounds, key, label)
    total = sum_of(rounds, key, nonce, label_sum, blocks)
    if not mp.tags_agree(tag_of_sum(rounds, key, nonce, m, total), tag_given):
        raise mp.Declined(16, "sheet")
    last = open_blocks(rounds, key, nonce, m, blocks[m - 1:])[0]
    end = end_of_text(last)
    if end is None:
        raise mp.Declined(17, "sheet")
    length = mp.BLOCK_SIZE * (m - 1) + end
    return State(rounds, key, nonce, length, label_sum, total)


def read(state, blocks, at, n):
    """The n bytes of the text from byte `at` on, counted from 0."""
    if len(blocks) != block_count(state.length):
        raise mp.Declined(10, "sheet")
    if at + n > state.length:
        raise mp.Declined(11, "sheet")
    if n == 0:
        return b""
    first = at // mp.BLOCK_SIZE + 1
    last = (at + n - 1) // mp.BLOCK_SIZE + 1
    opened = b"".join(open_blocks(state.rounds, state.key, state.nonce,
                                  first, blocks[first - 1:last]))
    begin = at - mp.BLOCK_SIZE * (first - 1)
    return opened[begin:begin + n]


def tag(state):
    return tag_of_sum(state.rounds, state.key, state.nonce,
                      block_count(state.length), state.sum)
