"""Edits of an open sheet: write, append, cut and relabel.

As in sheets.py a holder is a list of blocks and, where a call may add some, a
limit. No call changes the list that it is handed: it gives the new state and
the new list.

A block that a call alters is opened, altered and sealed, the last one with its
padding written anew. Write alters the blocks that written bytes lie in, append
those from the old last to the new last, cut the new last; cut drops the later
ones. Zero bytes alter no block. The sum gives up what altered and dropped
blocks added and takes what altered and added ones add: an inner block k adds
TEM(text, nonce, 2k, 0) of its sealed form, the last one its sealed form bare.
The blocks are taken as they are found, whoever wrote them.
"""

import fast
import minalpher as mp
import sheets


def added_by(state, count, first, blocks):
    """What the sealed blocks from number `first` on add to the sum of a sheet
    of `count` blocks."""
    masks = sheets.masks_from(state.rounds, state.key, state.nonce, 2 * first)
    total = bytes(mp.BLOCK_SIZE)
    for k, block in enumerate(blocks, first):
        even = next(masks)
        next(masks)
        if k < count:
            block = sheets.enciphered(state.rounds, even, block)
        total = fast.xor(total, block)
    return total


def opened(state, blocks, first, last):
    """The bytes that the blocks from number `first` to `last` open to."""
    return b"".join(sheets.open_blocks(
        state.rounds, state.key, state.nonce, first, blocks[first - 1:last]))


def altered(state, blocks, length, first, plain, stay):
    """The sheet whose blocks from number `first` on are the bytes `plain`,
    sealed, and after them the last `stay` blocks as they are."""
    end = len(blocks) - stay
    sealed = sheets.at_odd_masks(
        sheets.enciphered, state.rounds, state.key, state.nonce, first,
        sheets.blocks_of(plain))
    after = blocks[:first - 1] + sealed + blocks[end:]
    given_up = added_by(state, len(blocks), first, blocks[first - 1:end])
    taken = added_by(state, len(after), first, sealed)
    total = fast.xor(state.sum, fast.xor(given_up, taken))
    return state._replace(length=length, sum=total), after


def _decline_count(state, blocks):
    if len(blocks) != sheets.block_count(state.length):
        raise mp.Declined(10, "sheet")


def write(state, blocks, at, data):
    _decline_count(state, blocks)
    if at + len(data) > state.length:
        raise mp.Declined(11, "sheet")
    if not data:
        return state, blocks
    m = len(blocks)
    first = at // mp.BLOCK_SIZE + 1
    last = (at + len(data) - 1) // mp.BLOCK_SIZE + 1
    before = mp.BLOCK_SIZE * (first - 1)
    plain = bytearray(opened(state, blocks, first, last))
    plain[at - before:at - before + len(data)] = data
    plain = bytes(plain)
    if last == m:
        plain = mp.pad(plain[:state.length - before])
    return altered(state, blocks, state.length, first, plain, m - last)


def append(state, blocks, limit, data):
    length = state.length + len(data)
    if length > sheets.TEXT_MAX:
        raise mp.Declined(8, "sheet")
    _decline_count(state, blocks)
    if limit < sheets.block_count(length):
        raise mp.Declined(14, "sheet")
    if not data:
        return state, blocks
    m = len(blocks)
    kept = opened(state, blocks, m, m)[:state.length % mp.BLOCK_SIZE]
    return altered(state, blocks, length, m, mp.pad(kept + data), 0)


def cut(state, blocks, n):
    _decline_count(state, blocks)
    if n > state.length:
        raise mp.Declined(11, "sheet")
    if n == 0:
        return state, blocks
    length = state.length - n
    m = sheets.block_count(length)
    kept = opened(state, blocks, m, m)[:length % mp.BLOCK_SIZE]
    return altered(state, blocks, length, m, mp.pad(kept), 0)


def relabel(state, label):
    if len(label) > mp.LABEL_MAX:
        raise mp.Declined(7, "cipher")
    label_sum = mp.label_sum(state.rounds, state.key, label)
    total = fast.xor(state.sum, fast.xor(state.label_sum, label_sum))
    return state._replace(label_sum=label_sum, sum=total)
