"""Envelopes, in which a sealed sheet is sent: receive and send.

An envelope is the mark 52 53, the label length, the block count, the nonce
(13 bytes), the label, the sealed blocks (32 bytes each) and the tag (16
bytes), and no more. The two lengths are numbers in groups of seven bits, the
low group first, one group a byte, the top bit set in every byte but the last,
at most three bytes. Closing groups of zeros are taken on receipt; send writes
none, and zero as the one byte 00.
"""

import collections

import minalpher as mp
import sheets

MARK = bytes([0x52, 0x53])
NUMBER_MAX_SIZE = 3

Received = collections.namedtuple(
    "Received", ["nonce", "label", "blocks", "tag", "state"])


# ----------------------------------------------------------------- numbers

def number_bytes(value):
    """A number as send writes it."""
    out = bytearray()
    while value >= 0x80:
        out.append(0x80 | value & 0x7F)
        value >>= 7
    out.append(value)
    return bytes(out)


def read_number(data, at):
    """The number that begins at byte `at` and how many bytes it takes, or
    None if it does not end within three bytes and the data."""
    value = 0
    for taken, byte in enumerate(data[at:at + NUMBER_MAX_SIZE], 1):
        value |= (byte & 0x7F) << 7 * (taken - 1)
        if byte & 0x80 == 0:
            return value, taken
    return None


def number_within(data, at, least, most):
    """The same, declined if there is no such number from least to most."""
    found = read_number(data, at)
    if found is None or not least <= found[0] <= most:
        raise mp.Declined(5, "envelope", at)
    return found


# --------------------------------------------------------------- envelopes

def length_of(numbers, label_length, count):
    """The length of an envelope whose two numbers take `numbers` bytes."""
    return (len(MARK) + numbers + mp.NONCE_SIZE + label_length
            + mp.BLOCK_SIZE * count + mp.TAG_SIZE)


def envelope(nonce, label, blocks, tag):
    return (MARK + number_bytes(len(label)) + number_bytes(len(blocks))
            + nonce + label + b"".join(blocks) + tag)


def receive(rounds, key, data):
    if len(key) != mp.KEY_SIZE:
        raise mp.Declined(1, "cipher")
    if data[:len(MARK)] != MARK:
        raise mp.Declined(4, "envelope")
    at = len(MARK)
    label_length, taken = number_within(data, at, 0, mp.LABEL_MAX)
    at += taken
    count, taken = number_within(data, at, 1, sheets.BLOCKS_MAX)
    at += taken
    wanted = length_of(at - len(MARK), label_length, count)
    if len(data) != wanted:
        raise mp.Declined(6, "envelope", wanted)

    parts = []
    for size in (mp.NONCE_SIZE, label_length, mp.BLOCK_SIZE * count,
                 mp.TAG_SIZE):
        parts.append(data[at:at + size])
        at += size
    assert at == len(data)
    nonce, label, blocks, tag = parts
    blocks = sheets.blocks_of(blocks)
    state = sheets.open_sheet(rounds, key, nonce, label, tag, blocks)
    return Received(nonce, label, blocks, tag, state)


def send(state, blocks, label, buffer):
    """How many bytes are written, and the buffer with them."""
    if len(label) > mp.LABEL_MAX:
        raise mp.Declined(7, "cipher")
    if len(blocks) != sheets.block_count(state.length):
        raise mp.Declined(10, "sheet")
    out = envelope(state.nonce, label, blocks, sheets.tag(state))
    if len(buffer) < len(out):
        raise mp.Declined(12, "envelope")
    if mp.label_sum(state.rounds, state.key, label) != state.label_sum:
        raise mp.Declined(15, "envelope")
    return len(out), out + buffer[len(out):]
