"""The permutation by tables, for sheets of thousands of blocks.

The values are those of minalpher.py, whose plain functions stay the
definition; selfcheck.py compares the two.

A block is kept as one number of 256 bits, its first byte highest. S works on
each byte alone, T only moves nibbles and M is linear. So both T(S(x)) and
M(T(S(x))) are the xor of what each byte of x adds, and that depends only on
the byte's place and value. Two tables keep what it adds; the plain functions
make them.
"""

import minalpher as mp


def _number_of_state(state):
    return int.from_bytes(mp.block_of_state(state), "big")


def _table(layers):
    """layers applied to S of byte v at place n, at [256 n + v]."""
    table = []
    for n in range(mp.BLOCK_SIZE):
        # layers is linear, so a byte's two nibbles are looked at apart.
        parts = []
        for shift in (4, 0):
            row = []
            for nibble in range(16):
                block = bytearray(mp.BLOCK_SIZE)
                block[n] = mp.SBOX[nibble] << shift
                row.append(_number_of_state(
                    layers(mp.state_of_block(bytes(block)))))
            parts.append(row)
        for value in range(256):
            table.append(parts[0][value >> 4] ^ parts[1][value & 0xF])
    return table


_MOVED = _table(mp.t)
_MIXED = _table(lambda state: mp.m(mp.t(state)))
_PLACES = range(0, 256 * mp.BLOCK_SIZE, 256)


def _gather(table, block):
    out = 0
    for place, value in zip(_PLACES, block):
        out ^= table[place + value]
    return out


def _through(block, constants):
    for constant in constants:
        number = _gather(_MIXED, block) ^ constant
        block = number.to_bytes(mp.BLOCK_SIZE, "big")
    return _gather(_MOVED, block).to_bytes(mp.BLOCK_SIZE, "big")


_E = [_number_of_state(mp.e(k)) for k in range(16)]
_ME = [_number_of_state(mp.m(mp.e(k))) for k in range(16)]


def forward(rounds, block):
    return _through(block, [_E[k % 16] for k in range(rounds)])


def backward(rounds, block):
    return _through(block,
                    [_ME[(rounds - 1 - k) % 16] for k in range(rounds)])


def xor(x, y):
    assert len(x) == len(y) == mp.BLOCK_SIZE
    number = int.from_bytes(x, "big") ^ int.from_bytes(y, "big")
    return number.to_bytes(mp.BLOCK_SIZE, "big")
