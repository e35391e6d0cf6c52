"""Minalpher v1.1 as docs/CIPHER.md defines it, with the refusals of
docs/REFUSALS.md.

This is the second program: it shares no code with the crates and is written
for reading, not for speed. Blocks, keys, nonces, labels, plates and tags are
`bytes`; the state is a pair (A, B) of matrices, each a list of four lists of
eight nibbles.
"""

BLOCK_SIZE = 32
KEY_SIZE = 16
NONCE_SIZE = 13
TAG_SIZE = 16
LABEL_MAX = 4096
I_MAX = 8191
J_MAX = 2

# Rounds of each permutation kind. How a kind keeps its state is no matter here.
ROUNDS = {"matrices": 17, "rows": 17, "one": 1, "zero": 0}

# The three bytes of each use.
USES = {
    "label": bytes([0x00, 0x00, 0x00]),
    "text": bytes([0x40, 0x00, 0x00]),
    "plate": bytes([0x80, 0x00, 0x00]),
}

ZERO_NONCE = bytes(NONCE_SIZE)


class Declined(Exception):
    """A declined call: its number, layer and place."""

    def __init__(self, number, layer, place=0):
        super().__init__("declined %d %s %d" % (number, layer, place))
        self.number = number
        self.layer = layer
        self.place = place


# ---------------------------------------------------------------- the state

SBOX = [0xB, 0x3, 0x4, 0x1, 0x2, 0x8, 0xC, 0xF,
        0x5, 0xD, 0xE, 0x0, 0x6, 0x9, 0xA, 0x7]

P = [6, 7, 1, 0, 2, 3, 4, 5]
Q = [4, 5, 0, 1, 7, 6, 2, 3]
P_INVERSE = [3, 2, 4, 5, 6, 7, 0, 1]
Q_INVERSE = [2, 3, 6, 7, 0, 1, 5, 4]

LISTS_OF_A = [P, Q, P_INVERSE, Q_INVERSE]
LISTS_OF_B = [P_INVERSE, Q_INVERSE, P, Q]


def state_of_block(block):
    nibbles = []
    for byte in block:
        nibbles.append(byte >> 4)
        nibbles.append(byte & 0xF)
    a = [[nibbles[8 * i + j] for j in range(8)] for i in range(4)]
    b = [[nibbles[32 + 8 * i + j] for j in range(8)] for i in range(4)]
    return a, b


def block_of_state(state):
    a, b = state
    nibbles = []
    for row in a + b:
        nibbles.extend(row)
    return bytes(nibbles[2 * n] << 4 | nibbles[2 * n + 1] for n in range(32))


def xor_matrices(x, y):
    return [[x[i][j] ^ y[i][j] for j in range(8)] for i in range(4)]


def xor_states(x, y):
    return xor_matrices(x[0], y[0]), xor_matrices(x[1], y[1])


def s(state):
    a, b = state
    return ([[SBOX[n] for n in row] for row in a],
            [[SBOX[n] for n in row] for row in b])


def t(state):
    a, b = state
    a_moved = [[a[i][LISTS_OF_A[i][j]] for j in range(8)] for i in range(4)]
    b_moved = [[b[i][LISTS_OF_B[i][j]] for j in range(8)] for i in range(4)]
    return b_moved, a_moved


def mix_columns(x):
    return [
        [x[0][j] ^ x[1][j] ^ x[3][j] for j in range(8)],
        [x[0][j] ^ x[1][j] ^ x[2][j] for j in range(8)],
        [x[1][j] ^ x[2][j] ^ x[3][j] for j in range(8)],
        [x[0][j] ^ x[2][j] ^ x[3][j] for j in range(8)],
    ]


def m(state):
    a, b = state
    return mix_columns(a), mix_columns(xor_matrices(a, b))


def e(k):
    a = [[0] * 8 for _ in range(4)]
    b = [[(k % 16) ^ i ^ j if j < 4 else 0 for j in range(8)]
         for i in range(4)]
    return a, b


# ---------------------------------------------------------- the permutation

def forward(rounds, block):
    state = state_of_block(block)
    for k in range(rounds):
        state = xor_states(m(t(s(state))), e(k))
    return block_of_state(t(s(state)))


def backward(rounds, block):
    state = state_of_block(block)
    for k in range(rounds):
        state = xor_states(m(t(s(state))), m(e(rounds - 1 - k)))
    return block_of_state(t(s(state)))


# ------------------------------------------------------------------- masks

def xor(x, y):
    assert len(x) == len(y)
    return bytes(p ^ q for p, q in zip(x, y))


def double(byte):
    shifted = (byte << 1) & 0xFF
    if byte & 0x80:
        shifted ^= 0xA3
    return shifted


def step(block):
    first = block[0]
    out = list(block[1:]) + [double(first)]
    out[28] ^= first
    out[29] ^= first
    return bytes(out)


def turn(block):
    return xor(step(block), block)


def mask(i, j, block):
    for _ in range(i):
        block = step(block)
    for _ in range(j):
        block = turn(block)
    return block


# ---------------------------------------------------- the tweakable cipher

def _decline_tem(key, nonce, i, j, block):
    if len(key) != KEY_SIZE:
        raise Declined(1, "cipher")
    if len(nonce) != NONCE_SIZE:
        raise Declined(2, "cipher")
    if i > I_MAX or j > J_MAX or (i == 0 and j == 0):
        raise Declined(9, "cipher")
    if len(block) != BLOCK_SIZE:
        raise Declined(12, "cipher")


def _w(rounds, key, use, nonce, i, j):
    h = key + USES[use] + nonce
    l = xor(h, forward(rounds, h))
    return mask(i, j, l)


def tem(rounds, key, use, nonce, i, j, block):
    _decline_tem(key, nonce, i, j, block)
    w = _w(rounds, key, use, nonce, i, j)
    return xor(w, forward(rounds, xor(block, w)))


def untem(rounds, key, use, nonce, i, j, block):
    _decline_tem(key, nonce, i, j, block)
    w = _w(rounds, key, use, nonce, i, j)
    return xor(w, backward(rounds, xor(block, w)))


# ----------------------------------------------------- label sum, plate MAC

def pad(data):
    data = data + b"\x80"
    while len(data) % BLOCK_SIZE != 0:
        data = data + b"\x00"
    return data


def block_of(data, k):
    """Block k of a byte string, counted from 1."""
    return data[BLOCK_SIZE * (k - 1):BLOCK_SIZE * k]


def chained_sum(rounds, key, use, data, padded):
    """The sum over all blocks of `data`, which `padded` says to pad or not.

    It has no length limit: the callers check the lengths.
    """
    if padded:
        data = pad(data)
        j = 2
    else:
        j = 1
    a = len(data) // BLOCK_SIZE
    assert a >= 1 and len(data) == BLOCK_SIZE * a
    total = bytes(BLOCK_SIZE)
    for k in range(1, a):
        total = xor(total, tem(rounds, key, use, ZERO_NONCE, k, 0,
                               block_of(data, k)))
    total = xor(total, block_of(data, a))
    return tem(rounds, key, use, ZERO_NONCE, a - 1, j, total)


def _decline_key_and_length(key, data):
    if len(key) != KEY_SIZE:
        raise Declined(1, "cipher")
    if len(data) > LABEL_MAX:
        raise Declined(7, "cipher")


def label_sum(rounds, key, label):
    _decline_key_and_length(key, label)
    if len(label) == 0:
        return bytes(BLOCK_SIZE)
    padded = len(label) % BLOCK_SIZE != 0
    return chained_sum(rounds, key, "label", label, padded)


def mac_block(rounds, key, plate):
    """The whole block of which the plate MAC is the first half."""
    padded = len(plate) == 0 or len(plate) % BLOCK_SIZE != 0
    return chained_sum(rounds, key, "plate", plate, padded)


def plate_mac(rounds, key, plate):
    _decline_key_and_length(key, plate)
    return mac_block(rounds, key, plate)[:TAG_SIZE]


def tags_agree(x, y):
    difference = 0
    for n in range(TAG_SIZE):
        difference |= x[n] ^ y[n]
    return difference == 0


def plate_check(rounds, key, plate, tag):
    if len(key) != KEY_SIZE:
        raise Declined(1, "cipher")
    if len(tag) != TAG_SIZE:
        raise Declined(3, "cipher")
    if len(plate) > LABEL_MAX:
        raise Declined(7, "cipher")
    if not tags_agree(plate_mac(rounds, key, plate), tag):
        raise Declined(16, "cipher")
    return True
