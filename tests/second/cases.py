"""Prints the cases that both programs answer, one a line.

answers.py tells the form of a case. The cases are the same on every run: the
random ones come from one generator with a fixed seed, and only its raw bits
are used. minalpher.py and sheets.py are used to make right tags, sealed blocks
and the ends of round trips.
"""

import random
import sys

sys.dont_write_bytecode = True

import minalpher as mp
import sheets

SEED = 20150829
KINDS = ["matrices", "one", "zero"]
USES = ["label", "text", "plate"]
LENGTHS = [0, 1, 31, 32, 33, 63, 64, 65, 95, 96, 97, 4095, 4096]
LARGEST = 2 ** 64 - 1

ZERO_KEY = bytes(mp.KEY_SIZE)
ZERO_NONCE = bytes(mp.NONCE_SIZE)
ZERO_BLOCK = bytes(mp.BLOCK_SIZE)


class Source:
    """Random bytes and numbers, from raw bits only."""

    def __init__(self, seed):
        self.bits = random.Random(seed)

    def bytes(self, length):
        return bytes(self.bits.getrandbits(8) for _ in range(length))

    def below(self, bound):
        return self.bits.getrandbits(32) % bound

    def pick(self, choices):
        return choices[self.below(len(choices))]

    def key(self):
        return self.bytes(mp.KEY_SIZE)

    def nonce(self):
        return self.bytes(mp.NONCE_SIZE)

    def block(self):
        return self.bytes(mp.BLOCK_SIZE)


def case(name, *arguments):
    words = [name]
    for argument in arguments:
        if isinstance(argument, bytes):
            words.append(argument.hex() if argument else "-")
        else:
            words.append(str(argument))
    return " ".join(words)


def one_byte(length, place, value):
    out = bytearray(length)
    out[place] = value
    return bytes(out)


def with_xor(data, changes):
    """`data` with each value of `changes` xored into its place."""
    out = bytearray(data)
    for place, value in changes:
        out[place] ^= value
    return bytes(out)


# ------------------------------------------------------------------- masks

def mask_cases(source):
    for byte in range(256):
        yield case("double", bytes([byte]))

    blocks = [ZERO_BLOCK, bytes([0xFF] * 32), bytes(range(32))]
    blocks += [one_byte(32, 0, value) for value in (0x01, 0x80, 0xBB, 0xFF)]
    blocks += [one_byte(32, place, 0x80) for place in (1, 27, 28, 29, 30, 31)]
    blocks += [source.block() for _ in range(8)]
    for block in blocks:
        yield case("step", block)
        yield case("turn", block)

    for i in (0, 1, 2, 3, 15, 16, 17, 31, 32, 33, 64, 127, 255, 256, 300):
        for j in (0, 1, 2):
            yield case("mask", i, j, source.block())
    for i in (1, 31, 32, 64):
        yield case("mask", i, 1, one_byte(32, 31, 0x01))
    for j in (0, 1, 2):
        yield case("mask", 8191, j, source.block())


# --------------------------------------------------------- the permutation

def permutation_cases(source):
    for kind in KINDS:
        rounds = mp.ROUNDS[kind]
        blocks = [ZERO_BLOCK, bytes([0xFF] * 32), bytes(range(32)),
                  bytes.fromhex("0123456789abcdef" * 4)]
        blocks += [one_byte(32, place, 0x01) for place in (0, 15, 16, 31)]
        blocks += [one_byte(32, place, 0x10) for place in (0, 15, 16, 31)]
        blocks += [source.block() for _ in range(8)]
        for block in blocks:
            image = mp.forward(rounds, block)
            yield case("forward", kind, block)
            yield case("backward", kind, image)
            yield case("backward", kind, block)
            yield case("forward", kind, mp.backward(rounds, block))

    # Every nibble value, and every nibble place, by the kind of one round.
    for value in range(16):
        yield case("forward", "one", bytes([value << 4 | value] * 32))
        yield case("backward", "one", bytes([value << 4 | value] * 32))
    for place in range(64):
        value = 1 + source.below(15)
        byte = value << 4 if place % 2 == 0 else value
        yield case("forward", "one", one_byte(32, place // 2, byte))
        yield case("backward", "one", one_byte(32, place // 2, byte))


# --------------------------------------------------- the tweakable cipher

def tem_cases(source):
    # The sealed block and the tag's block of the empty text.
    for kind in KINDS:
        padded = mp.pad(b"")
        sealed = mp.tem(mp.ROUNDS[kind], ZERO_KEY, "text", ZERO_NONCE, 1, 0,
                        padded)
        yield case("tem", kind, ZERO_KEY, "text", ZERO_NONCE, 1, 0, padded)
        yield case("tem", kind, ZERO_KEY, "text", ZERO_NONCE, 1, 1, sealed)
        yield case("untem", kind, ZERO_KEY, "text", ZERO_NONCE, 1, 0, sealed)

    # The same block under each use, and round trips.
    for kind in KINDS:
        key, nonce, block = source.key(), source.nonce(), source.block()
        for use in USES:
            for i, j in ((1, 0), (0, 1), (0, 2), (1, 1), (2, 2), (5, 0)):
                sealed = mp.tem(mp.ROUNDS[kind], key, use, nonce, i, j, block)
                yield case("tem", kind, key, use, nonce, i, j, block)
                yield case("untem", kind, key, use, nonce, i, j, sealed)

    # Random ones, each way and back.
    for kind in KINDS:
        rounds = mp.ROUNDS[kind]
        for _ in range(12):
            key, nonce, block = source.key(), source.nonce(), source.block()
            use = source.pick(USES)
            i, j = 1 + source.below(400), source.below(3)
            yield case("tem", kind, key, use, nonce, i, j, block)
            yield case("untem", kind, key, use, nonce, i, j,
                       mp.tem(rounds, key, use, nonce, i, j, block))
            yield case("untem", kind, key, use, nonce, i, j, block)
            yield case("tem", kind, key, use, nonce, i, j,
                       mp.untem(rounds, key, use, nonce, i, j, block))

    # The largest masks that are taken.
    for kind in KINDS:
        key, nonce, block = source.key(), source.nonce(), source.block()
        for i, j in ((8191, 0), (8191, 1), (8191, 2), (8190, 0)):
            yield case("tem", kind, key, "text", nonce, i, j, block)
            yield case("untem", kind, key, "text", nonce, i, j, block)


def tem_refusal_cases(source):
    # Each size of key, nonce and block, alone.
    for name in ("tem", "untem"):
        for kind in KINDS:
            key, nonce, block = source.key(), source.nonce(), source.block()
            for length in (0, 1, 15, 17, 32):
                yield case(name, kind, source.bytes(length), "text", nonce,
                           1, 0, block)
            for length in (0, 12, 14, 16):
                yield case(name, kind, key, "text", source.bytes(length),
                           1, 0, block)
            for length in (0, 1, 31, 33, 64):
                yield case(name, kind, key, "text", nonce,
                           1, 0, source.bytes(length))

    # Each mask index at the edge, and beyond the edge of a shorter number.
    indexes = [(0, 0), (8191, 3), (8192, 0), (8192, 2), (8193, 1), (0, 3),
               (1, 3), (LARGEST, 0), (LARGEST, 1), (0, LARGEST),
               (1, LARGEST), (LARGEST, LARGEST), (65536, 0), (65537, 1),
               (2 ** 32, 0), (2 ** 32 + 1, 0), (2 ** 32, 1), (0, 256),
               (1, 256), (1, 257), (0, 2 ** 32), (1, 2 ** 32 + 1),
               (2 ** 63, 1), (1, 2 ** 63)]
    for name in ("tem", "untem"):
        kind = KINDS[0] if name == "tem" else KINDS[2]
        key, nonce, block = source.key(), source.nonce(), source.block()
        for i, j in indexes:
            yield case(name, kind, key, "text", nonce, i, j, block)
        yield case(name, kind, ZERO_KEY, "label", ZERO_NONCE, 0, 0,
                   ZERO_BLOCK)

    # Every choice of sentences that are true at once.
    wrong_keys = (0, 15, 17, 32)
    wrong_nonces = (0, 12, 14)
    wrong_indexes = ((0, 0), (8192, 0), (1, 3), (LARGEST, LARGEST))
    wrong_blocks = (0, 31, 33)
    for name in ("tem", "untem"):
        for kind in KINDS:
            for choice in range(16):
                key = source.bytes(source.pick(wrong_keys)
                                   if choice & 1 else mp.KEY_SIZE)
                nonce = source.bytes(source.pick(wrong_nonces)
                                     if choice & 2 else mp.NONCE_SIZE)
                i, j = (source.pick(wrong_indexes)
                        if choice & 4 else (source.below(40), 1))
                block = source.bytes(source.pick(wrong_blocks)
                                     if choice & 8 else mp.BLOCK_SIZE)
                use = source.pick(USES)
                yield case(name, kind, key, use, nonce, i, j, block)

    # Lengths that would fit if the parts were cut elsewhere.
    for name in ("tem", "untem"):
        yield case(name, "zero", source.bytes(15), "text", source.bytes(14),
                   1, 0, source.block())
        yield case(name, "zero", source.bytes(17), "text", source.bytes(12),
                   1, 0, source.block())
        yield case(name, "zero", b"", "text", b"", 0, 0, b"")


# --------------------------------------------- label sums and plate MACs

def sum_cases(source):
    for kind in KINDS:
        for length in LENGTHS:
            key = source.key()
            data = source.bytes(length)
            yield case("label", kind, key, data)
            if length > 1000:
                data = source.bytes(length)
            yield case("mac", kind, key, data)

    for kind in KINDS:
        for _ in range(6):
            key = source.key()
            yield case("label", kind, key, source.bytes(source.below(400)))
            yield case("mac", kind, key, source.bytes(source.below(400)))

    for kind in KINDS:
        # Plain contents, and contents that look like padding: for a part
        # and its padded form the same blocks are summed, and only j differs.
        key = source.key()
        part = source.bytes(31)
        longer = source.bytes(45)
        for name in ("label", "mac"):
            yield case(name, kind, ZERO_KEY, b"")
            yield case(name, kind, ZERO_KEY, b"\x00")
            yield case(name, kind, ZERO_KEY, ZERO_BLOCK)
            yield case(name, kind, ZERO_KEY, ZERO_BLOCK + ZERO_BLOCK)
            yield case(name, kind, key, b"\x80")
            yield case(name, kind, key, mp.pad(b""))
            yield case(name, kind, key, part)
            yield case(name, kind, key, mp.pad(part))
            yield case(name, kind, key, mp.pad(part) + ZERO_BLOCK)
            yield case(name, kind, key, longer)
            yield case(name, kind, key, mp.pad(longer))


def sum_refusal_cases(source):
    for name in ("label", "mac"):
        for kind in KINDS:
            for length in (0, 1, 15, 17, 32):
                yield case(name, kind, source.bytes(length), source.bytes(40))
            yield case(name, kind, source.bytes(15), b"")
            yield case(name, kind, b"", b"")
            yield case(name, kind, source.bytes(17), source.block())
    over = source.bytes(4097)
    far_over = source.bytes(5000)
    yield case("label", "matrices", source.key(), over)
    yield case("label", "zero", source.key(), far_over)
    yield case("label", "one", source.bytes(15), over)
    yield case("mac", "one", source.key(), over)
    yield case("mac", "matrices", source.key(), far_over)
    yield case("mac", "zero", source.bytes(17), over)


# ---------------------------------------------------------- plate checks

def check_cases(source):
    for kind in KINDS:
        rounds = mp.ROUNDS[kind]
        for length in (0, 1, 31, 32, 33, 63, 64, 65, 97):
            key, plate = source.key(), source.bytes(length)
            tag = mp.plate_mac(rounds, key, plate)
            yield case("check", kind, key, plate, tag)
            yield case("check", kind, key, plate,
                       with_xor(tag, [(source.below(16),
                                       1 + source.below(255))]))
    key, plate = source.key(), source.bytes(4096)
    yield case("check", "matrices", key, plate,
               mp.plate_mac(17, key, plate))

    for kind in KINDS:
        rounds = mp.ROUNDS[kind]
        # With no rounds the tag tells only of the second half of the last
        # block, so the plate reaches into it.
        key, plate = source.key(), source.bytes(18 + source.below(8))
        tag = mp.plate_mac(rounds, key, plate)
        yield case("check", kind, key, plate, tag)

        def altered(*changes):
            return case("check", kind, key, plate, with_xor(tag, changes))

        # One byte, at each place: by one bit, and by any value.
        for place in range(16):
            yield altered((place, 1 << source.below(8)))
            yield altered((place, 1 + source.below(255)))
        # Several bytes: an early one and a late one, everything but one
        # place, everything from one place on, everything up to one place.
        for place in (0, 7, 15):
            yield altered(*[(n, 1 + source.below(255))
                            for n in range(16) if n != place])
        for place in (1, 8, 14):
            yield altered(*[(n, 0xFF) for n in range(place, 16)])
            yield altered(*[(n, 0xFF) for n in range(place)])
        yield altered(*[(n, 1 + source.below(255)) for n in range(16)])
        # Differences that cancel out if they are xored or added up.
        yield altered((0, 0x01), (15, 0x01))
        yield altered((3, 0x80), (4, 0x80))
        yield altered(*[(n, 0x5A) for n in range(16)])
        yield altered(*[(n, 0x10) for n in range(16)])
        # The right bytes in another order.
        yield case("check", kind, key, plate, tag[::-1])
        yield case("check", kind, key, plate, tag[1:] + tag[:1])

        # Right tags of something else.
        yield case("check", kind, source.key(), plate, tag)
        yield case("check", kind, key, plate + b"\x00", tag)
        yield case("check", kind, key, plate[:-1], tag)
        yield case("check", kind, key, plate,
                   mp.label_sum(rounds, key, plate)[:16])
        yield case("check", kind, key, plate,
                   mp.mac_block(rounds, key, plate)[16:])
        other = KINDS[(KINDS.index(kind) + 1) % 3]
        yield case("check", kind, key, plate,
                   mp.plate_mac(mp.ROUNDS[other], key, plate))

        # An empty plate: zero is not its tag, nor is the tag with j = 1.
        yield case("check", kind, key, b"", bytes(16))
        yield case("check", kind, key, b"", mp.plate_mac(
            rounds, key, mp.pad(b"")))
        # A plate of one whole block: neither j = 2 nor padding.
        whole = source.block()
        yield case("check", kind, key, whole, mp.plate_mac(
            rounds, key, whole))
        yield case("check", kind, key, whole, mp.tem(
            rounds, key, "plate", ZERO_NONCE, 0, 2, whole)[:16])
        yield case("check", kind, key, whole, mp.chained_sum(
            rounds, key, "plate", whole, True)[:16])
        # A part of a block and its padded form are two plates.
        part = source.bytes(31)
        yield case("check", kind, key, part, mp.plate_mac(
            rounds, key, mp.pad(part)))
        yield case("check", kind, key, mp.pad(part), mp.plate_mac(
            rounds, key, part))


def check_refusal_cases(source):
    # Every choice of sentences that are true at once, at short plates:
    # the key's length, the tag's length, the tag.
    for kind in KINDS:
        rounds = mp.ROUNDS[kind]
        key, plate = source.key(), source.bytes(1 + source.below(70))
        block = mp.mac_block(rounds, key, plate)
        tag = block[:16]
        for length in (0, 1, 15, 17, 32):
            yield case("check", kind, source.bytes(length), plate, tag)
        for length in (0, 1, 15, 17, 32):
            yield case("check", kind, key, plate, block[:length])
            yield case("check", kind, key, plate, source.bytes(length))
        yield case("check", kind, key, plate, tag + b"\x00")
        yield case("check", kind, key, b"", b"")
        for key_length in (0, 15, 17, 32):
            for tag_length in (0, 15, 17):
                yield case("check", kind, source.bytes(key_length), plate,
                           source.bytes(tag_length))
        yield case("check", kind, source.bytes(17), plate, source.bytes(16))

    # Plates that are too long, with the tag that the rule would give them,
    # with a wrong tag, and with the other sentences.
    over = source.bytes(4097)
    far_over = source.bytes(5000)
    key = source.key()
    right = mp.mac_block(mp.ROUNDS["zero"], key, over)[:16]
    yield case("check", "zero", key, over, right)
    yield case("check", "matrices", key, far_over, source.bytes(16))
    yield case("check", "one", key, over, source.bytes(15))
    yield case("check", "matrices", source.bytes(32), over,
               source.bytes(17))


# ------------------------------------------------------------------ sheets

SHEET_LENGTHS = [0, 1, 31, 32, 33, 63, 64, 4095, 4096]
LABEL_LENGTHS = [0, 1, 31, 32, 33, 64, 65]
LONGEST = 131071


def long_bytes(length, start):
    return bytes((start + 31 * i + i // 32) % 256 for i in range(length))


class Long:
    """A long text or label: its word in a case, and its bytes."""

    def __init__(self, source, length):
        self.start = source.below(256)
        self.length = length

    def __str__(self):
        return "~%d:%d" % (self.length, self.start)

    def data(self):
        return long_bytes(self.length, self.start)


def some_bytes(source, length):
    """Random bytes if they are few, else long ones."""
    return source.bytes(length) if length <= 33 else Long(source, length)


def short_label(source):
    return some_bytes(source, source.pick(LABEL_LENGTHS))


def seal_cases(source):
    # The worked sheet, and zero texts.
    for kind in KINDS:
        for length in (0, 1, 31, 32):
            yield case("seal", kind, ZERO_KEY, ZERO_NONCE, b"", 2, 0,
                       bytes(length))

    # The lengths of texts: with a limit just large enough, and a larger one.
    for kind in KINDS:
        for length in SHEET_LENGTHS:
            need = sheets.block_count(length)
            for limit in (need, need + 1 + source.below(4096 - need)):
                yield case("seal", kind, source.key(), source.nonce(),
                           short_label(source), limit, 0,
                           some_bytes(source, length))

    # The lengths of labels.
    for kind in KINDS:
        for length in LABEL_LENGTHS + [4095, 4096]:
            yield case("seal", kind, source.key(), source.nonce(),
                       some_bytes(source, length), 3, 0,
                       some_bytes(source, source.below(96)))

    # Contents that look like padding.
    for kind in KINDS:
        key, nonce, label = source.key(), source.nonce(), short_label(source)
        for text in (b"\x80", mp.pad(b""), b"\x80" * 31, b"\x80" * 32,
                     source.bytes(31) + b"\x80", source.bytes(32) + b"\x80",
                     mp.pad(source.bytes(5)), mp.pad(source.bytes(37))):
            yield case("seal", kind, key, nonce, label, 4, 0, text)

    # Random ones.
    for kind in KINDS:
        for _ in range(8):
            length = source.below(900)
            yield case("seal", kind, source.key(), source.nonce(),
                       short_label(source), sheets.block_count(length), 0,
                       some_bytes(source, length))

    # The longest texts, and the last block filled otherwise.
    for kind, length in (("matrices", LONGEST), ("one", LONGEST),
                         ("zero", LONGEST), ("zero", LONGEST - 1),
                         ("zero", LONGEST - 31), ("zero", LONGEST - 32)):
        yield case("seal", kind, source.key(), source.nonce(),
                   short_label(source), sheets.block_count(length), 0,
                   Long(source, length))


def seal_refusal_cases(source):
    # Each sentence alone.
    for kind in KINDS:
        key, nonce, text = source.key(), source.nonce(), Long(source, 40)
        for length in (0, 1, 15, 17, 32):
            yield case("seal", kind, source.bytes(length), nonce, b"", 2, 0,
                       text)
        for length in (0, 12, 14, 16):
            yield case("seal", kind, key, source.bytes(length), b"", 2, 0,
                       text)
        for length in (4097, 5000):
            yield case("seal", kind, key, nonce, Long(source, length), 2, 0,
                       text)
        for count in (1, 2, 3, 4096):
            yield case("seal", kind, key, nonce, b"", 4096, count, text)
        yield case("seal", kind, key, nonce, b"", 2, 2, text)
        for length in (LONGEST + 1, LONGEST + 2, 140000):
            yield case("seal", kind, key, nonce, b"", 4096, 0,
                       Long(source, length))

    # Limits: one too small, and just large enough.
    for kind in KINDS:
        for length in SHEET_LENGTHS:
            need = sheets.block_count(length)
            key, nonce = source.key(), source.nonce()
            label, text = short_label(source), some_bytes(source, length)
            yield case("seal", kind, key, nonce, label, need - 1, 0, text)
            if length < 1000:
                yield case("seal", kind, key, nonce, label, need, 0, text)
            if need == 2:
                yield case("seal", kind, key, nonce, label, 0, 0, text)
    for length in (LONGEST, LONGEST - 31):
        yield case("seal", "matrices", source.key(), source.nonce(), b"",
                   4095, 0, Long(source, length))
    yield case("seal", "zero", source.key(), source.nonce(), b"",
               4095, 0, Long(source, LONGEST - 32))

    # Every choice of sentences that are true at once. A text that is too
    # long needs more blocks than any limit.
    for choice in range(64):
        kind = source.pick(KINDS)
        key = source.bytes(source.pick((0, 15, 17, 32))
                           if choice & 1 else mp.KEY_SIZE)
        nonce = source.bytes(source.pick((0, 12, 14))
                             if choice & 2 else mp.NONCE_SIZE)
        label = (Long(source, source.pick((4097, 9000))) if choice & 4
                 else short_label(source))
        text = (Long(source, LONGEST + 1 + source.below(40)) if choice & 8
                else Long(source, 32 + source.below(64)))
        count = 1 if choice & 16 else 0
        limit = 1 if choice & 32 else 4096
        yield case("seal", kind, key, nonce, label, limit, count, text)


def sealed_sheet(kind, key, nonce, label, text):
    """The tag and the sealed blocks, in one string."""
    state, blocks = sheets.seal(mp.ROUNDS[kind], key, nonce, label, text,
                                sheets.BLOCKS_MAX, [])
    return sheets.tag(state), b"".join(blocks)


def raw_sheet(kind, key, nonce, label, data):
    """The same for whole blocks, whatever the last one ends in."""
    rounds = mp.ROUNDS[kind]
    blocks = sheets.seal_blocks(rounds, key, nonce, sheets.blocks_of(data))
    return (sheets.tag_of_blocks(rounds, key, nonce, label, blocks),
            b"".join(blocks))


def open_cases(source):
    # The worked sheet.
    for kind in KINDS:
        tag, blocks = sealed_sheet(kind, ZERO_KEY, ZERO_NONCE, b"", b"")
        yield case("open", kind, ZERO_KEY, ZERO_NONCE, b"", tag, blocks)

    # The lengths of texts, random ones, and the lengths of labels.
    for kind in KINDS:
        # The long ones take much room here; more of them are reopened below.
        lengths = SHEET_LENGTHS[:-2] + [source.below(200) for _ in range(4)]
        lengths += {"matrices": [4096], "one": [], "zero": [4095]}[kind]
        for length in lengths:
            key, nonce = source.key(), source.nonce()
            label = Long(source, source.pick(LABEL_LENGTHS))
            tag, blocks = sealed_sheet(kind, key, nonce, label.data(),
                                       source.bytes(length))
            yield case("open", kind, key, nonce, label, tag, blocks)
        for length in LABEL_LENGTHS + [4095, 4096]:
            key, nonce = source.key(), source.nonce()
            label = Long(source, length)
            tag, blocks = sealed_sheet(kind, key, nonce, label.data(),
                                       source.bytes(source.below(40)))
            yield case("open", kind, key, nonce, label, tag, blocks)

    # Blocks that no text was sealed to, under their right tags.
    for kind in KINDS:
        key, nonce, label = source.key(), source.nonce(), source.bytes(3)
        part, whole = source.bytes(7), source.block()
        lasts = [
            # No byte 80 to end the text.
            ZERO_BLOCK,
            part + b"\x40" + bytes(24),
            bytes(31) + b"\x40",
            b"\x40" + bytes(31),
            b"\x01" + bytes(31),
            part + b"\x80" + bytes(23) + b"\x01",
            part + b"\x81" + bytes(24),
            part + b"\xC0" + bytes(24),
            part + b"\x08" + bytes(24),
            b"\x80" * 31 + b"\x7F",
            b"\xFF" * 32,
            # One, at each end and between.
            b"\x80" + bytes(31),
            bytes(31) + b"\x80",
            b"\x40" * 31 + b"\x80",
            b"\x80" * 32,
            part + b"\x80" + bytes(24),
            part + b"\x80\x80" + bytes(23),
            part + b"\x80\x00\x80" + bytes(22),
        ]
        for n, last in enumerate(lasts):
            data = [b"", whole, ZERO_BLOCK, whole + ZERO_BLOCK][n % 4] + last
            tag, blocks = raw_sheet(kind, key, nonce, label, data)
            yield case("open", kind, key, nonce, label, tag, blocks)
        for last in (ZERO_BLOCK, bytes(9) + b"\x40" + bytes(22)):
            for before in (b"", whole, whole + mp.pad(part)):
                tag, blocks = raw_sheet(kind, key, nonce, label,
                                        before + last)
                yield case("open", kind, key, nonce, label, tag, blocks)
                # The tag is looked at first.
                if before == whole:
                    yield case("open", kind, key, nonce, label,
                               with_xor(tag, [(source.below(16), 0x04)]),
                               blocks)


def open_tag_cases(source):
    for kind in KINDS:
        rounds = mp.ROUNDS[kind]
        key, nonce, label = source.key(), source.nonce(), source.bytes(5)
        text = source.bytes(50)
        tag, blocks = sealed_sheet(kind, key, nonce, label, text)
        yield case("open", kind, key, nonce, label, tag, blocks)

        def altered(*changes):
            return case("open", kind, key, nonce, label,
                        with_xor(tag, changes), blocks)

        # One byte at each place, all bytes but one, all from one place on,
        # and differences that cancel out if they are xored or added up.
        places = range(16) if kind != "one" else (0, 15)
        for place in places:
            yield altered((place, 1 << source.below(8)))
        for place in (0, 15):
            yield altered(*[(n, 1 + source.below(255))
                            for n in range(16) if n != place])
        for place in (1, 14):
            yield altered(*[(n, 0xFF) for n in range(place, 16)])
            yield altered(*[(n, 0xFF) for n in range(place)])
        yield altered((0, 0x01), (15, 0x01))
        yield altered(*[(n, 0x10) for n in range(16)])

        # Blocks altered, exchanged, left out and added.
        first, last = blocks[:32], blocks[32:]
        for place in (0, 15, 16, 31, 32, 47, 48, 63):
            yield case("open", kind, key, nonce, label, tag,
                       with_xor(blocks, [(place, 1 + source.below(255))]))
        for other in (last + first, first, last, blocks + last,
                      blocks + ZERO_BLOCK, first + first):
            yield case("open", kind, key, nonce, label, tag, other)

        # Right tags of something else.
        other_key, other_nonce = source.key(), source.nonce()
        other_kind = KINDS[(KINDS.index(kind) + 1) % 3]
        other_text = text[:40] + source.bytes(10)
        for other, _ in (
                sealed_sheet(kind, other_key, nonce, label, text),
                sealed_sheet(kind, key, other_nonce, label, text),
                sealed_sheet(kind, key, nonce, b"", text),
                sealed_sheet(kind, key, nonce, label + b"\x80", text),
                sealed_sheet(kind, key, nonce, label, other_text),
                sealed_sheet(kind, key, nonce, label, text[:49]),
                sealed_sheet(other_kind, key, nonce, label, text)):
            yield case("open", kind, key, nonce, label, other, blocks)
        yield case("open", kind, other_key, nonce, label, tag, blocks)
        yield case("open", kind, key, other_nonce, label, tag, blocks)
        yield case("open", kind, key, nonce, label[:4], tag, blocks)
        yield case("open", kind, key, nonce, mp.pad(label), tag, blocks)
        yield case("open", other_kind, key, nonce, label, tag, blocks)
        yield case("open", kind, key, nonce, label, bytes(16), blocks)

        # Tags of sums that are made by another rule.
        label_sum = mp.label_sum(rounds, key, label)
        total = sheets.sum_of(rounds, key, nonce, label_sum, [first, last])
        sealed_last = mp.tem(rounds, key, "text", nonce, 4, 0, last)
        for other in (
                mp.xor(label_sum, mp.xor(first, last)),
                mp.xor(total, label_sum),
                mp.xor(mp.xor(total, last), sealed_last),
                mp.xor(mp.xor(total, last), text[32:] + b"\x80" + bytes(13))):
            yield case("open", kind, key, nonce, label, mp.tem(
                rounds, key, "text", nonce, 3, 1, other)[:16], blocks)
        for use, i, j in (("text", 3, 0), ("text", 3, 2), ("text", 2, 1),
                          ("text", 4, 1), ("text", 1, 1), ("label", 3, 1),
                          ("plate", 3, 1)):
            yield case("open", kind, key, nonce, label, mp.tem(
                rounds, key, use, nonce, i, j, total)[:16], blocks)
        yield case("open", kind, key, nonce, label, mp.tem(
            rounds, key, "text", nonce, 3, 1, total)[16:], blocks)

        # The first blocks of a longer sheet, under the tag that they have:
        # one ends in padding and opens, the other does not.
        for begin in (mp.pad(source.bytes(11)), source.bytes(31) + b"\x7F"):
            _, longer = sealed_sheet(kind, key, nonce, label,
                                     begin + source.bytes(20))
            front = longer[:32]
            yield case("open", kind, key, nonce, label, sheets.tag_of_blocks(
                rounds, key, nonce, label, [front]), front)


def open_refusal_cases(source):
    # Each sentence alone.
    for kind in KINDS:
        key, nonce, label = source.key(), source.nonce(), source.bytes(2)
        tag, blocks = sealed_sheet(kind, key, nonce, label,
                                   source.bytes(source.below(32)))
        for length in (0, 1, 15, 17, 32):
            yield case("open", kind, (key + key)[:length], nonce, label, tag,
                       blocks)
            yield case("open", kind, key, nonce, label, (tag + tag)[:length],
                       blocks)
        for length in (0, 12, 14, 16):
            yield case("open", kind, key, (nonce + nonce)[:length], label,
                       tag, blocks)
        for length in (4097, 5000):
            yield case("open", kind, key, nonce, Long(source, length), tag,
                       blocks)
        yield case("open", kind, key, nonce, label, tag, b"")
        yield case("open", kind, key, nonce, b"", bytes(16), b"")

    # Every choice of sentences that are true at once: the lengths of key,
    # nonce, tag and label, no block, and a wrong tag or a wrong padding.
    for choice in range(64):
        kind = source.pick(KINDS)
        key, nonce, label = source.key(), source.nonce(), source.bytes(1)
        data = source.bytes(31) + bytes([0x40 if choice & 32 else 0x80])
        tag, blocks = raw_sheet(kind, key, nonce, label, data)
        if choice & 1:
            key = (key + key)[:source.pick((0, 15, 17, 32))]
        if choice & 2:
            nonce = (nonce + nonce)[:source.pick((0, 12, 14))]
        if choice & 4:
            tag = (tag + tag)[:source.pick((0, 15, 17, 32))]
        if choice & 8:
            label = Long(source, 4097)
        if choice & 16:
            blocks = b""
        yield case("open", kind, key, nonce, label, tag, blocks)
        if choice & 4 == 0 and choice & 3 != 3:
            yield case("open", kind, key, nonce, label,
                       with_xor(tag, [(source.below(16), 0x20)]), blocks)


def end_reads(length):
    """Positions and amounts at the ends of a text, and just past them."""
    last = max(length - 1, 0)
    return [(0, 0), (0, length), (0, length + 1), (length, 0), (length, 1),
            (length + 1, 0), (last, 1), (last, 2), (1, length), (1, last),
            (LARGEST, 0), (LARGEST, 1)]


def edge_reads(length):
    """Positions and amounts within a text, at the edges of blocks."""
    reads = [(0, 1), (0, 31), (0, 32), (0, 33), (31, 1), (31, 2), (32, 0),
             (32, 1), (30, 34), (31, 34), (32, 32), (33, 31), (1, 64),
             (0, 65), (17, 100)]
    return [(at, n) for at, n in reads if at + n <= length]


def reopen_cases(source):
    for kind in KINDS:
        for length in SHEET_LENGTHS:
            key, nonce = source.key(), source.nonce()
            label, text = short_label(source), some_bytes(source, length)
            reads = end_reads(length)
            if kind != "one":
                reads += edge_reads(length)
            for at, n in reads:
                yield case("reopen", kind, key, nonce, label, text, at, n)

    # Across blocks and at the end of a longer text.
    for kind in ("matrices", "zero"):
        key, nonce, label = source.key(), source.nonce(), short_label(source)
        text = Long(source, 4095)
        for at, n in ((31, 2), (63, 34), (64, 64), (65, 200), (1000, 65),
                      (2048, 2047), (2048, 2048), (4064, 31), (4063, 32),
                      (4094, 1), (4031, 64), (4030, 65), (4080, 16)):
            yield case("reopen", kind, key, nonce, label, text, at, n)

    # Random ones, some of them past the end.
    for kind in KINDS:
        for _ in range(8):
            length = source.below(600)
            at = source.below(length + 1)
            n = source.below(length - at + 1 + source.below(3))
            yield case("reopen", kind, source.key(), source.nonce(),
                       short_label(source), some_bytes(source, length),
                       at, n)

    # The lengths of labels.
    for kind in KINDS:
        for length in LABEL_LENGTHS + [4095, 4096]:
            yield case("reopen", kind, source.key(), source.nonce(),
                       some_bytes(source, length), Long(source, 40), 8, 32)

    # Sums of position and amount that would wrap around.
    for at, n in ((LARGEST, 2), (LARGEST, 40), (LARGEST - 1, 2),
                  (LARGEST - 7, 8), (LARGEST - 7, 48), (2 ** 63, 0),
                  (2 ** 32, 0), (2 ** 32, 1), (2 ** 32 + 8, 32)):
        yield case("reopen", source.pick(KINDS), source.key(),
                   source.nonce(), b"", Long(source, 40), at, n)

    # The longest texts.
    for kind, length, at, n in (
            ("matrices", LONGEST, 0, LONGEST),
            ("one", LONGEST, LONGEST - 100, 100),
            ("zero", LONGEST, 0, LONGEST),
            ("zero", LONGEST, LONGEST - 1, 1),
            ("zero", LONGEST, LONGEST, 0),
            ("zero", LONGEST, LONGEST, 1),
            ("zero", LONGEST, 0, LONGEST + 1),
            ("zero", LONGEST - 31, 65000, 65),
            ("zero", LONGEST - 32, LONGEST - 64, 32),
            ("zero", 65535, 65472, 63),
            ("zero", 65536, 65504, 32)):
        yield case("reopen", kind, source.key(), source.nonce(),
                   short_label(source), Long(source, length), at, n)

    # The refusals of seal come first.
    for kind in KINDS:
        key, nonce = source.key(), source.nonce()
        text, label = source.bytes(20), source.bytes(3)
        long_label, long_text = Long(source, 4097), Long(source, LONGEST + 1)
        for arguments in (
                (source.bytes(15), nonce, label, text, 0, 20),
                (key, source.bytes(14), label, text, 0, 20),
                (key, nonce, long_label, text, 0, 20),
                (key, nonce, label, long_text, 0, 20),
                (source.bytes(17), source.bytes(12), long_label, long_text,
                 LARGEST, 1),
                (key, source.bytes(12), long_label, long_text, LARGEST, 1),
                (key, nonce, long_label, long_text, LARGEST, 1),
                (key, nonce, label, long_text, LARGEST, 1)):
            yield case("reopen", kind, *arguments)


def spoilt_cases(source):
    plain = ["key", "nonce", "label", "tag", "drop"]
    for kind in KINDS:
        for length in (0, 1, 31, 32, 33, 100, 4096):
            key, nonce = source.key(), source.nonce()
            label, text = short_label(source), some_bytes(source, length)
            m = sheets.block_count(length)
            numbers = sorted({1, 2, m - 1, m, 1 + source.below(m)}
                             & set(range(1, m + 1)))
            for what in plain + ["block:%d" % k for k in numbers]:
                yield case("spoilt", kind, key, nonce, label, text, what)

    # Random ones. With no rounds, a change of the last block's first byte
    # does not reach the tag; it alters the text or its padding.
    for kind in KINDS:
        for _ in range(9):
            length = source.below(200)
            k = sheets.block_count(length)
            yield case("spoilt", kind, source.key(), source.nonce(),
                       short_label(source), some_bytes(source, length),
                       source.pick(plain + ["block:%d" % k] * 3))

    # A byte 00 after a label: one byte more is one block more, the label
    # becomes whole, it becomes too long.
    for kind in KINDS:
        key, nonce, text = source.key(), source.nonce(), source.bytes(24)
        for label in (b"", b"\x00", b"\x80", source.bytes(31),
                      mp.pad(source.bytes(9)), source.bytes(63),
                      Long(source, 4095), Long(source, 4096)):
            yield case("spoilt", kind, key, nonce, label, text, "label")

    # A text that still looks padded when its last block is gone.
    for kind in KINDS:
        key, nonce, label = source.key(), source.nonce(), short_label(source)
        for text in (mp.pad(source.bytes(10)), mp.pad(b""), ZERO_BLOCK):
            yield case("spoilt", kind, key, nonce, label, text, "drop")

    # A long one, and the refusals of seal.
    for what in ("key", "tag", "block:1", "block:2048", "block:4096", "drop"):
        yield case("spoilt", "zero", source.key(), source.nonce(), b"",
                   Long(source, LONGEST), what)
    for kind in KINDS:
        key, nonce, text = source.key(), source.nonce(), source.bytes(5)
        for arguments in (
                (source.bytes(15), nonce, b"", text),
                (key, source.bytes(14), b"", text),
                (key, nonce, Long(source, 4097), text),
                (key, nonce, b"", Long(source, LONGEST + 1))):
            yield case("spoilt", kind, *arguments, source.pick(plain))


# ----------------------------------------------------------------- holders

HOLDER_SIZES = [0, 1, 31, 32, 33, 63, 64, 65, 95, 96, 127, 128]
LARGE_SIZES = [131040, 131071, 131072, 131103, 131104, 200000]


def random_operations(source, number):
    operations = []
    for _ in range(number):
        k, byte = source.below(7), source.below(256)
        operations.append(source.pick([
            "count", "limit", "get:%d" % k, "get:%d" % k,
            "put:%d:%02x" % (k, byte), "put:%d:%02x" % (k, byte),
            "add:%02x" % byte, "add:%02x" % byte, "add:%02x" % byte,
            "drop", "drop", "getshort:%d" % k, "putshort:%d" % k,
            "addlong"]))
    return operations


def hold_cases(source):
    # Limits and told counts.
    for size in HOLDER_SIZES + LARGE_SIZES:
        limit = min(size // 32, 4096)
        for count in sorted({0, 1, 2, max(limit, 1) - 1, limit, limit + 1,
                             4096, 4097, LARGEST}):
            yield case("hold", size, count, "count", "limit")

    # Get and put at each number that is, and beside them.
    for size, count in ((0, 0), (31, 1), (32, 0), (32, 1), (33, 1), (96, 0),
                        (96, 1), (96, 2), (96, 3), (127, 4)):
        most = min(count, size // 32)
        for k in sorted({0, 1, 2, most, most + 1, 4096, 2 ** 32 + 1,
                         LARGEST}):
            yield case("hold", size, count, "getshort:%d" % k,
                       "putshort:%d" % k, "get:%d" % k, "put:%d:5a" % k,
                       "get:%d" % k, "get:1", "count")

    # A put changes its own block only.
    yield case("hold", 128, 4, "put:2:c3", "get:1", "get:2", "get:3",
               "get:4", "count")
    yield case("hold", 128, 4, "put:1:11", "put:4:44", "put:3:33", "put:2:22",
               "get:1", "get:2", "get:3", "get:4")
    yield case("hold", 130, 9, "put:4:f0", "get:4", "get:5", "put:5:01",
               "count", "limit")

    # Add and drop, at the limit and at nothing.
    for size, count in ((0, 0), (31, 0), (31, 7), (32, 0), (33, 0), (64, 0),
                        (64, 1), (64, 2), (65, 3), (96, 1)):
        yield case("hold", size, count, "add:a1", "count", "get:1", "add:a2",
                   "get:2", "add:a3", "get:3", "add:a4", "count", "limit")
        yield case("hold", size, count, "drop", "count", "get:1", "drop",
                   "drop", "drop", "count", "limit")
        yield case("hold", size, count, "addlong", "drop", "addlong",
                   "add:0f", "count", "get:1", "get:2")
    # What is dropped is gone, also where the number comes back.
    yield case("hold", 64, 0, "add:77", "drop", "get:1", "put:1:66", "add:88",
               "get:1", "add:99", "get:2", "drop", "get:2", "drop", "drop")
    yield case("hold", 96, 3, "put:3:31", "drop", "get:3", "put:3:32",
               "add:33", "get:3", "get:2", "count")

    # The largest limit.
    for size, count in ((131072, 4096), (131104, 4096), (131104, 4097),
                        (200000, LARGEST)):
        yield case("hold", size, count, "add:01", "get:4096", "put:4096:42",
                   "get:4096", "get:4097", "drop", "count", "get:4096",
                   "add:43", "get:4096", "get:4095", "add:44", "count")
    yield case("hold", 131071, 4096, "count", "limit", "add:01", "get:4095",
               "get:4096", "drop", "add:02", "get:4095")

    for _ in range(60):
        yield case("hold", source.below(200), source.below(6),
                   *random_operations(source, 4 + source.below(14)))


def note_cases(source):
    # Counts and limits.
    for depth in (1, 2):
        for size in (0, 31, 32, 64, 96, 128, 131072, 131104):
            for count in (0, 1, 2, 3, 4, 4096, LARGEST):
                yield case("note", size, count, depth, "count", "limit")

    # Get and put at each number; no number reaches the note.
    for depth in (1, 2):
        for size, count in ((0, 0), (32, 1), (64, 2), (96, 0), (96, 1),
                            (96, 3), (128, 4)):
            most = max(min(count, size // 32) - depth, 0)
            for k in sorted({0, 1, most, most + 1, most + 2, 4096,
                             LARGEST - 1, LARGEST}):
                yield case("note", size, count, depth, "getshort:%d" % k,
                           "putshort:%d" % k, "get:%d" % k, "put:%d:5a" % k,
                           "get:%d" % k, "count")

    # Add and drop: the first add makes the notes, no drop removes them, and
    # an add that is declined makes none.
    for depth in (1, 2):
        for size in (0, 31, 32, 64, 96, 128, 160):
            for count in (0, 1, 2, 3):
                yield case("note", size, count, depth, "add:b1", "count",
                           "get:1", "add:b2", "get:2", "add:b3", "count",
                           "limit")
                yield case("note", size, count, depth, "drop", "count",
                           "drop", "drop", "drop", "count", "limit")
            yield case("note", size, 0, depth, "addlong")
            yield case("note", size, 0, depth, "drop", "put:0:01", "put:1:02",
                       "get:0", "count")
            yield case("note", size, 0, depth, "add:c1", "drop", "drop",
                       "add:c2", "get:1", "put:0:0f", "put:1:c3", "get:1",
                       "addlong", "count")
    for depth in (1, 2):
        yield case("note", 131072, 4096, depth, "add:01", "get:4094",
                   "get:4095", "get:4096", "drop", "add:02", "get:4094",
                   "get:4095", "add:03", "count", "limit")

    for depth in (1, 2):
        for _ in range(40):
            yield case("note", source.below(260), source.below(6), depth,
                       *random_operations(source, 4 + source.below(14)))


def stale_cases(source):
    # Read's 10 comes before its 11.
    for kind in KINDS:
        for length in (0, 1, 31, 32, 33, 100):
            for at, n in ((0, 0), (0, 1), (length, 0), (length + 1, 0),
                          (0, length + 1)):
                yield case("stale", kind, source.key(), source.nonce(),
                           short_label(source), some_bytes(source, length),
                           at, n)


def all_cases():
    parts = [mask_cases, permutation_cases, tem_cases, tem_refusal_cases,
             sum_cases, sum_refusal_cases, check_cases, check_refusal_cases,
             seal_cases, seal_refusal_cases, open_cases, open_tag_cases,
             open_refusal_cases, reopen_cases, spoilt_cases, hold_cases,
             note_cases, stale_cases]
    for number, part in enumerate(parts):
        # A generator for each part: more cases in one leave the others.
        yield from part(Source(SEED + number))


def with_rows(lines):
    """The cases, and after them those of the matrices once more, by rows."""
    again = []
    for line in lines:
        yield line
        words = line.split(" ")
        if words[1] == "matrices":
            again.append(" ".join([words[0], "rows"] + words[2:]))
    yield from again


def main():
    for line in with_rows(all_cases()):
        sys.stdout.write(line + "\n")
    return 0


if __name__ == "__main__":
    sys.exit(main())
