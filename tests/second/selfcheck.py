"""Checks the second program against worked values and against itself.

The last line is 'N passed, M failed'; the exit status is 1 on a failure.
"""

import random
import sys

sys.dont_write_bytecode = True

import answers
import cases
import fast
import holders
import minalpher as mp
import sheets

passed = 0
failed = 0


def check(name, truth):
    global passed, failed
    if truth:
        passed += 1
    else:
        failed += 1
        print("failed: " + name)


def hexed(text):
    return bytes.fromhex(text)


def declined(call, *arguments):
    """Number, layer and place by which the call is declined, or None."""
    try:
        call(*arguments)
    except mp.Declined as refusal:
        return refusal.number, refusal.layer, refusal.place
    return None


ZERO_KEY = bytes(16)
ZERO_NONCE = bytes(13)
ZERO_BLOCK = bytes(32)


def check_worked_values():
    check("BB doubled is D5", mp.double(0xBB) == 0xD5)
    check("80 doubled is A3", mp.double(0x80) == 0xA3)
    check("40 doubled is 80", mp.double(0x40) == 0x80)

    stepped = bytearray(32)
    stepped[28], stepped[29], stepped[31] = 0x01, 0x01, 0x02
    check("the step of 01 and 31 zero bytes",
          mp.step(b"\x01" + bytes(31)) == bytes(stepped))

    check("zero rounds on the zero block",
          mp.forward(0, ZERO_BLOCK) == b"\xBB" * 32)
    check("one round on the zero block",
          mp.forward(1, ZERO_BLOCK)
          == hexed("14BBBBB3 14BB3BBB BB14B3BB BB14BB3B") + bytes(16))
    check("seventeen rounds on the zero block",
          mp.forward(17, ZERO_BLOCK)
          == hexed("1AF06C27 86E9A08B F01A276C E9868BA0"
                   "314D424B D5717A71 4D314B42 71D5717A"))

    sealed = mp.tem(0, ZERO_KEY, "text", ZERO_NONCE, 1, 0,
                    b"\x80" + bytes(31))
    check("zero rounds: the sealed block of the empty text",
          sealed == hexed("BBBB2BBB BBBBBBBB BBBBBBBB BB003240"
                          "BBBABBFB BBBBBBBB BBBBBBBB 0070BBD5"))
    check("zero rounds: the tag of the empty text",
          mp.tem(0, ZERO_KEY, "text", ZERO_NONCE, 1, 1, sealed)[:16]
          == hexed("E090E000 00000000 BB000000 9800C9BB"))


def check_parts(source):
    def random_state():
        return mp.state_of_block(random_bytes(source, 32))

    check("the S-box undoes itself",
          all(mp.SBOX[mp.SBOX[n]] == n for n in range(16)))
    check("p' undoes p",
          all(mp.P[mp.P_INVERSE[n]] == n and mp.P_INVERSE[mp.P[n]] == n
              for n in range(8)))
    check("q' undoes q",
          all(mp.Q[mp.Q_INVERSE[n]] == n and mp.Q_INVERSE[mp.Q[n]] == n
              for n in range(8)))
    check("the constants repeat after sixteen",
          mp.e(16) == mp.e(0) and len({str(mp.e(k)) for k in range(16)}) == 16)
    check("the constant of round 5",
          mp.e(5) == ([[0] * 8] * 4, [[5, 4, 7, 6, 0, 0, 0, 0],
                                      [4, 5, 6, 7, 0, 0, 0, 0],
                                      [7, 6, 5, 4, 0, 0, 0, 0],
                                      [6, 7, 4, 5, 0, 0, 0, 0]]))
    for n in range(20):
        x, y = random_state(), random_state()
        block = random_bytes(source, 32)
        check("state of block and back, %d" % n,
              mp.block_of_state(mp.state_of_block(block)) == block)
        check("S undoes itself, %d" % n, mp.s(mp.s(x)) == x)
        check("T undoes itself, %d" % n, mp.t(mp.t(x)) == x)
        check("T after S undoes itself, %d" % n,
              mp.t(mp.s(mp.t(mp.s(x)))) == x)
        check("M undoes itself, %d" % n, mp.m(mp.m(x)) == x)
        check("M is linear, %d" % n,
              mp.m(mp.xor_states(x, y)) == mp.xor_states(mp.m(x), mp.m(y)))


def check_permutation(source):
    for rounds in (0, 1, 2, 16, 17, 18):
        for n in range(20):
            block = random_bytes(source, 32)
            check("backward undoes forward, %d rounds, %d" % (rounds, n),
                  mp.backward(rounds, mp.forward(rounds, block)) == block)
            check("forward undoes backward, %d rounds, %d" % (rounds, n),
                  mp.forward(rounds, mp.backward(rounds, block)) == block)


# The field of the masks by polynomial arithmetic: a block is a polynomial in
# y whose coefficients are polynomials in x, the first byte that of y^31.

def multiply_bytes(a, b):
    product = 0
    for n in range(8):
        if b >> n & 1:
            product ^= a << n
    for n in range(14, 7, -1):
        if product >> n & 1:
            product ^= 0x1A3 << (n - 8)
    return product


def multiply_blocks(a, b):
    a, b = a[::-1], b[::-1]
    product = [0] * 63
    for n in range(32):
        for k in range(32):
            product[n + k] ^= multiply_bytes(a[n], b[k])
    for n in range(62, 31, -1):
        top = product[n]
        product[n - 32 + 3] ^= top
        product[n - 32 + 2] ^= top
        product[n - 32] ^= multiply_bytes(0x02, top)
    return bytes(product[:32][::-1])


def power(base, exponent):
    result = bytes(31) + b"\x01"
    while exponent:
        if exponent & 1:
            result = multiply_blocks(result, base)
        base = multiply_blocks(base, base)
        exponent >>= 1
    return result


def check_masks(source):
    for byte in range(256):
        check("doubling %02X is multiplying by x" % byte,
              mp.double(byte) == multiply_bytes(0x02, byte))
    y = bytes(30) + b"\x01\x00"
    y_and_1 = bytes(30) + b"\x01\x01"
    for n in range(5):
        block = random_bytes(source, 32)
        check("a step is multiplying by y, %d" % n,
              mp.step(block) == multiply_blocks(y, block))
        check("a turn is multiplying by y + 1, %d" % n,
              mp.turn(block) == multiply_blocks(y_and_1, block))
        check("a step and a turn commute, %d" % n,
              mp.step(mp.turn(block)) == mp.turn(mp.step(block)))
    for i in (0, 1, 31, 32, 33, 100, 8191):
        for j in (0, 1, 2):
            block = random_bytes(source, 32)
            factor = multiply_blocks(power(y, i), power(y_and_1, j))
            check("mask %d %d is a product" % (i, j),
                  mp.mask(i, j, block) == multiply_blocks(factor, block))


def check_tem(source):
    for kind in ("matrices", "one", "zero"):
        rounds = mp.ROUNDS[kind]
        for n in range(30):
            key = random_bytes(source, 16)
            nonce = random_bytes(source, 13)
            block = random_bytes(source, 32)
            use = ("label", "text", "plate")[n % 3]
            i, j = source.getrandbits(8) + 1, n % 3
            there = mp.tem(rounds, key, use, nonce, i, j, block)
            back = mp.untem(rounds, key, use, nonce, i, j, block)
            check("untem undoes tem, %s, %d" % (kind, n),
                  mp.untem(rounds, key, use, nonce, i, j, there) == block)
            check("tem undoes untem, %s, %d" % (kind, n),
                  mp.tem(rounds, key, use, nonce, i, j, back) == block)

            h = key + mp.USES[use] + nonce
            w = mp.mask(i, j, mp.xor(h, mp.forward(rounds, h)))
            check("tem from its parts, %s, %d" % (kind, n),
                  there == mp.xor(w, mp.forward(rounds, mp.xor(block, w))))


def check_sums(source):
    for kind in ("matrices", "one", "zero"):
        rounds = mp.ROUNDS[kind]
        key = random_bytes(source, 16)

        def sealed(use, i, j, block):
            return mp.tem(rounds, key, use, ZERO_NONCE, i, j, block)

        check("the empty label's sum is zero, " + kind,
              mp.label_sum(rounds, key, b"") == ZERO_BLOCK)
        check("the empty plate is one padded block with j = 2, " + kind,
              mp.plate_mac(rounds, key, b"")
              == sealed("plate", 0, 2, b"\x80" + bytes(31))[:16])

        one = random_bytes(source, 32)
        check("a label of 32 bytes is unpadded with j = 1, " + kind,
              mp.label_sum(rounds, key, one) == sealed("label", 0, 1, one))
        check("a plate of 32 bytes is unpadded with j = 1, " + kind,
              mp.plate_mac(rounds, key, one)
              == sealed("plate", 0, 1, one)[:16])

        short = one[:31]
        check("a label of 31 bytes is padded with j = 2, " + kind,
              mp.label_sum(rounds, key, short)
              == sealed("label", 0, 2, short + b"\x80"))

        two = random_bytes(source, 32)
        check("a label of 64 bytes, " + kind,
              mp.label_sum(rounds, key, one + two)
              == sealed("label", 1, 1,
                        mp.xor(sealed("label", 1, 0, one), two)))
        three = random_bytes(source, 5)
        for name, use, made in (
                ("label", "label", mp.label_sum(
                    rounds, key, one + two + three)),
                ("plate", "plate", mp.mac_block(
                    rounds, key, one + two + three))):
            last = three + b"\x80" + bytes(26)
            total = mp.xor(mp.xor(sealed(use, 1, 0, one),
                                  sealed(use, 2, 0, two)), last)
            check("a %s of 69 bytes, %s" % (name, kind),
                  made == sealed(use, 2, 2, total))

        for length in (0, 1, 31, 32, 33, 100):
            plate = random_bytes(source, length)
            tag = mp.plate_mac(rounds, key, plate)
            check("a right tag, %s, %d bytes" % (kind, length),
                  mp.plate_check(rounds, key, plate, tag))
            for place in range(16):
                wrong = bytearray(tag)
                wrong[place] ^= 1 << source.getrandbits(3)
                check("a wrong tag at %d, %s, %d bytes"
                      % (place, kind, length),
                      declined(mp.plate_check, rounds, key, plate,
                               bytes(wrong)) == (16, "cipher", 0))


def check_refusals():
    key, nonce, block, tag = bytes(16), bytes(13), bytes(32), bytes(16)
    over = bytes(4097)
    for name, call in (("tem", mp.tem), ("untem", mp.untem)):
        for number, arguments in (
                (None, (0, key, "text", nonce, 8191, 2, block)),
                (None, (0, key, "text", nonce, 0, 1, block)),
                (1, (0, bytes(15), "text", bytes(12), 0, 0, bytes(31))),
                (2, (0, key, "text", bytes(14), 8192, 0, bytes(33))),
                (9, (0, key, "text", nonce, 0, 0, b"")),
                (9, (0, key, "text", nonce, 8192, 0, block)),
                (9, (0, key, "text", nonce, 1, 3, block)),
                (12, (0, key, "text", nonce, 1, 0, bytes(31)))):
            wanted = None if number is None else (number, "cipher", 0)
            check("%s declines by %s" % (name, number),
                  declined(call, *arguments) == wanted)
    for name, call in (("label", mp.label_sum), ("mac", mp.plate_mac)):
        for number, arguments in (
                (None, (0, key, bytes(4096))),
                (1, (0, bytes(17), b"")),
                (1, (0, bytes(15), over)),
                (7, (0, key, over))):
            wanted = None if number is None else (number, "cipher", 0)
            check("%s declines by %s" % (name, number),
                  declined(call, *arguments) == wanted)
    for number, arguments in (
            (1, (0, bytes(15), over, bytes(15))),
            (3, (0, key, over, bytes(17))),
            (7, (0, key, over, tag)),
            (16, (0, key, b"", tag))):
        check("check declines by %d" % number,
              declined(mp.plate_check, *arguments) == (number, "cipher", 0))


def check_fast(source):
    for rounds in (0, 1, 2, 5, 16, 17, 18):
        for n in range(20):
            block = random_bytes(source, 32)
            check("forward by tables, %d rounds, %d" % (rounds, n),
                  fast.forward(rounds, block) == mp.forward(rounds, block))
            check("backward by tables, %d rounds, %d" % (rounds, n),
                  fast.backward(rounds, block) == mp.backward(rounds, block))
    for value in range(256):
        for rounds in (0, 1):
            block = bytes([value]) * 32
            check("bytes %02X by tables, %d rounds" % (value, rounds),
                  fast.forward(rounds, block) == mp.forward(rounds, block)
                  and fast.backward(rounds, block)
                  == mp.backward(rounds, block))


def plain_sheet(rounds, key, nonce, label, text):
    """Sealed blocks and tag, by the plain cipher and one mask at a time."""
    padded = mp.pad(text)
    m = len(padded) // 32

    def sealed(i, j, block):
        return mp.tem(rounds, key, "text", nonce, i, j, block)

    blocks = [sealed(2 * k - 1, 0, mp.block_of(padded, k))
              for k in range(1, m + 1)]
    total = mp.label_sum(rounds, key, label)
    for k in range(1, m):
        total = mp.xor(total, sealed(2 * k, 0, blocks[k - 1]))
    total = mp.xor(total, blocks[m - 1])
    return blocks, sealed(2 * m - 1, 1, total)[:16]


def check_worked_sheet():
    state, blocks = sheets.seal(0, ZERO_KEY, ZERO_NONCE, b"", b"", 1, [])
    check("zero rounds: the empty text is sealed to one block",
          blocks == [hexed("BBBB2BBB BBBBBBBB BBBBBBBB BB003240"
                           "BBBABBFB BBBBBBBB BBBBBBBB 0070BBD5")])
    tag = hexed("E090E000 00000000 BB000000 9800C9BB")
    check("zero rounds: the tag of the sheet", sheets.tag(state) == tag)
    check("zero rounds: the sheet is opened to the empty text",
          sheets.open_sheet(0, ZERO_KEY, ZERO_NONCE, b"", tag, blocks)
          == state and sheets.read(state, blocks, 0, 0) == b"")

    for length, count in ((0, 1), (31, 1), (32, 2), (63, 2), (64, 3),
                          (131039, 4095), (131040, 4096), (131071, 4096)):
        check("%d bytes have %d blocks" % (length, count),
              sheets.block_count(length) == count
              and len(mp.pad(bytes(length))) == 32 * count)
    for length, count in ((0, 1), (31, 1), (32, 2), (131071, 4096)):
        state, blocks = sheets.seal(0, ZERO_KEY, ZERO_NONCE, b"",
                                    bytes(length), 4096, [])
        check("%d bytes are sealed to %d blocks" % (length, count),
              len(blocks) == count and state.length == length)
    check("131072 bytes are declined by 8",
          declined(sheets.seal, 0, ZERO_KEY, ZERO_NONCE, b"", bytes(131072),
                   4096, []) == (8, "sheet", 0))


def check_sheets(source):
    for kind in ("matrices", "one", "zero"):
        rounds = mp.ROUNDS[kind]
        for length in (0, 1, 31, 32, 33, 63, 64, 100, 200):
            key, nonce = random_bytes(source, 16), random_bytes(source, 13)
            label = random_bytes(source, source.getrandbits(6))
            text = random_bytes(source, length)
            name = "%s, %d bytes" % (kind, length)
            state, blocks = sheets.seal(rounds, key, nonce, label, text,
                                        4096, [])
            tag = sheets.tag(state)
            check("sealed by the plain cipher, " + name,
                  (blocks, tag)
                  == plain_sheet(rounds, key, nonce, label, text))
            check("what was sealed is opened, " + name,
                  sheets.open_sheet(rounds, key, nonce, label, tag, blocks)
                  == state)
            check("what was sealed is read, " + name,
                  sheets.read(state, blocks, 0, length) == text)
            check("every part is read, " + name, all(
                sheets.read(state, blocks, at, n) == text[at:at + n]
                for at in range(0, length + 1, 1 + length // 9)
                for n in range(0, length - at + 1, 1 + length // 9)))
            if kind != "zero":
                # With no rounds not every byte reaches the tag.
                for place in range(0, 32 * len(blocks), 13):
                    changed = list(blocks)
                    changed[place // 32] = cases.with_xor(
                        changed[place // 32], [(place % 32, 0x11)])
                    check("a changed byte %d, %s" % (place, name),
                          declined(sheets.open_sheet, rounds, key, nonce,
                                   label, tag, changed) == (16, "sheet", 0))

    text = cases.long_bytes(131071, 5)
    key, nonce = random_bytes(source, 16), random_bytes(source, 13)
    state, blocks = sheets.seal(17, key, nonce, b"long", text, 4096, [])
    check("the longest text is opened again",
          sheets.open_sheet(17, key, nonce, b"long", sheets.tag(state),
                            blocks) == state
          and sheets.read(state, blocks, 0, 131071) == text)
    check("its last block has the plain cipher's mask 8191",
          blocks[4095] == mp.tem(17, key, "text", nonce, 8191, 0,
                                 text[131040:] + b"\x80"))


def check_padding(source):
    for kind in ("matrices", "one", "zero"):
        rounds = mp.ROUNDS[kind]
        key, nonce = random_bytes(source, 16), random_bytes(source, 13)
        for before in (0, 1, 2):
            front = [random_bytes(source, 32) for _ in range(before)]
            for name, last, end in (
                    ("zeros", ZERO_BLOCK, None),
                    ("40 and zeros", b"\x40" + bytes(31), None),
                    ("bytes, 40 and zeros",
                     b"\x80\x12\x40" + bytes(29), None),
                    ("zeros and 40", bytes(31) + b"\x40", None),
                    ("80, zeros and 01", b"\x80" + bytes(30) + b"\x01",
                     None),
                    ("80 and zeros", b"\x80" + bytes(31), 0),
                    ("80, 80 and zeros", b"\x80\x80" + bytes(30), 1),
                    ("zeros and 80", bytes(31) + b"\x80", 31)):
                blocks = sheets.seal_blocks(rounds, key, nonce,
                                            front + [last])
                tag = sheets.tag_of_blocks(rounds, key, nonce, b"x", blocks)
                where = "%s, %s after %d blocks" % (kind, name, before)
                check("the end of a text: " + where,
                      sheets.end_of_text(last) == end)
                if end is None:
                    check("padding is declined: " + where,
                          declined(sheets.open_sheet, rounds, key, nonce,
                                   b"x", tag, blocks) == (17, "sheet", 0))
                    check("a wrong tag comes first: " + where,
                          declined(sheets.open_sheet, rounds, key, nonce,
                                   b"x", cases.with_xor(tag, [(3, 1)]),
                                   blocks) == (16, "sheet", 0))
                else:
                    state = sheets.open_sheet(rounds, key, nonce, b"x", tag,
                                              blocks)
                    check("padding is taken: " + where,
                          sheets.read(state, blocks, 0, state.length)
                          == b"".join(front) + last[:end])


def check_sheet_refusals():
    key, nonce, tag = bytes(16), bytes(13), bytes(16)
    over, block = bytes(4097), ZERO_BLOCK
    long_text = bytes(131072)
    for wanted, arguments in (
            (None, (key, nonce, bytes(4096), bytes(31), 1, [])),
            ((1, "cipher", 0),
             (bytes(15), bytes(12), over, long_text, 0, [block])),
            ((2, "cipher", 0), (key, bytes(14), over, long_text, 0, [block])),
            ((7, "cipher", 0), (key, nonce, over, long_text, 0, [block])),
            ((8, "sheet", 0), (key, nonce, b"", long_text, 0, [block])),
            ((10, "sheet", 0), (key, nonce, b"", bytes(32), 1, [block])),
            ((14, "sheet", 0), (key, nonce, b"", bytes(32), 1, [])),
            ((14, "sheet", 0), (key, nonce, b"", b"", 0, []))):
        check("seal: %s" % (wanted,),
              declined(sheets.seal, 0, *arguments) == wanted)
    for wanted, arguments in (
            ((1, "cipher", 0), (bytes(15), bytes(12), over, bytes(15), [])),
            ((2, "cipher", 0), (key, bytes(14), over, bytes(15), [])),
            ((3, "cipher", 0), (key, nonce, over, bytes(17), [])),
            ((7, "cipher", 0), (key, nonce, over, tag, [])),
            ((10, "sheet", 0), (key, nonce, b"", tag, [])),
            ((10, "sheet", 0), (key, nonce, b"", tag, [block] * 4097)),
            ((16, "sheet", 0), (key, nonce, b"", tag, [block]))):
        check("open: %s" % (wanted,),
              declined(sheets.open_sheet, 0, *arguments) == wanted)
    state, blocks = sheets.seal(0, key, nonce, b"", bytes(40), 2, [])
    for wanted, arguments in (
            (None, (blocks, 0, 40)), (None, (blocks, 40, 0)),
            ((11, "sheet", 0), (blocks, 0, 41)),
            ((11, "sheet", 0), (blocks, 41, 0)),
            ((11, "sheet", 0), (blocks, 2 ** 64 - 1, 1)),
            ((10, "sheet", 0), (blocks[:1], 0, 40)),
            ((10, "sheet", 0), ([], 0, 0)),
            ((10, "sheet", 0), (blocks + [block], 41, 1))):
        check("read: %s" % (wanted,),
              declined(sheets.read, state, *arguments) == wanted)


def check_holders():
    for size, count, most, there in (
            (0, 0, 0, 0), (31, 1, 0, 0), (32, 0, 1, 0), (63, 2, 1, 1),
            (64, 2, 2, 2), (131071, 4096, 4095, 4095),
            (131072, 4096, 4096, 4096), (131104, 4097, 4096, 4096)):
        memory = holders.Memory(size, count)
        check("a memory holder over %d bytes, told %d" % (size, count),
              (memory.limit(), memory.count()) == (most, there))
        for depth in (1, 2, 3):
            note = memory
            for _ in range(depth):
                note = holders.Note(note)
            check("%d note holders over %d bytes, told %d"
                  % (depth, size, count),
                  (note.limit(), note.count())
                  == (max(most - depth, 0), max(there - depth, 0)))

    one, two = b"\x01" * 32, b"\x02" * 32
    memory = holders.Memory(96, 0)
    note = holders.Note(memory)
    check("nothing to drop", declined(note.drop) == (13, "holder", 0))
    note.add(one)
    check("the first add makes a note of zeros",
          memory.blocks == [ZERO_BLOCK, one])
    note.put(1, two)
    check("block 1 is the second below", memory.blocks == [ZERO_BLOCK, two])
    for call in (note.get, lambda k: note.put(k, one)):
        for k in (0, 2, 2 ** 64 - 1):
            check("block %d is not there" % k,
                  declined(call, k) == (13, "holder", k))
    note.add(one)
    check("the limit is one less",
          declined(note.add, one) == (14, "holder", 0))
    note.drop()
    note.drop()
    check("the note stays", declined(note.drop) == (13, "holder", 0)
          and memory.blocks == [ZERO_BLOCK])
    for size in (0, 32):
        memory = holders.Memory(size, 0)
        check("no room for a block, so no note is made",
              declined(holders.Note(memory).add, one) == (14, "holder", 0)
              and memory.blocks == [])
    for holder in (holders.Memory(32, 1), holders.Note(holders.Memory(0, 0))):
        for name, call in (("get", lambda: holder.get(9, 31)),
                           ("put", lambda: holder.put(9, bytes(31))),
                           ("add", lambda: holder.add(bytes(33)))):
            check("%s: the size comes first" % name,
                  declined(call) == (12, "holder", 0))


def outcomes_of(line, text):
    """The name of a case's call, or of each of its operations, with its
    outcome: a refusal, or `taken`. A holder's refusal goes without place."""
    words = line.split(" ")
    if words[0] not in ("hold", "note"):
        yield words[0], text if text.startswith("declined") else "taken"
        return
    operations = words[3:] if words[0] == "hold" else words[4:]
    answered = text.split(" | ")[0].split(";")
    for operation, one in zip(operations, answered):
        one = one.rsplit(" ", 1)[0] if one.startswith("declined") else "taken"
        yield words[0] + " " + operation.split(":")[0], one


def check_cases():
    lines = list(cases.all_cases())
    check("the cases are the same each time", lines == list(cases.all_cases()))
    check("the cases stay below 720 KB",
          sum(len(line) + 1 for line in lines) < 720000)
    seen = set()
    for line in lines:
        seen.update(outcomes_of(line, answers.answer(line)))
    sheet_calls = {
        "seal": ["1 cipher", "2 cipher", "7 cipher", "8 sheet", "10 sheet",
                 "14 sheet"],
        "open": ["1 cipher", "2 cipher", "3 cipher", "7 cipher", "10 sheet",
                 "16 sheet", "17 sheet"],
        "reopen": ["1 cipher", "2 cipher", "7 cipher", "8 sheet",
                   "11 sheet"],
        "spoilt": ["1 cipher", "2 cipher", "7 cipher", "8 sheet", "10 sheet",
                   "16 sheet", "17 sheet"],
    }
    cipher_calls = {
        "double": [], "step": [], "turn": [], "mask": [],
        "forward": [], "backward": [],
        "tem": [1, 2, 9, 12], "untem": [1, 2, 9, 12],
        "label": [1, 7], "mac": [1, 7], "check": [1, 3, 7, 16],
    }
    operations = {"get": [13], "put": [13], "add": [14], "drop": [13],
                  "count": [], "limit": []}
    wanted = set()
    for name, numbers in cipher_calls.items():
        wanted.add((name, "taken"))
        wanted.update((name, "declined %d cipher 0" % n) for n in numbers)
    for name, refusals in sheet_calls.items():
        wanted.add((name, "taken"))
        wanted.update((name, "declined %s 0" % one) for one in refusals)
    # A sheet whose holder lost a block is never read.
    wanted.add(("stale", "declined 10 sheet 0"))
    for holder in ("hold ", "note "):
        for name, numbers in operations.items():
            wanted.add((holder + name, "taken"))
            wanted.update((holder + name, "declined %d holder" % n)
                          for n in numbers)
        for name in ("getshort", "putshort", "addlong"):
            wanted.add((holder + name, "declined 12 holder"))
    check("the cases meet every answer and every refusal", seen == wanted)


def random_bytes(source, length):
    return bytes(source.getrandbits(8) for _ in range(length))


def main():
    source = random.Random(1)
    check_worked_values()
    check_parts(source)
    check_permutation(source)
    check_masks(source)
    check_tem(source)
    check_sums(source)
    check_refusals()
    check_fast(source)
    check_worked_sheet()
    check_sheets(source)
    check_padding(source)
    check_sheet_refusals()
    check_holders()
    check_cases()
    print("%d passed, %d failed" % (passed, failed))
    return 1 if failed else 0


if __name__ == "__main__":
    sys.exit(main())
