"""Reads cases on standard input and prints one answer line for each.

A case is one line: words separated by single spaces, byte strings in
lower-case hexadecimal with `-` for the empty one, numbers in decimal.

    double HH                         -> HH
    step BLOCK                        -> BLOCK
    turn BLOCK                        -> BLOCK
    mask I J BLOCK                    -> BLOCK
    forward KIND BLOCK                -> BLOCK
    backward KIND BLOCK               -> BLOCK
    tem KIND KEY USE NONCE I J BLOCK  -> BLOCK or a refusal
    untem KIND KEY USE NONCE I J BLOCK -> BLOCK or a refusal
    label KIND KEY LABEL              -> BLOCK or a refusal
    mac KIND KEY PLATE                -> TAG or a refusal
    check KIND KEY PLATE TAG          -> yes or a refusal
    seal KIND KEY NONCE LABEL LIMIT COUNT TEXT
                                      -> TAG COUNT FIRST LAST or a refusal
    open KIND KEY NONCE LABEL TAG BLOCKS -> LENGTH TEXT or a refusal
    reopen KIND KEY NONCE LABEL TEXT AT N -> TAG LENGTH BYTES or a refusal
    spoilt KIND KEY NONCE LABEL TEXT WHAT -> LENGTH or a refusal
    stale KIND KEY NONCE LABEL TEXT AT N  -> BYTES or a refusal
    hold SIZE COUNT OP..              -> OUTCOMES
    note SIZE COUNT DEPTH OP..        -> OUTCOMES | COUNT FIRST

KIND is matrices, one or zero; USE is label, text or plate. A refusal is
printed as `declined NUMBER LAYER PLACE`. A line that is no case ends the
program with exit status 2.

From `seal` on, a TEXT or LABEL may also be written `~N:S` with S below 256.
It then is the N bytes whose byte i is (S + 31 i + floor(i/32)) mod 256.

seal: the holder is a memory holder of LIMIT blocks that has COUNT zero blocks
already, COUNT at most LIMIT. The answer has the sealed sheet's tag, the
holder's count, its first and its last block.

open: BLOCKS are whole blocks, one after the other. The answer has the length
of the text and the text.

reopen: seals TEXT into a memory holder just large enough, opens that with the
sheet's tag and reads N bytes from byte AT on. BYTES are the bytes read if N is
at most 64, else the first 32 and the last 32 of them with `..` between. A
refusal is the first one met.

spoilt: seals TEXT and opens it with one thing spoilt. WHAT is

    key       the first byte of the key xored with 01
    nonce     the first byte of the nonce xored with 01
    label     a byte 00 appended to the label
    tag       the last byte of the tag xored with 80
    block:K   the first byte of block K xored with 01
    drop      the last block removed

stale: seals TEXT, removes the holder's last block, and reads N bytes from byte AT
on with the sheet as it was.

hold: a memory holder over SIZE zero bytes, told that COUNT blocks are there,
is given the operations in turn. OUTCOMES are theirs, joined by `;`.

    count       -> a number
    limit       -> a number
    get:K       -> BLOCK or a refusal
    put:K:HH    -> ok or a refusal; the block has 32 bytes HH
    add:HH      -> ok or a refusal
    drop        -> ok or a refusal
    getshort:K  -> a refusal: the buffer has 31 bytes
    putshort:K  -> a refusal: the block has 31 zero bytes
    addlong     -> a refusal: the block has 33 zero bytes

note: the same through DEPTH (1 or 2) note holders that stand on one another
and on the memory holder. COUNT and FIRST tell the memory holder's count and
first block (`-` if it has none) in the end.
"""

import sys

sys.dont_write_bytecode = True

import holders
import minalpher as mp
import sheets


def bytes_of(word):
    if word == "-":
        return b""
    if word != word.lower() or word == "":
        raise ValueError("not lower-case hexadecimal: %r" % word)
    return bytes.fromhex(word)


def word_of(data):
    return data.hex() if data else "-"


def block_of(word):
    data = bytes_of(word)
    if len(data) != mp.BLOCK_SIZE:
        raise ValueError("not a block: %r" % word)
    return data


def number_of(word):
    if not (word.isascii() and word.isdigit()):
        raise ValueError("not a number: %r" % word)
    return int(word)


def long_bytes_of(word):
    """A text or a label, which may be written `~N:S`."""
    if not word.startswith("~"):
        return bytes_of(word)
    length, start = (number_of(part) for part in word[1:].split(":"))
    if start > 255:
        raise ValueError("not a start: %r" % word)
    return bytes((start + 31 * i + i // 32) % 256 for i in range(length))


def refusal_words(refusal):
    return "declined %d %s %d" % (
        refusal.number, refusal.layer, refusal.place)


def answer(line):
    words = line.split(" ")
    name, arguments = words[0], words[1:]
    try:
        return ANSWERS[name](*arguments)
    except mp.Declined as refusal:
        return refusal_words(refusal)


def answer_double(byte):
    return "%02x" % mp.double(int.from_bytes(bytes_of(byte), "big"))


def answer_step(block):
    return word_of(mp.step(block_of(block)))


def answer_turn(block):
    return word_of(mp.turn(block_of(block)))


def answer_mask(i, j, block):
    return word_of(mp.mask(number_of(i), number_of(j), block_of(block)))


def answer_forward(kind, block):
    return word_of(mp.forward(mp.ROUNDS[kind], block_of(block)))


def answer_backward(kind, block):
    return word_of(mp.backward(mp.ROUNDS[kind], block_of(block)))


def answer_tem(kind, key, use, nonce, i, j, block):
    return word_of(mp.tem(
        mp.ROUNDS[kind], bytes_of(key), use, bytes_of(nonce),
        number_of(i), number_of(j), bytes_of(block)))


def answer_untem(kind, key, use, nonce, i, j, block):
    return word_of(mp.untem(
        mp.ROUNDS[kind], bytes_of(key), use, bytes_of(nonce),
        number_of(i), number_of(j), bytes_of(block)))


def answer_label(kind, key, label):
    return word_of(mp.label_sum(
        mp.ROUNDS[kind], bytes_of(key), bytes_of(label)))


def answer_mac(kind, key, plate):
    return word_of(mp.plate_mac(
        mp.ROUNDS[kind], bytes_of(key), bytes_of(plate)))


def answer_check(kind, key, plate, tag):
    mp.plate_check(
        mp.ROUNDS[kind], bytes_of(key), bytes_of(plate), bytes_of(tag))
    return "yes"


def answer_seal(kind, key, nonce, label, limit, count, text):
    most, there = number_of(limit), number_of(count)
    if there > most or most > holders.LIMIT_MAX:
        raise ValueError("not a holder: limit %d, count %d" % (most, there))
    holder = holders.Memory(mp.BLOCK_SIZE * most, there)
    state, blocks = sheets.seal(
        mp.ROUNDS[kind], bytes_of(key), bytes_of(nonce),
        long_bytes_of(label), long_bytes_of(text),
        holder.limit(), holder.blocks)
    return "%s %d %s %s" % (word_of(sheets.tag(state)), len(blocks),
                            word_of(blocks[0]), word_of(blocks[-1]))


def answer_open(kind, key, nonce, label, tag, blocks):
    data = bytes_of(blocks)
    if len(data) % mp.BLOCK_SIZE != 0:
        raise ValueError("not whole blocks: %d bytes" % len(data))
    listed = sheets.blocks_of(data)
    state = sheets.open_sheet(
        mp.ROUNDS[kind], bytes_of(key), bytes_of(nonce),
        long_bytes_of(label), bytes_of(tag), listed)
    text = sheets.read(state, listed, 0, state.length)
    return "%d %s" % (state.length, word_of(text))


def sealed_just_so(kind, key, nonce, label, text):
    """A sheet sealed into a memory holder just large enough."""
    size = mp.BLOCK_SIZE * sheets.block_count(len(text))
    holder = holders.Memory(size, 0)
    return sheets.seal(mp.ROUNDS[kind], key, nonce, label, text,
                       holder.limit(), holder.blocks)


def answer_reopen(kind, key, nonce, label, text, at, n):
    key, nonce = bytes_of(key), bytes_of(nonce)
    label, text = long_bytes_of(label), long_bytes_of(text)
    state, blocks = sealed_just_so(kind, key, nonce, label, text)
    tag = sheets.tag(state)
    opened = sheets.open_sheet(mp.ROUNDS[kind], key, nonce, label, tag,
                               blocks)
    data = sheets.read(opened, blocks, number_of(at), number_of(n))
    return "%s %d %s" % (word_of(sheets.tag(opened)), opened.length,
                         excerpt(data))


def excerpt(data):
    if len(data) <= 64:
        return word_of(data)
    return data[:32].hex() + ".." + data[-32:].hex()


def answer_stale(kind, key, nonce, label, text, at, n):
    state, blocks = sealed_just_so(
        kind, bytes_of(key), bytes_of(nonce), long_bytes_of(label),
        long_bytes_of(text))
    return excerpt(sheets.read(state, blocks[:-1], number_of(at),
                               number_of(n)))


def xored(data, place, value):
    out = bytearray(data)
    out[place] ^= value
    return bytes(out)


def answer_spoilt(kind, key, nonce, label, text, what):
    key, nonce = bytes_of(key), bytes_of(nonce)
    label, text = long_bytes_of(label), long_bytes_of(text)
    state, blocks = sealed_just_so(kind, key, nonce, label, text)
    tag = sheets.tag(state)
    if what == "key":
        key = xored(key, 0, 0x01)
    elif what == "nonce":
        nonce = xored(nonce, 0, 0x01)
    elif what == "label":
        label = label + b"\x00"
    elif what == "tag":
        tag = xored(tag, mp.TAG_SIZE - 1, 0x80)
    elif what.startswith("block:"):
        k = number_of(what[len("block:"):])
        if k < 1 or k > len(blocks):
            raise ValueError("not a block of the sheet: %d" % k)
        blocks[k - 1] = xored(blocks[k - 1], 0, 0x01)
    elif what == "drop":
        blocks.pop()
    else:
        raise ValueError("not a thing to spoil: %r" % what)
    opened = sheets.open_sheet(mp.ROUNDS[kind], key, nonce, label, tag,
                               blocks)
    return "%d" % opened.length


def repeated(word):
    """A block of the byte that the word tells."""
    data = bytes_of(word)
    if len(data) != 1:
        raise ValueError("not a byte: %r" % word)
    return data * mp.BLOCK_SIZE


def outcome(holder, operation):
    name, *arguments = operation.split(":")
    try:
        return OUTCOMES[name](holder, *arguments)
    except mp.Declined as refusal:
        return refusal_words(refusal)


def done(_):
    return "ok"


OUTCOMES = {
    "count": lambda holder: str(holder.count()),
    "limit": lambda holder: str(holder.limit()),
    "get": lambda holder, k: word_of(holder.get(number_of(k))),
    "put": lambda holder, k, byte: done(
        holder.put(number_of(k), repeated(byte))),
    "add": lambda holder, byte: done(holder.add(repeated(byte))),
    "drop": lambda holder: done(holder.drop()),
    "getshort": lambda holder, k: word_of(
        holder.get(number_of(k), mp.BLOCK_SIZE - 1)),
    "putshort": lambda holder, k: done(
        holder.put(number_of(k), bytes(mp.BLOCK_SIZE - 1))),
    "addlong": lambda holder: done(
        holder.add(bytes(mp.BLOCK_SIZE + 1))),
}


def answer_hold(size, count, *operations):
    holder = holders.Memory(number_of(size), number_of(count))
    return ";".join(outcome(holder, one) for one in operations)


def answer_note(size, count, depth, *operations):
    memory = holders.Memory(number_of(size), number_of(count))
    holder = memory
    for _ in range(number_of(depth)):
        holder = holders.Note(holder)
    outcomes = ";".join(outcome(holder, one) for one in operations)
    first = memory.get(1) if memory.count() > 0 else b""
    return "%s | %d %s" % (outcomes, memory.count(), word_of(first))


ANSWERS = {
    "double": answer_double,
    "step": answer_step,
    "turn": answer_turn,
    "mask": answer_mask,
    "forward": answer_forward,
    "backward": answer_backward,
    "tem": answer_tem,
    "untem": answer_untem,
    "label": answer_label,
    "mac": answer_mac,
    "check": answer_check,
    "seal": answer_seal,
    "open": answer_open,
    "reopen": answer_reopen,
    "spoilt": answer_spoilt,
    "stale": answer_stale,
    "hold": answer_hold,
    "note": answer_note,
}


def main():
    for number, line in enumerate(sys.stdin, 1):
        try:
            text = answer(line.rstrip("\n"))
        except (KeyError, TypeError, ValueError) as error:
            sys.stdout.flush()
            sys.stderr.write("answers: line %d is no case: %s\n"
                             % (number, error))
            return 2
        sys.stdout.write(text + "\n")
    return 0


if __name__ == "__main__":
    sys.exit(main())
