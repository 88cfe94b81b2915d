"""The cases that the program rlecases is run on, the answers that it must give, and what the Rust answers to them.

    python3 tools/rle_cases.py cases   > crates/rlecases/stdin
    python3 tools/rle_cases.py answers > crates/rlecases/stdout
    python3 tools/rle_cases.py compare ORACLE

The answers are computed here from what a column, its encoder and its pages mean, over Python's integers. They never come
from the program. ORACLE is a program that puts the same calls to the unchanged Rust; `compare` lists every case where the
Rust answers otherwise, under the name of a known difference, and ends with status 1 if there is one of another kind.

A line is a case, and blank lines and lines that begin with `#` are skipped. Bytes are hexadecimal in one word, `-` if
there are none. TYPE is u8, u16, u32, u64, i32, i64 or head, and a value is written and shown as its pattern.

    write W ROOM op..       an encoder of width W over ROOM bytes FF. The ops: `V` puts a u64, `TYPE:V` the value that the
                            type makes of V, `V,V,..` puts a list of u64 (`V,` one, `,` none), `V*N` a list of N times V,
                            `xN` extends the run by N.
                            -> for each op `ok` or the number of its refusal, and for a list how many were accepted and,
                            behind a comma, the refusal; then `->`, the page's length, the page, and `clear` or `dirty`:
                            whether all bytes behind it are 0
    read W TYPE PAGE op..   a decoder of PAGE. The ops: `g` gets one value, `bN` a batch of N cells, which hold 165
                            before, `sN` skips N, and a TYPE is that of the calls behind it.
                            -> parted by `;`: `v V`, `none`, `n K: cells`, `s K`, `refused N` or
                            `fault N at PLACE layer L after K`, the last two with a colon and the cells if it was a batch
    sweep W                 every page of no, one and two bytes.
                            -> the digest of the empty page, then a digest for each first byte, of its page of one byte
                            and its 256 pages of two

A width that is refused and a page that does not open are answered by that alone, and a line that is not understood by
`? not understood`. A page of a sweep is opened, and a batch of 16 u64 cells, a skip of 2^64 - 1 and a get follow. Its digest is
FNV-1a with 64 bits over whole numbers in place of bytes: the count and the 16 cells of the batch, the count of the skip,
the value that the get gave or 0; and wherever a call was declined the number, the count and, of a fault, the place.
"""
import random
import subprocess
import sys
from collections import Counter
from typing import NamedTuple

# Lines that cannot be understood.
REFUSED = [
    "write",
    "write 4294967296 4",
    "write 3",
    "write 3 65536",
    "write 3 4 5 -1",
    "write 3 4 18446744073709551616",
    "write 3 4 5*",
    "write 3 4 5*65536",
    "write 3 4 5 x",
    "write 3 4 1,2,z",
    "write 3 4 i32:-1",
    "write 3 4 f64:1",
    "read 3 u8",
    "read 3 u8 038",
    "read 3 u8 0G",
    "read 3 bool 0388 g",
    "read 3 u8 0388 b",
    "read 3 u8 0388 g b65536",
    "read 3 u8 0388 g s-1",
    "read 3 u8 0388 g q",
    "sweep",
    "sweep x",
    "flip 1",
]
TYPES = {"u8": 8, "u16": 16, "u32": 32, "u64": 64, "i32": 32, "i64": 64, "head": 16}
MOST = 2**31 - 1
MARK = 165


def hexed(page):
    return page.hex().upper() or "-"


def unhexed(word):
    return b"" if word == "-" else bytes.fromhex(word)


def made(kind, p):
    """The pattern of the value that a type makes of a pattern."""
    return p % 2 ** TYPES[kind]


# Writing: the states of an encoder, the page of each, and what is refused.


class State(NamedTuple):
    done: bytes = b""  # runs that are closed
    open: tuple = ()  # the values of an open packed run
    gathered: tuple = ()
    run: tuple = ()  # the value that repeats, and how often
    length: int = 0


def vlq(n):
    return bytes([n & 127 | 128]) + vlq(n >> 7) if n > 127 else bytes([n])


def repeated_run(width, value, count):
    return vlq(2 * count) + value.to_bytes((width + 7) // 8, "little")


def packed_run(width, values):
    if not values:
        return b""
    number = sum(v << i * width for i, v in enumerate(values))
    return vlq(len(values) // 8 * 2 + 1) + number.to_bytes(len(values) * width // 8, "little")


def step(width, state, value):
    done, run, longer = state.done, state.run, state.length + 1
    if run and run[0] == value:
        return state._replace(run=(value, run[1] + 1), length=longer)
    if run:
        done += repeated_run(width, *run)
    gathered = state.gathered + (value,)
    if len(gathered) < 8:
        return State(done, state.open, gathered, (), longer)
    if len(set(gathered)) == 1:
        return State(done + packed_run(width, state.open), (), (), (value, 8), longer)
    opened = state.open + gathered
    if len(opened) == 504:
        return State(done + packed_run(width, opened), length=longer)
    return State(done, opened, length=longer)


def page_of(width, state):
    if state.run:
        return state.done + repeated_run(width, *state.run)
    if state.gathered and not state.open and len(set(state.gathered)) == 1:
        return state.done + repeated_run(width, state.gathered[0], len(state.gathered))
    return state.done + packed_run(width, state.open + state.gathered + (0,) * (-len(state.gathered) % 8))


class Encoder:
    def __init__(self, width, room):
        self.width, self.room, self.state, self.most_needed = width, room, State(), 0

    def become(self, state):
        need = len(page_of(self.width, state))
        if need > self.room:
            return 2
        self.state, self.most_needed = state, max(self.most_needed, need)
        return 0

    def page(self):
        return page_of(self.width, self.state)

    def put(self, value):
        if value >= 2**self.width:
            return 3
        return 4 if self.state.length >= MOST else self.become(step(self.width, self.state, value))

    def put_all(self, values):
        for accepted, value in enumerate(values):
            refusal = self.put(value)
            if refusal:
                return accepted, refusal
        return len(values), 0

    def extend(self, count):
        if not self.state.run:
            return 5
        value, before = self.state.run
        longer = self.state.length + count
        return 4 if longer > MOST else self.become(self.state._replace(run=(value, before + count), length=longer))


def write_op(op):
    """What an op puts: a word for how, and the values or the count."""
    if "," in op:
        return "list", [int(v) for v in op.split(",") if v]
    if "*" in op:
        value, count = map(int, op.split("*"))
        return "list", [value] * count
    if op[0] == "x":
        return "extend", int(op[1:])
    kind, value = op.split(":") if ":" in op else ("u64", op)
    return "put", made(kind, int(value))


def written(width, room, ops):
    """The answers to the ops, the encoder, and the ops that were accepted, in the words of the Rust's host."""
    encoder, answers, accepted, refusals = Encoder(width, room), [], [], set()
    for op in ops:
        how, what = write_op(op)
        if how == "list":
            count, refusal = encoder.put_all(what)
            answers.append(f"{count},{refusal}" if refusal else f"{count}")
            accepted += [str(v) for v in what[:count]]
        else:
            refusal = encoder.put(what) if how == "put" else encoder.extend(what)
            answers.append(str(refusal or "ok"))
            accepted += [] if refusal else [f"x{what}" if how == "extend" else str(what)]
        refusals.add(refusal)
    return answers, encoder, accepted, refusals - {0}


# Reading: what a page reads as, and what is taken from it.


class Waiting:
    """The values that wait, as pairs of a value and how often, and how they end: a fault's number and place, or why."""

    def __init__(self, width, page):
        self.values, self.ending, self.opens = [], None, False
        at = 0
        while self.ending is None:
            at = self.read_run(width, page, at)
            self.opens = self.opens or isinstance(self.ending, str) or self.ending is None
        self.told = False

    def read_run(self, width, page, at):
        header, start = 0, at
        while True:
            if start == len(page):
                return self.end("data ends")
            if start - at == 10:
                return self.end((7, at))
            header |= (page[start] & 127) << 7 * (start - at)
            start += 1
            if page[start - 1] < 128:
                break
        if header >= 2**64:
            return self.end((7, at))
        if header == 0:
            return self.end("header 0")
        count = header // 2 * (8 if header % 2 else 1)
        if count > MOST:
            return self.end((9, at))
        if header % 2 == 0:
            behind = start + (width + 7) // 8
            if behind > len(page):
                return self.end((10, start))
            self.values.append((int.from_bytes(page[start:behind], "little"), count))
            return behind
        if width == 0:
            self.values.append((0, count))
            return start
        number, there = int.from_bytes(page[start:], "little"), min(count, 8 * (len(page) - start) // width)
        self.values += [(number >> i * width & (1 << width) - 1, 1) for i in range(there)]
        return start + count // 8 * width if there == count else self.end("cut packed run")

    def end(self, ending):
        self.ending = ending

    def take(self, most):
        """The values taken, as pairs, their count, and the fault if it is told."""
        pairs, count = [], 0
        while self.values and count < most:
            value, times = self.values[0]
            part = min(times, most - count)
            pairs.append((value, part))
            count += part
            self.values[:1] = [(value, times - part)] if part < times else []
        short = count < most
        self.told = self.told or short
        return pairs, count, self.ending if short and not isinstance(self.ending, str) else None


LAYERS = {7: "bits", 9: "column", 10: "column"}


def fault_text(fault, count):
    return f"fault {fault[0]} at {fault[1]} layer {LAYERS[fault[0]]} after {count}"


def read_answers(width, kind, page, ops):
    """For each op its answer, as the program writes it."""
    if width > 64:
        return ["refused 1"]
    waiting = Waiting(width, page)
    if not waiting.opens:
        return [fault_text(waiting.ending, 0)]
    answers = []
    for op in ops:
        if op in TYPES:
            kind = op
            continue
        cells = [MARK] * int(op[1:]) if op[0] == "b" else []
        if op[0] != "s" and TYPES[kind] < width:
            said = "refused 6"
        else:
            most = int(op[1:] or 1)
            pairs, count, fault = waiting.take(most)
            if op[0] == "b":
                cells[:count] = [made(kind, v) for v, times in pairs for _ in range(times)]
            if fault:
                said = fault_text(fault, count)
            elif op == "g":
                said = f"v {made(kind, pairs[0][0])}" if pairs else "none"
            else:
                said = f"{'n' if op[0] == 'b' else 's'} {count}"
        answers.append(" ".join([said + ":", *map(str, cells)]) if op[0] == "b" else said)
    return answers


# The digests of a sweep.


def page_numbers(width, page):
    if width > 64:
        return [1, 0]
    waiting = Waiting(width, page)
    if not waiting.opens:
        number, place = waiting.ending
        return [number, 0, place]
    numbers = []
    for most in (16, 2**64 - 1, 1):
        pairs, count, fault = waiting.take(most)
        values = [v for v, times in pairs for _ in range(times)] if most <= 16 else []
        if fault:
            numbers += [fault[0], count, fault[1]]
        else:
            numbers.append(count if most > 1 else sum(values))
        if most == 16:
            numbers += values + [MARK] * (16 - count)
    return numbers


def digest(numbers):
    hash = 0xCBF29CE484222325
    for n in numbers:
        hash = (hash ^ n) * 0x100000001B3 & 2**64 - 1
    return hash


def pages_of(first):
    return [bytes([first]), *(bytes([first, second]) for second in range(256))]


def sweep(width):
    yield f"- {digest(page_numbers(width, b''))}"
    for first in range(256):
        yield f"{first:02X} {digest(n for page in pages_of(first) for n in page_numbers(width, page))}"


def answer(line):
    if line in REFUSED:
        return "? not understood"
    command, *words = line.split()
    if command == "sweep":
        return "\n".join(sweep(int(words[0])))
    if command == "read":
        return "; ".join(read_answers(int(words[0]), words[1], unhexed(words[2]), words[3:]))
    width, room = int(words[0]), int(words[1])
    if width > 64:
        return "1"
    answers, encoder, _, _ = written(width, room, words[2:])
    page = encoder.page()
    return " ".join([*answers, "->", str(len(page)), hexed(page), "clear"])


# The cases.


def unlike(width, count, start=1):
    """Values each unlike its neighbour."""
    return [(start + i * 0x9E3779B97F4A7C15 ^ i) % 2**width ^ i % 2 if width > 1 else i % 2**width for i in range(count)]


def listed(values):
    text = ",".join(map(str, values))
    return text if "," in text else text + ","


def write_cases():
    """Pairs of a width and ops, each to be written into a buffer with room."""
    yield 3, [listed(range(8)), "5*9"]
    yield 3, [*map(str, range(8)), *["5"] * 8, "x1"]
    yield 3, ["1", "2"]
    yield 3, []
    for count in (503, 504, 505, 506, 512, 1008, 1009):
        yield 7, [listed(i % 100 for i in range(count))]
    for width in (0, 1, 2, 7, 8, 9, 15, 16, 17, 31, 32, 33, 63, 64):
        top = 2**width - 1
        yield width, [str(top)]
        yield width, [listed(unlike(width, 20)), f"{top}*9", listed(unlike(width, 3)), "0*30", listed(unlike(width, 8))]
        yield width, [f"{top}*8", "x1000000", listed(unlike(width, 9, 5)), "x1"]
    for count in (7, 8, 9, 15, 16, 17, 503, 504, 505):
        yield 5, [f"9*{count}"]
        yield 5, [f"9*{count}", "1"]
        yield 5, [listed(range(8)), f"9*{count}"]
        yield 5, [listed(range(8)), f"9*{count}", listed([1, 2, 3])]
        yield 5, [listed([1, 2, 3]), f"9*{count}", "1"]
        yield 5, [f"9*{count}", f"1*{count}"]
    for groups in (62, 63, 64):
        yield 6, [listed(i % 50 for i in range(8 * groups)), "7*8"]
        yield 6, [listed(i % 50 for i in range(8 * groups)), "7*7"]
        yield 6, [listed(i % 50 for i in range(8 * groups)), "7*20", listed(range(12))]
    # values 0 first: nothing was put before them
    yield 4, ["0"]
    yield 4, ["0*7", "1"]
    yield 4, ["0*8", "1", "0*8"]
    # the last value of a group goes on in the next
    yield 4, [listed([1, 2, 3, 4, 5, 6, 7, 9]), "9*7"]
    yield 4, [listed([1, 2, 3, 4, 5, 6, 7, 9]), "9*8", "9*8"]
    for count in (63, 64, 8191, 8192, 2**20 - 1, 2**20, 2**27 - 1, 2**27, MOST):
        yield 8, ["200*8", f"x{count - 8}"]
    rng = random.Random(7)
    for _ in range(40):
        width, ops = rng.choice([0, 1, 2, 3, 5, 8, 11, 16, 20, 32, 40, 64]), []
        for _ in range(rng.randrange(1, 7)):
            value = rng.randrange(2**width)
            ops.append(rng.choice([str(value), f"{value}*{rng.choice([3, 7, 8, 9, 24])}",
                                   listed(rng.randrange(2**width) for _ in range(rng.choice([0, 2, 8, 13])))]))
        yield width, ops


def refused_writes():
    """Whole lines, where something is refused."""
    # the need falls
    yield "write 3 2 5 5 6 5"
    yield "write 3 2 5*7 6 5 6 x1 5"
    yield "write 8 3 1 2 1*6"
    # and it rises with the eighth equal value behind an open run of width 1
    for width in (1, 2, 3, 8):
        yield from (f"write {width} {2 * width + more} 0,1,0,1,0,1,0,1 1*8 1 0 x1 1" for more in (1, 2, 3))
    # too short by one, just long enough, and longer
    tight = [(3, "0,1,2,3,4,5,6,7 5*9"), (3, "1 2"), (3, "5"), (7, listed(i % 100 for i in range(505)))]
    tight += [(64, "18446744073709551615*8 1"), (16, "7*63 7 8"), (0, "0*9"), (33, "1,2,3,4,5,6,7,8 9*8 x90")]
    for width, ops in tight:
        encoder = written(width, 2**16, ops.split())[1]
        length, most = len(encoder.page()), encoder.most_needed
        yield from (f"write {width} {room} {ops}" for room in sorted({0, length - 1, length, most - 1, most, most + 3}))
    # few values and little room
    rng = random.Random(11)
    for _ in range(60):
        width, room = rng.choice([1, 2, 3, 8, 9, 17]), rng.randrange(2, 14)
        draws = [rng.choice([1, 1, 1, 2, 3]) * (width > 1) or rng.randrange(2) for _ in range(rng.randrange(4, 40))]
        yield f"write {width} {room} " + " ".join(map(str, draws))
    # 3 before 4 before 2
    yield "write 3 0 8 7 18446744073709551615 ,"
    yield "write 0 1 1 0 0 1"
    yield "write 63 20 9223372036854775808 9223372036854775807"
    yield f"write 3 6 5*8 x{MOST - 8} 5 6 8 5 5, 8, , x0 x1"
    yield f"write 3 64 5*8 x{MOST - 9} 5 5 5,5 x0"
    yield f"write 3 64 5*8 x{MOST - 9} 6 6 8"
    yield f"write 3 5 5*8 x{MOST - 8}"
    yield f"write 3 6 5*8 x{MOST - 9} 6 5"
    # a list stops at the first refused
    yield "write 3 64 1,2,9,3 , 4, 8,8 5"
    yield "write 3 4 1,2,3,4,5,6,7,0,1 , 2,2 3"
    yield "write 3 4 9*4 5*4 9*2"
    # extending: 5, then 4, then 2
    yield "write 3 64 x0 x5 5*7 x0 x1 5 x0 x1 6 x1 x0"
    yield f"write 3 64 x{2**64 - 1} 5*8 x{2**64 - 1} x{MOST - 7} x{MOST - 8} x1"
    yield f"write 8 2 9*8 x55 x1 x0 x{MOST} 9 8 9,"
    yield "write 8 3 9*8 x56 x8127 x1"
    yield f"write 8 0 x1 9 x{2**64 - 1}"
    # widths
    yield from (f"write {width} 8 1" for width in (65, 66, 255, 256, 4294967295))
    # elements of every type: their patterns count
    yield "write 32 64 i32:4294967295 i32:2147483648 i64:4294967295 i64:4294967296 i64:18446744073709551615 u32:4294967295"
    yield "write 31 64 i32:4294967295 i32:2147483647 u8:255 u16:65535 u32:2147483648"
    yield "write 64 128 i64:18446744073709551615 i64:9223372036854775808 i32:4294967295 head:65535 u8:0 u16:1 u32:2"
    yield "write 16 64 head:51217 head:1 head:65535 u8:7 u16:65535 i32:4294967295 i32:51217 51217"
    yield "write 15 64 head:32767 head:32768 head:0"
    yield "write 16 64 head:258 258 i32:258 u16:258 i64:258 u32:258 u64:258 head:258 x3 head:259"
    # longer patterns are cut to the type
    yield "write 8 64 u8:300 u16:65837 u32:4294967340 i32:4294967340 head:65580 u64:300"


VLQ_ENDS = ["00", "01", "02", "7F", "80", "8000", "8001", "FF", "FFFF"]


def read_cases():
    # known pages
    yield "read 3 u8 0388C6FA1205 b20 g"
    yield "read 3 u64 03110000 b9 g g"
    yield "read 3 u8 0388 g g g g"
    yield "read 3 u8 0388 b5 b5 g s3"
    yield "read 3 u8 02 g"
    # header 0, no groups, long headers
    pages = "00 000205 8000 80000205 8080800002 0205000205 020500 01 0101 010205 01010388C6FA 0102 0100 84000502"
    pages += " 85000388C6FA112233445566 8280808080808080800005 828080808080808080800005 0288 02FF 1005 0405020604 -"
    for page in pages.split():
        yield f"read 3 u8 {page} g g g g g"
        yield f"read 3 u8 {page} b0 b3 b20 b1 s1 g"
        yield f"read 3 u8 {page} s2 s1000 g b2"
    # VLQs of ten bytes and more, as the head and behind a run
    for low in ("80", "FF"):
        for end in VLQ_ENDS:
            yield f"read 3 u8 {low * 9}{end} g g b3 s2"
            yield f"read 3 u8 0405{low * 9}{end} g g g g b0 b3 s0 s2"
    # runs of the most values and of one more, packed and repeated
    headers = "FFFFFFFF01 8180808002 FEFFFFFF0F 8080808010 8080808020 81808080808080808001"
    headers += " FFFFFFFFFFFFFFFFFF01 FEFFFFFFFFFFFFFFFF01 80808080808080808001"
    for header in headers.split():
        for width, tail in ((0, ""), (3, ""), (3, "05"), (3, "050607"), (16, "05")):
            yield f"read {width} u16 {header}{tail} b3 s4294967296 g b2"
            yield f"read {width} u16 0407{'00' if width > 8 else ''}{header}{tail} b2 b0 g b2 s5 b1 g"
    # a fault stays, and so does the end; nothing asked, nothing told
    yield "read 3 u8 020502 g g g b1 s1 g"
    yield "read 3 u8 020502 b0 b1 b0 b2 b0 s0 s1 b3 g"
    yield "read 3 u8 020502 s1 s0 s1 s1 g"
    yield "read 3 u8 020502 b4 b4 s2"
    yield "read 3 u8 020502 s9 g"
    yield "read 3 u8 0205 g g g b0 b2 s0 s9"
    yield "read 3 u8 06050388C6FA02 b11 b1 b1"
    yield "read 3 u8 06050388C6FA02 b10 b5 g"
    yield "read 3 u8 06050388C6FA02 s3 b9 g"
    yield "read 3 u8 06050388C6FA02 s11 g b1"
    # cut packed runs: whole values, then the end, and bytes left over are no header
    yield "read 16 u16 03341202 g g g"
    yield "read 16 u16 03341202 b4 b4 g"
    yield "read 16 u16 03341202 s1 s1 g"
    yield "read 16 u16 033412020500 b4 g"
    yield "read 64 u64 0388776655443322110205 b2 g g"
    yield "read 9 u16 0500FF00FF00FF00FF00FF00FF00FF b3 g g s2 b9 b9"
    # width 0: nothing is stored and nothing is cut
    yield "read 0 u8 03 b9 g"
    yield "read 0 u8 0205 g g g g g g g"
    yield "read 0 u64 0A b3 s1 b3 g"
    yield "read 0 i32 FFFFFFFF01 s2147483640 g"
    yield "read 0 i32 FEFFFFFF0F s2147483646 g g"
    yield "read 0 u8 0300 b20 g"
    # a stored value keeps all its bits
    yield "read 3 u8 04FF g g"
    yield "read 9 u16 04FFFF b3"
    yield "read 17 u32 04FFFFFF b3"
    yield "read 63 u64 04FFFFFFFFFFFFFFFF b3"
    yield "read 3 u8 03FFFFFF b9"
    # elements that are too narrow are refused before everything
    yield "read 9 u8 040100 g b2 b0 u16 g u8 g s1 g b1 u16 g b2"
    yield "read 9 u8 0401000400 g u16 b3 u8 g b1 u16 g"
    yield "read 17 head 04010000 g b1 u32 g head b0 i32 g"
    yield "read 33 i32 040100000000 g i64 g i32 s1 g"
    yield "read 64 u32 02FFFFFFFFFFFFFFFF g b1 i64 g u64 g"
    yield "read 16 u8 - g b2 b0 s1 u16 g b2"
    # one column in elements of several types
    yield "read 16 head 0AC811 g u16 g i32 g i64 g head b2"
    yield "read 32 u32 08FFFFFFFF g i32 g i64 g u64 g g"
    yield "read 64 i64 08FFFFFFFFFFFFFFFF g u64 g i64 b3"
    yield "read 8 u8 0AFF g u16 g head g i32 g i64 b2"
    yield "read 16 head 0301010202030304040505060607078000 b9"
    yield "read 32 i32 03FFFFFFFF00000080FFFFFF7F0100000002000000030000000400000005000000 b3 u32 b3 i64 b3"
    # widths
    yield from (f"read {width} u64 - g b1 s1" for width in (0, 64, 65, 256, 4294967295))
    yield "read 65 u8 FFFFFFFFFFFFFFFFFFFFFF g"


def read_back_cases(pages):
    """Every prefix of several pages, and each written page by single values, batches and skips."""
    whole = [
        (3, "u8", "0388C6FA1205"),
        (3, "u8", "03110000"),
        (0, "u8", "03FE010305"),
        (1, "u8", "055A3C0801"),
        (16, "head", "033412CDAB0000010002000300040005000404000B0380808080"),
        (9, "u16", "0501020304050607080910111213141516171806FF01"),
        (33, "i64", "020102030405" + "03" + "F0" * 33),
        (64, "u64", "04" + "1122334455667788" + "03" + "FE" * 64),
    ]
    for width, kind, page in whole:
        for end in range(0, len(page), 2 if len(page) < 100 else 10):
            yield f"read {width} {kind} {page[:end] or '-'} b4 g b20 g"
    yield from (f"read 3 u8 {'0388C6FA1205'[:end] or '-'} g g g g g g g g g s3 g g" for end in range(0, 14, 2))
    kinds = list(TYPES)
    for i, (width, page) in enumerate(pages):
        if len(page) <= 1100:
            fitting = [k for k in kinds if TYPES[k] >= width]
            kind, other = fitting[i % len(fitting)], fitting[-1 - i % len(fitting)]
            shape = [f"b7 g b40 {other} g s3 b2 g", "g g s9 g b33 g s100 g", f"b1 s8 b8 {other} b9 s1 b16 b65"][i % 3]
            yield f"read {width} {kind} {hexed(page)} {shape} s4294967296 g"


def all_lines():
    writes = list(write_cases())
    encoders = [written(width, 2**16, ops)[1] for width, ops in writes]
    pages = [(encoder.width, encoder.page()) for encoder in encoders]
    rooms = [encoder.most_needed + i % 3 for i, encoder in enumerate(encoders)]
    yield "# pages written"
    yield from (f"write {width} {room} {' '.join(ops)}".strip() for room, (width, ops) in zip(rooms, writes))
    yield from ["", "# refused", *refused_writes(), "", "# pages read", *read_cases()]
    yield from ["", "# written pages and their beginnings", *read_back_cases(pages)]
    yield from ["", "# every page of up to two bytes", *(f"sweep {width}" for width in (0, 1, 3, 8))]
    yield from ["", "# not understood", *REFUSED]


def cases(lines):
    return [line for line in lines if line and not line.startswith("#")]


# The comparison with the Rust.

WRITING = {
    2: "the buffer grows",
    3: "a value of 2^w and more spills",
    4: "a list has no longest length",
    5: "an extension is not checked",
}
READING = {
    7: "a header is cut to 64 bits",
    9: "a count is cut to 32 bits",
    10: "a cut repeated value is forgotten",
    "header 0": "header 0 is read past",
    "cut packed run": "a cut packed run is no end",
}
ELEVENTH = "an eleventh byte panics"
NARROW = "a narrow element is truncated or panics"


class Oracle:
    def __init__(self, path):
        self.process = subprocess.Popen([path], stdin=subprocess.PIPE, stdout=subprocess.PIPE, text=True)

    def ask(self, line):
        self.process.stdin.write(line + "\n")
        self.process.stdin.flush()
        return self.process.stdout.readline().rstrip("\n")

    def close(self):
        self.process.stdin.close()
        self.process.wait()


def compare_write(oracle, words):
    """Triples of a request that the Rust answers otherwise, both answers, and the name of the difference."""
    width, room, ops = int(words[0]), int(words[1]), words[2:]
    if width > 64:
        return
    _, encoder, accepted, refusals = written(width, room, ops)
    page = encoder.page()
    asked = " ".join(["rle-enc", str(width), *accepted])
    said = oracle.ask(asked)
    if said != hexed(page).lower():
        yield asked, said, hexed(page).lower(), None
    if refusals:
        # the same calls, with those that are refused here
        every = []
        for how, what in map(write_op, ops):
            every += map(str, what) if how == "list" else [f"x{what}" if how == "extend" else str(what)]
        asked = " ".join(["rle-enc", str(width), *every])
        said = oracle.ask(asked)
        if said != hexed(page).lower():
            yield asked, said, f"refused {min(refusals)}", " / ".join(WRITING[r] for r in sorted(refusals))


def rust_said(field, kind, op):
    """An answer of the Rust in the program's words; `fault` for an error or a panic."""
    failed = field.startswith(("err ", "panic "))
    if op[0] == "b":
        shown = field.split(" ~ ")[1].split() if " ~ " in field else field.split()[2:]
        fill = made(kind, int("A5" * 8 if kind[0] != "i" else "5A" * 8, 16))
        cells = [made(kind, int(v)) for v in shown]
        marked = [MARK if v == fill else v for v in cells] + [MARK] * (int(op[1:]) - len(cells))
        return " ".join(["fault:" if failed else f"n {field.split()[1]}:", *map(str, marked)])
    return "fault" if failed else f"v {made(kind, int(field[2:]))}" if field[0] == "v" else field


def compare_read(oracle, words):
    width, kind, page = int(words[0]), words[1], unhexed(words[2])
    if width > 64:
        return
    # a head reading is the u16 of its pattern, and the Rust has one type for all calls: single requests for each type
    kinds, ops = [], []
    for op in words[3:]:
        if op in TYPES:
            kind = op
        else:
            kinds.append(kind)
            ops.append(op)
    for kind in sorted(set(kinds) or {kind}):
        plain = "u16" if kind == "head" else kind
        yield from compare_calls(oracle, width, plain, page, ops)


def reading_name(ending, page):
    """The known difference that an ending can lead to."""
    if isinstance(ending, str):
        return READING.get(ending)
    return ELEVENTH if ending[0] == 7 and page[ending[1] + 9] > 127 else READING[ending[0]]


def compare_calls(oracle, width, kind, page, ops):
    asked = " ".join(["rle-dec", str(width), kind, hexed(page).lower(), *ops])
    opening, *fields = oracle.ask(asked).split("\t")
    waiting = Waiting(width, page)
    name = reading_name(waiting.ending, page)
    if not waiting.opens:
        # a cut repeated value is no difference here: the Rust's opening is an error too
        if not opening.startswith("err "):
            yield asked, opening, fault_text(waiting.ending, 0), name if waiting.ending[0] != 10 else None
        return
    if opening != "ok":
        yield asked, opening, "opens", None
        return
    for i, (op, field, here) in enumerate(zip(ops, fields, read_answers(width, kind, page, ops))):
        if op[0] != "s" and TYPES[kind] < width:
            # the Rust truncates such an element, or panics: nothing behind it is alike
            yield asked, field, here, NARROW
            return
        before, told = waiting.told, waiting.take(int(op[1:] or 1))[2]
        said = rust_said(field, kind, op)
        # the Rust tells a fault without its number, place and count; the cells are compared
        mine = here if not told else " ".join(["fault:", here.split(": ")[1]]) if op[0] == "b" and int(op[1:]) else "fault"
        if said != mine:
            # up to the values' end nothing may differ, and a cut repeated value is told once
            known = before if name == READING[10] else waiting.told
            yield f"{asked} (call {i + 1})", field, here, name if known else None
            return


def compare_sweep(oracle, words):
    for page in [b"", *(page for first in range(256) for page in pages_of(first))]:
        yield from compare_calls(oracle, int(words[0]), "u64", page, ["b16", f"s{2**64 - 1}", "g"])


def compare(path):
    oracle, asked, unknown, counts = Oracle(path), Counter(), 0, Counter()
    how = {"write": compare_write, "read": compare_read, "sweep": compare_sweep}
    for line in cases(all_lines()):
        command, *words = line.split()
        if line in REFUSED:
            continue
        asked[command] += 1
        shown = Counter()
        for request, rust, here, name in how[command](oracle, words):
            counts[name] += 1
            unknown += name is None
            shown[name] += 1
            if name is None or command != "sweep" or shown[name] == 1:
                print(f"{name or 'UNKNOWN'}: {request[:200]}\n    the Rust: {rust[:200]}\n    here: {here[:200]}")
        if command == "sweep":
            print(f"{line}: " + ", ".join(f"{n} under '{name}'" for name, n in sorted(shown.items(), key=str)))
    oracle.close()
    print(f"compared {asked['write']} write, {asked['read']} read and {asked['sweep']} sweep cases; otherwise answered:")
    for name, n in sorted(counts.items(), key=str):
        print(f"    {n:6} {name or 'UNKNOWN'}")
    return 1 if unknown else 0


if __name__ == "__main__":
    if sys.argv[1:2] == ["compare"]:
        sys.exit(compare(sys.argv[2]))
    lines = list(all_lines())
    print("\n".join(map(answer, cases(lines)) if sys.argv[1:] == ["answers"] else lines))
