"""The cases that the program bitcases is run on, and the answers that it must give.

    python3 tools/bit_cases.py cases   > crates/bitcases/stdin
    python3 tools/bit_cases.py answers > crates/bitcases/stdout

The answers are computed here from what VLQ, zigzag and packed values mean, over Python's integers. They never come from
the program.
"""
import sys
from itertools import product

# Lines that cannot be understood, and why.
REFUSED = {
    "vlq": "bad number",
    "vlq 18446744073709551616": "bad number",
    "vlq -1": "bad number",
    "zigzag 9223372036854775808": "bad number",
    "zigzag -9223372036854775809": "bad number",
    "readvlq 3 01 02": "place behind the data",
    "readvlq 0 1G": "bad number",
    "readvlq 0 100": "bad number",
    "pack 65 0 1": "width above 64",
    "pack 3 8 1": "lead above 7",
    "pack 0 0 1": "value not below 2^width",
    "pack 3 0 7 8": "value not below 2^width",
    "pack 63 0 9223372036854775808": "value not below 2^width",
    "pack 1 0" + " 1" * 129: "too many values",
    "batch 65 0 u8 1 00": "width above 64",
    "batch 3 0 u128 1 00": "unknown cell type",
    "batch 3 0 u8 129 00": "too many values",
    "flip 1": "unknown command",
}


def hexed(page):
    return " ".join(f"{byte:02X}" for byte in page)


def vlq(n):
    return [n & 127 | 128] + vlq(n >> 7) if n > 127 else [n]


def read_vlq(page, at):
    value = 0
    for i, byte in enumerate(page[at:at + 10]):
        value |= (byte & 127) << 7 * i
        if byte < 128:
            return f"{value} in {i + 1}" if value < 2**64 else f"fault 7 at {at}, layer bits"
    return f"fault {7 if len(page) > at + 10 else 8} at {at}, layer bits"


def pack(width, lead, values):
    number = sum(v << lead + i * width for i, v in enumerate(values))
    page = number.to_bytes((lead + len(values) * width + 7) // 8, "little")
    return " ".join([hexed(page) or "-", "->", *map(str, values)])


def batch(width, lead, cell, cells, page):
    number, bits = int.from_bytes(page, "little"), 8 * len(page)
    start = lead if lead <= bits else 0
    count = min(cells, (bits - start) // width) if width else cells
    kept = 2 ** min(width, int(cell[1:])) - 1
    shown = [number >> start + i * width & kept for i in range(count)] + [9] * (cells - count)
    return " ".join([f"{count}:", *map(str, shown), f"next {(start + count * width + 7) // 8}"])


def answer(line):
    if line in REFUSED:
        return "? " + REFUSED[line]
    command, *words = line.split()
    if command == "vlq":
        page = vlq(int(words[0]))
        return f"{hexed(page)} -> {read_vlq(page + [255, 255], 0)}"
    if command == "readvlq":
        return read_vlq([int(w, 16) for w in words[1:]], int(words[0]))
    if command == "zigzag":
        return f"{int(words[0]) << 1 ^ int(words[0]) >> 63} -> {words[0]}"
    if command == "pack":
        return pack(int(words[0]), int(words[1]), [int(w) for w in words[2:]])
    return batch(int(words[0]), int(words[1]), words[2], int(words[3]), [int(w, 16) for w in words[4:]])


def vlq_cases():
    edges = {0, 1, 300, 2**32 - 1, 2**32, 2**63, 2**64 - 1, *(2 ** (7 * k) - d for k in range(1, 10) for d in (0, 1))}
    yield from (f"vlq {n}" for n in sorted(edges))
    largest = vlq(2**64 - 1)
    tenths = [[0], [1], [2], [0x7F], [0x80], [0x80, 0], [0xFF], [0xFF, 0xFF]]
    pages = [[0x84, 0], [0x80, 0], [0x80] * 8 + [0], *(largest[:k] for k in range(11))]
    pages += [[low] * 9 + tenth for low, tenth in product([0x80, 0xFF], tenths)]
    yield from (f"readvlq {at} {hexed([0x7F, 0x80][:at] + page)}".strip() for page in pages for at in (0, 2))
    yield from (f"readvlq {at} AC 02 07" for at in range(4))


def pack_cases():
    yield from ["pack 3 0 0 1 2 3 4 5 6 7", "pack 3 5", "pack 3 0"]
    third = (2**64 - 1) // 3
    for width, lead in product([0, 1, 7, 8, 31, 32, 33, 63, 64], range(8)):
        values = [v % 2**width for v in (0, 1, 3 * third, third, 2 * third, 0, 2 * third, third, 3 * third, 1)]
        yield f"pack {width} {lead} " + " ".join(map(str, values))


def batch_cases():
    yield from ["batch 3 0 u8 8 88 C6 FA", "batch 3 3 u8 8 88 C6 FA", "batch 3 0 u8 2", "batch 0 5 u16 2"]
    widths, counts = [0, 1, 3, 7, 8, 9, 13, 16, 31, 32, 33, 57, 58, 63, 64], [0, 1, 7, 8, 9, 16, 17, 33, 65]
    for (r, width), (c, cells) in product(enumerate(widths), enumerate(counts)):
        lead, cell = (r + c) % 8, ["u8", "u16", "u32", "u64"][(r // 2 + c) % 4]
        size = (lead + cells * width + 7) // 8
        # pages that hold just the values, a few bytes more, or too few, so that they end inside a value
        size = [size, size + 3, max(size - 1, 0), size * 2 // 3][(r + c // 2) % 4]
        page = [(37 * j * j + 101 * j + 59 * r + 7 * c) % 256 for j in range(size)]
        yield f"batch {width} {lead} {cell} {cells} {hexed(page)}".strip()


if __name__ == "__main__":
    zigzags = [f"zigzag {n}" for n in (0, -1, 1, -2, 2, 2**31 - 1, -(2**31), 2**63 - 1, -(2**63))]
    lines = ["# VLQ and zigzag", *vlq_cases(), *zigzags, "", "# packed values", *pack_cases(), *batch_cases(), *REFUSED]
    asked = [line for line in lines if line and not line.startswith("#")]
    print("\n".join(map(answer, asked) if sys.argv[1:] == ["answers"] else lines))
