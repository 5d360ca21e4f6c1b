#!/usr/bin/env python3
"""A house file beside document 01, in words, one record a line.

  records.py show FILE.bin       the file's records in words, each with the place of its first byte
  records.py pack FILE.txt       the bytes of such words, to standard output (places are optional)

It only lays records out: it judges nothing. Whether a file is accepted is for the programs to say."""
import sys

MARKS = {b"NW": "network", b"LK": "link", b"HM": "home", b"BW": "row"}


def two(data, at):
    return data[at] * 256 + data[at + 1]


def show(data):
    n, m, k, wmax = data[2], two(data, 3), data[5], two(data, 6)
    print(f"{0:>5}  network n {n} m {m} k {k} wmax {wmax}")
    at = 8
    while at + 2 <= len(data):
        kind = MARKS.get(bytes(data[at : at + 2]))
        if kind == "link":
            print(f"{at:>5}  link {data[at + 2]} {data[at + 3]} weight {two(data, at + 4)}")
            at += 6
        elif kind == "home":
            print(f"{at:>5}  home of {data[at + 2]} topology {data[at + 3]}")
            at += 4
        elif kind == "row":
            weights = " ".join(str(two(data, at + 3 + 2 * l)) for l in range(m))
            print(f"{at:>5}  row {data[at + 2]} weights {weights}")
            at += 3 + 2 * m
        else:
            print(f"{at:>5}  no record starts here: {data[at : at + 8].hex(' ')}")
            return


def pack(lines):
    out = bytearray()
    for line in lines:
        words = line.split("#")[0].split()
        if words and words[0].isdigit():
            words = words[1:]
        if not words:
            continue
        numbers = [int(w) for w in words if w.isdigit()]
        if words[0] == "network":
            n, m, k, wmax = numbers
            out += b"NW" + bytes([n]) + m.to_bytes(2, "big") + bytes([k]) + wmax.to_bytes(2, "big")
        elif words[0] == "link":
            out += b"LK" + bytes(numbers[:2]) + numbers[2].to_bytes(2, "big")
        elif words[0] == "home":
            out += b"HM" + bytes(numbers)
        elif words[0] == "row":
            out += b"BW" + bytes(numbers[:1]) + b"".join(w.to_bytes(2, "big") for w in numbers[1:])
        else:
            sys.exit(f"not a record: {line.rstrip()}")
    return bytes(out)


if len(sys.argv) == 3 and sys.argv[1] == "show":
    show(open(sys.argv[2], "rb").read())
elif len(sys.argv) == 3 and sys.argv[1] == "pack":
    sys.stdout.buffer.write(pack(open(sys.argv[2])))
else:
    sys.exit(__doc__)
