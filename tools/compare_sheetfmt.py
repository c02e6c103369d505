#!/usr/bin/env python3
"""Compares sheetfmt with a second reading of docs/SHEET.md, on random sheets, good and damaged.

    tools/compare_sheetfmt.py [COUNT] [SEED]

Run it at the top of the repository, after `rt run` in crates/sheetfmt. It shares no code with the crates. The first difference ends it with status 1.
"""
import random
import re
import subprocess
import sys

NUMBER = re.compile(rb"-?[0-9]{1,7}\Z")


class Refused(Exception):
    def __init__(self, number, line):
        self.number, self.line = number, line


def numbers(items, count, line):
    if len(items) != count or not all(NUMBER.match(item) for item in items):
        raise Refused(4, line)
    return [int(item) for item in items]


def in_range(line, *tests):
    if not all(tests):
        raise Refused(5, line)


def expect(text):
    """What sheetfmt must print."""
    try:
        return "\n".join(canonical(text)) + "\n"
    except Refused as refused:
        return f"refused {refused.number} sheet {refused.line}\n"


def canonical(text):
    if len(text) > 16384:
        raise Refused(1, 0)
    parts = text.split(b"\n")
    lines = [(part, True) for part in parts[:-1]] + ([(parts[-1], False)] if parts[-1] else [])
    out = []

    def take(word):
        number = len(out) + 1
        if number > len(lines):
            raise Refused(3, number)
        body, ended = lines[number - 1]
        if not ended or len(body) > 96 or any(b < 32 or b > 126 for b in body):
            raise Refused(2, number)
        if not body.startswith(word + b" "):
            raise Refused(4, number)
        return body[len(word) + 1:], number

    rest, line = take(b"sheet")
    items = rest.split(b" ")
    if len(items) != 5 or items[1] not in (b"strict", b"nonstrict"):
        raise Refused(4, line)
    mode = items[1].decode()
    axes, pieces, orders, rows = numbers([items[0]] + items[2:], 4, line)
    in_range(line, 1 <= axes <= 3, 1 <= pieces <= 24, 0 <= orders <= 32, 0 <= rows <= 64)
    out.append(f"sheet {axes} {mode} {pieces} {orders} {rows}")
    for _ in range(pieces):
        rest, line = take(b"piece")
        found = numbers(rest.split(b" "), 3 * axes, line)
        lengths, ends = found[:axes], found[axes:]
        lowers, uppers = ends[0::2], ends[1::2]
        in_range(line, all(0 <= n <= 1000000 for n in lengths), all(abs(n) <= 1000000 for n in ends), all(a <= b for a, b in zip(lowers, uppers)))
        out.append("piece " + " ".join(map(str, found)))
    for _ in range(orders):
        rest, line = take(b"before")
        a, b, d, gap = numbers(rest.split(b" "), 4, line)
        in_range(line, 0 <= a < pieces, 0 <= b < pieces, a != b, 0 <= d < axes, 0 <= gap <= 1000000)
        out.append(f"before {a} {b} {d} {gap}")
    for _ in range(rows):
        rest, line = take(b"wall")
        if not re.match(rb"[#.]+\Z", rest):
            raise Refused(4, line)
        in_range(line, len(rest) <= 64)
        out.append("wall " + rest.decode())
    if len(lines) > len(out):
        raise Refused(3, len(out) + 1)
    return out


def spell(rng, n):
    """One of the ways to write a number."""
    digits = str(abs(n))
    if rng.random() < 0.1:
        digits = digits.zfill(rng.choice([2, 3, 7, 7, 7]) if rng.random() < 0.98 else 8)
    minus = "-" if n < 0 or (n == 0 and rng.random() < 0.05) else ""
    return minus + digits


def near(rng, low, high):
    """A number of the range, often at an end, now and then just outside."""
    pick = rng.random()
    if pick < 0.01:
        return rng.choice([low - 1, high + 1, -high - 1, 9999999, -9999999])
    return rng.choice([low, high]) if pick < 0.15 else rng.randint(low, high)


def sheet(rng):
    axes = near(rng, 1, 3) if rng.random() < 0.3 else rng.randint(1, 3)
    pieces = near(rng, 1, 24) if rng.random() < 0.1 else rng.randint(1, 4)
    orders = near(rng, 0, 32) if rng.random() < 0.1 else rng.randint(0, 3)
    rows = near(rng, 0, 64) if rng.random() < 0.1 else rng.randint(0, 3)
    mode = rng.choice(["strict", "nonstrict"])
    lines = [f"sheet {spell(rng, axes)} {mode} {spell(rng, pieces)} {spell(rng, orders)} {spell(rng, rows)}"]
    for _ in range(min(max(pieces, 0), 70)):
        lengths = [near(rng, 0, 1000000) if rng.random() < 0.1 else rng.randint(0, 9) for _ in range(min(max(axes, 0), 4))]
        ends = []
        for _ in range(min(max(axes, 0), 4)):
            low = near(rng, -1000000, 1000000) if rng.random() < 0.1 else rng.randint(-9, 9)
            ends += [low, low + rng.randint(-1 if rng.random() < 0.02 else 0, 9)]
        lines.append("piece " + " ".join(spell(rng, n) for n in lengths + ends))
    for _ in range(min(max(orders, 0), 70)):
        a, b = rng.randint(0, max(pieces - 1, 0)), rng.randint(0, max(pieces - 1, 0))
        lines.append(f"before {spell(rng, a)} {spell(rng, b)} {spell(rng, near(rng, 0, axes - 1 if axes > 0 else 0))} {spell(rng, near(rng, 0, 1000000))}")
    for _ in range(min(max(rows, 0), 70)):
        width = near(rng, 1, 64) if rng.random() < 0.2 else rng.randint(1, 8)
        if rng.random() < 0.03:
            width = rng.randint(60, 100)
        lines.append("wall " + "".join(rng.choice("#.") for _ in range(width)))
    return ("\n".join(lines) + "\n").encode()


def damage(rng, text):
    """Some edit of a text."""
    lines = text.split(b"\n")
    at = rng.randrange(len(lines))
    kind = rng.randrange(9)
    if kind == 0:
        del lines[at]
    elif kind == 1:
        lines.insert(at, rng.choice([b"", lines[rng.randrange(len(lines))], b"wall #", b"x"]))
    elif kind == 2 and len(lines) > 1:
        other = rng.randrange(len(lines))
        lines[at], lines[other] = lines[other], lines[at]
    elif kind == 3:
        return text[:rng.randrange(len(text) + 1)]
    elif kind == 4:
        lines[at] = lines[at].replace(b" ", b"  ", 1) if rng.random() < 0.5 else lines[at] + b" "
    elif kind == 5:
        lines[at] = lines[at] + rng.choice([b" 0", b"#", b"." * rng.randint(1, 100), b"0" * rng.randint(1, 90)])
    elif kind == 6:
        return text + b"\n" * rng.choice([1, 17000])
    else:
        place = rng.randrange(len(text))
        byte = rng.choice([rng.randrange(256), *b" -+#.0\n\t~\x7f"])
        return text[:place] + bytes([byte]) + text[place + (kind == 7):]
    return b"\n".join(lines)


def main():
    count = int(sys.argv[1]) if len(sys.argv) > 1 else 5000
    rng = random.Random(int(sys.argv[2]) if len(sys.argv) > 2 else 1)
    seen = {}
    for case in range(count):
        text = sheet(rng)
        for _ in range(rng.choice([0, 0, 1, 1, 2])):
            if text:
                text = damage(rng, text)
        want = expect(text)
        got = subprocess.run(["crates/sheetfmt/out/sheetfmt"], input=text, capture_output=True).stdout.decode()
        if got != want:
            print(f"case {case}: sheetfmt prints\n{got}and should print\n{want}for\n{text!r}")
            sys.exit(1)
        if not want.startswith("refused"):
            again = subprocess.run(["crates/sheetfmt/out/sheetfmt"], input=got.encode(), capture_output=True).stdout.decode()
            if again != got:
                print(f"case {case}: formatted twice, a sheet changes\n{got}\n{again}")
                sys.exit(1)
        key = " ".join(want.split()[:2]) if want.startswith("refused") else "sheet"
        seen[key] = seen.get(key, 0) + 1
    print(f"{count} sheets compared:", ", ".join(f"{key} {seen[key]}" for key in sorted(seen)))


if __name__ == "__main__":
    main()
