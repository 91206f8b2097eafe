#!/usr/bin/env python3
"""Tries what no contract can speak of: how the programs read and print, at lengths and in pieces that a short stored case has not.

    tests/program_cases.py [CASES [SEED]]

The programs are those that `tools/build packminder compare` builds. `compare` is held to the second pack minder on random pairs of sheets, and to the order
of sheets as docs/order-of-sheets.md has it; then both programs get more records than they read at a time, input that comes a
byte at a time, and output that fails. Ends with a count, and with status 1 at the first case that is not as it should be.
"""
import fcntl
import os
import random
import subprocess
import sys
import time

sys.path.insert(0, os.path.dirname(os.path.abspath(__file__)))
import generator
import second_pack as second

ROOT = os.path.dirname(os.path.dirname(os.path.abspath(__file__)))
AT_A_TIME = 341
FULL = "/dev/full"


def generous(b, a):
    """Whether sheet b is at least as generous as sheet a."""

    def fields(s):
        return [s.delaycfg >> low & ((1 << width) - 1) for low, width, _ in second.TABLES.values()]

    def most(s):
        return s.rows[3][0] * (1 + (s.chgcfg & 63)) // 256

    def given(s, degree):
        current, voltage, level = s.row(degree * 256)
        return (0, 0, level) if abs(s.region(degree * 256)) == 4 else (current, voltage, level)

    def low(s):
        return [s.trip, s.release, s.shutdown, s.overdrop, s.fulldrop, s.fullcurrent, s.chgcfg >> 9 & 15, s.edges[0], s.hysteresis]

    def high(s):
        return [s.permover, s.chargeover, s.dischargeover, s.full, most(s), s.edges[7], s.toohotd, s.diehot, s.permhot] + s.steps + s.ratios + fields(s)

    return (
        all(x <= y for x, y in zip(low(b), low(a)))
        and all(x >= y for x, y in zip(high(b), high(a)))
        and all(x >= y for degree in range(-128, 128) for x, y in zip(given(b, degree), given(a, degree)))
        and b.enabled & ~a.enabled == 0
    )


def good_image(rng):
    return generator.image_of(generator.good_sheet(rng))


def changed(rng, image):
    """The image with a byte or two moved by one, and its sum right."""
    data = bytearray(image)
    for _ in range(rng.randint(0, 2)):
        at = rng.randrange(22, 114)
        data[at] = (data[at] + rng.choice([1, 255])) % 256
    return generator.sealed(data[:114])


def compared(tight, loose, records):
    """What compare is to print."""
    verdicts = [second.judge(image) for image in (tight, loose)]
    lines = [f"{name} {number} {place}" for name, (number, place, _) in zip(("tight", "loose"), verdicts)]
    a, b = (sheet for _, _, sheet in verdicts)
    if a is None or b is None:
        return lines
    lines.append("generous yes" if generous(b, a) else "generous no")
    both = zip(list(second.lines(tight + records))[1:], list(second.lines(loose + records))[1:])
    return lines + [f"{left} | {right}" for left, right in both]


def ran(program, data):
    return subprocess.run([program], input=data, capture_output=True, check=True).stdout.decode().split("\n")


def expect(what, ours, wanted):
    if ours != wanted + [""]:
        at = next((k for k, (x, y) in enumerate(zip(ours, wanted + [""])) if x != y), min(len(ours), len(wanted)))
        sys.exit(f"{what}: line {at + 1} is {ours[at:at + 1]}, and not {wanted[at:at + 1]}")


def random_pairs(program, rng, count):
    seen = {}
    for n in range(count):
        tight = good_image(rng)
        loose = good_image(rng) if rng.random() < 0.1 else changed(rng, tight)
        if rng.random() < 0.1:
            tight = generator.spoiled_image(rng)[:116].ljust(116, b"\0")
        sheet = second.judge(loose)[2] or second.judge(tight)[2]
        records = b"".join(generator.some_records(rng, sheet, rng.randint(0, 20))) if sheet else b""
        wanted = compared(tight, loose, records)
        expect(f"compare, pair {n}", ran(program, tight + loose + records), wanted)
        kind = wanted[2] if len(wanted) > 2 else "refused"
        seen[kind] = seen.get(kind, 0) + 1
    return seen


def slowly(program, data):
    """Gives the input a byte at a time."""
    child = subprocess.Popen([program], stdin=subprocess.PIPE, stdout=subprocess.PIPE)
    for byte in data:
        child.stdin.write(bytes([byte]))
        child.stdin.flush()
        time.sleep(0.0005)
    return child.communicate()[0].decode().split("\n")


def failing(program, data):
    """Nothing can be written, little or much; and then much while the reader is behind and catches up."""
    for part in (data, data + b"W" * 12 * 4000):
        with open(FULL, "wb") as full:
            if subprocess.run([program], input=part, stdout=full, stderr=subprocess.DEVNULL).returncode == 0:
                sys.exit(f"{program}: output that is full passes unnoticed")
    reader, writer = os.pipe()
    fcntl.fcntl(writer, fcntl.F_SETFL, os.O_NONBLOCK)
    child = subprocess.Popen([program], stdin=subprocess.PIPE, stdout=writer, stderr=subprocess.DEVNULL)
    os.close(writer)
    try:
        child.stdin.write(data + b"X" * 12 * 20 * AT_A_TIME)
        child.stdin.flush()
    except BrokenPipeError:
        pass
    time.sleep(0.2)
    lines = 0
    os.set_blocking(reader, False)
    try:
        while piece := os.read(reader, 65536):
            lines += piece.count(b"\n")
    except BlockingIOError:
        pass
    os.set_blocking(reader, True)
    try:
        child.stdin.close()
    except BrokenPipeError:
        pass
    while piece := os.read(reader, 65536):
        lines += piece.count(b"\n")
    os.close(reader)
    if child.wait() == 0 and lines < 20 * AT_A_TIME:
        sys.exit(f"{program}: a write that failed passes unnoticed")


def main():
    count, seed = (int(x) for x in (sys.argv[1:] + ["150", "1"][len(sys.argv) - 1:]))
    packminder, compare = (os.path.join(ROOT, "crates", name, "out", name) for name in ("packminder", "compare"))
    rng = random.Random(seed)
    seen = random_pairs(compare, rng, count)
    image = good_image(rng)
    sheet = second.judge(image)[2]
    records = b"".join(generator.some_records(rng, sheet, 12)) + b"W\0\0"
    tried = 0
    # a record of no kind changes nothing, so that many of them only move those that follow
    for before in (0, AT_A_TIME - 13, AT_A_TIME - 12, AT_A_TIME - 11, AT_A_TIME, 2 * AT_A_TIME, 2 * AT_A_TIME - 12):
        data = b"X" * 12 * before + records
        alone, both = list(second.lines(image + records)), compared(image, image, records)
        first = "7 0 0 0 0 0 0"
        expect(f"packminder, {before} records before", ran(packminder, image + data), alone[:1] + [first] * before + alone[1:])
        expect(f"compare, {before} records before", ran(compare, image + image + data), both[:3] + [f"{first} | {first}"] * before + both[3:])
        tried += 2
    for length in (0, 1, 115, 116, 117):
        expect(f"packminder, {length} bytes", ran(packminder, (image + records)[:length]), list(second.lines((image + records)[:length])))
        tried += 1
    expect("packminder, a byte at a time", slowly(packminder, image + records), list(second.lines(image + records)))
    expect("compare, a byte at a time", slowly(compare, image + image + records), compared(image, image, records))
    tried += 2
    if os.path.exists(FULL):
        failing(packminder, image + records)
        failing(compare, image + image + records)
        tried += 2
    print(f"{count} pairs of sheets ({', '.join(f'{n} {kind}' for kind, n in sorted(seen.items()))}) and {tried} other cases, 0 differ")


if __name__ == "__main__":
    main()
