#!/usr/bin/env python3
"""Makes random cases, gives them to packminder and to whole_history.py, and compares what they print.

    tests/random_cases.py PROGRAM [CASES [RECORDS [SEED]]]

Ends with a count, and with status 1 where a case differs (the case is then written to differs.bin in the current folder).
"""
import random
import struct
import subprocess
import sys

sys.path.insert(0, __file__.rsplit("/", 1)[0] if "/" in __file__ else ".")
import whole_history as second


def near(rng, value, low=0, high=65535):
    return max(low, min(high, value + rng.choice([-1, 0, 0, 1])))


def pack_sheet(levels, degrees, rows, steps, ratios, delays):
    image = bytes([1, 5, 1, 22, 22, 0, 2, 12, 44, 0, 3, 42, 56, 0, 4, 12, 98, 0, 5, 4, 110, 0])
    image += struct.pack("<11H", *levels) + struct.pack("<11bB", *degrees)
    for row in rows:
        image += struct.pack("<3H", *row)
    image += struct.pack("<4H4B", *steps, *ratios) + struct.pack("<2H", *delays)
    return image + struct.pack("<H", sum(image))


def good_sheet(rng):
    overdrop = rng.choice([0, 100, rng.randint(0, 3000)])
    trip = rng.choice([0, 2800, rng.randint(0, 4500)])
    full = rng.choice([4150, rng.randint(0, 5000)])
    levels = [trip, rng.randint(trip, 5000), rng.randint(0, 5000), overdrop, rng.choice([4500, rng.randint(0, 5000)]), rng.choice([0, 2000, 20000]), rng.choice([0, 4000, 20000]), full, rng.choice([0, 100, 5000]), rng.choice([0, 60, 20000]), rng.getrandbits(16) & 0xDFFF]
    edges = sorted(rng.choice([rng.randint(-128, 127), rng.randint(-10, 60)]) for _ in range(8))
    degrees = edges + [rng.randint(30, 90), rng.randint(40, 127), rng.randint(40, 127), rng.choice([0, 3, 20, rng.randint(0, 20)])]
    rows = []
    for _ in range(7):
        level = rng.choice([rng.randint(overdrop, 5000), max(overdrop, rng.randint(4000, 4400))])
        rows.append((rng.choice([0, 1000, 20000, rng.randint(0, 3000)]), rng.randint(0, level), level))
    steps = sorted(rng.choice([rng.randint(0, 5000), rng.randint(3500, 4300)]) for _ in range(4))
    ratios = sorted((rng.randint(0, 16) for _ in range(4)), reverse=True)
    enabled = rng.choice([0x1FFF, 0x1FFF, rng.getrandbits(13)])
    delays = [rng.choice([0, 0x42B5, rng.getrandbits(16)]), enabled]
    return pack_sheet(levels, degrees, rows, steps, ratios, delays)


def spoiled(rng, image):
    data = bytearray(image)
    kind = rng.randrange(5)
    if kind == 0:
        return bytes(data[: rng.randrange(116)])
    if kind == 1:
        data[rng.randrange(116)] = rng.randrange(256)
        return bytes(data)
    for _ in range(rng.randint(1, 3)):
        at = rng.randrange(22, 114)
        data[at] = rng.choice([0, 255, rng.randrange(256), (data[at] + rng.choice([1, 255])) % 256])
    if kind == 2:
        data[rng.randrange(22)] = rng.choice([0, 1, 5, rng.randrange(256)])
    return bytes(data[:114]) + struct.pack("<H", sum(data[:114]))


def reading(rng, s):
    delay = s.delay(rng.choice(list(second.TABLES)))
    elapsed = rng.choice([rng.randint(1, 1000), min(60000, near(rng, delay, 1, 60000)), min(60000, max(1, delay // rng.randint(1, 4))), rng.randint(1, 60000)])
    row = rng.choice(s.rows)
    voltage = min(6000, near(rng, rng.choice([s.trip, s.release, s.shutdown, row[2], max(0, row[2] - s.overdrop), s.full, max(0, s.full - s.fulldrop), s.permover, rng.choice(s.steps), s.trip + 50 * (s.chgcfg >> 9 & 15), rng.randint(0, 6000)])))
    current = near(rng, rng.choice([0, s.chargeover, -s.dischargeover, s.fullcurrent, rng.randint(-25000, 25000)]), -32768, 32767)
    degree = rng.choice(s.edges + [s.toohotd, s.permhot, s.edges[0] + s.hysteresis, s.edges[7] - s.hysteresis, s.toohotd - s.hysteresis, rng.randint(-128, 127)])
    cell = near(rng, rng.choice([degree * 256, rng.randint(-2000, 16000)]), -32768, 32767)
    die = near(rng, rng.choice([s.diehot * 256, (s.diehot - s.hysteresis) * 256, rng.randint(-32768, 32767)]), -32768, 32767)
    return struct.pack("<BBHHhhh", 0x52, rng.randrange(2), elapsed, voltage, current, cell, die)


def record(rng, s):
    kind = rng.random()
    if kind < 0.62:
        data = reading(rng, s)
    elif kind < 0.74:
        data = b"W" + bytes(11)
    elif kind < 0.80:
        data = b"L\0" + struct.pack("<H", near(rng, rng.choice([0, 500, 20000, rng.randint(0, 20001)]))) + bytes(8)
    elif kind < 0.88:
        data = b"S" + bytes([rng.choice([0, 1, 2, 3, 3])]) + bytes(10)
    elif kind < 0.93:
        data = b"C" + bytes(11)
    else:
        data = bytes(rng.randrange(256) for _ in range(12)) if rng.random() < 0.5 else bytes([rng.choice(b"RWLSCXrA\0")]) + bytes(11)
    if rng.random() < 0.05:
        data = bytearray(data)
        data[rng.randrange(12)] ^= 1 << rng.randrange(8)
    return bytes(data)


def case(rng, most):
    image = good_sheet(rng)
    if rng.random() < 0.15:
        image = spoiled(rng, image)
    number, _, sheet = second.judge(image)
    if sheet is None:
        return image
    data = image + b"".join(record(rng, sheet) for _ in range(rng.randint(0, most)))
    return data[: len(data) - rng.choice([0, 0, 0, rng.randint(0, 11)])] if len(data) > 130 else data


def main():
    program = sys.argv[1]
    cases, most, seed = (int(x) for x in (sys.argv[2:] + ["1000", "200", "1"][len(sys.argv) - 2:]))
    rng = random.Random(seed)
    for n in range(cases):
        data = case(rng, most)
        ours = subprocess.run([program], input=data, capture_output=True, check=True).stdout.decode().split("\n")[:-1]
        if ours != list(second.lines(data)):
            open("differs.bin", "wb").write(data)
            print(f"case {n} of seed {seed} differs: see differs.bin")
            sys.exit(1)
    print(f"{cases} cases, 0 differ")


main()
