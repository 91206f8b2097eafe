#!/usr/bin/env python3
"""Writes an input for packminder to standard output: the sample sheet, then a lifelike mix of records.

    bench/make_input.py RECORDS SEED > FILE

About 90 % are readings and 8 % words from the host; the rest are limits, switch-offs, clears, and a few spoiled records. The pack goes
from one regime to the next (resting, charging, topping off, driving the winch, ...), each with a voltage and a current that the readings
slowly move to, so that faults come and go. The same RECORDS and SEED give the same bytes, and fewer RECORDS give a prefix.
"""
import os
import random
import struct
import sys

SAMPLE = os.path.join(os.path.dirname(os.path.abspath(__file__)), os.pardir, "samples", "sample.sheet")

# Weight, range of the voltage in mV, range of the current in mA, chance that a charger is there, usual count of readings. The last three are
# rare, and leave the usual range of voltages or degrees, for without them shutdown and the permanent faults would never be timed.
REGIMES = (
    (20, (3400, 3900), (-50, 0), 0.5, 300),      # resting
    (25, (3700, 4180), (300, 1200), 1.0, 600),   # charging
    (10, (4160, 4250), (0, 60), 1.0, 500),       # topping off: full
    (6, (4200, 4400), (0, 900), 1.0, 100),       # overcharged
    (6, (3600, 4100), (1800, 2500), 1.0, 100),   # a charger that gives too much
    (20, (3000, 3900), (-3500, -100), 0.0, 400), # driving the winch
    (6, (2900, 3500), (-5000, -3500), 0.0, 100), # a winch that is jammed
    (7, (2700, 2950), (-800, 0), 0.0, 200),      # flat
    (0.5, (2300, 2480), (-50, 0), 0.0, 800),     # left lying until it shuts down
    (0.3, (4520, 4600), (0, 900), 1.0, 100),     # a cell that has failed
)
DEGREES = (-10.0, 70.0)
PERMANENTLY_HOT = (76.0, 80.0)

WORD = b"W" + bytes(11)
CLEAR = b"C" + bytes(11)


def limit(current):
    return struct.pack("<BBH8x", 0x4C, 0, current)


def switch_offs(bits):
    return bytes((0x53, bits)) + bytes(10)


def spoiled(record, chance):
    """A record that is refused, for one of the reasons that there are."""
    kind = int(chance() * 6)
    if kind == 0:
        return b"X" + record[1:]
    if kind == 1:
        return record[:1] + bytes((record[1] | 0x40,)) + record[2:]
    if kind == 2:
        return record[:2] + bytes(2) + record[4:]                       # no time elapsed
    if kind == 3:
        return record[:4] + struct.pack("<H", 6001 + int(chance() * 9000)) + record[6:]
    if kind == 4:
        return limit(20001 + int(chance() * 40000))
    return WORD[:11] + b"\1"


def records(count, seed):
    # Only random() is used: it alone is promised to give the same numbers in every version of Python.
    chance = random.Random(seed).random
    pack = struct.Struct("<BBHHhhh").pack
    total = sum(regime[0] for regime in REGIMES)

    def between(ends):
        return ends[0] + (ends[1] - ends[0]) * chance()

    voltage, current, cell, warmer = 3700.0, 0.0, 22.0, 8.0
    to_voltage, to_current, to_cell = voltage, current, cell
    charger, left, left_cell = 0, 0, 0
    silent = False
    waiting = []                                                        # records that belong together, the next one last
    made = 0
    while made < count:
        made += 1
        if waiting:
            yield waiting.pop()
            continue
        kind = chance()
        if kind > 0.988:
            # Of these, the spoiled records are made of the next reading, below.
            if kind < 0.9916:
                yield limit(20000 if chance() < 0.3 else int(between((100, 1500))))
                continue
            if kind < 0.9944:
                yield switch_offs((0, 0, 0, 1, 2)[int(chance() * 5)])
                continue
            if kind < 0.9956:
                # A service: a clear is taken only while both switches are held off.
                waiting = [switch_offs(0), CLEAR]
                yield switch_offs(3)
                continue
            if kind < 0.9963:
                yield CLEAR
                continue
        elif kind > 0.9 and not silent:
            yield WORD
            continue

        left -= 1
        if left < 0:
            at, index = chance() * total, 0
            while at >= REGIMES[index][0] and index + 1 < len(REGIMES):
                at -= REGIMES[index][0]
                index += 1
            _, voltages, currents, charging, usual = REGIMES[index]
            to_voltage, to_current = between(voltages), between(currents)
            charger = 1 if chance() < charging else 0
            left = int(usual * (0.5 + chance()))
            silent = chance() < 0.06
        left_cell -= 1
        if left_cell < 0:
            to_cell = between(DEGREES if chance() > 0.02 else PERMANENTLY_HOT)
            warmer = between((2.0, 25.0))                               # how much warmer than the cell the die is
            left_cell = int(between((300, 900)))
        voltage += (to_voltage - voltage) * 0.06 + (chance() - 0.5) * 20.0
        current += (to_current - current) * 0.1 + (chance() - 0.5) * 30.0
        cell += (to_cell - cell) * 0.01 + (chance() - 0.5) * 0.2
        pace = chance()
        elapsed = int(240 + 20 * chance()) if pace < 0.9 else 1 + int(2000 * chance())
        record = pack(0x52, charger, elapsed, int(voltage), int(current), int(cell * 256), int((cell + warmer) * 256))
        yield spoiled(record, chance) if kind >= 0.9963 else record


def main():
    if len(sys.argv) != 3:
        sys.exit("usage: make_input.py RECORDS SEED > FILE")
    out = sys.stdout.buffer
    with open(SAMPLE, "rb") as sample:
        out.write(sample.read())
    for record in records(int(sys.argv[1]), int(sys.argv[2])):
        out.write(record)
    out.flush()


if __name__ == "__main__":
    main()
