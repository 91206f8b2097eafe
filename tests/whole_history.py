#!/usr/bin/env python3
"""A second pack minder, written from docs/ alone and by another method.

It reads and prints what `packminder` does, but keeps no running state: every answer is worked out anew from all records
so far. It is slow, and meant only to be compared with.
"""
import sys

TABLES = {  # docs/delays.md
    "uvp": (0, 2, [351, 700, 1400, 2800]),
    "shutdown": (0, 2, [45000, 90000, 180000, 360000]),
    "temp": (2, 2, [351, 700, 1400, 2800]),
    "transition": (2, 2, [4550, 8750, 17150, 34851]),
    "perm": (4, 2, [351, 700, 1400, 2800]),
    "overcurr": (6, 3, [351, 700, 1400, 2800, 5600, 11250, 22500, 45000]),
    "ovp": (9, 2, [351, 700, 1400, 2800]),
    "full": (11, 3, [33000, 67000, 135000, 270000, 540000, 1080000, 2160000, 5760000]),
    "watchdog": (14, 2, [22500, 45000, 90000, 180000]),
}
TIMERS = ["uvp", "shutdown", "ovp", "overcurr", "overcurr", "temp", "temp", "temp", "temp", "full", "watchdog", "perm", "perm"]
BLOCKS_DISCHARGE = {0, 4, 7, 1, 8, 11, 12}
BLOCKS_CHARGE = set(range(13)) - {0, 4, 7}


def word(data, at):
    return data[at] + 256 * data[at + 1]


def signed(value, bits):
    return value - (1 << bits) if value >= 1 << (bits - 1) else value


class Sheet:
    def __init__(self, image):
        self.image = image
        names = "trip release shutdown overdrop permover chargeover dischargeover full fulldrop fullcurrent chgcfg".split()
        for i, name in enumerate(names):
            setattr(self, name, word(image, 22 + 2 * i))
        self.edges = [signed(b, 8) for b in image[44:52]]
        self.toohotd, self.diehot, self.permhot = (signed(b, 8) for b in image[52:55])
        self.hysteresis = image[55]
        self.rows = [tuple(word(image, 56 + 6 * k + 2 * j) for j in range(3)) for k in range(7)]
        self.steps = [word(image, 98 + 2 * k) for k in range(4)]
        self.ratios = list(image[106:110])
        self.delaycfg, self.enabled = word(image, 110), word(image, 112)

    def delay(self, timer):
        low, width, table = TABLES[timer]
        return table[self.delaycfg >> low & ((1 << width) - 1)]

    def region(self, cell):
        return sum(1 for e in self.edges if e * 256 <= cell) - 4

    def row(self, cell):
        return self.rows[max(-3, min(3, self.region(cell))) + 3]


def ranges(s):
    """Yields the place of each field that is out of its range, lowest first."""
    bad = []
    for place, value in [(22, s.trip), (24, s.release), (26, s.shutdown), (28, s.overdrop), (30, s.permover), (36, s.full), (38, s.fulldrop)]:
        if value > 5000:
            bad.append(place)
    for place, value in [(32, s.chargeover), (34, s.dischargeover), (40, s.fullcurrent)]:
        if value > 20000:
            bad.append(place)
    if s.chgcfg & 0x2000:
        bad.append(42)
    if s.hysteresis > 20:
        bad.append(55)
    for k, (current, voltage, level) in enumerate(s.rows):
        if current > 20000:
            bad.append(56 + 6 * k)
        if voltage > 5000:
            bad.append(58 + 6 * k)
        if level > 5000:
            bad.append(60 + 6 * k)
    bad += [98 + 2 * k for k in range(4) if s.steps[k] > 5000]
    bad += [106 + k for k in range(4) if s.ratios[k] > 16]
    if s.enabled & 0xE000:
        bad.append(112)
    return sorted(bad)


def conflicts(s):
    bad = []
    if s.release < s.trip:
        bad.append(24)
    bad += [45 + k for k in range(7) if s.edges[k + 1] < s.edges[k]]
    for k, (_, voltage, level) in enumerate(s.rows):
        if voltage > level:
            bad.append(58 + 6 * k)
        if level < s.overdrop:
            bad.append(60 + 6 * k)
    bad += [100 + 2 * k for k in range(3) if s.steps[k + 1] < s.steps[k]]
    bad += [107 + k for k in range(3) if s.ratios[k + 1] > s.ratios[k]]
    return sorted(bad)


def judge(image):
    """The number and place of the refusal and None, or 0, 0 and the sheet."""
    if len(image) != 116:
        return 1, 0, None
    if image[0] != 1 or image[1] != 5:
        return 2, 0, None
    wanted = [(1, 22, 22), (2, 12, 44), (3, 42, 56), (4, 12, 98), (5, 4, 110)]
    for k, entry in enumerate(wanted):
        at = 2 + 4 * k
        if (image[at], image[at + 1], word(image, at + 2)) != entry:
            return 3, k + 1, None
    if sum(image[:114]) != word(image, 114):
        return 4, 0, None
    s = Sheet(image)
    for number, places in ((5, ranges(s)), (6, conflicts(s))):
        if places:
            return number, places[0], None
    return 0, 0, s


def refusal(data, offs):
    """The refusal of a record under the switch-offs in force, or 0."""
    if len(data) != 12:
        return 11
    letter = chr(data[0])
    if letter not in "RWLSC":
        return 7
    spare = {"R": [data[1] & 0xFE], "W": data[1:], "L": [data[1]] + list(data[4:]), "S": [data[1] & 0xFC] + list(data[2:]), "C": data[1:]}[letter]
    if any(spare):
        return 8
    if letter == "R" and not (1 <= word(data, 2) <= 60000 and word(data, 4) <= 6000):
        return 9
    if letter == "L" and word(data, 2) > 20000:
        return 9
    if letter == "C" and offs != 3:
        return 10
    return 0


def accepted(records):
    """The accepted calls, oldest first, as (letter, record)."""
    calls = []
    for data in records:
        offs = ([d[1] for l, d in calls if l == "S"] or [0])[-1]
        if refusal(data, offs) == 0:
            calls.append((chr(data[0]), data))
    return calls


def readings(calls):
    """Each accepted reading with its place among the calls, and whether a W came since the one before."""
    found, heard = [], False
    for at, (letter, data) in enumerate(calls):
        if letter == "W":
            heard = True
        if letter == "R":
            r = dict(at=at, charger=data[1] & 1, elapsed=word(data, 2), v=word(data, 4), i=signed(word(data, 6), 16), t=signed(word(data, 8), 16), die=signed(word(data, 10), 16), word=heard)
            found.append(r)
            heard = False
    return found


def in_force(s, rs, n):
    """The over-voltage level in force at reading n."""
    levels = [s.row(rs[n]["t"])[2]]
    for k in range(n):
        if sum(r["elapsed"] for r in rs[k + 1:n + 1]) < s.delay("transition"):
            levels.append(s.row(rs[k]["t"])[2])
    return max(levels)


def trips(s, f, r, level):
    h = 256 * s.hysteresis
    v, i, t, die, charger = r["v"], r["i"], r["t"], r["die"], r["charger"]
    return [
        (v < s.trip, v >= s.release),
        (v < s.shutdown and not charger, bool(charger)),
        (v > level, v <= level - s.overdrop),
        (i > s.chargeover, not charger and i <= 0),
        (i < -s.dischargeover, bool(charger) and i >= 0),
        (t < s.edges[0] * 256, t >= s.edges[0] * 256 + h),
        (t >= s.edges[7] * 256, t < s.edges[7] * 256 - h),
        (t >= s.toohotd * 256, t < s.toohotd * 256 - h),
        (die >= s.diehot * 256, die < s.diehot * 256 - h),
        (v >= s.full and 0 <= i <= s.fullcurrent, v < s.full - s.fulldrop),
        (not r["word"], r["word"]),
        (t >= s.permhot * 256, False),
        (v > s.permover, False),
    ][f]


def stands(s, f, seen):
    """Some unbroken stretch of tripping readings lasts for the delay, and no later reading releases the fault."""
    if not s.enabled >> f & 1:
        return False
    need = s.delay(TIMERS[f])
    last_release = max([k for k, (_, _, rel) in enumerate(seen) if rel], default=-1)
    for end in range(len(seen) - 1, -1, -1):
        if last_release > end:
            return False
        total, k = 0, end
        while k >= 0 and seen[k][1]:
            total += seen[k][0]
            k -= 1
        if k < end and total >= need:
            return True
    return False


def prescribe(s, r):
    region = s.region(r["t"])
    if region in (-4, 4):
        return 0, 0
    current, voltage, _ = s.row(r["t"])
    k = sum(1 for step in s.steps if step <= r["v"])
    if k:
        current = current * s.ratios[k - 1] // 16
    if r["v"] < s.trip + 50 * (s.chgcfg >> 9 & 15):
        current = min(current, s.rows[3][0] * (1 + (s.chgcfg & 63)) // 256)
    return current, voltage


def answer(s, records):
    """The answer to the last of the records, as the seven printed numbers."""
    before = accepted(records[:-1])
    offs = ([d[1] for l, d in before if l == "S"] or [0])[-1]
    number = refusal(records[-1], offs)
    calls = accepted(records)
    offs = ([d[1] for l, d in calls if l == "S"] or [0])[-1]
    limit = ([word(d, 2) for l, d in calls if l == "L"] or [20000])[-1]
    cleared = max([at for at, (l, _) in enumerate(calls) if l == "C"], default=-1)
    rs = readings(calls)
    if not rs:
        return [number, 0, 0, 0, 0, 0, 0]
    levels = [in_force(s, rs, n) for n in range(len(rs))]
    watched = [(r, level) for r, level in zip(rs, levels) if r["at"] > cleared]
    faults = 0
    for f in range(13):
        if stands(s, f, [(r["elapsed"], *trips(s, f, r, level)) for r, level in watched]):
            faults |= 1 << f
    standing = {f for f in range(13) if faults >> f & 1}
    charge = not (standing & BLOCKS_CHARGE) and not offs & 1
    discharge = not (standing & BLOCKS_DISCHARGE) and not offs & 2
    current, voltage = prescribe(s, rs[-1]) if charge else (0, 0)
    return [number, charge + 2 * discharge, faults, min(current, limit), voltage, s.region(rs[-1]["t"]), levels[-1]]


def lines(data):
    number, place, s = judge(data[:116])
    yield f"sheet {number} {place}"
    if s is None:
        return
    rest = data[116:]
    records = [rest[at:at + 12] for at in range(0, len(rest), 12)]
    for n in range(len(records)):
        yield " ".join(str(int(x)) for x in answer(s, records[:n + 1]))


if __name__ == "__main__":
    for line in lines(sys.stdin.buffer.read()):
        print(line)
