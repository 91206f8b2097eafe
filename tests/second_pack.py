#!/usr/bin/env python3
"""A second pack minder, written from docs/ alone and by another method.

It reads and prints what `packminder` does, but carries nothing from one answer to the next: each answer looks at all records up to its
own, finds the accepted ones, and walks back from the newest reading. Only what depends on one record, or on one reading and
what came before it, is worked out once and looked up by every later answer.
"""
import sys
from typing import NamedTuple

# docs/delays.md: the lowest bit and the width of the setting, and the delay that each setting chooses
TABLES = {
    "undervoltage": (0, 2, [351, 700, 1400, 2800]),
    "shutdown": (0, 2, [45000, 90000, 180000, 360000]),
    "temperature": (2, 2, [351, 700, 1400, 2800]),
    "transition": (2, 2, [4550, 8750, 17150, 34851]),
    "permanent": (4, 2, [351, 700, 1400, 2800]),
    "overcurrent": (6, 3, [351, 700, 1400, 2800, 5600, 11250, 22500, 45000]),
    "overvoltage": (9, 2, [351, 700, 1400, 2800]),
    "full": (11, 3, [33000, 67000, 135000, 270000, 540000, 1080000, 2160000, 5760000]),
    "watchdog": (14, 2, [22500, 45000, 90000, 180000]),
}

# docs/faults.md: the delay of each fault, in the order of the bits, and what it blocks
TIMERS = [
    "undervoltage", "shutdown", "overvoltage", "overcurrent", "overcurrent", "temperature", "temperature", "temperature", "temperature",
    "full", "watchdog", "permanent", "permanent",
]
FAULTS = range(13)
BLOCKS_DISCHARGE = {0, 4, 7} | {1, 8, 11, 12}
BLOCKS_CHARGE = {2, 3, 5, 6, 9, 10} | {1, 8, 11, 12}


def word(data, at):
    return data[at] + 256 * data[at + 1]


def signed(value, bits):
    return value - (1 << bits) if value >= 1 << (bits - 1) else value


# --- The sheet (docs/sheet-image.md) ---

class Sheet:
    """The fields of an image of the right length, whether they are good or not."""

    def __init__(self, image):
        names = "trip release shutdown overdrop permover chargeover dischargeover full fulldrop fullcurrent chgcfg".split()
        for i, name in enumerate(names):
            setattr(self, name, word(image, 22 + 2 * i))
        self.edges = [signed(b, 8) for b in image[44:52]]
        self.toohotd, self.diehot, self.permhot = (signed(b, 8) for b in image[52:55])
        self.hysteresis = image[55]
        self.rows = [tuple(word(image, 56 + 6 * k + 2 * j) for j in range(3)) for k in range(7)]
        self.steps = [word(image, 98 + 2 * k) for k in range(4)]
        self.ratios = list(image[106:110])
        self.delaycfg, self.enabled = word(image, 110), word(image, 112)

    def delay(self, timer):
        low, width, table = TABLES[timer]
        return table[self.delaycfg >> low & ((1 << width) - 1)]

    def region(self, cell):
        """docs/regions.md"""
        return sum(1 for e in self.edges if e * 256 <= cell) - 4

    def row(self, cell):
        """The current, voltage and over-voltage level of the row that serves a temperature."""
        return self.rows[max(-3, min(3, self.region(cell))) + 3]


def out_of_range(s):
    """The places of the fields that are out of their range, lowest first."""
    bad = []
    voltages = {22: s.trip, 24: s.release, 26: s.shutdown, 28: s.overdrop, 30: s.permover, 36: s.full, 38: s.fulldrop}
    bad += [place for place, value in voltages.items() if value > 5000]
    currents = {32: s.chargeover, 34: s.dischargeover, 40: s.fullcurrent}
    bad += [place for place, value in currents.items() if value > 20000]
    if s.chgcfg & 0x2000:
        bad.append(42)
    if s.hysteresis > 20:
        bad.append(55)
    for k, (current, voltage, level) in enumerate(s.rows):
        if current > 20000:
            bad.append(56 + 6 * k)
        if voltage > 5000:
            bad.append(58 + 6 * k)
        if level > 5000:
            bad.append(60 + 6 * k)
    bad += [98 + 2 * k for k in range(4) if s.steps[k] > 5000]
    bad += [106 + k for k in range(4) if s.ratios[k] > 16]
    if s.enabled & 0xE000:
        bad.append(112)
    return sorted(bad)


def at_odds(s):
    """The places of the fields that disagree with another, lowest first."""
    bad = []
    if s.release < s.trip:
        bad.append(24)
    bad += [45 + k for k in range(7) if s.edges[k + 1] < s.edges[k]]
    for k, (_, voltage, level) in enumerate(s.rows):
        if voltage > level:
            bad.append(58 + 6 * k)
        if level < s.overdrop:
            bad.append(60 + 6 * k)
    bad += [100 + 2 * k for k in range(3) if s.steps[k + 1] < s.steps[k]]
    bad += [107 + k for k in range(3) if s.ratios[k + 1] > s.ratios[k]]
    return sorted(bad)


def judge(image):
    """The number and place of the refusal and None, or 0, 0 and the sheet."""
    if len(image) != 116:
        return 1, 0, None
    if image[0] != 1 or image[1] != 5:
        return 2, 0, None
    wanted = [(1, 22, 22), (2, 12, 44), (3, 42, 56), (4, 12, 98), (5, 4, 110)]
    for k, entry in enumerate(wanted):
        at = 2 + 4 * k
        if (image[at], image[at + 1], word(image, at + 2)) != entry:
            return 3, k + 1, None
    if sum(image[:114]) != word(image, 114):
        return 4, 0, None
    s = Sheet(image)
    for number, places in ((5, out_of_range(s)), (6, at_odds(s))):
        if places:
            return number, places[0], None
    return 0, 0, s


# --- Records (docs/calls-and-answers.md) ---

class Reading(NamedTuple):
    charger: int
    elapsed: int
    v: int
    i: int
    t: int
    die: int


class Record(NamedTuple):
    place: int  # in the list of records
    refusal: int  # that its bytes alone are owed: 11, 7, 8, 9, or 0
    letter: str = ""
    value: object = None  # what it carries: a reading, a limit or switch-offs


def refusal(data):
    """The refusal that a record is owed by its bytes alone, or 0."""
    if len(data) != 12:
        return 11
    letter = chr(data[0])
    if letter not in "RWLSC":
        return 7
    spare = {"R": [data[1] & 0xFE], "W": data[1:], "L": data[1:2] + data[4:], "S": [data[1] & 0xFC, *data[2:]], "C": data[1:]}[letter]
    if any(spare):
        return 8
    if letter == "R" and not (1 <= word(data, 2) <= 60000 and word(data, 4) <= 6000):
        return 9
    if letter == "L" and word(data, 2) > 20000:
        return 9
    return 0


def parse(place, data):
    number = refusal(data)
    if number:
        return Record(place, number)
    i, t, die = (signed(word(data, at), 16) for at in (6, 8, 10))
    value = {"R": Reading(data[1] & 1, word(data, 2), word(data, 4), i, t, die), "L": word(data, 2), "S": data[1]}
    return Record(place, 0, chr(data[0]), value.get(chr(data[0])))


def accepted(records):
    """The accepted records, oldest first, and the refusal of the last record of all, or 0."""
    calls, number, offs = [], 0, 0
    for record in records:
        number = record.refusal
        if record.letter == "C" and offs != 3:
            number = 10
        if number == 0:
            calls.append(record)
            if record.letter == "S":
                offs = record.value
    return calls, number


def newest(calls, letter, default):
    """What the newest accepted record of a kind carries."""
    return next((call.value for call in reversed(calls) if call.letter == letter), default)


# --- One reading and what came before it ---

def back(calls, at):
    """The readings from calls[at] on backwards."""
    return (calls[k].value for k in range(at, -1, -1) if calls[k].letter == "R")


def level_in_force(s, calls, at):
    """The over-voltage level in force at the reading calls[at] (docs/level-in-force.md)."""
    level, later, delay = 0, 0, s.delay("transition")
    for reading in back(calls, at):
        level = max(level, s.row(reading.t)[2])
        later += reading.elapsed
        if later >= delay:
            break
    return level


def word_since(calls, at):
    """Whether the host gave its word between the reading calls[at] and the reading before it."""
    for k in range(at - 1, -1, -1):
        if calls[k].letter == "W":
            return True
        if calls[k].letter == "R":
            return False
    return False


def rules(s, reading, level, heard):
    """Of each fault whether the reading trips it, and whether it releases it (docs/faults.md)."""
    charger, _, v, i, t, die = reading
    h = 256 * s.hysteresis
    first, last, hot, die_limit, permanent = (256 * degree for degree in (s.edges[0], s.edges[7], s.toohotd, s.diehot, s.permhot))
    return [
        (v < s.trip, v >= s.release),
        (v < s.shutdown and not charger, charger),
        (v > level, v <= level - s.overdrop),
        (i > s.chargeover, not charger and i <= 0),
        (i < -s.dischargeover, charger and i >= 0),
        (t < first, t >= first + h),
        (t >= last, t < last - h),
        (t >= hot, t < hot - h),
        (die >= die_limit, die < die_limit - h),
        (v >= s.full and 0 <= i <= s.fullcurrent, v < s.full - s.fulldrop),
        (not heard, heard),
        (t >= permanent, False),
        (v > s.permover, False),
    ]


class Seen(NamedTuple):
    """What one accepted reading is to the faults. `trips` and `releases` are sets of faults."""

    elapsed: int
    trips: frozenset
    releases: frozenset
    level: int


def see(s, calls, at):
    reading, level = calls[at].value, level_in_force(s, calls, at)
    ruled = rules(s, reading, level, word_since(calls, at))
    trips = frozenset(f for f in FAULTS if ruled[f][0] and s.enabled >> f & 1)
    return Seen(reading.elapsed, trips, frozenset(f for f in FAULTS if ruled[f][1]), level)


# --- Answers (docs/pack.md) ---

def stands(fault, delay, seen):
    """Whether an unbroken stretch of tripping readings lasts for the delay, and no later reading releases the fault (docs/fault-timing.md).

    `seen` has the newest reading first. After a release only a stretch that goes on from the releasing reading itself could still count.
    """
    total, released = 0, False
    for elapsed, trips, releases, _ in seen:
        released = released or fault in releases
        if fault in trips:
            total += elapsed
            if total >= delay:
                return True
        elif released:
            return False
        else:
            total = 0
    return False


def prescribe(s, reading):
    """What the usual stack gives at a reading (docs/prescribers.md)."""
    if s.region(reading.t) in (-4, 4):
        return 0, 0
    current, voltage, _ = s.row(reading.t)
    reached = sum(1 for step in s.steps if step <= reading.v)
    if reached:
        current = current * s.ratios[reached - 1] // 16
    if reading.v < s.trip + 50 * (s.chgcfg >> 9 & 15):
        current = min(current, s.rows[3][0] * (1 + (s.chgcfg & 63)) // 256)
    return current, voltage


class History:
    """A sheet and all records of a case. Any answer can be asked for, in any order."""

    def __init__(self, sheet, records):
        self.sheet = sheet
        self.records = [parse(place, data) for place, data in enumerate(records)]
        self.delays = [sheet.delay(timer) for timer in TIMERS]
        self.looked_up = {}

    def seen(self, calls, at):
        """`see`, worked out once for each reading: it depends on the records up to the reading alone."""
        place = calls[at].place
        if place not in self.looked_up:
            self.looked_up[place] = see(self.sheet, calls, at)
        return self.looked_up[place]

    def answer(self, n):
        """The answer to record n, as the seven printed numbers."""
        calls, number = accepted(self.records[:n + 1])
        readings = [at for at, call in enumerate(calls) if call.letter == "R"]
        if not readings:
            return [number, 0, 0, 0, 0, 0, 0]
        cleared = max((at for at, call in enumerate(calls) if call.letter == "C"), default=-1)
        seen = [self.seen(calls, at) for at in reversed(readings) if at > cleared]
        standing = {f for f in FAULTS if stands(f, self.delays[f], seen)}
        offs = newest(calls, "S", 0)
        charge = not standing & BLOCKS_CHARGE and not offs & 1
        discharge = not standing & BLOCKS_DISCHARGE and not offs & 2
        last = calls[readings[-1]].value
        current, voltage = prescribe(self.sheet, last) if charge else (0, 0)
        return [
            number, charge + 2 * discharge, sum(1 << f for f in standing), min(current, newest(calls, "L", 20000)), voltage,
            self.sheet.region(last.t), self.seen(calls, readings[-1]).level,
        ]


def answer_lines(sheet, records):
    """The line for each record, from a new pack."""
    history = History(sheet, records)
    for n in range(len(records)):
        yield " ".join(str(number) for number in history.answer(n))


def lines(data):
    """What `packminder` prints for its whole input (docs/programs.md)."""
    number, place, sheet = judge(data[:116])
    yield f"sheet {number} {place}"
    if sheet:
        yield from answer_lines(sheet, [data[at:at + 12] for at in range(116, len(data), 12)])


if __name__ == "__main__":
    for line in lines(sys.stdin.buffer.read()):
        print(line)
