#!/usr/bin/env python3
"""Writes the cases that `corpus` is run on, crates/corpus/stdin, and what it must print, crates/corpus/stdout; and the same for
`tally`, which takes one sheet and a stream of records.

    tests/make_corpus.py

What is expected comes from second_pack.py, and never from a program of this repository. The cases are the same in every run. Their
plan is in `all_cases`; that it is met is checked as they are made, and counted at the end.
"""
import random
import struct
import sys
from collections import Counter
from pathlib import Path

sys.path.insert(0, str(Path(__file__).resolve().parent))
import generator
import second_pack as second
from generator import CLEAR, WORD, fields_of, good_sheet, host_limit, image_of, mend, read, reading, sides, split, switch_offs

ROOT = Path(__file__).resolve().parent.parent
FOLDER = ROOT / "crates" / "corpus"
SIZE = 330_000  # of both files together

QUIET = dict(charger=0, v=3600, i=0, t=6400, die=6400)


def sheet_of(f):
    image = image_of(f)
    number, place, sheet = second.judge(image)
    assert sheet, (number, place)
    return image, sheet


# --- Images ---

def image_cases(rng):
    """Each rule of an image, one unit past its boundary and at it."""
    for n, (number, place, make) in enumerate(generator.SPOILERS):
        whole = image_of(good_sheet(rng))
        bad, good = make(fields_of(whole), 1), make(fields_of(whole), 0)
        assert second.judge(bad)[:2] == (number, place)
        assert second.judge(good)[:2] == (0, 0)
        yield bad, [WORD, b"", b"R"] if n % 8 == 0 else []
        yield good, [reading(**generator.some_reading(rng, second.Sheet(good)))]


def length_cases():
    """Images of other lengths, the longest that a frame can hold among them."""
    whole = generator.SAMPLE + generator.SAMPLE + bytes(23)
    for length in [0, 1, 2, 21, 22, 57, 58, 113, 114, 115, 117, 118, 128, 232, 254, 255]:
        yield whole[:length], []


def spoiled_cases(rng):
    """Images with two broken rules, images with random changes, and random bytes."""
    for _ in range(30):
        yield generator.by_two_rules(rng), []
    for _ in range(40):
        yield generator.by_chance(rng), [WORD]
    for _ in range(6):
        yield rng.randbytes(116), []


# --- Refusals of records ---

def letter_case():
    """Every first byte, before the first reading."""
    return generator.SAMPLE, [bytes([first]) + bytes(11) for first in range(256)]


def spare_case():
    """Every spare bit of every kind of record, alone."""
    # the bits of each byte that mean something
    meant = {b"R": {1: 0x01, **{at: 0xFF for at in range(2, 12)}}, b"W": {}, b"L": {2: 0xFF, 3: 0xFF}, b"S": {1: 0x03}, b"C": {}}
    records = [reading(**QUIET, elapsed=1000), switch_offs(3)]
    for letter, used in meant.items():
        whole = reading(**QUIET, elapsed=1) if letter == b"R" else letter + bytes(11)
        for at in range(1, 12):
            for bit in range(8):
                if not used.get(at, 0) >> bit & 1:
                    records.append(whole[:at] + bytes([whole[at] | 1 << bit]) + whole[at + 1:])
    return generator.SAMPLE, records


def range_case():
    """Both sides of each range, and which refusal comes first."""
    def raw(letter, first, elapsed=0, v=0):
        return letter + struct.pack("<BHH", first, elapsed, v) + bytes(6)

    times, voltages = (0, 1, 60000, 60001, 65535), (0, 6000, 6001, 65535)
    records = [raw(b"R", first, elapsed, v) for first in (0, 1, 2) for elapsed in times for v in voltages]
    records += [host_limit(value) for value in (20001, 65535, 20000, 0, 1, 19999)]
    records += [raw(b"L", 1, 20001), raw(b"X", 1, 0, 6001), raw(b"X", 0)[:11], raw(b"R", 2)[:11], b"C", b"", CLEAR + b"\0"]
    records.append(reading(**QUIET, elapsed=351))
    for offs in (0, 1, 2, 3):
        records += [switch_offs(offs), CLEAR, raw(b"C", 1), reading(**QUIET, elapsed=60000)]
    return generator.SAMPLE, records


def odd_case(rng):
    """Records of other lengths: cut short, and longer with a good record at the start."""
    records = [reading(**QUIET, elapsed=1000)]
    for length in [*range(32), 63, 64, 116, 127, 128, 144, 254, 255]:
        start = rng.choice([reading(**QUIET, elapsed=60000), WORD, CLEAR, switch_offs(3), host_limit(7)])
        records.append((start + rng.randbytes(243))[:length])
        records.append(reading(**QUIET, elapsed=1))
    return generator.SAMPLE, records


# --- Faults ---

def with_setting(word, timer, setting):
    low, width, _ = second.TABLES[timer]
    return word & ~((1 << width) - 1 << low) | setting << low


class Story:
    """Records, and after which of them a fault is meant to stand or not. That it is so is asked of second_pack.py at the end."""

    def __init__(self, f, fault):
        self.image, self.sheet = sheet_of(f)
        self.fault, self.records, self.meant = fault, [], {}

    def add(self, records, stands):
        self.records += records
        self.meant[len(self.records) - 1] = stands

    def case(self):
        history = second.History(self.sheet, self.records)
        for n, stands in self.meant.items():
            assert history.answer(n)[2] >> self.fault & 1 == stands, (self.fault, n)
        return self.image, self.records


def fault_case(rng, fault, setting):
    """Both sides of a delay, and both sides of each rule of the fault."""
    timer = second.TIMERS[fault]
    f = generator.usual_sheet(rng)
    f.edges = [rng.randint(-20, 0), 5, 10, 15, 35, 45, 50, rng.randint(53, 60)]
    f.delaycfg = with_setting(f.delaycfg, timer, setting)
    f.enabled = 1 << fault if setting == 0 else 0x1FFF
    story = Story(mend(f), fault)
    s = story.sheet
    trips, misses, releases, holds = sides(s, QUIET["t"])[fault]
    delay = s.delay(timer)

    def trip_for(total, stands):
        times = split(rng, total, rng.randint(2, 3) if total < 60000 else 1)
        for time in times[:-1]:
            story.add(read(QUIET, rng.choice(trips), time), False)
        story.add(read(QUIET, rng.choice(trips), times[-1]), stands)

    def end():
        if releases:
            story.add(read(QUIET, rng.choice(releases), 1), False)
        else:
            story.add([switch_offs(3), CLEAR, switch_offs(0)], False)

    for miss in misses:  # never long enough
        story.add(read(QUIET, miss, min(delay, 60000)), False)
    trip_for(delay - 1, False)
    story.add(read(QUIET, rng.choice(misses), 1), False)  # which breaks the stretch
    trip_for(delay - 1, False)
    story.add(read(QUIET, rng.choice(trips), 1), True)  # the last millisecond
    for hold in holds:
        story.add(read(QUIET, hold, 60000), True)
    end()
    if delay <= 60000:
        for trip in trips:
            for release in releases:
                story.add(read(QUIET, trip, delay), True)
                story.add(read(QUIET, release, 1), False)
    elif delay < 600000:
        trip_for(delay, True)
        end()
    return story.case()


def disabled_case(rng, fault):
    """The fault is tripped for longer than any delay, with its bit clear."""
    f = generator.usual_sheet(rng)
    f.delaycfg, f.enabled = 0, 0x1FFF ^ 1 << fault
    story = Story(mend(f), fault)
    trip = rng.choice(sides(story.sheet, QUIET["t"])[fault][0])
    story.add(read(QUIET, trip, 60000) * 2, False)
    return story.case()


def transition_case(rng, setting):
    """The level falls by one row and by two, a millisecond before the delay and at it."""
    f = fields_of(generator.SAMPLE)
    f.delaycfg = with_setting(f.delaycfg, "transition", setting)
    image, sheet = sheet_of(f)
    delay = sheet.delay("transition")
    room, warm, hot = 25 * 256, 40 * 256, 47 * 256
    records, meant = [], {}

    def be(t, total, level, parts=1):
        for time in split(rng, total, parts):
            records.extend(read(QUIET, dict(t=t, v=rng.choice([level, level + 1, level - 100])), time))
        meant[len(records) - 1] = level

    for parts in (1, 3):
        be(room, 1000, 4300)
        be(hot, delay - 1, 4300, parts)
        be(hot, 1, 4150)
        be(room, 1, 4300)
        be(hot, delay, 4150)
        be(room, 60000, 4300)
        be(warm, 100, 4300)
        be(hot, delay - 101, 4300, parts)
        be(hot, 1, 4250)  # Room was left the delay ago, and Warm 99 ms less
        be(hot, 98, 4250)
        be(hot, 1, 4250)
        be(hot, 1, 4150)
    history = second.History(sheet, records)
    for n, level in meant.items():
        assert history.answer(n)[6] == level, (setting, n)
    return image, records


# --- What the charger may give ---

def prescription_case(rng):
    """Both sides of each region, each step, the end of precharge, and the host's limit."""
    image, s = sheet_of(good_sheet(rng))
    records = []
    for edge in s.edges:
        records += [reading(**{**QUIET, "t": 256 * edge + by}) for by in (-1, 0)]
    room = 128 * (s.edges[3] + s.edges[4])
    for voltage in [*s.steps, s.trip + 50 * (s.chgcfg >> 9 & 15)]:
        records += [reading(**{**QUIET, "t": room, "v": voltage + by}) for by in (-1, 0)]
    current, _ = second.prescribe(s, second.parse(0, records[-1]).value)
    records += [host_limit(value) for value in (0, max(0, current - 1), current, min(20000, current + 1), 20000)]
    return image, records


# --- Long and random ---

def long_case(rng):
    image, s = sheet_of(good_sheet(rng))
    story = generator.long_run(rng, s)
    return image, (story * 10)[:100]


def random_case(rng):
    """Random records on a random sheet, a few of them of another length."""
    image, s = sheet_of(good_sheet(rng))
    records = generator.some_records(rng, s, rng.randint(20, 100))
    for n in range(len(records)):
        if rng.random() < 0.02:
            records[n] = (records[n] + rng.randbytes(8))[:rng.randrange(20)]
    return image, records


def all_cases(rng):
    yield from image_cases(rng)
    yield from length_cases()
    yield from spoiled_cases(rng)
    yield letter_case()
    yield spare_case()
    yield range_case()
    yield odd_case(rng)
    for fault in second.FAULTS:
        for setting in range(len(second.TABLES[second.TIMERS[fault]][2])):
            yield fault_case(rng, fault, setting)
        yield disabled_case(rng, fault)
    for setting in range(4):
        yield transition_case(rng, setting)
    for _ in range(10):
        yield prescription_case(rng)
    for _ in range(8):
        yield long_case(rng)
    while True:
        yield random_case(rng)


# --- The two files ---

def frame(data):
    return bytes([len(data)]) + data


def encoded(image, records):
    return frame(image) + struct.pack("<H", len(records)) + b"".join(frame(record) for record in records)


def expected(image, records):
    number, place, sheet = second.judge(image)
    return [f"sheet {number} {place}"] + (list(second.answer_lines(sheet, records)) if sheet else [])


def unfinished():
    """The end of the input: a case of five records, which stops within the third."""
    records = [WORD, reading(**QUIET, elapsed=1), reading(**QUIET, elapsed=2)]
    whole = encoded(generator.SAMPLE, records).replace(struct.pack("<H", 3) + frame(WORD), struct.pack("<H", 5) + frame(WORD))
    return whole[:-4], expected(generator.SAMPLE, records)[:-1]


class Counts:
    """What the cases hold, counted from what is expected of them."""

    def __init__(self):
        self.verdicts, self.refusals, self.rises, self.falls = Counter(), Counter(), Counter(), Counter()
        self.cases = self.records = 0

    def add(self, lines):
        self.cases += 1
        self.verdicts[lines[0]] += 1
        before = 0
        for line in lines[1:]:
            number, _, faults, *_ = (int(word) for word in line.split())
            self.records += 1
            self.refusals[number] += 1
            self.rises.update(f for f in second.FAULTS if faults & ~before & 1 << f)
            self.falls.update(f for f in second.FAULTS if before & ~faults & 1 << f)
            before = faults

    def show(self):
        refused = {verdict for verdict in self.verdicts if verdict != "sheet 0 0"}
        assert refused == {f"sheet {number} {place}" for number, place, _ in generator.SPOILERS}
        assert set(self.refusals) == {0, 7, 8, 9, 10, 11}
        assert set(self.rises) == set(self.falls) == set(second.FAULTS)
        print(f"{self.cases} cases, {self.records} records answered, {self.verdicts['sheet 0 0']} good images")
        print(f"refusals of images, by number and place: {len(refused)}")
        print("refusals of records:", dict(sorted(self.refusals.items())))
        print("faults, how often each came and went:", {f: (self.rises[f], self.falls[f]) for f in second.FAULTS})


def text(lines):
    return "".join(line + "\n" for line in lines).encode()


# --- A stream of records ---

def write_stream(rng):
    """The samples, then more records than a program reads at a time, and one that is cut short."""
    sheet = second.judge(generator.SAMPLE)[2]
    records = b"".join(generator.some_records(rng, sheet, 700))
    data = generator.SAMPLE + (ROOT / "samples" / "three.records").read_bytes() + switch_offs(0) + records + b"W\0\0\0\0"
    lines = list(second.lines(data))
    assert len(lines) == 1 + 3 + 1 + 700 + 1
    numbers = [[int(word) for word in line.split()] for line in lines[1:]]
    tally = [lines[0], f"{len(numbers)} {sum(sum(row) + 4 for row in numbers)}"]
    (ROOT / "crates" / "tally" / "stdin").write_bytes(data)
    (ROOT / "crates" / "tally" / "stdout").write_bytes(text(tally))
    print(f"{len(numbers)} records in one stream")


def main():
    rng = random.Random(116)
    counts, stdin, stdout = Counts(), b"", b""
    for image, records in all_cases(rng):
        lines = expected(image, records)
        stdin += encoded(image, records)
        stdout += text(lines)
        counts.add(lines)
        if len(stdin) + len(stdout) > SIZE:
            break
    data, lines = unfinished()
    stdin += data
    stdout += text(lines)
    (FOLDER / "stdin").write_bytes(stdin)
    (FOLDER / "stdout").write_bytes(stdout)
    counts.show()
    print(f"{len(stdin)} bytes of stdin, {len(stdout)} of stdout")
    write_stream(random.Random(12))


if __name__ == "__main__":
    main()
