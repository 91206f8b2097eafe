"""Sheets, images and records for the tests: each rule on both sides of its boundary, each delay to the millisecond, and random ones.

All chance comes from the `rng` that is handed in, a `random.Random`. The rules are those of docs/sheet-image.md, docs/faults.md,
docs/delays.md and docs/calls-and-answers.md.
"""
import struct
from pathlib import Path
from types import SimpleNamespace

import second_pack as second

SAMPLE = (Path(__file__).resolve().parent.parent / "samples" / "sample.sheet").read_bytes()
CONTENTS = bytes([1, 5, 1, 22, 22, 0, 2, 12, 44, 0, 3, 42, 56, 0, 4, 12, 98, 0, 5, 4, 110, 0])
VOLTAGES = {"trip": 22, "release": 24, "shutdown": 26, "overdrop": 28, "permover": 30, "full": 36, "fulldrop": 38}
CURRENTS = {"chargeover": 32, "dischargeover": 34, "fullcurrent": 40}


# --- Sheets. One is a namespace with the fields of `second_pack.Sheet`, whose rows are lists so that they can be changed. ---

def fields_of(image):
    fields = SimpleNamespace(**vars(second.Sheet(image)))
    fields.rows = [list(row) for row in fields.rows]
    return fields


def sealed(body):
    """The first 114 bytes of an image with their sum."""
    return bytes(body) + struct.pack("<H", sum(body))


def image_of(f):
    levels = [f.trip, f.release, f.shutdown, f.overdrop, f.permover, f.chargeover, f.dischargeover]
    body = CONTENTS + struct.pack("<11H", *levels, f.full, f.fulldrop, f.fullcurrent, f.chgcfg)
    body += struct.pack("<11bB", *f.edges, f.toohotd, f.diehot, f.permhot, f.hysteresis)
    for row in f.rows:
        body += struct.pack("<3H", *row)
    return sealed(body + struct.pack("<4H4B2H", *f.steps, *f.ratios, f.delaycfg, f.enabled))


def mend(f):
    """Raises what is at odds with another field, as far as the ranges allow."""
    f.release = max(f.release, min(f.trip, 5000))
    f.edges = [max(f.edges[:k + 1]) for k in range(8)]
    for row in f.rows:
        row[2] = max(row[2], min(5000, max(f.overdrop, row[1])))
    f.steps = [max([f.steps[k]] + [min(step, 5000) for step in f.steps[:k]]) for k in range(4)]
    f.ratios = [max([f.ratios[k]] + [min(ratio, 16) for ratio in f.ratios[k + 1:]]) for k in range(4)]
    return f


def usual_sheet(rng):
    """The sample with other delays and a few other values."""
    f = fields_of(SAMPLE)
    f.delaycfg = rng.getrandbits(16)
    f.hysteresis = rng.choice([0, 1, 3, 20])
    f.chgcfg = rng.getrandbits(16) & 0xDFFF
    f.fullcurrent = rng.choice([0, 60, 500])
    f.edges = sorted(rng.randint(-20, 60) for _ in range(8))
    rng.shuffle(f.rows)
    return f


def random_sheet(rng):
    f = fields_of(SAMPLE)
    f.overdrop = rng.choice([0, 100, rng.randint(0, 3000)])
    f.trip = rng.choice([0, 2800, rng.randint(0, 4500)])
    f.release = rng.randint(f.trip, 5000)
    f.shutdown = rng.randint(0, 5000)
    f.permover = rng.choice([4500, rng.randint(0, 5000)])
    f.full = rng.choice([4150, rng.randint(0, 5000)])
    f.fulldrop = rng.choice([0, 100, 5000])
    f.chargeover, f.dischargeover = rng.choice([0, 2000, 20000]), rng.choice([0, 4000, 20000])
    f.fullcurrent = rng.choice([0, 60, 20000])
    f.chgcfg = rng.getrandbits(16) & 0xDFFF
    f.edges = sorted(rng.choice([rng.randint(-128, 127), rng.randint(-10, 60)]) for _ in range(8))
    f.toohotd, f.diehot, f.permhot = rng.randint(30, 90), rng.randint(40, 127), rng.randint(40, 127)
    f.hysteresis = rng.choice([0, 3, 20, rng.randint(0, 20)])
    for row in f.rows:
        level = rng.choice([rng.randint(f.overdrop, 5000), max(f.overdrop, rng.randint(4000, 4400))])
        row[:] = rng.choice([0, 1000, 20000, rng.randint(0, 3000)]), rng.randint(0, level), level
    f.steps = sorted(rng.choice([rng.randint(0, 5000), rng.randint(3500, 4300)]) for _ in range(4))
    f.ratios = sorted((rng.randint(0, 16) for _ in range(4)), reverse=True)
    f.delaycfg = rng.choice([0, 0x42B5, rng.getrandbits(16)])
    f.enabled = rng.choice([0x1FFF, 0x1FFF, rng.getrandbits(13)])
    return f


def extreme_sheet(rng):
    """The least or the greatest, or all alike, in each field or group of fields."""
    f = fields_of(SAMPLE)
    for name in VOLTAGES:
        setattr(f, name, rng.choice([0, 0, 1, 4999, 5000, getattr(f, name)]))
    for name in CURRENTS:
        setattr(f, name, rng.choice([0, 1, 20000, getattr(f, name)]))
    f.chgcfg = rng.choice([0, 0x003F, 0x1E00, 0x1E3F, 0xDFFF, 0xC1C0])
    one = rng.choice([-128, -1, 0, 25, 127])
    split = rng.randint(0, 8)
    f.edges = rng.choice([[one] * 8, [-128] * split + [127] * (8 - split), [-128, *f.edges[1:7], 127]])
    f.toohotd, f.diehot, f.permhot = (rng.choice([-128, -127, 0, 60, 127]) for _ in range(3))
    f.hysteresis = rng.choice([0, 20])
    level = rng.choice([0, 4000, 5000])
    for row in f.rows:
        row[:] = rng.choice([0, 1, 20000]), rng.choice([0, level]), rng.choice([level, level, 5000])
    f.steps = rng.choice([[0] * 4, [5000] * 4, [4000] * 4, [0, 0, 5000, 5000]])
    f.ratios = rng.choice([[0] * 4, [16] * 4, [16, 16, 0, 0], [16, 1, 1, 0]])
    f.delaycfg = rng.choice([0, 0xFFFF, rng.getrandbits(16)])
    f.enabled = rng.choice([0, 0x1FFF, 0x1FFF, 1 << rng.randrange(13), 0x1FFF ^ 1 << rng.randrange(13)])
    return f


def good_sheet(rng):
    return mend(rng.choice([usual_sheet, usual_sheet, random_sheet, random_sheet, extreme_sheet])(rng))


# --- Spoilers: a list of (number, place, make). `make(f, 1)` is an image that is refused with that number at that place, one unit past
# --- the boundary of the rule, and `make(f, 0)` an accepted one that stands at the boundary.

def ranged(name, most):
    def make(f, by):
        setattr(f, name, most + by)
        return image_of(mend(f))
    return make


def ranged_in_row(k, column, most):
    def make(f, by):
        f.rows[k][column] = most + by
        return image_of(mend(f))
    return make


def ranged_in_list(name, k, most):
    def make(f, by):
        getattr(f, name)[k] = most + by
        return image_of(mend(f))
    return make


def spare_bit(name, bit, most):
    def make(f, by):
        setattr(f, name, most | by << bit)
        return image_of(f)
    return make


def release_below_trip(f, by):
    f.trip = max(f.trip, 1)
    f.release = f.trip - by
    return image_of(f)


def edge_below(k):
    def make(f, by):
        f.edges = [max(edge, -127) for edge in f.edges]
        f.edges[k] = f.edges[k - 1] - by
        return image_of(f)
    return make


def voltage_above_level(k):
    def make(f, by):
        f.rows[k][2] = min(f.rows[k][2], 4999)
        f.overdrop = min(f.overdrop, 4999)
        f.rows[k][1] = f.rows[k][2] + by
        return image_of(f)
    return make


def level_below_drop(k):
    def make(f, by):
        f.overdrop = max(f.overdrop, 1)
        f = mend(f)
        f.rows[k][2] = f.overdrop - by
        f.rows[k][1] = min(f.rows[k][1], f.rows[k][2])
        return image_of(f)
    return make


def step_below(k):
    def make(f, by):
        f.steps = [max(step, 1) for step in f.steps]
        f.steps[k] = f.steps[k - 1] - by
        return image_of(f)
    return make


def ratio_above(k):
    def make(f, by):
        f.ratios = [min(ratio, 15) for ratio in f.ratios]
        f.ratios[k] = f.ratios[k - 1] + by
        return image_of(f)
    return make


def length_off(by_how_many):
    def make(f, by):
        return (image_of(f) + bytes(8))[:116 + by * by_how_many]
    return make


def byte_off(at, by_how_much):
    """A byte of the table of contents."""
    def make(f, by):
        body = bytearray(image_of(f)[:114])
        body[at] = (body[at] + by * by_how_much) % 256
        return sealed(body)
    return make


def sum_off(by_how_much):
    def make(f, by):
        image = image_of(f)
        return image[:114] + struct.pack("<H", (second.word(image, 114) + by * by_how_much) % 65536)
    return make


SPOILERS = [(1, 0, length_off(by)) for by in (-1, 1)]
SPOILERS += [(2, 0, byte_off(at, by)) for at in (0, 1) for by in (-1, 1)]
SPOILERS += [(3, k + 1, byte_off(2 + 4 * k + j, by)) for k in range(5) for j in range(4) for by in (-1, 1)]
SPOILERS += [(4, 0, sum_off(by)) for by in (-1, 1, -256, 256)]
SPOILERS += [(5, place, ranged(name, 5000)) for name, place in VOLTAGES.items()]
SPOILERS += [(5, place, ranged(name, 20000)) for name, place in CURRENTS.items()]
SPOILERS += [(5, 42, spare_bit("chgcfg", 13, 0xDFFF)), (5, 55, ranged("hysteresis", 20))]
SPOILERS += [(5, 56 + 6 * k + 2 * j, ranged_in_row(k, j, most)) for k in range(7) for j, most in enumerate([20000, 5000, 5000])]
SPOILERS += [(5, 98 + 2 * k, ranged_in_list("steps", k, 5000)) for k in range(4)]
SPOILERS += [(5, 106 + k, ranged_in_list("ratios", k, 16)) for k in range(4)]
SPOILERS += [(5, 112, spare_bit("enabled", bit, 0x1FFF)) for bit in (13, 14, 15)]
SPOILERS += [(6, 24, release_below_trip)]
SPOILERS += [(6, 44 + k, edge_below(k)) for k in range(1, 8)]
SPOILERS += [(6, 58 + 6 * k, voltage_above_level(k)) for k in range(7)]
SPOILERS += [(6, 60 + 6 * k, level_below_drop(k)) for k in range(7)]
SPOILERS += [(6, 98 + 2 * k, step_below(k)) for k in range(1, 4)]
SPOILERS += [(6, 106 + k, ratio_above(k)) for k in range(1, 4)]


def by_rule(rng):
    """An image past a boundary, or now and then at it, of a chosen rule."""
    _, _, make = rng.choice(SPOILERS)
    return make(good_sheet(rng), 0 if rng.random() < 0.2 else 1)


def by_two_rules(rng):
    """The bytes that two spoilers change, both in one image: which refusal comes first?"""
    whole = image_of(good_sheet(rng))
    both = bytearray(whole)
    for _ in range(2):
        _, _, make = rng.choice(SPOILERS)
        for at, byte in enumerate(make(fields_of(whole), 1)[:114]):
            if byte != whole[at]:
                both[at] = byte
    return sealed(both[:114]) if rng.random() < 0.9 else bytes(both)


def by_chance(rng):
    """A random byte or a few, with the right sum or the old one."""
    body = bytearray(image_of(good_sheet(rng)))
    for _ in range(rng.randint(1, 3)):
        at = rng.randrange(rng.choice([0, 22, 22]), 116)
        body[at] = rng.choice([0, 255, rng.randrange(256), (body[at] + rng.choice([1, 255])) % 256])
    return sealed(body[:114]) if rng.random() < 0.8 else bytes(body)


def cut_short(rng):
    return image_of(good_sheet(rng))[:rng.randrange(117)]


def spoiled_image(rng):
    return rng.choice([by_rule, by_rule, by_rule, by_two_rules, by_chance, cut_short])(rng)


# --- Records ---

WORD = b"W" + bytes(11)
CLEAR = b"C" + bytes(11)


def held(value, low, high):
    return max(low, min(high, value))


def reading(charger=0, elapsed=1, v=3600, i=0, t=6400, die=6400):
    """A reading whose values are held to the range of a record's fields."""
    i, t, die = (held(x, -32768, 32767) for x in (i, t, die))
    return struct.pack("<BBHHhhh", 0x52, charger, held(elapsed, 1, 60000), held(v, 0, 6000), i, t, die)


def host_limit(value):
    return b"L\0" + struct.pack("<H", value) + bytes(8)


def switch_offs(value):
    return b"S" + bytes([value]) + bytes(10)


def sides(s, t):
    """Of each fault four lists of values for a reading: which just trip it, just miss, just release it, and just hold it.

    `t` is the cell's temperature, by which the over-voltage level is chosen.
    """
    level, h = s.row(t)[2], 256 * s.hysteresis

    def hot(name, degree):
        edge = 256 * degree
        return [{name: edge}], [{name: edge - 1}], [{name: edge - h - 1}], [{name: edge - h}]

    cold = 256 * s.edges[0]
    return [
        ([dict(v=s.trip - 1)], [dict(v=s.trip)], [dict(v=s.release)], [dict(v=s.release - 1)]),
        ([dict(v=s.shutdown - 1, charger=0)], [dict(v=s.shutdown, charger=0), dict(v=s.shutdown - 1, charger=1)],
         [dict(v=s.shutdown - 1, charger=1)], [dict(v=6000, charger=0)]),
        ([dict(v=level + 1, t=t)], [dict(v=level, t=t)], [dict(v=level - s.overdrop, t=t)], [dict(v=level - s.overdrop + 1, t=t)]),
        ([dict(i=s.chargeover + 1)], [dict(i=s.chargeover)],
         [dict(i=0, charger=0), dict(i=-1, charger=0)], [dict(i=1, charger=0), dict(i=0, charger=1)]),
        ([dict(i=-s.dischargeover - 1)], [dict(i=-s.dischargeover)],
         [dict(i=0, charger=1), dict(i=1, charger=1)], [dict(i=-1, charger=1), dict(i=0, charger=0)]),
        ([dict(t=cold - 1)], [dict(t=cold)], [dict(t=cold + h)], [dict(t=cold + h - 1)]),
        hot("t", s.edges[7]),
        hot("t", s.toohotd),
        hot("die", s.diehot),
        ([dict(v=s.full, i=0), dict(v=s.full, i=s.fullcurrent)],
         [dict(v=s.full - 1, i=0), dict(v=s.full, i=-1), dict(v=s.full, i=s.fullcurrent + 1)],
         [dict(v=s.full - s.fulldrop - 1)], [dict(v=s.full - s.fulldrop)]),
        ([dict(word=False)], [dict(word=True)], [dict(word=True)], []),
        ([dict(t=256 * s.permhot)], [dict(t=256 * s.permhot - 1)], [], [dict(t=-32768)]),
        ([dict(v=s.permover + 1)], [dict(v=s.permover)], [], [dict(v=0)]),
    ]


def read(base, change, elapsed):
    """The reading `base` with a change and a time, after the host's word where the change asks for it."""
    values = {**base, **change, "elapsed": elapsed}
    return ([WORD] if values.pop("word", False) else []) + [reading(**values)]


def split(rng, total, parts):
    """Elapsed times, as many as asked for or as are needed, that add up to the total."""
    parts = held(parts, -(-total // 60000), total)
    times = []
    for left in range(parts, 0, -1):
        low, high = max(1, total - 60000 * (left - 1)), min(60000, total - (left - 1))
        time = high if left == 1 else rng.choice([low, high, rng.randint(low, high)])
        times.append(time)
        total -= time
    return times


def stretch(rng, base, changes, total, parts):
    return [record for time in split(rng, total, parts) for record in read(base, rng.choice(changes), time)]


def some_reading(rng, s):
    """Values near the boundaries of a sheet."""
    def near(values):
        return rng.choice(values) + rng.choice([-1, 0, 0, 1])

    level, h = rng.choice(s.rows)[2], s.hysteresis
    degrees = s.edges + [s.toohotd, s.permhot, s.edges[0] + h, s.edges[7] - h, s.toohotd - h, rng.randint(-128, 127)]
    voltages = [s.trip, s.release, s.shutdown, level, level - s.overdrop, s.full, s.full - s.fulldrop, s.permover]
    voltages += [rng.choice(s.steps), s.trip + 50 * (s.chgcfg >> 9 & 15), rng.randint(0, 6000)]
    return dict(
        charger=rng.randrange(2),
        v=near(voltages),
        i=near([0, s.chargeover, -s.dischargeover, s.fullcurrent, rng.randint(-25000, 25000)]),
        t=near([256 * rng.choice(degrees), rng.randint(-2000, 16000)]),
        die=near([256 * s.diehot, 256 * (s.diehot - h), rng.randint(-32768, 32767)]),
    )


def some_time(rng, s):
    delay = s.delay(rng.choice(list(second.TABLES)))
    times = [rng.randint(1, 1000), delay + rng.choice([-1, 0, 1]), delay // rng.randint(1, 4), rng.randint(1, 60000)]
    return held(rng.choice(times), 1, 60000)


# --- Stories: short lists of records on a sheet ---

def random_records(rng, s):
    """Records of all kinds, some of them spoiled by a bit."""
    records = []
    for _ in range(rng.randint(5, 40)):
        kind = rng.random()
        if kind < 0.62:
            record = read(some_reading(rng, s), {}, some_time(rng, s))[0]
        elif kind < 0.74:
            record = WORD
        elif kind < 0.80:
            record = host_limit(rng.choice([0, 1, 500, 19999, 20000, 20001, 65535, rng.randint(0, 20000)]))
        elif kind < 0.88:
            record = switch_offs(rng.choice([0, 1, 2, 3, 3]))
        elif kind < 0.93:
            record = CLEAR
        elif kind < 0.965:
            record = rng.randbytes(12)
        else:
            record = bytes([rng.choice(b"RWLSCXrA\0")]) + bytes(11)
        if rng.random() < 0.05:
            at = rng.randrange(12)
            record = record[:at] + bytes([record[at] ^ 1 << rng.randrange(8)]) + record[at + 1:]
        records.append(record)
    return records


def fault_story(rng, s, fault=None):
    """A fault is tripped for about its delay, in a few readings; then it is missed, held or released by one unit."""
    fault = rng.randrange(13) if fault is None else fault
    base = some_reading(rng, s)
    trips, misses, releases, holds = sides(s, base["t"])[fault]
    delay = s.delay(second.TIMERS[fault])
    records = []
    for _ in range(rng.randint(1, 3)):
        total = max(1, delay + rng.choice([-1, -1, 0, 0, 1]))
        records += stretch(rng, base, trips, total, rng.randint(1, 4))
        for changes in rng.sample([misses, releases, holds], 2):
            if changes and rng.random() < 0.7:
                records += read(base, rng.choice(changes), some_time(rng, s))
    return records


def transition_story(rng, s):
    """The temperature goes from row to row, and the readings add up to about the transition delay."""
    base = some_reading(rng, s)
    delay = s.delay("transition")
    records = []
    for _ in range(rng.randint(2, 5)):
        t = 256 * rng.choice(s.edges) + rng.choice([-1, 0])
        level = s.row(t)[2]
        change = dict(t=t, v=rng.choice([level, level + 1, level - s.overdrop, base["v"]]))
        records += stretch(rng, base, [change], rng.choice([1, delay - 1, delay, delay // 2, delay - delay // 2]), rng.randint(1, 4))
    return records


def long_run(rng, s):
    """The same reading over and over, with the host's word or without."""
    change = dict(some_reading(rng, s), word=rng.random() < 0.3)
    time = rng.choice([1, 351, 60000, some_time(rng, s)])
    return read({}, change, time) * rng.randint(10, 60)


def service_story(rng, s):
    """A clear, which the switch-offs may allow or not, after readings and before some."""
    records = [record for _ in range(3) for record in read(some_reading(rng, s), {}, some_time(rng, s))]
    records += [switch_offs(rng.choice([1, 2, 3, 3, 3])), CLEAR]
    if rng.random() < 0.5:
        records.append(switch_offs(0))
    return records + read(some_reading(rng, s), {}, some_time(rng, s))


STORIES = [random_records, random_records, fault_story, fault_story, fault_story, transition_story, long_run, service_story]


def some_records(rng, s, count):
    """Exactly so many records, story after story."""
    records = []
    while len(records) < count:
        records += rng.choice(STORIES)(rng, s)
    return records[:count]
