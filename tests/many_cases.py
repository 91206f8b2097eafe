#!/usr/bin/env python3
"""Makes random cases, gives them to packminder and to second_pack.py, and compares what they print.

    tests/many_cases.py PROGRAM [CASES [RECORDS [SEED]]]

A case is a good sheet with exactly so many records, the last of which may be cut short, and a second image, mostly a spoiled one, with
a few records that a refusal leaves unanswered. The cases depend on the seed and their numbers alone, and are spread over all cores.

Ends with a count, and with status 1 where a case differs (the first one is then written to differs.bin in the current folder).
"""
import multiprocessing
import random
import subprocess
import sys
from functools import partial
from pathlib import Path

sys.path.insert(0, str(Path(__file__).resolve().parent))
import generator
import second_pack as second


def good_case(rng, count):
    image = generator.image_of(generator.good_sheet(rng))
    sheet = second.judge(image)[2]
    data = image + b"".join(generator.some_records(rng, sheet, count))
    cut = rng.choice([0, 0, 0, rng.randint(1, 11)]) if count else 0
    return data[:len(data) - cut]


def spoiled_case(rng):
    image = generator.spoiled_image(rng)
    return image + generator.WORD * 3 if len(image) >= 116 else image


def differs(program, data):
    ours = subprocess.run([program], input=data, stdout=subprocess.PIPE, check=True).stdout
    return ours != "".join(line + "\n" for line in second.lines(data)).encode()


def differing(program, count, seed, n):
    """The first of the two inputs of case n that the two programs answer differently, or None."""
    rng = random.Random(f"{seed} {n}")
    return next((data for data in (good_case(rng, count), spoiled_case(rng)) if differs(program, data)), None)


def main():
    program = sys.argv[1]
    cases, count, seed = (int(x) for x in (sys.argv[2:] + ["1000", "200", "1"][len(sys.argv) - 2:]))
    differ = 0
    with multiprocessing.Pool() as pool:
        for n, data in enumerate(pool.imap(partial(differing, program, count, seed), range(cases), 10)):
            if data is not None:
                if differ == 0:
                    Path("differs.bin").write_bytes(data)
                    print(f"case {n} of seed {seed} differs: see differs.bin", flush=True)
                differ += 1
            if (n + 1) % 1000 == 0:
                print(f"{n + 1} cases so far", file=sys.stderr, flush=True)
    print(f"{cases} cases, {cases * count} records, {differ} differ")
    sys.exit(1 if differ else 0)


if __name__ == "__main__":
    main()
