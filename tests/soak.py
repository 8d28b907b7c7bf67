"""A long comparison of `owac script` with the model: random days of listening, seeded and repeatable.

    python3 soak.py PATH-OF-OWAC [--calls N] [--seed S]

Prints a progress line every few seconds, and as its last line `N passed, M failed`. At the first disagreement it
prints the day's seed, a smaller script that still shows it, and what each side answers."""

import argparse
import collections
import random
import subprocess
import sys
import time

from drive import kind, shortened
from gen_receiver import fixed_days, random_day
from model.script import Script, same

DAYS_AT_ONCE = 40
SECONDS_BETWEEN_LINES = 5
MOST_TRIALS = 400


def answers_of(program, lines):
    """What the program answers to a script; nothing if it cannot be run."""
    done = subprocess.run([program, "script"], input="\n".join(lines) + "\n", timeout=600,
                          capture_output=True, encoding="utf-8", errors="replace")
    return done.stdout.splitlines()


def expected_of(lines):
    script = Script()
    return [(line, answer) for line in lines if (answer := script.answer(line)) is not None]


def first_difference(program, lines):
    """(line, expected, got) of the first answer that differs, or None."""
    got = answers_of(program, lines)
    expected = expected_of(lines)
    for place, (line, answer) in enumerate(expected):
        said = got[place] if place < len(got) else "(nothing)"
        if not same(answer, said):
            return line, answer, said
    if len(got) > len(expected):
        return "(behind the last line)", "(nothing)", got[len(expected)]
    return None


def smaller(program, lines):
    """The same script with as many lines left out as still leave a difference."""
    trials = 0
    size = max(1, len(lines) // 2)
    while size and trials < MOST_TRIALS:
        place = 0
        while place < len(lines) and trials < MOST_TRIALS:
            shorter = lines[:place] + lines[place + size:]
            trials += 1
            if shorter and first_difference(program, shorter):
                lines = shorter
            else:
                place += size
        size //= 2
    return lines


def days(seed):
    """(name, script) of every day: the fixed ones first, then one for each number."""
    for place, day in enumerate(fixed_days(random.Random(seed))):
        yield f"fixed day {place} of seed {seed}", day
    number = 0
    while True:
        yield f"day {number} of seed {seed}", random_day(random.Random(f"{seed}/{number}"))
        number += 1


class Soak:
    def __init__(self, program, wanted):
        self.program, self.wanted = program, wanted
        self.calls = 0
        self.reached = collections.Counter()
        self.started = self.told = time.monotonic()

    def tell(self):
        if time.monotonic() - self.told >= SECONDS_BETWEEN_LINES:
            self.told = time.monotonic()
            print(f"{self.calls} of {self.wanted} calls, {self.told - self.started:.0f} s", flush=True)

    def batch(self, batch):
        """Whether a batch of days agrees; else the disagreement is reported."""
        lines = [line for _, day in batch for line in day]
        got = iter(answers_of(self.program, lines))
        script = Script()
        for name, day in batch:
            for line in day:
                expected = script.answer(line)
                if expected is None:
                    continue
                self.calls += 1
                self.reached[kind(expected)] += 1
                if not same(expected, next(got, "(nothing)")):
                    self.report(name, day, lines)
                    return False
        return next(got, None) is None

    def report(self, name, day, lines):
        script = smaller(self.program, day if first_difference(self.program, day) else lines)
        line, expected, got = first_difference(self.program, script)
        print(f"disagreement in {name}; this script shows it:")
        print("\n".join(script))
        print(f"at:       {shortened(line)}")
        print(f"expected: {shortened(expected)}")
        print(f"got:      {shortened(got)}")

    def run(self, seed):
        batch = []
        for day in days(seed):
            batch.append(day)
            if len(batch) < DAYS_AT_ONCE:
                continue
            if not self.batch(batch):
                return False
            batch = []
            self.tell()
            if self.calls >= self.wanted:
                return True
        return True


def main():
    parser = argparse.ArgumentParser()
    parser.add_argument("program", help="path of owac")
    parser.add_argument("--calls", type=int, default=100_000)
    parser.add_argument("--seed", type=int, default=1)
    chosen = parser.parse_args()
    soak = Soak(chosen.program, chosen.calls)
    agrees = soak.run(chosen.seed)
    for name in sorted(soak.reached, key=lambda name: (isinstance(name, str), name)):
        print(f"{name:>24}: {soak.reached[name]}")
    print(f"{soak.calls} calls in {time.monotonic() - soak.started:.0f} s")
    print(f"{soak.calls - (not agrees)} passed, {int(not agrees)} failed")
    sys.exit(0 if agrees else 1)


if __name__ == "__main__":
    main()
