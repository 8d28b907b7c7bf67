"""What the test drivers share: run the program on batches of script, compare with the model."""

import argparse
import collections
import re
import subprocess
import sys
import time

from model.script import Script, same

BATCH_LINES = 5_000
BATCH_CHARACTERS = 20_000_000


def options(cases):
    parser = argparse.ArgumentParser()
    parser.add_argument("program", help="path of owac")
    parser.add_argument("--seed", type=int, default=1)
    parser.add_argument("--cases", type=int, default=cases)
    parser.add_argument("--only", default="", metavar="WORD,..",
                        help="leave out the cases with other words, and ask for no answer to be reached")
    return parser.parse_args()


def has_only(case, words):
    return all(text.split()[0] in words for text in case if text.split())


def batches(cases):
    """Whole cases gathered until a batch is large enough."""
    batch, lines, characters = [], 0, 0
    for case in cases:
        batch.append(case)
        lines += len(case)
        characters += sum(map(len, case))
        if lines >= BATCH_LINES or characters >= BATCH_CHARACTERS:
            yield batch
            batch, lines, characters = [], 0, 0
    if batch:
        yield batch


def run_program(program, lines):
    """The answer lines and the status; a program that cannot run gives none."""
    try:
        done = subprocess.run([program, "script"], input="\n".join(lines) + "\n", timeout=600,
                              capture_output=True, encoding="utf-8", errors="replace")
    except (OSError, subprocess.TimeoutExpired) as what:
        print(f"the program did not run: {what}")
        return [], None
    if done.returncode:
        print(f"the program ended with status {done.returncode}: {done.stderr[:200]}")
    return done.stdout.splitlines(), done.returncode


def shortened(text, width=160):
    return text if len(text) <= width else f"{text[:width - 20]}..{text[-18:]}"


def kind(answer):
    """What a tally counts: the refusal number, else the answer's first word or two."""
    found = re.match(r"(refused|fault) (\d+)", answer)
    if found:
        return int(found.group(2))
    return " ".join(word for word in answer.split()[:2] if re.fullmatch(r"[a-z]+\d*", word))


class Comparison:
    def __init__(self, program):
        self.program = program
        self.passed = self.failed = self.shown = self.calls = 0
        self.reached = collections.Counter()
        self.started = time.monotonic()

    def show(self, text, expected, got):
        if self.shown < 5:
            print(f"line:     {shortened(text)}")
            print(f"expected: {shortened(expected)}")
            print(f"got:      {shortened(got)}")
        self.shown += 1

    def batch(self, cases, each_line):
        """A case is passed when all its answers are; or each answer is a case of its own."""
        answers, status = run_program(self.program, [text for case in cases for text in case])
        errors_before = self.reached["error"]
        got = iter(answers)
        script = Script()
        for case in cases:
            bad = compared = 0
            for text in case:
                expected = script.answer(text)
                if expected is None:
                    continue
                compared += 1
                self.reached[kind(expected)] += 1
                said = next(got, "(nothing)")
                if not same(expected, said):
                    bad += 1
                    self.show(text, expected, said)
            self.calls += compared
            self.failed += bad if each_line else bool(bad)
            self.passed += compared - bad if each_line else not bad
        for said in got:
            self.failed += 1
            self.show("(behind the last line)", "(nothing)", said)
        if status != 0 and not (status == 1 and self.reached["error"] > errors_before):
            self.failed += 1    # status 1 may tell of unreadable lines

    def end(self, due):
        names = sorted(self.reached, key=lambda name: (isinstance(name, str), name))
        for name in names:
            print(f"{name:>24}: {self.reached[name]}")
        for name in due:
            if not self.reached[name]:
                print(f"not reached: {name}")
                self.failed += 1
        print(f"{self.calls} answers in {time.monotonic() - self.started:.1f} s")
        print(f"{self.passed} passed, {self.failed} failed")
        sys.exit(1 if self.failed else 0)


def compare(chosen, cases, due, each_line=False):
    """Run all cases, print what was reached, and end the process."""
    comparison = Comparison(chosen.program)
    if chosen.only:
        words = chosen.only.split(",")
        cases, due = (case for case in cases if has_only(case, words)), []
    for batch in batches(cases):
        comparison.batch(batch, each_line)
    comparison.end(due)
