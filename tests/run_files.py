"""Runs the commands of `owac` on files in temporary folders, and compares with the model; each check is a case."""

import os
import random
import re
import subprocess
import sys
import tempfile
import unicodedata

from gen_message import NOW, TOP
from gen_receiver import Sender, burst, job_tree, plain_job, signed
from gen_store import tag_row, yes_row
from model import items, line, message
from model.receiver import Receiver
from model.store import BLANK, CELL_OCTETS, TORN, Floor, Image, Journal, cell_of, record_octets
from model.verdicts import TagSheet, VerdictSheet

HEADER = "    place       next  number  answer              job"
CATALOG = [5, 7, 73_421]


class Folder:
    """A temporary folder, the program in it, and what was checked."""

    passed = failed = 0

    def __init__(self, program, path):
        self.program, self.path = program, path

    def put(self, name, octets):
        with open(os.path.join(self.path, name), "wb") as file:
            file.write(octets)

    def get(self, name):
        with open(os.path.join(self.path, name), "rb") as file:
            return file.read()

    def all(self):
        return {name: self.get(name) for name in sorted(os.listdir(self.path))}

    def run(self, *words):
        done = subprocess.run([self.program, *words], cwd=self.path, capture_output=True, timeout=60)
        return done.returncode, done.stdout.decode(), done.stderr.decode()

    @classmethod
    def check(cls, what, expected, got):
        if expected == got:
            cls.passed += 1
            return
        cls.failed += 1
        if cls.failed <= 5:
            print(f"{what}\nexpected: {str(expected)[:2000]}\ngot:      {str(got)[:2000]}")

    def refuses(self, *words):
        """Status 1, one line on standard error, nothing else printed, no file changed."""
        before = self.all()
        status, out, err = self.run(*words)
        good = (status == 1 and out == "" and err.count("\n") == 1 and err.endswith("\n")
                and err.startswith("owac: ") and self.all() == before)
        self.check(f"refuses {words}", True, good or (status, out, err))


# What the program should print

def worded(found, command):
    """A job in an operator's words."""
    def track(number):
        return "x" + number.hex().upper() if isinstance(number, bytes) else str(number)
    name, numbers = command.name, command.numbers
    if name == "heartbeat":
        said = "heartbeat" if numbers[0] is None else f"heartbeat of {numbers[0]}"
    elif name == "queue":
        said = f"queue track {track(numbers[0])} with priority {numbers[1]}"
        said += "" if numbers[2] is None else f", from {numbers[2]}"
        said += "" if numbers[3] is None else f", until {numbers[3]}"
    elif name == "suggest":
        said = f"suggest track {track(numbers[0])} with weight {numbers[1]}"
    elif name == "text":
        text = "".join("." if unicodedata.category(each) == "Cc" else each
                       for each in found.octets[numbers[2]:numbers[2] + numbers[3]].decode())
        said = f'text on {numbers[0]} in mode {numbers[1]}: "{text}"'
    else:
        said = {"remove": "remove item {}", "state": "set state {}", "seek": "seek by {} ms",
                "rate": "play at {} percent", "next": "next track", "previous": "previous track",
                "reserved": "reserved {}"}[name].format(*numbers)
    return f"{said} (epoch {found.epoch}, counter {found.counter})"


def heard_again(octets, count, start):
    """The job of a frame, read without a receiver."""
    found = message.read_message(line.frame(octets, count, start)[1][:-2])
    return worded(found, message.read_command(found))


def listened(receiver, octets, now, catalog, suspect, sheet):
    """The table, and how many jobs were released."""
    count, start, rows, tally = 8 * len(octets), 0, [], {"released": 0, "duplicate": 0, "refused": 0}
    while True:
        answer = receiver.listen(octets, count, start, now, catalog, line.WORK_OCTETS, suspect, sheet)
        if answer[0] == "quiet":
            break
        tally[answer[0]] += 1
        if answer[0] == "refused":
            place = answer[2]
            rows.append(f"{start:>9}  {place:>9}  {answer[1]:>6}  {message.NAMES[answer[1]]}")
        elif answer[0] == "duplicate":
            place = answer[1]
            rows.append(f"{start:>9}  {place:>9}  {'-':>6}  {'DUPLICATE':<18}  {heard_again(octets, count, start)}")
        else:
            place = answer[1]
            rows.append(f"{start:>9}  {place:>9}  {'-':>6}  {'RELEASED':<18}  {worded(*answer[2:])}")
        if place <= start:
            break
        start = place
    end = f"{tally['released']} released, {tally['duplicate']} duplicate, {tally['refused']} refused"
    return "\n".join([HEADER, *rows, end, ""]), tally["released"]


def marks_of(image):
    """What `owac marks` prints."""
    journal = Journal(Image(image, False, 0, "old"))
    sources = journal.holders()
    lines, tally = [], {"marks": 0, "older": 0, "torn": 0, "blank": 0}
    for place in range(len(image) // CELL_OCTETS):
        cell = journal.cells.read(place)
        if cell == BLANK:
            tally["blank"] += 1
        elif cell == TORN:
            tally["torn"] += 1
            lines.append(f"cell {place:>4}: torn")
        elif sources[cell[0]] == place:
            tally["marks"] += 1
            (sid, kid), (epoch, counter, digest) = cell
            lines.append(f"cell {place:>4}: sid={sid.hex().upper()} kid={kid.hex().upper()} epoch={epoch} "
                         f"counter={counter} hash={digest.hex().upper()}")
        else:
            tally["older"] += 1
    lines.append(f"{len(image) // CELL_OCTETS} cells: {tally['marks']} with marks, {tally['older']} with older records, "
                 f"{tally['torn']} torn, {tally['blank']} blank")
    return "\n".join(lines) + "\n"


# Days on files

def sheet_of(rng, jobs, tagged):
    rows = []
    for job in jobs:
        parts = signed(job)
        if parts is None or rng.random() < 0.05:
            continue
        kid, alg, transcript, signature = parts
        if not tagged:
            rows += [b"\x00" + kid + bytes([alg]) + bytes(64), yes_row(kid, alg, transcript, signature)]
        elif len(signature) == 16:
            rows.append(tag_row(kid, transcript, signature))
    rng.shuffle(rows)
    return b"".join(rows)


def stream(rng, jobs):
    """Frames in one burst, some damaged, as whole octets of tones."""
    bits = line.FLAG * rng.randint(1, 33)
    for job in jobs:
        body = line.stuffed(line.bits_of(line.with_fcs(job)))
        if rng.random() < 0.15:
            place = rng.randrange(len(body))
            body = body[:place] + ("1" if body[place] == "0" else "0") + body[place + 1:]
        bits += body + line.FLAG * rng.randint(1, 3)
    return line.octets_of(line.filled(line.tones_of(bits)))


def start_image(rng, pairs):
    cells = [rng.choice([bytes(CELL_OCTETS), bytes(CELL_OCTETS), b"\xff" + bytes(80),
                         record_octets(rng.choice(pairs), (6, rng.randrange(3), rng.randbytes(32)))])
             for _ in range(rng.choice([0, 1, 2, 4, 9]))]
    return b"".join(cells) + rng.randbytes(rng.choice([0, 0, 5, 80]))


def changed_cells(before, after):
    return [place for place in range(0, len(before), CELL_OCTETS)
            if before[place:place + CELL_OCTETS] != after[place:place + CELL_OCTETS]]


def listen_day(rng, folder):
    """A few bursts on one image, each against the model; then the marks."""
    tagged = rng.random() < 0.5
    senders = [Sender(rng, rng.randbytes(16), rng.randbytes(16), 3) for _ in range(2)]
    image = start_image(rng, [sender.pair for sender in senders])
    catalog = rng.sample(CATALOG, rng.randint(0, 3))
    folder.put("image", image)
    folder.put("catalog", rng.choice([" ", "\n", ",", ", "]).join(map(str, catalog)).encode())
    for _ in range(rng.randint(2, 4)):
        jobs = [items.encode(job_tree(rng, rng.choice(senders), CATALOG)) for _ in range(rng.randint(1, 4))]
        jobs += rng.choices(jobs, k=rng.randint(0, 2))
        octets, sheet = stream(rng, jobs), sheet_of(rng, jobs, tagged)
        if len(jobs) == 1 and rng.random() < 0.5:
            octets = burst(jobs[0])[0]
        folder.put("burst", octets)
        folder.put("sheet", sheet)
        now, suspect = rng.choice([NOW, NOW, NOW, NOW + 90_000]), rng.random() < 0.15
        floor = rng.choice([None, None, 6, 7])
        words = [["burst"], ["--image", "image"], ["--tags" if tagged else "--verdicts", "sheet"],
                 ["--catalog", "catalog"], ["--now", str(now)]]
        words += [["--suspect"]] if suspect else []
        words += [] if floor is None else [["--floor", str(floor)]]
        rng.shuffle(words)
        image = listen_once(folder, [word for part in words for word in part], image, octets, now,
                            set(catalog), suspect, (TagSheet if tagged else VerdictSheet)(sheet), floor)
    before = folder.all()
    folder.check("marks", (0, marks_of(image), ""), folder.run("marks", "image"))
    folder.check("marks changes nothing", before, folder.all())


def listen_once(folder, words, image, octets, now, catalog, suspect, sheet, floor):
    """One `owac listen` against the model; the image that it leaves."""
    store = Journal(Image(image, True, TOP, "old"))
    receiver = Receiver(store if floor is None else Floor(store, floor))
    table, released = listened(receiver, octets, now, catalog, suspect, sheet)
    others = {name: held for name, held in folder.all().items() if name != "image"}
    folder.check("listen", (0, table, ""), folder.run("listen", *words))
    after = folder.get("image")
    folder.check("the image", store.dump()[1], after)
    folder.check("no more cells than releases", True, len(changed_cells(image, after)) <= released)
    folder.check("other files", others, {name: held for name, held in folder.all().items() if name != "image"})
    return after


def one_release(rng, folder):
    """One job changes one cell; the same again, an expired one and an unknown one change nothing."""
    pair = (b"P" * 16, b"K" * 16)
    for cells in (1, 3, 7):
        image = bytes(cells * CELL_OCTETS) + b"behind"
        good = plain_job(rng, (7, 2), pair, kind=1, args={0: 5, 1: -3, 2: 1, 3: 9})
        late = plain_job(rng, (7, 3), pair, exp=5)
        strange = plain_job(rng, (7, 4), (b"P" * 16, b"L" * 16))
        folder.put("image", image)
        folder.put("catalog", b"5")
        folder.put("sheet", sheet_of(random.Random(2), [good, late], False))
        folder.put("burst", burst(good)[0])
        words = ["listen", "burst", "--image", "image", "--verdicts", "sheet", "--catalog", "catalog", "--now", "100"]
        status, out, err = folder.run(*words)
        folder.check("released", True, status == 0 and "RELEASED" in out and "queue track 5 with priority -3, from 1, until 9" in out)
        after = folder.get("image")
        folder.check("one cell", [0], changed_cells(image, after))
        folder.check("its mark", (7, 2), cell_of(after[:CELL_OCTETS])[1][:2])
        for job, name in ((good, "DUPLICATE"), (late, "EXPIRED"), (strange, "KID_UNKNOWN")):
            folder.put("burst", burst(job)[0])
            status, out, err = folder.run(*words)
            folder.check(name, True, status == 0 and name in out and err == "")
            folder.check("no cell", after, folder.get("image"))


def writing(rng, folder):
    """`owac write` against the model, and what is written is heard."""
    for length in (0, 1, 100, 4_096, 12_288):
        octets = rng.randbytes(length)
        folder.put("message", octets)
        expected, count = line.burst(octets)
        folder.check("write", (0, f"{count} tones\n", ""), folder.run("write", "message", "burst"))
        folder.check("the burst", expected, folder.get("burst"))
    folder.put("message", bytes(12_289))
    folder.refuses("write", "message", "burst")
    folder.refuses("write", "message")
    folder.refuses("write", "absent", "burst")
    folder.refuses("write", "message", "burst", "more")
    folder.put("message", b"a")
    folder.refuses("write", "message", "absent/burst")


def bad_words(rng, folder):
    """Missing files and bad words: status 1, one line, nothing changed."""
    for name, held in (("image", bytes(CELL_OCTETS)), ("sheet", b""), ("catalog", b"1 2,3"), ("burst", burst(b"a")[0]),
                       ("odd", b"1 two"), ("large", str(1 << 64).encode()), ("latin", b"\xff")):
        folder.put(name, held)
    given = ["burst", "--image", "image", "--tags", "sheet", "--catalog", "catalog", "--now", "5"]
    folder.check("all given", 0, folder.run("listen", *given)[0])
    for place in (0, 2, 4, 6):
        changed = list(given)
        changed[place] = "absent"
        folder.refuses("listen", *changed)
    for least in ((1, 9), (0, 1), (0, 1, 2, 5, 6, 7, 8), (0, 1, 2, 3, 4, 7, 8), (0, 1, 2, 3, 4, 5, 6), (0, 1, 2, 3, 4, 5, 6, 7)):
        folder.refuses("listen", *(word for place, word in enumerate(given) if place in least))
    for more in (["--now", "6"], ["--image", "image"], ["--verdicts", "sheet"], ["--tags", "sheet"], ["--floor"],
                 ["--floor", "x"], ["--floor", "-1"], ["--floor", "1", "--floor", "2"], ["--suspect", "--suspect"],
                 ["second"], ["--loud"], ["--catalog", "catalog"]):
        folder.refuses("listen", *given, *more)
    for bad in ("odd", "large", "latin", "."):
        folder.refuses("listen", *(bad if word == "catalog" else word for word in given))
    folder.refuses("listen")
    folder.refuses("marks")
    folder.refuses("marks", "absent")
    folder.refuses("marks", "image", "image")
    folder.refuses("sing")
    folder.refuses("help", "sing")
    folder.refuses("script", "more")


def help_words(rng, folder):
    """`owac help` lists every word, and `owac help WORD` says what each takes."""
    status, out, err = folder.run("help")
    folder.check("help", (0, ""), (status, err))
    for word in ("script", "write", "listen", "marks", "help", "image", "table", "floor", "verdicts", "tags", "catalog",
                 "on", "text", "mark", "dump", "fcs", "judge"):
        folder.check(f"help has {word}", True, re.search(rf"^  {word}\b", out, re.MULTILINE) is not None)
        status, said, err = folder.run("help", word)
        folder.check(f"help {word}", True, status == 0 and err == "" and said.startswith(f"  {word}"))


def main():
    program = os.path.abspath(sys.argv[1])
    rng = random.Random(int(sys.argv[2]) if len(sys.argv) > 2 else 1)
    for part, times in ((writing, 1), (one_release, 1), (bad_words, 1), (help_words, 1), (listen_day, 60)):
        for _ in range(times):
            with tempfile.TemporaryDirectory() as path:
                part(rng, Folder(program, path))
    print(f"{Folder.passed} passed, {Folder.failed} failed")
    sys.exit(1 if Folder.failed else 0)


if __name__ == "__main__":
    main()
