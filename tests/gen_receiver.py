"""Seeded test cases for the receiver: whole days of listening, damage, power cuts."""

import copy
import functools
import random

from gen_items import BAD_ITEMS, INDEFINITE_ITEMS, edited, put_somewhere
from gen_line import damaged, hexed, random_bits, random_stream
from gen_message import NOW, SPOILERS, TOP, message_tree, one_damage_each
from gen_store import (CUTS, image_line, mark_line, one_bit_off, pin_row, tag_row, table_line,
                       yes_row)
from model import items, line, message
from model.script import Script
from model.store import CELL_OCTETS, record_octets

PLAIN_TYPES = sorted(message.TYPES - message.RESERVED)


def listen_line(octets, count, now, start=0, suspect=False, work=line.WORK_OCTETS):
    return (f"listen {hexed(octets)} count={count} start={start} now={now} "
            f"suspect={'yes' if suspect else 'no'} work={work}")


@functools.lru_cache(maxsize=100)
def burst(job):
    return line.burst(job)


def heard(job, now=NOW, suspect=False):
    """The line that hears a message as the writer sends it."""
    octets, count = burst(job)
    return listen_line(octets, count, now, 0, suspect)


# Jobs

class Sender:
    """A pair with its algorithm, and the position it has come to."""

    def __init__(self, rng, sid, kid, alg):
        self.rng, self.pair, self.alg = rng, (sid, kid), alg
        self.epoch, self.counter = rng.randint(5, 8), rng.randint(0, 5)

    def advance(self):
        step = self.rng.randrange(14)
        if step == 0:
            self.epoch, self.counter = self.epoch + 1, self.rng.randint(0, 1)
        elif step == 1:
            self.counter = max(0, self.counter - 1)
        elif step > 2:
            self.counter += 1
        return self.epoch, self.counter


def job_tree(rng, sender, catalog, now=NOW, kind=None):
    """A message of this sender, mostly one that may be released."""
    if kind is None:
        kind = rng.choice(PLAIN_TYPES if rng.random() < 0.95 else [30, 31])
    tree = message_tree(rng, now, sender.alg, kind)
    tree[2][0], tree[2][1] = sender.advance()
    tree[2][2], tree[4][1] = sender.pair
    if rng.random() < 0.8:
        tree[3].pop(2, None)
    if kind in (1, 2) and catalog and rng.random() < 0.85:
        tree[3][1][0] = rng.choice(catalog)
    return tree


def spoiled_job(rng, tree, now):
    """One or two damages to the fields, or bad encoding."""
    how = rng.randrange(7)
    if how < 4:
        for spoil in rng.sample(SPOILERS, rng.choice([1, 1, 2])):
            changed = copy.deepcopy(tree)
            try:
                spoil(rng, changed, now)
                items.encode(changed)
                tree = changed
            except (LookupError, AttributeError, TypeError, ValueError):
                pass    # an earlier damage took away what this one needs
        return items.encode(tree)
    pairs = items.as_pairs(tree)
    if how == 4:
        return items.encode(items.sloppy(pairs, rng, 0.1))
    if how == 5:
        bad = rng.choice(BAD_ITEMS + INDEFINITE_ITEMS)
        return items.encode(put_somewhere(rng, pairs, items.Raw(bad)))
    return edited(rng, items.encode(tree))


def signed(job):
    """(kid, alg, transcript, signature) of a message that can be read, else None."""
    try:
        found = message.read_message(job)
    except message.Refused:
        return None
    return found.kid, found.alg, found.transcript(), found.sig


def sheet_line(rng, jobs, tagged=False, left_out=0.06):
    """The sheet that passes these jobs, but for some rows left out or spoiled."""
    rows = set()
    for job in jobs:
        parts = signed(job)
        if parts is None:
            continue
        kid, alg, transcript, signature = parts
        if tagged:
            if len(signature) == 16:
                rows.add(tag_row(kid, transcript, signature))
        else:
            rows.add(b"\x00" + kid + bytes([alg]) + bytes(64))
            rows.add(yes_row(kid, alg, transcript, signature))
    rows = sorted(rows)
    rng.shuffle(rows)
    rows = [row for row in rows if rng.random() >= left_out]
    rows = [one_bit_off(rng, row) if rng.random() < left_out / 2 else row for row in rows]
    if not tagged and rng.random() < 0.3:
        rows.append(pin_row(rng, rng.randbytes(16), rng.randint(1, 3)))
    sheet = b"".join(rows) + rng.randbytes(rng.choice([0, 0, 1, 63]))
    return f"{'tags' if tagged else 'verdicts'} {hexed(sheet)}"


# Calls

def noisy(rng, job, now):
    """A burst that the line or the call itself spoils."""
    octets, count = burst(job)
    how = rng.randrange(10)
    if how < 4:
        tones = damaged(rng, line.bits_of(octets)[:count])
        return [listen_line(line.octets_of(line.filled(tones)), len(tones), now)]
    if how == 4:
        return [listen_line(octets, count, now, work=rng.choice([0, 100, 16_499]))]
    if how == 5:
        return [listen_line(octets, *rng.choice([(count, now, count + 1), (8 * len(octets) + 1, now)]))]
    if how == 6:
        return [listen_line(octets, rng.randint(0, count), now, 0, False)]
    if how == 7:
        return [listen_line(octets, count, now, rng.randint(0, count))]
    if how == 8:
        tones = line.tones_of(random_stream(rng))
        return [listen_line(line.octets_of(line.filled(tones)), len(tones), now)]
    return [endless(rng, now)] if rng.random() < 0.3 else []


def endless(rng, now):
    """A body around the longest one, without an end."""
    bits = line.FLAG + "0" * (line.LONGEST_BODY + rng.choice([7, 8, 9, 10]))
    tones = line.tones_of(bits)
    return listen_line(line.octets_of(line.filled(tones)), len(tones), now)


def in_a_row(rng, jobs, now):
    """Several messages in one burst, heard from place to place."""
    bits = random_bits(rng, rng.randint(0, 20)) + line.FLAG * rng.randint(1, 4)
    for job in jobs:
        bits += line.stuffed(line.bits_of(line.with_fcs(job))) + line.FLAG * rng.randint(1, 3)
    tones = line.tones_of(bits)
    octets, count = line.octets_of(line.filled(tones)), len(tones)
    start = 0
    for _ in range(len(jobs) + 1):
        yield listen_line(octets, count, now, start)
        start = line.frame(octets, count, start)[-1]


def start_lines(rng, pairs):
    """A store for a day: mostly with room and charge."""
    power = (rng.random() < 0.97, rng.choice([0, 1, 2, 4, 30, TOP]), rng.choice(CUTS))
    if rng.random() < 0.4:
        lines = [table_line(*power)]
    else:
        cells = [rng.choice([bytes(CELL_OCTETS), bytes(CELL_OCTETS), b"\xff" + bytes(80),
                             record_octets(rng.choice(pairs), (6, 2, rng.randbytes(32))),
                             record_octets((rng.randbytes(16), bytes(16)), (6, 2, bytes(32)))])
                 for _ in range(rng.choice([1, 2, 3, 5, 9]))]
        lines = [image_line(b"".join(cells) + rng.randbytes(rng.choice([0, 3])), *power)]
    for _ in range(rng.choice([0, 0, 0, 1, 2, 3])):
        lines.append(f"floor {rng.choice([0, 3, 5, 6, 7])}")
    return lines


def random_alg(rng):
    return rng.choice([3] * 16 + [1, 1, 1, 2])


def random_day(rng):
    """One receiver, a few senders, and what the line brings."""
    tagged = rng.random() < 0.25
    kids = [rng.randbytes(16) for _ in range(2)]
    senders = [Sender(rng, rng.randbytes(16), rng.choice(kids), random_alg(rng))
               for _ in range(rng.randint(1, 4))]
    catalog = [rng.choice([0, 7, 73_421, TOP, rng.randint(0, TOP)]) for _ in range(rng.randint(0, 5))]
    now = rng.choice([NOW, NOW, NOW, 0, 31, TOP, TOP - 86_400, rng.randint(0, TOP)])
    jobs = []
    for _ in range(rng.randint(4, 14)):
        tree = job_tree(rng, rng.choice(senders), catalog, now)
        jobs.append(spoiled_job(rng, tree, now) if rng.random() < 0.2 else items.encode(tree))
    pairs = [sender.pair for sender in senders]
    lines = start_lines(rng, pairs)
    lines.append(f"catalog {','.join(map(str, catalog)) or '-'}")
    lines.append(sheet_line(rng, jobs, tagged))
    for place, job in enumerate(jobs):
        lines += calls_for(rng, jobs, place, now)
        if rng.random() < 0.25:
            lines.append(f"on {rng.choice([0, 1, 3, 50, 50])}")
        if rng.random() < 0.3:
            lines.append(mark_line(rng.choice(pairs)))
    lines += [mark_line(pair) for pair in pairs] + ["dump"]
    return with_texts(lines) if rng.random() < 0.3 else lines


def with_texts(lines):
    """The same day, the text asked for behind each release."""
    script, asked = Script(), []
    for each in lines:
        asked.append(each)
        if (script.answer(each) or "").startswith("released"):
            asked.append("text")
    return asked


def calls_for(rng, jobs, place, now):
    """How one job arrives: plainly, late, doubted, damaged, among others, again."""
    job = jobs[place]
    how = rng.randrange(20)
    if how < 10:
        return [heard(job, now)]
    if how < 12:
        return [heard(job, now), heard(job, rng.choice([now, 0, TOP]))]
    if how == 12:
        return [heard(job, now, suspect=True), heard(job, now)]
    if how == 13:
        return [heard(job, rng.choice([max(0, now - 90_000), min(TOP, now + 90_000), 0, TOP])), heard(job, now)]
    if how == 14:
        return [heard(rng.choice(jobs[:place + 1]), now), heard(job, now)]
    if how == 15:
        return list(in_a_row(rng, rng.sample(jobs, min(len(jobs), 3)), now))
    return noisy(rng, job, now) + [heard(job, now)]


# Fixed days

def plain_job(rng, position, pair, kind=0, args=None, **more):
    """A small job of alg 3 with nothing optional but what is named."""
    mid = {0: position[0], 1: position[1], 2: pair[0]}
    if "exp" in more:
        mid[3] = more["exp"]
    cmd = {0: kind, 1: args or {}}
    if "duo" in more:
        cmd[2] = more["duo"]
    auth = {0: 3, 1: pair[1], 2: more.get("sig", rng.randbytes(16))}
    return items.encode({0: 1, 1: more.get("profile", 1), 2: mid, 3: cmd, 4: auth})


def cut_everywhere(rng):
    """A day's jobs with the power failing at each write in turn, in each of three ways."""
    for cells in (None, 1, 2, 3, 5):
        pairs = [(rng.randbytes(16), rng.randbytes(16)) for _ in range(2)]
        jobs = [plain_job(rng, (7, step), rng.choice(pairs)) for step in range(1, 7)]
        sheet = sheet_line(rng, jobs, left_out=0)
        for cut in CUTS:
            for charge in range(len(jobs) + 1):
                start = (table_line(True, charge, cut) if cells is None else
                         image_line(bytes(cells * CELL_OCTETS), True, charge, cut))
                lines = [start, sheet] + [heard(job) for job in jobs]
                lines += [mark_line(pair) for pair in pairs] + ["dump", "on 2"]
                lines += [heard(job) for job in jobs for _ in range(2)]
                yield lines + [mark_line(pair) for pair in pairs] + ["dump"]


def marks_and_floors(rng):
    """Positions around a mark and around floors; duplicates; no room."""
    pair, other = (b"P" * 16, b"K" * 16), (b"P" * 16, b"L" * 16)
    marked = plain_job(rng, (7, 105), pair, exp=100)
    again = plain_job(rng, (7, 105), pair)
    around = [plain_job(rng, position, pair) for position in
              ((7, 104), (6, 999), (7, 105), (7, 106), (8, 0), (9, 0), (9, 1), (10, 0), (TOP, TOP))]
    elsewhere = plain_job(rng, (1, 1), other)
    sheet = sheet_line(rng, [marked, again, elsewhere] + around, left_out=0)
    blank = bytes(3 * CELL_OCTETS)
    for floors in ([], ["floor 9"], ["floor 7"], ["floor 2", "floor 9"], ["floor 9", "floor 2", "floor 0"]):
        for job in around:
            yield [image_line(blank, True, 9, "old"), *floors, sheet, heard(marked, 100), mark_line(pair),
                   heard(job, 100), mark_line(pair), mark_line(other), "dump"]
    yield [image_line(blank, True, 9, "old"), sheet, heard(marked, 130), heard(marked, 131),
           heard(marked, TOP), heard(again, 100), heard(elsewhere, 0), mark_line(pair), "dump"]
    yield [image_line(blank[:CELL_OCTETS], True, 9, "torn"), sheet, heard(marked, 131), heard(marked, 130),
           heard(around[3]), heard(elsewhere), heard(marked, 9), "dump", "on 0", heard(elsewhere), "dump"]
    yield [image_line(blank, False, 9, "torn"), sheet, heard(marked, 100), "on 0", heard(marked, 100),
           heard(marked, 100), "on 1", heard(marked, 100), mark_line(pair), "dump"]
    yield ["image - power=on charge=9 cut=new", sheet, heard(marked, 100), "dump"]


def allowed_and_denied(rng):
    """Tracks, doubt, reserved types and duo; a denied job's position stays open."""
    pair = (b"P" * 16, b"K" * 16)
    tried = [(0, {}), (1, {0: 5, 1: 0}), (1, {0: 6, 1: 0}), (1, {0: b"\x05", 1: 0}), (2, {0: 5, 1: 1}),
             (2, {0: TOP, 1: 1}), (3, {0: 6}), (13, {}), (30, {}), (31, {0: 0}), (20, {0: 1, 1: 2, 2: "héllo"}),
             (20, {0: 1, 1: 2, 2: ""}), (11, {0: -5}), (10, {0: 2}), (12, {0: 99}), (14, {}), (9, {})]
    for catalog in ("-", "5", "5,6", f"1,{TOP},5,5"):
        for duo in ({}, {"duo": b""}):
            jobs = [plain_job(rng, (7, step), pair, kind, args, **duo) for step, (kind, args) in enumerate(tried)]
            lines = [table_line(True, 99, "old"), "text", f"catalog {catalog}", sheet_line(rng, jobs, left_out=0)]
            for job, (kind, _) in zip(jobs, tried):
                lines += [heard(job, suspect=True), mark_line(pair), heard(job), mark_line(pair)]
                if kind == 20 and not duo:
                    lines.append("text")
            yield lines + ["dump"]


def first_no(rng):
    """Jobs that fail several questions at once, each with and without its row in the sheet."""
    pair = (b"P" * 16, b"K" * 16)
    tried = [dict(profile=2, sig=b"x"), dict(sig=b"x"), dict(sig=bytes(15), exp=0), dict(exp=0), dict(exp=TOP),
             dict(exp=0, kind=4), dict(kind=4, duo=b""), dict(kind=3, duo=b""), dict(kind=30, duo=b""),
             dict(kind=30, exp=0), dict(duo=b"", exp=0), dict(duo=b"")]
    jobs = [plain_job(rng, (7, 1), pair, **more) for more in tried]
    seen = plain_job(rng, (7, 1), pair)
    pin = pin_row(rng, pair[1], 3)
    for sheet in ("verdicts -", f"verdicts {hexed(pin)}", sheet_line(rng, jobs + [seen], left_out=0),
                  f"verdicts {hexed(pin_row(rng, pair[1], 2))}", sheet_line(rng, jobs + [seen], True, 0)):
        for before in ([], [heard(seen)]):
            for charge in (0, 5):
                yield ([image_line(bytes(CELL_OCTETS), True, charge + len(before), "old"), sheet] + before
                       + [heard(job, suspect=True) for job in jobs] + [heard(seen), "dump"])


def frame_edges(rng):
    """The line's own cases, heard by a receiver; what stands before and behind the store's question."""
    short = [bytes.fromhex(octets) for octets in ("80", "80AA80", "80AAAA80", "80FFFF")]
    short.append(line.octets_of(line.filled(line.tones_of(line.FLAG + "000" + line.FLAG))))
    for power in (True, False):
        lines = [table_line(power, 3, "old"), "verdicts -"]
        for octets in short:
            lines.append(listen_line(octets, 8 * len(octets), NOW))
            lines.append(listen_line(octets, 8 * len(octets) + 1, NOW))
            lines.append(listen_line(octets, 0, NOW, 1))
            lines.append(listen_line(octets, 0, NOW, 1, work=16_499))
            lines.append(listen_line(octets, 8 * len(octets), NOW, work=16_499))
        lines.append(listen_line(b"", 0, NOW))
        bits = line.FLAG + "0" * (line.LONGEST_BODY + 9)
        lines.append(listen_line(line.octets_of(line.filled(line.tones_of(bits))), len(bits), NOW))
        lines.append(listen_line(line.octets_of(line.filled(line.tones_of(bits[:-1]))), len(bits) - 1, NOW))
        yield lines


def damaged_day(rng):
    """Every kind of damage to a message by itself, then a job that is released."""
    jobs = [job for job, _ in one_damage_each(rng)] + [plain_job(rng, (7, 1), (b"P" * 16, b"K" * 16))]
    yield [table_line(True, 99, "old"), "catalog 5", sheet_line(rng, jobs, left_out=0)] + [
        heard(job) for job in jobs] + ["dump"]


def unreadable_lines(rng):
    """Lines that change nothing, between lines that do; work buffers of any size; long lines."""
    pair = (b"P" * 16, b"K" * 16)
    jobs = [plain_job(rng, (7, step), pair, 20, {0: 0, 1: 1, 2: "abc" * step}) for step in range(3)]
    good = heard(jobs[2])
    bad = ["listen", "listen 80", good.replace("suspect=no", "suspect=maybe"), good.replace("count=", "tones="),
           good.replace("work=", "work=x"), good + " more", good.replace("listen ", "listen 8"), "catalog", "catalog 1,,2",
           "catalog 1 2", f"catalog {1 << 64}", "catalog 1,x", "text 1", "on", "on x", "on 1 2", "hark 80"]
    yield [table_line(True, 9, "old"), "floor 3", "catalog 5", sheet_line(rng, jobs, left_out=0), heard(jobs[0]), "text",
           *bad, "floor 9", "text", heard(jobs[1]), *bad, "text", mark_line(pair), good, "text", "dump"]
    octets, count = burst(jobs[0])
    yield [table_line(True, 9, "old"), listen_line(octets, count, NOW, work=TOP), listen_line(octets, count, NOW, work=1 << 40),
           listen_line(octets, count, NOW, work=16_501), mark_line(pair), "text"]
    long = octets + rng.randbytes(100_000)
    yield [table_line(True, 9, "old"), listen_line(long, 8 * len(long), NOW), listen_line(long, 8 * len(long), NOW, 8 * len(long)),
           "catalog " + ",".join(map(str, range(40_000))), mark_line(pair)]


def fixed_days(rng):
    yield from frame_edges(rng)
    yield from damaged_day(rng)
    yield from marks_and_floors(rng)
    yield from allowed_and_denied(rng)
    yield from first_no(rng)
    yield from cut_everywhere(rng)
    yield from unreadable_lines(random.Random(1))


def receiver_cases(rng, wanted):
    """Fixed days, then random ones until enough calls listen."""
    listens = 0
    for day in fixed_days(rng):
        listens += sum(text.startswith("listen") for text in day)
        yield day
    while listens < wanted:
        day = random_day(rng)
        listens += sum(text.startswith("listen") for text in day)
        yield day
