"""Seeded test cases for stores and sheets: histories of raises, cuts and switching on."""

import hashlib

from gen_line import hexed
from model.store import CELL_OCTETS, record_octets

TOP = (1 << 64) - 1
CUTS = ("old", "new", "torn")
MOST_CALLS = 40
ASKED_ALGS = (1, 1, 1, 1, 3, 3, 3, 3, 3, 2, 0, 4, 255)


# Lines

def image_line(octets, on, charge, cut):
    return f"image {hexed(octets)} power={'on' if on else 'off'} charge={charge} cut={cut}"


def table_line(on, charge, cut):
    return f"table power={'on' if on else 'off'} charge={charge} cut={cut}"


def pair_words(pair):
    return f"{hexed(pair[0])} {hexed(pair[1])}"


def mark_line(pair):
    return f"mark {pair_words(pair)}"


def raise_line(pair, mark):
    return f"raise {pair_words(pair)} {mark[0]} {mark[1]} {hexed(mark[2])}"


# Parts of a history

def random_pairs(rng, most):
    """Pairs of which some share their sid or their kid."""
    sids = [rng.randbytes(16) for _ in range(2)] + [bytes(16)]
    kids = [rng.randbytes(16) for _ in range(3)] + [b"\xff" * 16]
    return list({(rng.choice(sids), rng.choice(kids)) for _ in range(rng.randint(1, most))})


def random_mark(rng):
    """Few positions, so that equal and neighbouring ones are common; sometimes huge ones."""
    if rng.random() < 0.05:
        return (rng.choice([0, TOP, TOP - 1]), rng.choice([0, TOP, TOP - 1]), rng.randbytes(32))
    return (rng.randint(5, 8), rng.randint(0, 6), rng.choice([bytes(32), rng.randbytes(32)]))


def random_cell(rng, pairs):
    which = rng.randrange(10)
    if which < 3:
        return bytes(CELL_OCTETS)
    if which == 3:
        return bytes([0]) + rng.randbytes(CELL_OCTETS - 1)
    octets = record_octets(rng.choice(pairs), random_mark(rng))
    if which == 4:
        return bytes([rng.choice([2, 3, 0xFE, 0xFF])]) + octets[1:]
    return octets


def random_image(rng, pairs):
    count = rng.choice([0, 1, 1, 2, 2, 3, 3, 4, 5, 8, 17, 20])
    behind = rng.choice([0, 0, 1, 40, 80])
    return b"".join(random_cell(rng, pairs) for _ in range(count)) + rng.randbytes(behind)


def random_start(rng, pairs):
    """A store: cells, power and charge, and up to three floors."""
    power = (rng.random() < 0.9, rng.choice([0, 1, 2, 3, 5, 20, TOP]), rng.choice(CUTS))
    if rng.random() < 0.25:
        lines = [table_line(*power)]
    else:
        lines = [image_line(random_image(rng, pairs), *power)]
    for _ in range(rng.choice([0, 0, 0, 1, 1, 2, 3])):
        lines.append(f"floor {rng.choice([0, 4, 5, 6, 6, 7, 8, 9, TOP])}")
    return lines


class Climber:
    """Chooses marks that mostly go up."""

    def __init__(self, rng):
        self.rng = rng
        self.last = {}

    def mark(self, pair):
        epoch, counter = self.last.get(pair, (self.rng.randint(4, 8), self.rng.randint(0, 4)))
        step = self.rng.randrange(12)
        if step < 7 and counter < TOP:
            counter += 1
        elif step < 9 and epoch < TOP:
            epoch, counter = epoch + 1, self.rng.randint(0, 2)
        elif step == 9 and counter:
            counter -= 1
        elif step == 10:
            return random_mark(self.rng)
        self.last[pair] = (epoch, counter)
        return (epoch, counter, self.rng.randbytes(32))


def random_call(rng, pairs, climber):
    pair = rng.choice(pairs)
    which = rng.randrange(20)
    if which < 10:
        return raise_line(pair, climber.mark(pair))
    if which < 13:
        return f"on {rng.choice([0, 1, 2, 3, 6, TOP])}"
    if which < 17:
        return mark_line(pair)
    if which == 17:
        return f"room {pair_words(pair)}"
    return "dump"


def random_history(rng):
    pairs = random_pairs(rng, 6)
    climber = Climber(rng)
    lines = random_start(rng, pairs)
    lines += [random_call(rng, pairs, climber) for _ in range(rng.randint(3, MOST_CALLS - 8))]
    return lines + [mark_line(pair) for pair in pairs] + ["dump"]


# Fixed cases

def cut_everywhere(rng, start_line, floors=()):
    """The same climb with the power failing at each write in turn, in each of three ways."""
    pairs = random_pairs(rng, 3)
    climb = [(rng.choice(pairs), (7, step, rng.randbytes(32))) for step in range(1, 8)]
    for cut in CUTS:
        for charge in range(len(climb) + 1):
            lines = [start_line(charge, cut), *floors]
            for pair, mark in climb:
                lines += [raise_line(pair, mark), mark_line(pair)]
            lines += ["dump", "on 2"] + [mark_line(pair) for pair in pairs]
            lines += [raise_line(pair, mark) for pair, mark in climb] + ["dump"]
            yield lines


def flipped_octets(rng):
    """Each octet of one cell changed in turn."""
    pairs = [(b"s" * 16, b"k" * 16), (b"s" * 16, b"j" * 16)]
    image = (record_octets(pairs[0], (7, 1, b"a" * 32)) + record_octets(pairs[0], (7, 2, b"b" * 32))
             + record_octets(pairs[1], (6, 9, b"c" * 32)))
    for place in range(CELL_OCTETS, 2 * CELL_OCTETS):
        for change in (1, 0x80, 0xFF):
            octets = bytearray(image)
            octets[place] ^= change
            yield ([image_line(octets, True, 5, "torn")] + [mark_line(pair) for pair in pairs]
                   + [raise_line(pairs[0], (7, 3, b"d" * 32)), mark_line(pairs[0]), "dump"])


def known_histories():
    pair, other = (b"P" * 16, b"K" * 16), (b"P" * 16, b"L" * 16)
    one, two, three = ((7, counter, bytes([counter]) * 32) for counter in (1, 2, 3))
    cells = record_octets(pair, one) + record_octets(pair, two) + bytes(CELL_OCTETS)
    for charge in (0, 1):
        for cut in CUTS:
            yield [image_line(cells, True, charge, cut), raise_line(pair, three), mark_line(pair), "dump",
                   "on 1", mark_line(pair), raise_line(pair, three), "dump"]
    single = record_octets(pair, (7, 105, b"h" * 32))
    yield [image_line(cells, False, 9, "old"), f"room {pair_words(pair)}", f"room {pair_words(other)}"]
    yield [image_line(single, True, 9, "old"), f"room {pair_words(pair)}", f"room {pair_words(other)}",
           raise_line(pair, (7, 106, b"i" * 32)), raise_line(pair, (7, 104, b"i" * 32)),
           raise_line(other, (7, 106, b"i" * 32)), "dump"]
    for wanted in ((7, 104), (7, 105), (7, 106), (8, 0), (6, 999), (0, 0), (TOP, TOP)):
        for floors in ([], ["floor 9"], ["floor 7"], ["floor 8", "floor 3"], ["floor 3", "floor 8", "floor 8"]):
            yield [image_line(single + bytes(CELL_OCTETS), True, 9, "old"), *floors, mark_line(pair),
                   mark_line(other), raise_line(pair, (*wanted, b"i" * 32)), mark_line(pair), "dump"]
    twins = record_octets(pair, (7, 5, b"x" * 32)) + record_octets(pair, (7, 5, b"y" * 32))
    yield [image_line(twins, True, 3, "torn"), mark_line(pair), raise_line(pair, (7, 6, b"z" * 32)), "dump",
           raise_line(pair, (7, 7, b"z" * 32)), "dump"]
    yield ["image - power=on charge=5 cut=new", f"room {pair_words(pair)}", raise_line(pair, one), "dump",
           mark_line(pair), "on 5", raise_line(pair, one)]
    yield [table_line(True, TOP, "torn")] + [raise_line(pair, (1, step, bytes(32))) for step in range(1, 20)] + [
        "dump", "on 3", raise_line(pair, (2, 0, bytes(32))), "dump"]
    many = [(bytes(16), bytes([number]) * 16) for number in range(17)]
    yield [table_line(True, 99, "old")] + [raise_line(each, (1, 1, bytes(32))) for each in many] + [
        f"room {pair_words(pair)}", raise_line(many[3], (1, 2, bytes(32))), "dump"]
    yield [image_line(bytes(CELL_OCTETS * 256), True, 600, "old")] + [
        raise_line(many[step % 17], (1, step, bytes(32))) for step in range(1, 300, 9)] + ["dump"]
    yield ["mark 00 00", table_line(True, 1, "old"), "floor 1", "floor 2", "floor 3", "floor 4", "dump", "floor 5",
           "on", "on x", "mark 00 00", "raise 00", "image 0 power=on charge=1 cut=old",
           "image - power=maybe charge=1 cut=old", "table power=on charge=1 cut=half", mark_line(pair)]
    yield [table_line(True, 1, "old"), "mark 00", "nonsense", "# a comment", "", "floor 1", "on", "floor x", "floor 2",
           mark_line(pair), "floor 3", mark_line(pair), "verdicts -", table_line(True, 1, "old"), "verdicts -", "floor 4",
           mark_line(pair)]
    yield ["floor 1", "dump", "on 3", f"room {pair_words(pair)}", raise_line(pair, one), "dump 1", "verdicts 0", "tags",
           "known 00 1", f"known {'00' * 16} 256", f"known {'00' * 16} {TOP}", f"good {'00' * 16} 1 - -"]


# Sheets

def pin_row(rng, kid, alg):
    return b"\x00" + kid + bytes([alg]) + rng.randbytes(64)


def yes_row(kid, alg, transcript, signature, kind=1):
    return (bytes([kind]) + kid + bytes([alg]) + hashlib.sha256(transcript).digest()
            + hashlib.sha256(signature).digest())


def tag_row(kid, transcript, tag):
    return kid + hashlib.sha256(transcript).digest() + tag


def one_bit_off(rng, octets):
    octets = bytearray(octets)
    octets[rng.randrange(len(octets))] ^= 1 << rng.randrange(8)
    return bytes(octets)


def sheet_case(rng):
    """A sheet of a few rows, some of them damaged, and questions about near matches."""
    kids = [rng.randbytes(16) for _ in range(2)]
    scripts = [rng.randbytes(rng.choice([0, 1, 50, 64])) for _ in range(2)]
    tagged = rng.random() < 0.5
    signatures = [rng.randbytes(16 if tagged else rng.choice([0, 16, 100])) for _ in range(2)]
    rows = []
    for _ in range(rng.randint(0, 12)):
        kid, alg = rng.choice(kids), rng.choice([1, 1, 1, 3, 3, 3, 2, 0, 255])
        if tagged:
            row = tag_row(kid, rng.choice(scripts), rng.choice(signatures))
        elif rng.random() < 0.5:
            row = pin_row(rng, kid, alg)
        else:
            row = yes_row(kid, alg, rng.choice(scripts), rng.choice(signatures), rng.choice([1, 1, 1, 1, 2, 255]))
        rows.append(one_bit_off(rng, row) if rng.random() < 0.1 else row)
    sheet = b"".join(rows) + rng.randbytes(rng.choice([0, 0, 1, 63 if tagged else 81]))
    if rng.random() < 0.2 and rows:
        sheet = sheet[:-1]
    lines = [f"{'tags' if tagged else 'verdicts'} {hexed(sheet)}"]
    for _ in range(10):
        kid, alg = rng.choice(kids * 4 + [bytes(16)]), rng.choice(ASKED_ALGS)
        lines.append(f"known {hexed(kid)} {alg}")
        signature = rng.choice(signatures * 4 + [b"", bytes(15), bytes(17)])
        lines.append(f"good {hexed(kid)} {alg} {hexed(rng.choice(scripts))} {hexed(signature)}")
    return lines


def fixed_cases(rng):
    yield from known_histories()
    yield from flipped_octets(rng)
    yield from (sheet_case(rng) for _ in range(40))
    for floors in ((), ("floor 6",), ("floor 7", "floor 2")):
        yield from cut_everywhere(rng, lambda charge, cut: table_line(True, charge, cut), floors)
        for cells in (1, 2, 3, 4, 9):
            image = bytes(CELL_OCTETS * cells + 5)
            yield from cut_everywhere(rng, lambda charge, cut: image_line(image, True, charge, cut), floors)


def store_cases(rng, wanted):
    made = 0
    for case in fixed_cases(rng):
        made += 1
        yield case
    for number in range(wanted - made):
        yield sheet_case(rng) if number % 6 == 0 else random_history(rng)
