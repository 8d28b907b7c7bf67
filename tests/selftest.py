"""The model against worked numbers, against the library's CRC, and against itself (written, then heard)."""

import binascii
import hashlib
import random
import sys

import gen_items
import gen_message
from model import items, line, message
from model.receiver import Receiver
from model.script import Script
from model.store import BLANK, TORN, Floor, Image, Journal, Table, record_octets
from model.verdicts import TagSheet, VerdictSheet

RESULTS = []


def check(what, expected, got):
    RESULTS.append(expected == got)
    if expected != got:
        print(f"{what}: expected {expected!r}, got {got!r}")


def library_fcs(message):
    """The FCS by the library's CRC, which takes the highest bit of an octet first."""
    turned = bytes(int(f"{octet:08b}"[::-1], 2) for octet in message)
    register = binascii.crc_hqx(turned, 0xFFFF)
    return int(f"{register:016b}"[::-1], 2) ^ 0xFFFF


def heard(octets, start=0):
    octets = bytes.fromhex(octets)
    return line.hear(octets, 8 * len(octets), start, line.WORK_OCTETS)


def line_numbers():
    check("FCS of 123456789", 0x906E, line.fcs(b"123456789"))
    check("FCS of nothing", 0x0000, line.fcs(b""))
    check("FF FF stuffed", 19, len(line.stuffed(line.bits_of(b"\xff\xff"))))
    check("7E stuffed", 9, len(line.stuffed(line.bits_of(b"\x7e"))))
    check("a flag from mark", b"\x80", line.octets_of(line.tones_of(line.FLAG)))
    check("80", ("quiet", 8), heard("80"))
    check("80AA80", ("refused", 7, 16), heard("80AA80"))
    check("80AAAA80", ("frame", b"\x00\x00", 24), heard("80AAAA80"))
    check("80FFFF", ("refused", 5, 24), heard("80FFFF"))
    check("no tones", ("quiet", 0), heard(""))
    check("work below its least", ("refused", 1, 3), line.hear(b"\x80", 8, 3, 16_499))
    check("start behind count", ("refused", 2, 9), line.hear(b"\x80", 8, 9, 16_500))
    check("count behind octets", ("refused", 2, 0), line.hear(b"\x80", 9, 0, 16_500))
    check("five ones end a body", ("refused", 5, 16),
          line.frame(*toned(line.FLAG + "00011111" + line.FLAG), 0))
    check("27 before 28", ("refused", 27), line.write(bytes(12_289), 0))
    octets, count = line.burst(b"")
    check("count of an empty message", 34 * 8 + 16, count)
    check("room", ("refused", 28), line.write(b"", len(octets) - 1))
    check("exact room", ("burst", octets, count), line.write(b"", len(octets)))


def toned(bits):
    return line.octets_of(line.filled(line.tones_of(bits))), len(bits)


def line_limits():
    flag, most = line.FLAG, line.LONGEST_BODY
    check("longest body", ("refused", 7, most + 8),
          line.frame(*toned(flag + "0" * most + flag), 0))
    check("one bit more", ("refused", 4, most + 8),
          line.frame(*toned(flag + "0" * (most + 1) + flag), 0))
    check("open, 132,008 bits", ("refused", 5, most + 16),
          line.frame(*toned(flag + "0" * (most + 8)), 0))
    check("open, 132,009 bits", ("refused", 4, most + 8),
          line.frame(*toned(flag + "0" * (most + 9)), 0))


def line_at_random(rng):
    for _ in range(300):
        message = rng.randbytes(rng.randint(0, 200))
        check("FCS by the library", library_fcs(message), line.fcs(message))
        check("register behind an FCS", line.GOOD_REGISTER,
              line.fcs_register(line.with_fcs(message)))
        bits = line.bits_of(message)
        check("bits and octets", message, line.octets_of(bits))
        check("tones undone", bits, line.decoded(line.tones_of(bits)))
        body = line.stuffed(bits)
        check("stuffing undone", bits, line.unstuffed(body))
        check("stuffing by replacing", bits.replace("11111", "111110"), body)
        octets, count = line.burst(message)
        body = line.stuffed(line.bits_of(line.with_fcs(message)))
        check("written and heard", ("frame", line.with_fcs(message), 33 * 8 + len(body)),
              line.frame(octets, count, 0))
    for _ in range(2_000):
        body = "".join(rng.choice("0111") for _ in range(rng.randint(0, 30)))
        found = line.unstuffed(body)
        check("only a stuffed form is unstuffed", found is not None,
              "111111" not in body and not body.endswith("11111"))
        if found is not None:
            check("unstuffing undone", body, line.stuffed(found))


# Items

def said(text):
    return Script().answer(text)


def read(octets):
    return said(f"read {octets or '-'}")


def item_numbers():
    for octets in gen_items.PLAIN_EXAMPLES:
        check(f"example {octets}", "read deterministic", read(octets))
    for octets in gen_items.REFUSED_EXAMPLES:
        check(f"example {octets}", "fault 8", read(octets))
    for octets in gen_items.INDEFINITE_EXAMPLES:
        check(f"example {octets}", "fault 9", read(octets))
    for octets, answer in gen_items.FIRST_FROM_THE_LEFT:
        check(f"items {octets}", answer, read(octets))


def verdict(value):
    return read(items.encode(value).hex())


def item_limits():
    good, bad, endless = "read deterministic", "fault 8", items.Raw(b"\x9f")
    check("256 items", good, verdict([0] * 256))
    check("257 items", bad, verdict([0] * 257))
    check("257th item indefinite", "fault 9", verdict([0] * 256 + [endless]))
    check("64 entries", good, verdict({key: 0 for key in range(64)}))
    check("65 entries", bad, verdict({key: 0 for key in range(65)}))
    check("1,024 in all", good, verdict([[0] * 255] * 3 + [[0] * 254]))
    check("1,025 in all", bad, verdict([[0] * 255] * 4))
    check("32 containers", good, verdict(gen_items.nested(32, 0)))
    check("33 containers", bad, verdict(gen_items.nested(33, 0)))
    check("33rd container indefinite", "fault 9", verdict(gen_items.nested(32, endless)))
    check("too many announced, indefinite met", "fault 9", read("9A00010000" + "00" * 9 + "5F"))
    check("too many announced, cut short", bad, read("9A00010000" + "00" * 9))
    check("indefinite behind the limit", bad, read("990101" + "00" * 257 + "9F"))


def items_at_random(rng):
    for _ in range(1_500):
        tree = gen_items.random_value(rng)
        octets = items.encode(tree)
        try:
            item = items.read(octets)
        except items.Fault:
            continue
        check("a tree's encoding is deterministic", True, items.deterministic(item, octets))
        check("a tree read back", octets, items.encode(message.value_of(item)))
        sloppy = items.encode(items.sloppy(tree, rng, 0.2))
        item = items.read(sloppy)
        again = items.encode(in_order(message.value_of(item)))
        check("deterministic is what encoding again leaves", again == sloppy,
              items.deterministic(item, sloppy))


def in_order(value):
    """The value with every map's entries in order."""
    if isinstance(value, items.Pairs):
        return items.Pairs(sorted(([in_order(key), in_order(part)] for key, part in value),
                                  key=lambda entry: items.encode(entry[0])))
    if isinstance(value, list):
        return [in_order(part) for part in value]
    return value


def digests():
    for octets, expected in (
            (b"", "E3B0C44298FC1C149AFBF4C8996FB92427AE41E4649B934CA495991B7852B855"),
            (b"abc", "BA7816BF8F01CFEA414140DE5DAE2223B00361A396177A9CB410FF61F20015AD"),
            (gen_items.DIGEST_EDGES[1], "248D6A61D20638B8E5C026930C3E6039A33CE45964FF2167F6ECEDD419DB06C1"),
            (gen_items.DIGEST_EDGES[2], "CF5B16A778AF8380036CE59E7B0492370B249B11E8F07A51AFAC45037AFEE9D1")):
        check("digest", f"sha {expected}", said(f"sha {octets.hex() or '-'}"))


# Messages

PAIR = (b"S" * 16, b"K" * 16)


def heartbeat(epoch=7, counter=105, signature=bytes(16), exp=None, **auth):
    mid = {0: epoch, 1: counter, 2: PAIR[0]}
    if exp is not None:
        mid[3] = exp
    return {0: 1, 1: 1, 2: mid, 3: {0: 0, 1: {}}, 4: {0: 3, 1: PAIR[1], 2: signature, **auth}}


def judged(tree, now=0):
    answer = said(f"judge {items.encode(tree).hex()} now={now}")
    return answer.split(" next")[0] if answer.startswith("refused") else answer.split()[0]


def message_numbers():
    check("a heartbeat", "message", judged(heartbeat()))
    for exp, now, answer in ((100, 130, "message"), (100, 131, "refused 19"), (86_400, 0, "message"),
                             (86_401, 0, "refused 20"), (2**64 - 1, 2**64 - 1, "message"),
                             (2**64 - 31, 2**64 - 1, "message"), (2**64 - 32, 2**64 - 1, "refused 19"),
                             (2**64 - 1, 2**64 - 86_401, "message"), (2**64 - 1, 2**64 - 86_402, "refused 20")):
        check(f"exp {exp} at {now}", answer, judged(heartbeat(exp=exp), now))
    tree = heartbeat()
    octets = items.encode(tree)
    short = octets.replace(b"\x04\xa3\x00\x03\x01", b"\x04\xa2\x00\x03\x01").replace(b"\x02\x50" + bytes(16), b"")
    check("a transcript is 18 octets shorter", len(octets) - 18, len(short))
    check("transcript", short, message.read_message(octets).transcript())
    check("hash", hashlib.sha256(short).digest(), message.read_message(octets).hash)
    check("echo without context", "refused 14", judged({**tree, 5: {0: b""}}))
    tree[4][3] = b"owac"
    check("context alone", "message", judged(tree))
    check("echo", "message", judged({**tree, 5: {0: b"owac"}}))
    check("another echo", "refused 14", judged({**tree, 5: {0: b"owax"}}))
    check("empty meta", "message", judged({**tree, 5: {}}))
    check("meta knows no other key", "refused 11", judged({**tree, 5: {1: b""}}))
    check("extensions of anything", "message", judged({**tree, 6: {"a": [{}], -1: None}}))
    check("unknown key", "refused 11", judged({**tree, 7: 0}))
    check("version", "refused 11", judged({**tree, 0: 2}))
    check("profile", "refused 12", judged({**tree, 1: 2}))


def command_numbers():
    tree = heartbeat()
    for kind, args, answer in ((1, {0: 1, 1: -10}, "message"), (1, {0: 1, 1: -11}, "refused 22"),
                               (1, {0: b"t", 1: 10, 3: 0}, "message"), (1, {0: 1, 1: 0, 2: 2, 3: 1}, "refused 22"),
                               (2, {0: 1, 1: 5}, "message"), (2, {0: 1, 1: 6}, "refused 22"),
                               (2, {0: 1}, "refused 22"), (4, {}, "refused 21"), (30, {5: 5}, "message"),
                               (10, {0: 3}, "refused 22"), (11, {0: -60_000}, "message"),
                               (11, {0: -60_001}, "refused 22"), (12, {0: 50}, "message"),
                               (12, {0: 201}, "refused 22"), (13, {}, "message"), (14, {0: 0}, "refused 22"),
                               (20, {0: 2, 1: 2, 2: "a" * 256}, "message"), (20, {0: 2, 1: 2, 2: b""}, "refused 22"),
                               (20, {0: 2, 1: 2, 2: "a" * 257}, "refused 13")):
        tree[3] = {0: kind, 1: args}
        check(f"type {kind} {args}", answer, judged(tree))


def messages_at_random(rng):
    for _ in range(300):
        now = gen_message.random_now(rng)
        tree = gen_message.message_tree(rng, now)
        octets = items.encode(tree)
        found, command = message.judge(octets, now)
        without = {**tree, 4: {key: value for key, value in tree[4].items() if key != 2}}
        check("transcript of a tree", items.encode(without), found.transcript())
        if command.name == "text":
            place, length = command.numbers[2:]
            check("a text's place", tree[3][1][2].encode(), octets[place:place + length])


# Stores

def mark(epoch, counter, letter=b"h"):
    return (epoch, counter, letter * 32)


def store_numbers():
    journal = Journal(Image(record_octets(PAIR, mark(7, 105)) + bytes(81), True, 9, "old"))
    check("(7,104)", "low", journal.raise_mark(PAIR, mark(7, 104)))
    check("(7,105)", "low", journal.raise_mark(PAIR, mark(7, 105)))
    check("(7,106)", "done", journal.raise_mark(PAIR, mark(7, 106)))
    check("(8,0)", "done", journal.raise_mark(PAIR, mark(8, 0)))
    cells = record_octets(PAIR, mark(7, 1)) + record_octets(PAIR, mark(7, 2)) + bytes(81)
    for cut, left in (("torn", TORN), ("old", (PAIR, mark(7, 1))), ("new", (PAIR, mark(7, 3)))):
        journal = Journal(Image(cells, True, 0, cut))
        check("cut", "cut", journal.raise_mark(PAIR, mark(7, 3)))
        check(f"cell 0 after a cut that leaves {cut}", left, journal.cells.read(0))
        check("mark after the cut", mark(7, 3 if cut == "new" else 2), journal.mark(PAIR))
        check("off", "off", journal.raise_mark(PAIR, mark(7, 4)))
    floor = Floor(Journal(Image(record_octets(PAIR, mark(7, 105)), True, 9, "old")), 9)
    check("floor 9", (9, 0, bytes(32)), floor.mark(PAIR))
    check("one cell: no room", False, floor.room(PAIR))
    check("one cell: full", "full", floor.raise_mark(PAIR, mark(9, 1)))
    journal = Journal(Table(True, 99, "old"))
    for step in range(20):
        check("a table goes round", "done", journal.raise_mark(PAIR, mark(1, step)))
    check("cell 3 was written last", (PAIR, mark(1, 19)), journal.cells.read(3))
    check("a blank cell", BLANK, Table(True, 0, "old").read(15))
    check("torn beyond the list", TORN, Table(True, 0, "old").read(16))


def stores_at_random(rng):
    """No mark ever falls, and a pile of floors is its highest."""
    for _ in range(150):
        pairs = [(rng.randbytes(16), PAIR[1]) for _ in range(3)]
        cells = Image(bytes(81 * rng.randint(1, 6)), True, 3, rng.choice(["old", "new", "torn"]))
        alone, below = Journal(cells), Journal(Image(cells.octets, True, 3, cells.cut))
        floors = [rng.randint(0, 9) for _ in range(3)]
        pile, single = alone, Floor(below, max(floors))
        for floor in floors:
            pile = Floor(pile, floor)
        for _ in range(30):
            before = [pile.mark(pair) for pair in pairs]
            if rng.random() < 0.2:
                pile.switch_on(2)
                single.switch_on(2)
            else:
                wanted = (rng.randint(0, 9), rng.randint(0, 3), rng.randbytes(32))
                pair = rng.choice(pairs)
                check("a pile acts as its highest", single.raise_mark(pair, wanted), pile.raise_mark(pair, wanted))
            after = [pile.mark(pair) for pair in pairs]
            check("no mark falls", True, all(old[:2] <= new[:2] for old, new in zip(before, after)))
            check("one mark moves at most", True, sum(old != new for old, new in zip(before, after)) <= 1)
            check("same cells", single.dump(), pile.dump())


def sheet_numbers():
    kid, digest = PAIR[1], hashlib.sha256(b"transcript").digest()
    pin = b"\x00" + kid + b"\x01" + bytes(64)
    yes = b"\x01" + kid + b"\x01" + digest + hashlib.sha256(b"sig").digest()
    check("pinned", True, VerdictSheet(pin).known(kid, 1))
    check("pinned for another alg", False, VerdictSheet(pin).known(kid, 2))
    check("good", True, VerdictSheet(yes + pin).good(kid, 1, b"transcript", b"sig"))
    check("not pinned", False, VerdictSheet(yes).good(kid, 1, b"transcript", b"sig"))
    check("cut row", False, VerdictSheet(yes + pin[:-1]).known(kid, 1))
    tags = TagSheet(kid + digest + b"t" * 16)
    check("tag", (True, True, False), (tags.known(kid, 3), tags.good(kid, 3, b"transcript", b"t" * 16),
                                       tags.good(kid, 3, b"transcript", b"u" * 16)))
    check("tags are for alg 3", (False, False), (tags.known(kid, 1), tags.good(kid, 1, b"transcript", b"t" * 16)))


# Receiver

def heard_by(receiver, sheet, tree, now=1_700_000_000, **other):
    octets, count = line.burst(items.encode(tree))
    call = {"catalog": set(), "work": 16_500, "suspect": False, **other}
    answer = receiver.listen(octets, count, 0, now, call["catalog"], call["work"], call["suspect"], sheet)
    return " ".join(map(str, answer[:2])) if answer[0] == "refused" else answer[0]


class Trusting:
    """A verifier that knows and passes everything."""

    def known(self, kid, alg):
        return True

    def good(self, kid, alg, transcript, signature):
        return True


def receiver_numbers():
    one_cell = Receiver(Journal(Image(record_octets(PAIR, mark(7, 105)), True, 9, "old")))
    check("one cell holding the pair", "refused 25", heard_by(one_cell, Trusting(), heartbeat(8, 0)))
    receiver = Receiver(Journal(Table(True, 2, "torn")))
    check("unknown key", "refused 15", heard_by(receiver, VerdictSheet(b""), heartbeat()))
    check("released", "released", heard_by(receiver, Trusting(), heartbeat(exp=100), 130))
    check("an expired duplicate", "duplicate", heard_by(receiver, Trusting(), heartbeat(exp=100), 999))
    check("same position, other hash", "refused 18", heard_by(receiver, Trusting(), heartbeat(exp=101), 100))
    queue = heartbeat(7, 106)
    queue[3] = {0: 1, 1: {0: 5, 1: 0}}
    check("not in the catalog", "refused 23", heard_by(receiver, Trusting(), queue, catalog={4}))
    check("doubted", "refused 23", heard_by(receiver, Trusting(), queue, catalog={5}, suspect=True))
    check("its position is still open", "released", heard_by(receiver, Trusting(), queue, catalog={5}))
    check("doubted heartbeat, no charge", "refused 26", heard_by(receiver, Trusting(), heartbeat(7, 107), suspect=True))
    check("off", "refused 3", heard_by(receiver, Trusting(), heartbeat(7, 107)))
    receiver.switch_on(1)
    check("the cut left the mark", mark(7, 106)[:2], receiver.store.mark(PAIR)[:2])
    check("released after all", "released", heard_by(receiver, Trusting(), heartbeat(7, 107)))
    floored = Receiver(Floor(Journal(Table(True, 9, "old")), 9))
    check("at the floor", "refused 18", heard_by(floored, Trusting(), heartbeat(9, 0)))
    check("above the floor", "released", heard_by(floored, Trusting(), heartbeat(9, 1)))
    short = bytes.fromhex("80AAAA80")
    check("80AAAA80", ("refused", 8, 24), floored.listen(short, 32, 0, 0, set(), 16_500, False, Trusting()))


if __name__ == "__main__":
    line_numbers()
    line_limits()
    line_at_random(random.Random(1))
    item_numbers()
    item_limits()
    items_at_random(random.Random(2))
    digests()
    message_numbers()
    command_numbers()
    messages_at_random(random.Random(3))
    store_numbers()
    stores_at_random(random.Random(4))
    sheet_numbers()
    receiver_numbers()
    print(f"{sum(RESULTS)} passed, {len(RESULTS) - sum(RESULTS)} failed")
    sys.exit(0 if all(RESULTS) else 1)
