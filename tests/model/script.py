"""The script language: one call a line, one answer line for each call that answers.

Hex is printed in capitals, '-' stands for no octets, '#' begins a comment.
`python3 script.py` reads a script from standard input, as `owac script` does.
"""

import hashlib
import os
import re
import sys

if __name__ == "__main__":
    sys.path.insert(0, os.path.dirname(os.path.dirname(os.path.abspath(__file__))))

from model import items, line, message
from model.receiver import Receiver
from model.store import Floor, Image, Journal, Table
from model.verdicts import TagSheet, VerdictSheet

MOST_FLOORS = 3


class Unreadable(Exception):
    """The line is not in the language; it prints an error and changes nothing."""


# Reading words

def octets(word, length=None):
    if word == "-":
        found = b""
    elif re.fullmatch(r"([0-9A-Fa-f]{2})+", word):
        found = bytes.fromhex(word)
    else:
        raise Unreadable(f"not hex: {word[:20]}")
    if length is not None and len(found) != length:
        raise Unreadable(f"{length} octets wanted")
    return found


def number(word):
    if not re.fullmatch(r"[0-9]+", word) or int(word) >= 1 << 64:
        raise Unreadable(f"not a number: {word[:20]}")
    return int(word)


def option(word, name):
    if not word.startswith(name + "="):
        raise Unreadable(f"{name}= wanted")
    return word[len(name) + 1:]


def one_of(word, choices):
    if word not in choices:
        raise Unreadable(f"one of {'|'.join(choices)} wanted")
    return word


def words_of(rest, least, most=None):
    if not least <= len(rest) <= (least if most is None else most):
        raise Unreadable("wrong number of words")
    return rest


def shown(found):
    return found.hex().upper() if found else "-"


def yes_no(answer):
    return "yes" if answer else "no"


# The line alone

def do_fcs(script, rest):
    (message,) = words_of(rest, 1)
    return f"fcs {line.fcs(octets(message)):04X}"


def do_write(script, rest):
    message, room = words_of(rest, 2)
    answer = line.write(octets(message), number(option(room, "room")))
    if answer[0] == "refused":
        return f"refused {answer[1]} rest=ok"
    return f"burst {shown(answer[1])} count={answer[2]} rest=ok"


def do_hear(script, rest):
    burst, count, start, work = words_of(rest, 4)
    answer = line.hear(octets(burst), number(option(count, "count")),
                       number(option(start, "start")), number(option(work, "work")))
    if answer[0] == "quiet":
        said = f"quiet next={answer[1]}"
    elif answer[0] == "refused":
        said = f"refused {answer[1]} next={answer[2]}"
    else:
        said = f"frame next={answer[2]} length={len(answer[1])} octets={shown(answer[1])}"
    return said + " work=clean"


# Items and messages alone

def do_read(script, rest):
    (word,) = words_of(rest, 1)
    found = octets(word)
    try:
        item = items.read(found)
    except items.Fault as fault:
        return f"fault {fault.number}"
    return "read deterministic" if items.deterministic(item, found) else "read other"


def do_sha(script, rest):
    (word,) = words_of(rest, 1)
    return f"sha {shown(hashlib.sha256(octets(word)).digest())}"


def do_utf8(script, rest):
    (word,) = words_of(rest, 1)
    return f"utf8 {yes_no(items.is_text(octets(word)))}"


def do_judge(script, rest):
    word, now = words_of(rest, 2)
    found, now = octets(word), number(option(now, "now"))
    try:
        return "message " + message.described(*message.judge(found, now))
    except message.Refused as refused:
        return f"refused {refused.number}"


def do_fields(script, rest):
    word, now = words_of(rest, 2)
    found, now = octets(word), number(option(now, "now"))
    try:
        said, command = message.judge(found, now)
    except message.Refused as refused:
        return f"refused {refused.number} {message.NAMES[refused.number]}"
    return f"message {message.described(said, command)} {message.more_fields(said)}"


# Stores

def device(rest):
    """power=, charge= and cut=, as image and table are told them."""
    power, charge, cut = rest
    return (one_of(option(power, "power"), ("on", "off")) == "on", number(option(charge, "charge")),
            one_of(option(cut, "cut"), ("old", "new", "torn")))


def do_image(script, rest):
    words_of(rest, 4)
    script.make(Image(octets(rest[0]), *device(rest[1:])))


def do_table(script, rest):
    script.make(Table(*device(words_of(rest, 3))))


def do_floor(script, rest):
    (epoch,) = words_of(rest, 1)
    epoch = number(epoch)
    if not script.floors_left:
        raise Unreadable("a floor stands right behind image or table, three at most")
    script.receiver.store = Floor(script.receiver.store, epoch)
    script.floors_left -= 1


def pair_of(sid, kid):
    return octets(sid, 16), octets(kid, 16)


def do_raise(script, rest):
    sid, kid, epoch, counter, digest = words_of(rest, 5)
    mark = (number(epoch), number(counter), octets(digest, 32))
    return f"raise {script.store().raise_mark(pair_of(sid, kid), mark)}"


def do_on(script, rest):
    (charge,) = words_of(rest, 1)
    charge = number(charge)
    script.store()
    script.receiver.switch_on(charge)
    return "on"


def do_mark(script, rest):
    mark = script.store().mark(pair_of(*words_of(rest, 2)))
    return "mark -" if mark is None else f"mark {mark[0]} {mark[1]} {shown(mark[2])}"


def do_room(script, rest):
    return f"room {yes_no(script.store().room(pair_of(*words_of(rest, 2))))}"


def do_dump(script, rest):
    words_of(rest, 0)
    kind, found = script.store().dump()
    return f"{kind} {shown(found)}"


# Sheets

def do_verdicts(script, rest):
    (sheet,) = words_of(rest, 1)
    script.sheet = VerdictSheet(octets(sheet))


def do_tags(script, rest):
    (sheet,) = words_of(rest, 1)
    script.sheet = TagSheet(octets(sheet))


def do_known(script, rest):
    kid, alg = words_of(rest, 2)
    return f"known {yes_no(script.sheet.known(octets(kid, 16), number(alg)))}"


def do_good(script, rest):
    kid, alg, transcript, signature = words_of(rest, 4)
    call = octets(kid, 16), number(alg), octets(transcript), octets(signature)
    if not call[2]:
        raise Unreadable("a transcript has octets")
    return f"good {yes_no(script.sheet.good(*call))}"


# The receiver

def do_catalog(script, rest):
    (tracks,) = words_of(rest, 1)
    script.catalog = set() if tracks == "-" else {number(track) for track in tracks.split(",")}


def do_listen(script, rest):
    burst, count, start, now, suspect, work = words_of(rest, 6)
    call = (octets(burst), number(option(count, "count")), number(option(start, "start")),
            number(option(now, "now")))
    suspect = one_of(option(suspect, "suspect"), ("yes", "no")) == "yes"
    work = number(option(work, "work"))
    script.store()
    answer = script.receiver.listen(*call, script.catalog, work, suspect, script.sheet)
    if answer[0] == "refused":
        return f"refused {answer[1]} next={answer[2]}"
    if answer[0] != "released":
        return f"{answer[0]} next={answer[1]}"
    _, place, found, command = answer
    script.text = b""
    if command.name == "text":
        start, length = command.numbers[2:]
        script.text = found.octets[start:start + length]
    return f"released next={place} {message.described(found, command)}"


def do_text(script, rest):
    words_of(rest, 0)
    return f"text {shown(script.text)}"


WORDS = {
    "fcs": do_fcs,
    "write": do_write,
    "hear": do_hear,
    "read": do_read,
    "sha": do_sha,
    "utf8": do_utf8,
    "judge": do_judge,
    "fields": do_fields,
    "image": do_image,
    "table": do_table,
    "floor": do_floor,
    "raise": do_raise,
    "on": do_on,
    "mark": do_mark,
    "room": do_room,
    "dump": do_dump,
    "verdicts": do_verdicts,
    "tags": do_tags,
    "known": do_known,
    "good": do_good,
    "catalog": do_catalog,
    "listen": do_listen,
    "text": do_text,
}


class Script:
    """What stands between the lines of a script."""

    def __init__(self):
        self.lines = 0
        self.receiver = None
        self.floors_left = 0
        self.sheet = VerdictSheet(b"")
        self.catalog = set()
        self.text = b""

    def make(self, cells):
        """A receiver over these cells, in place of the one before."""
        self.receiver = Receiver(Journal(cells))
        self.floors_left = MOST_FLOORS
        self.text = b""

    def store(self):
        if self.receiver is None:
            raise Unreadable("no image or table yet")
        return self.receiver.store

    def answer(self, text):
        """The answer line to one line of script, or None."""
        self.lines += 1
        words = text.split("#", 1)[0].split()
        if not words:
            return None
        try:
            if words[0] not in WORDS:
                raise Unreadable(f"unknown word: {words[0][:20]}")
            said = WORDS[words[0]](self, words[1:])
            if words[0] not in ("image", "table", "floor"):
                self.floors_left = 0
            return said
        except Unreadable as what:
            return f"error {self.lines} {what}"


def same(expected, got):
    """Equal but for the case of hex; of an error only its line number counts."""
    if expected.startswith("error "):
        return got.split()[:2] == expected.split()[:2]
    return expected.casefold() == got.casefold()


if __name__ == "__main__":
    script = Script()
    for text in sys.stdin:
        said = script.answer(text)
        if said is not None:
            print(said)
