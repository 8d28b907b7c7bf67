"""Messages: fields, their checks, the transcript, and commands with their arguments."""

import hashlib

from model import items
from model.items import ARRAY, MAP, NEGATIVE, OCTETS, TEXT, UNSIGNED

SIGNATURE_OCTETS = {1: 3_309, 2: 7_856, 3: 16}
MESSAGE_OCTETS = {1: 4_096, 2: 12_288, 3: 4_096}
ARGS_OCTETS = 1_024
META_OCTETS = 512
TEXT_OCTETS = 256
STRING_OCTETS = 2_048
SKEW = 30
LIFETIME = 86_400
TYPES = {0, 1, 2, 3, 10, 11, 12, 13, 14, 20, 30, 31}
RESERVED = {30, 31}
NAMES = dict(enumerate(
    "WORK_TOO_SHORT OUT_OF_BOUNDS STORE_OFF BURST_TOO_LONG L2_FRAMING OCTET_ALIGN FCS_FAIL CBOR_PARSE INDEFINITE NOT_DET "
    "CBOR_PARSE PROFILE_MISMATCH SIZE_LIMIT CTX_MISMATCH KID_UNKNOWN SIG_LEN AUTH_FAIL REPLAY EXPIRED EXP_TOO_FAR "
    "UNKNOWN_CMD BAD_ARGS ALLOWLIST_DENY DUO_POLICY_UNKNOWN NO_ROOM NOT_RAISED MESSAGE_TOO_LONG OUTPUT_TOO_SHORT"
    .split(), 1))


class Refused(Exception):
    """The first question with a no."""

    def __init__(self, number):
        super().__init__(number)
        self.number = number


def ask(number, holds):
    if not holds:
        raise Refused(number)


class Unfit(Exception):
    """An item is not what its place wants."""


# Reading by keys and types

def entries(item, required, optional=()):
    """A map's values by unsigned key: all the required ones, and no others but the optional."""
    if item.major != MAP:
        raise Unfit
    found = {}
    for key, value in item.value:
        if key.major != UNSIGNED or key.value not in (*required, *optional):
            raise Unfit
        found[key.value] = value
    if not all(key in found for key in required):
        raise Unfit
    return found


def unsigned(item, least=0, most=(1 << 64) - 1):
    if item.major != UNSIGNED or not least <= item.value <= most:
        raise Unfit
    return item.value


def integer(item, least, most):
    if item.major not in (UNSIGNED, NEGATIVE) or not least <= item.value <= most:
        raise Unfit
    return item.value


def octet_string(item, least=0, most=None):
    if item.major != OCTETS or len(item.value) < least:
        raise Unfit
    if most is not None and len(item.value) > most:
        raise Unfit
    return item.value


def maybe(found, key, reading, *limits):
    """An optional entry: its value, or None when it is absent."""
    return reading(found[key], *limits) if key in found else None


class Message:
    """The fields of a message; what is optional may be None."""

    def __init__(self, octets, tree):
        self.octets = octets
        self.tree = tree
        top = entries(tree, (0, 1, 2, 3, 4), (5, 6))
        unsigned(top[0], 1, 1)
        self.profile = unsigned(top[1])
        self.read_mid(entries(top[2], (0, 1, 2), (3,)))
        self.read_cmd(entries(top[3], (0, 1), (2,)))
        self.read_auth(entries(top[4], (0, 1, 2), (3,)))
        self.meta = top.get(5)
        self.echo = None
        if self.meta:
            self.echo = maybe(entries(self.meta, (), (0,)), 0, octet_string, 0, 32)
        self.ext = top.get(6)
        if self.ext and self.ext.major != MAP:
            raise Unfit
        self.hash = hashlib.sha256(self.transcript()).digest()

    def read_mid(self, mid):
        self.epoch = unsigned(mid[0])
        self.counter = unsigned(mid[1])
        self.sid = octet_string(mid[2], 16, 16)
        self.exp = maybe(mid, 3, unsigned)

    def read_cmd(self, cmd):
        self.type = unsigned(cmd[0])
        self.args = cmd[1]
        if self.args.major != MAP:
            raise Unfit
        self.duo = maybe(cmd, 2, octet_string)

    def read_auth(self, auth):
        self.alg = unsigned(auth[0], 1, 3)
        self.kid = octet_string(auth[1], 16, 16)
        self.sig = octet_string(auth[2])
        self.sig_item = auth[2]
        self.ctx = maybe(auth, 3, octet_string, 0, 32)

    def transcript(self):
        """The encoding of the same message without its signature entry."""
        top = value_of(self.tree)
        for key, value in top:
            if key == 4:
                value[:] = [entry for entry in value if entry[0] != 2]
        return items.encode(top)


def value_of(item):
    """The Python value of an item, maps in their received order."""
    if item.major == ARRAY:
        return [value_of(part) for part in item.value]
    if item.major == MAP:
        return items.Pairs([value_of(key), value_of(part)] for key, part in item.value)
    if item.major == TEXT:
        return item.value.decode()
    return item.value


# Questions on the fields

def sizes_fit(message):
    if len(message.octets) > MESSAGE_OCTETS[message.alg]:
        return False
    if message.args.length() > ARGS_OCTETS:
        return False
    if message.meta and message.meta.length() > META_OCTETS:
        return False
    for item in message.tree.all():
        if item.major == TEXT and len(item.value) > TEXT_OCTETS:
            return False
        if item.major == OCTETS and item is not message.sig_item and len(item.value) > STRING_OCTETS:
            return False
    return True


def echo_fits(message):
    return message.echo is None or message.echo == message.ctx


def signature_fits(message):
    return len(message.sig) == SIGNATURE_OCTETS[message.alg]


def not_expired(message, now):
    return message.exp is None or now <= message.exp + SKEW


def not_too_far(message, now):
    return message.exp is None or message.exp <= now + LIFETIME


# Commands

class Command:
    """A name and its numbers; an absent optional is None, a track may be octets."""

    def __init__(self, name, *numbers):
        self.name = name
        self.numbers = numbers

    def track(self):
        return self.numbers[0] if self.name in ("queue", "suggest") else None

    def words(self):
        def word(number):
            if number is None:
                return "-"
            if isinstance(number, bytes):
                return "x" + number.hex().upper()
            return str(number)
        return " ".join([self.name, *map(word, self.numbers)])


def track(item):
    return octet_string(item) if item.major == OCTETS else unsigned(item)


def heartbeat(args):
    found = entries(args, (), (0,))
    return Command("heartbeat", maybe(found, 0, unsigned))


def queue(args):
    found = entries(args, (0, 1), (2, 3))
    earliest, latest = maybe(found, 2, unsigned), maybe(found, 3, unsigned)
    if earliest is not None and latest is not None and latest < earliest:
        raise Unfit
    return Command("queue", track(found[0]), integer(found[1], -10, 10), earliest, latest)


def suggest(args):
    found = entries(args, (0, 1))
    return Command("suggest", track(found[0]), integer(found[1], -5, 5))


def remove(args):
    return Command("remove", unsigned(entries(args, (0,))[0]))


def state(args):
    return Command("state", unsigned(entries(args, (0,))[0], 0, 2))


def seek(args):
    return Command("seek", integer(entries(args, (0,))[0], -60_000, 60_000))


def rate(args):
    return Command("rate", unsigned(entries(args, (0,))[0], 50, 200))


def following(args):
    entries(args, ())
    return Command("next")


def previous(args):
    entries(args, ())
    return Command("previous")


def text(args):
    found = entries(args, (0, 1, 2))
    target, mode = unsigned(found[0], 0, 2), unsigned(found[1], 0, 2)
    if found[2].major != TEXT:
        raise Unfit
    return Command("text", target, mode, found[2].content, len(found[2].value))


COMMANDS = {0: heartbeat, 1: queue, 2: suggest, 3: remove, 10: state, 11: seek, 12: rate,
            13: following, 14: previous, 20: text}


def command(message):
    """The command with its own arguments; raises Unfit."""
    if message.type in RESERVED:
        return Command("reserved", message.type)
    return COMMANDS[message.type](message.args)


# The questions in their order; between these parts others ask about keys and marks.

def read_message(octets):
    """Questions 8 to 11."""
    try:
        tree = items.read(octets)
    except items.Fault as fault:
        raise Refused(fault.number)
    ask(10, items.deterministic(tree, octets))
    try:
        return Message(octets, tree)
    except Unfit:
        raise Refused(11)


def ask_form(message):
    """Questions 12 to 14."""
    ask(12, message.profile == 1)
    ask(13, sizes_fit(message))
    ask(14, echo_fits(message))


def ask_time(message, now):
    """Questions 19 and 20."""
    ask(19, not_expired(message, now))
    ask(20, not_too_far(message, now))


def read_command(message):
    """Questions 21 and 22."""
    ask(21, message.type in TYPES)
    try:
        return command(message)
    except Unfit:
        raise Refused(22)


def judge(octets, now):
    """The message alone, without keys and marks: (message, command); raises Refused."""
    message = read_message(octets)
    ask_form(message)
    ask(16, signature_fits(message))
    ask_time(message, now)
    return message, read_command(message)


def described(message, found):
    """The words that stand for a message and its command."""
    return (f"sid={message.sid.hex().upper()} kid={message.kid.hex().upper()} "
            f"epoch={message.epoch} counter={message.counter} hash={message.hash.hex().upper()} "
            f"length={len(message.octets)} command={found.words()}")


def more_fields(message):
    """The words for the fields that `described` leaves out; of meta and ext the encoded octets are counted."""
    def string(held):
        return "-" if held is None else "x" + held.hex().upper()

    def length(item):
        return "-" if item is None else item.length()
    return (f"profile={message.profile} alg={message.alg} exp={'-' if message.exp is None else message.exp} "
            f"ctx={string(message.ctx)} duo={string(message.duo)} meta={length(message.meta)} "
            f"echo={string(message.echo)} ext={length(message.ext)}")
