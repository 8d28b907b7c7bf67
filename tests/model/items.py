"""Items: CBOR without tags, floats and indefinite lengths, read once from the left."""

MOST_CONTAINERS = 32      # one inside another
MOST_ENTRIES = 64         # in a map
MOST_ITEMS = 256          # in an array
MOST_IN_ALL = 1_024       # keys and containers counted

UNSIGNED, NEGATIVE, OCTETS, TEXT, ARRAY, MAP, TAG, SIMPLE = range(8)
SIMPLE_VALUES = {20: False, 21: True, 22: None}


def is_text(octets):
    """UTF-8 without overlong forms, surrogates and numbers above 10FFFF."""
    try:
        octets.decode("utf-8")
        return True
    except UnicodeDecodeError:
        return False


class Fault(Exception):
    """The reading ends: 8 for any fault, 9 for a head of indefinite length."""

    def __init__(self, number):
        super().__init__(number)
        self.number = number


class Item:
    """One item and where it stands.

    value: a number; octets (texts too); a list of items; a list of (key, value); False, True, None.
    content: where the octets of a string begin.
    """

    def __init__(self, major, start):
        self.major = major
        self.start = start
        self.end = self.content = None
        self.value = None
        self.shortest = True

    def parts(self):
        """The items directly inside."""
        if self.major == ARRAY:
            return self.value
        if self.major == MAP:
            return [part for entry in self.value for part in entry]
        return []

    def all(self):
        """This item and all inside it."""
        yield self
        for part in self.parts():
            yield from part.all()

    def length(self):
        return self.end - self.start


class Reader:
    def __init__(self, octets):
        self.octets = octets
        self.place = 0
        self.heads = 0

    def take(self, length):
        if length > len(self.octets) - self.place:
            raise Fault(8)
        self.place += length
        return self.octets[self.place - length:self.place]

    def item(self, depth, beyond=False):
        """Read one item that stands inside `depth` containers; beyond: its container is full."""
        if self.place == len(self.octets):
            raise Fault(8)
        major, info = self.octets[self.place] >> 5, self.octets[self.place] & 31
        if info == 31:
            raise Fault(9)
        self.heads += 1
        too_deep = major in (ARRAY, MAP) and depth == MOST_CONTAINERS
        if beyond or too_deep or self.heads > MOST_IN_ALL:
            raise Fault(8)
        item = Item(major, self.place)
        self.place += 1
        if major == TAG or major == SIMPLE and info not in SIMPLE_VALUES:
            raise Fault(8)
        argument = self.argument(item, info)
        item.content = self.place
        item.value = self.content(item, argument, depth)
        item.end = self.place
        return item

    def argument(self, item, info):
        if info < 24:
            return info
        if info > 27:
            raise Fault(8)
        argument = int.from_bytes(self.take(1 << info - 24), "big")
        item.shortest = argument >= {24: 24, 25: 1 << 8, 26: 1 << 16, 27: 1 << 32}[info]
        return argument

    def content(self, item, argument, depth):
        if item.major == UNSIGNED:
            return argument
        if item.major == NEGATIVE:
            return -1 - argument
        if item.major == OCTETS:
            return self.take(argument)
        if item.major == TEXT:
            text = self.take(argument)
            if not is_text(text):
                raise Fault(8)
            return text
        if item.major == ARRAY:
            return self.array(argument, depth + 1)
        if item.major == MAP:
            return self.map(argument, depth + 1)
        return SIMPLE_VALUES[argument]

    def array(self, count, depth):
        items = []
        while len(items) < count:
            items.append(self.item(depth, beyond=len(items) == MOST_ITEMS))
        return items

    def map(self, count, depth):
        entries, keys = [], set()
        while len(entries) < count:
            key = self.item(depth, beyond=len(entries) == MOST_ENTRIES)
            received = self.octets[key.start:key.end]
            if received in keys:
                raise Fault(8)
            keys.add(received)
            entries.append((key, self.item(depth)))
        return entries


def read(octets):
    """The one item that these octets are; raises Fault."""
    reader = Reader(octets)
    item = reader.item(0)
    if reader.place < len(octets):
        raise Fault(8)
    return item


def deterministic(item, octets):
    """Every head is shortest, and in every map each key stands above the one before."""
    def keys_rise(part):
        if part.major != MAP:
            return True
        keys = [octets[key.start:key.end] for key, _ in part.value]
        return all(before < key for before, key in zip(keys, keys[1:]))
    return all(part.shortest and keys_rise(part) for part in item.all())


# Writing

class Raw(bytes):
    """Octets put down as they are."""


class Pairs(list):
    """A map whose entries [key, value] keep their order."""


class Wide:
    """A value whose head gives its argument in so many octets (0: in the head itself)."""

    def __init__(self, value, width):
        self.value, self.width = value, width


class Announced:
    """An array or map whose head announces another number of parts."""

    def __init__(self, value, count):
        self.value, self.count = value, count


def head(major, argument, width=None):
    if width is None:
        widths = [(24, 0), (1 << 8, 1), (1 << 16, 2), (1 << 32, 4), (1 << 64, 8)]
        width = next(width for limit, width in widths if argument < limit)
    if width == 0:
        return bytes([major << 5 | argument])
    info = {1: 24, 2: 25, 4: 26, 8: 27}[width]
    return bytes([major << 5 | info]) + argument.to_bytes(width, "big")


def encode(value, width=None, count=None):
    """Octets of a Python value; a dict's keys are put in order."""
    if isinstance(value, Raw):
        return bytes(value)
    if isinstance(value, Wide):
        return encode(value.value, value.width, count)
    if isinstance(value, Announced):
        return encode(value.value, width, value.count)
    if value is None or isinstance(value, bool):
        return {False: b"\xf4", True: b"\xf5", None: b"\xf6"}[value]
    if isinstance(value, int):
        return head(UNSIGNED, value, width) if value >= 0 else head(NEGATIVE, -1 - value, width)
    if isinstance(value, bytes):
        return head(OCTETS, len(value), width) + value
    if isinstance(value, str):
        text = value.encode()
        return head(TEXT, len(text), width) + text
    if isinstance(value, (Pairs, dict)):
        ordered = isinstance(value, Pairs)
        entries = [(encode(key), encode(part)) for key, part in (value if ordered else value.items())]
        if not ordered:
            entries.sort()
        return (head(MAP, len(entries) if count is None else count, width)
                + b"".join(key + part for key, part in entries))
    parts = [encode(part) for part in value]
    return head(ARRAY, len(parts) if count is None else count, width) + b"".join(parts)


def as_pairs(value):
    """The same value with every dict as Pairs in order, to be changed at will."""
    if isinstance(value, dict):
        entries = sorted(value.items(), key=lambda entry: encode(entry[0]))
        return Pairs([as_pairs(key), as_pairs(part)] for key, part in entries)
    if isinstance(value, Pairs):
        return Pairs([as_pairs(key), as_pairs(part)] for key, part in value)
    if isinstance(value, (list, tuple)):
        return [as_pairs(part) for part in value]
    return value


def sloppy(value, rng, rate):
    """The value with some heads wider than needed and some maps out of order."""
    width = rng.choice([1, 2, 4, 8]) if rng.random() < rate else None
    if isinstance(value, Pairs):
        inner = Pairs([sloppy(key, rng, rate), sloppy(part, rng, rate)] for key, part in value)
        if rng.random() < rate:
            rng.shuffle(inner)
    elif isinstance(value, list):
        inner = [sloppy(part, rng, rate) for part in value]
    else:
        inner = value
    if width is None or isinstance(value, (bool, Raw, Wide, Announced)) or value is None:
        return inner
    return Wide(inner, max(width, len(encode_argument(value))))


def encode_argument(value):
    """The argument octets of a value's shortest head, at least one."""
    if isinstance(value, int):
        argument = value if value >= 0 else -1 - value
    elif isinstance(value, str):
        argument = len(value.encode())
    else:
        argument = len(value)
    return head(UNSIGNED, argument)[1:] or b"\x00"
