"""Seeded test cases for items, digests and text."""

from gen_line import hexed, random_length
from model import items

# The examples of RFC 8949, appendix A, by what a reader here says of them.
PLAIN_EXAMPLES = """
00 01 0A 17 1818 1819 1864 1903E8 1A000F4240 1B000000E8D4A51000 1BFFFFFFFFFFFFFFFF
3BFFFFFFFFFFFFFFFF 20 29 3863 3903E7 F4 F5 F6 40 4401020304 60 6161 6449455446 62225C 62C3BC
63E6B0B4 64F0908591 80 83010203 8301820203820405
98190102030405060708090A0B0C0D0E0F101112131415161718181819 A0 A201020304 A26161016162820203
826161A161626163 A56161614161626142616361436164614461656145
""".split()

REFUSED_EXAMPLES = """
C249010000000000000000 C349010000000000000000 F90000 F98000 F93C00 FB3FF199999999999A F93E00
F97BFF FA47C35000 FA7F7FFFFF FB7E37E43C8800759C F90001 F90400 F9C400 FBC010666666666666 F97C00
F97E00 F9FC00 FA7F800000 FA7FC00000 FAFF800000 FB7FF0000000000000 FB7FF8000000000000
FBFFF0000000000000 F7 F0 F8FF C074323031332D30332D32315432303A30343A30305A C11A514B67B0
C1FB41D452D9EC200000 D74401020304 D818456449455446
D82076687474703A2F2F7777772E6578616D706C652E636F6D
""".split()

INDEFINITE_EXAMPLES = """
5F42010243030405FF 7F657374726561646D696E67FF 9FFF 9F018202039F0405FFFF 9F01820203820405FF
83018202039F0405FF 83019F0203FF820405
9F0102030405060708090A0B0C0D0E0F101112131415161718181819FF BF61610161629F0203FFFF
826161BF61626163FF BF6346756EF563416D7421FF
""".split()

# What comes first from the left decides: (octets, answer).
FIRST_FROM_THE_LEFT = [
    ("A200000000", "fault 8"), ("A201000000", "read other"), ("9FFF", "fault 9"),
    ("1818", "read deterministic"), ("1817", "read other"), ("", "fault 8"),
    ("A20000009F", "fault 8"), ("A200000100", "read deterministic"), ("A20000019F", "fault 9"),
    ("A2009F0000", "fault 9"), ("A29F", "fault 9"), ("A20000180000", "read other"),
    ("A3000001000000", "fault 8"), ("A28000800000", "fault 8"), ("A2A00080F6", "read other"),
    ("A280F6A000", "read deterministic"),
    ("8261FF9F", "fault 8"), ("829F61FF", "fault 9"), ("00FF", "fault 8"), ("009F", "fault 8"),
    ("0000", "fault 8"), ("FF", "fault 9"), ("1F", "fault 9"), ("3F", "fault 9"), ("DF", "fault 9"),
    ("82C09F", "fault 8"), ("829FC0", "fault 9"), ("DFFF", "fault 9"), ("5A00000001", "fault 8"),
    ("58", "fault 8"), ("5801", "fault 8"), ("580100", "read other"), ("1CFF", "fault 8"),
    ("9BFFFFFFFFFFFFFFFF", "fault 8"), ("9BFFFFFFFFFFFFFFFF9F", "fault 9"),
    ("9BFFFFFFFFFFFFFFFF00FF", "fault 9"), ("BBFFFFFFFFFFFFFFFF00", "fault 8"),
    ("BBFFFFFFFFFFFFFFFF00FF", "fault 9"), ("5BFFFFFFFFFFFFFFFFFF", "fault 8"),
    ("7BFFFFFFFFFFFFFFFF", "fault 8"), ("F4", "read deterministic"), ("F814", "fault 8"),
    ("F818", "fault 8"), ("9800", "read other"), ("B800", "read other"), ("7800", "read other"),
    ("A2613100413100", "read other"), ("A2413100613100", "read deterministic"),
    ("A1F4F5", "read deterministic"), ("A2F400F400", "fault 8"), ("A2190000001A0000000000", "read other"),
]


def read_case(octets):
    return [f"read {hexed(octets)}"]


def array_of(total):
    """An array that holds so many items in all, itself counted, none of its arrays too long."""
    parts, left = [], total - 1
    while left:
        if left > 200:
            parts.append([0] * 199)
            left -= 200
        else:
            parts += [0] * left
            left = 0
    return parts


def nested(depth, inner, by_key=False):
    """Containers one inside another; by_key: each is the key of a map."""
    for _ in range(depth):
        inner = items.Pairs([[inner, 0]]) if by_key else [inner]
    return inner


def item_limits():
    """Each limit met, passed by one, and passed by a head of indefinite length."""
    for beyond in (None, 0, items.Raw(b"\x9f"), items.Raw(b"\xff"), items.Raw(b"\xc0")):
        more = [] if beyond is None else [beyond]
        yield items.encode([0] * 256 + more)
        yield items.encode(items.Pairs([[key, 0] for key in range(64)] + [[key, 0] for key in more]))
        yield items.encode(items.Pairs([[key, 0] for key in range(64, 128)] + [[key, 0] for key in more]))
        yield items.encode(array_of(1_024) + more)
        yield items.encode(array_of(1_023) + more)
        yield items.encode([array_of(1_020), *more, 0])
        yield items.encode([array_of(1_021), *more, 0])
        yield items.encode([array_of(1_022), *more, 0])
    for inner in (0, [], {}, items.Raw(b"\x9f"), items.Raw(b"\xbf"), items.Raw(b"\x5f"), b"x", "x"):
        for depth in (30, 31, 32, 33):
            yield items.encode(nested(depth, inner))
            yield items.encode(nested(depth, inner, by_key=True))
            yield items.encode([0, nested(depth, inner)])
    for count in (255, 256, 257, 1_000, 1 << 32):
        yield items.encode(items.Announced([0] * 255, count))
        yield items.encode(items.Announced([0] * 255 + [items.Raw(b"\x9f")], count))
        yield items.encode(items.Announced([0] * 256 + [items.Raw(b"\x9f")], count))
        yield items.encode(items.Announced([0] * 257 + [items.Raw(b"\x9f")], count))
    for count in (63, 64, 65, 66, 1 << 32):
        entries = items.Pairs([key, 0] for key in range(63))
        yield items.encode(items.Announced(entries, count))
        for ending in (b"\x9f", b"\x18\x30\x9f", b"\x18\x40\x00\x9f", b"\x18\x40\x00\x18\x41\x9f"):
            yield items.encode(items.Announced(entries, count)) + ending


def item_edges():
    for example in PLAIN_EXAMPLES + REFUSED_EXAMPLES + INDEFINITE_EXAMPLES:
        yield bytes.fromhex(example)
        yield bytes.fromhex(example)[:-1]
        yield bytes.fromhex(example) + b"\x00"
    for octets, _ in FIRST_FROM_THE_LEFT:
        yield bytes.fromhex(octets)
    for initial in range(256):
        yield bytes([initial])
        yield bytes([initial]) + bytes(8)
        yield bytes([initial]) + b"\x01" * 8
        yield b"\x82" + bytes([initial]) + b"\xff"
    for width in (1, 2, 4, 8):
        for argument in (0, 23, 24, 255, 256, 65_535, 65_536, (1 << 32) - 1, 1 << 32, (1 << 64) - 1):
            if argument < 1 << 8 * width:
                yield items.head(items.UNSIGNED, argument, width)
                yield items.head(items.NEGATIVE, argument, width)
    for length in (0, 23, 24, 255, 256, 300):
        for width in (None, 2, 4, 8):
            yield items.encode(items.Wide(bytes(length), width))
            yield items.encode(items.Wide("a" * length, width))
    yield from item_limits()


def random_text(rng, length):
    """Text of about so many octets, of letters one to four octets long."""
    tops = [0x7F, 0x7F, 0x7FF, 0xD7FF, 0x10FFFF]
    text = ""
    while len(text.encode()) < length:
        letter = rng.randint(0, rng.choice(tops))
        if not 0xD800 <= letter <= 0xDFFF:
            text += chr(letter)
    return text


def random_number(rng):
    """Numbers of every width, often at the edge of one."""
    edge = rng.choice([0, 23, 24, 255, 256, 65_535, 65_536, (1 << 32) - 1, 1 << 32, (1 << 64) - 1])
    return rng.choice([edge, rng.randint(0, edge), rng.randint(0, 30)])


def random_value(rng, depth=0):
    """A tree of items; maps as Pairs in order, their keys different."""
    which = rng.randrange(14 if depth < 5 else 9)
    if which < 3:
        return random_number(rng)
    if which == 3:
        return -1 - random_number(rng)
    if which < 6:
        return rng.randbytes(rng.choice([0, 1, 3, 16, 23, 24, 40, 256]))
    if which < 8:
        return random_text(rng, rng.choice([0, 1, 5, 23, 24, 60]))
    if which == 8:
        return rng.choice([False, True, None])
    parts = [random_value(rng, depth + 1) for _ in range(rng.choice([0, 1, 2, 3, 5, 8]))]
    if which < 11:
        return parts
    return ordered_map((key, random_value(rng, depth + 1)) for key in parts)


def ordered_map(entries):
    """Pairs in the order of their encoded keys, each key once."""
    by_octets = {items.encode(key): [key, value] for key, value in entries}
    return items.Pairs(by_octets[octets] for octets in sorted(by_octets))


BAD_ITEMS = [bytes.fromhex(octets) for octets in REFUSED_EXAMPLES + [
    "1C", "1D", "1E", "3C", "5D", "7E", "9C", "BD", "DC", "FC", "FD", "FE", "E0", "F3", "F814",
    "C000", "61FF", "62C080", "63EDA080", "64F4908080", "62C3", "A200000000", "A2616100616100"]]
INDEFINITE_ITEMS = [bytes.fromhex(octets) for octets in INDEFINITE_EXAMPLES + [
    "1F", "3F", "5F", "7F", "9F", "BF", "DF", "FF"]]


def places(tree):
    """(container, index) of every item inside a tree of lists and Pairs."""
    for index, part in enumerate(tree):
        if isinstance(part, (list, items.Pairs)) and not isinstance(tree, items.Pairs):
            yield tree, index
            yield from places(part)
        elif isinstance(tree, items.Pairs):
            for side in (0, 1):
                yield part, side
                if isinstance(part[side], list):
                    yield from places(part[side])
        else:
            yield tree, index


def put_somewhere(rng, tree, new):
    """One item of the tree replaced; keys and values alike."""
    found = list(places(tree))
    if found:
        container, index = rng.choice(found)
        container[index] = new
    return tree


def edited(rng, octets):
    """Some octets changed, dropped, doubled or cut off."""
    octets = bytearray(octets)
    for _ in range(rng.choice([1, 1, 2])):
        if not octets:
            break
        place = rng.randrange(len(octets))
        how = rng.randrange(5)
        if how == 0:
            octets[place] ^= 1 << rng.randrange(8)
        elif how == 1:
            octets[place] = rng.choice([0x00, 0x18, 0x1F, 0x5F, 0x9F, 0xBF, 0xC0, 0xF7, 0xFF, 0x80, 0xA0])
        elif how == 2:
            del octets[place]
        elif how == 3:
            octets.insert(place, octets[place])
        else:
            del octets[place:]
    return bytes(octets)


def random_reading(rng):
    """Octets of a tree, whole or with one kind of damage."""
    tree = random_value(rng)
    while not isinstance(tree, list) and rng.random() < 0.8:
        tree = random_value(rng)
    how = rng.randrange(10)
    if how < 2:
        return items.encode(tree)
    if how < 4:
        return items.encode(items.sloppy(tree, rng, rng.choice([0.02, 0.1, 0.5])))
    if how < 7:
        return edited(rng, items.encode(tree))
    if how == 7:
        return rng.randbytes(rng.randint(1, 12))
    if isinstance(tree, list):
        tree = put_somewhere(rng, tree, items.Raw(rng.choice(BAD_ITEMS)))
        if rng.random() < 0.5:
            tree = put_somewhere(rng, tree, items.Raw(rng.choice(INDEFINITE_ITEMS)))
    return items.encode(tree)


def text_edges():
    """Every lead octet, with the octets behind it on both sides of what is allowed."""
    edges = (0x00, 0x7F, 0x80, 0x8F, 0x90, 0x9F, 0xA0, 0xBF, 0xC0, 0xFF)
    for lead in range(256):
        yield bytes([lead])
        yield bytes([lead, 0x80])
        yield bytes([lead, 0x80, 0x80])
        yield bytes([lead, 0x80, 0x80, 0x80])
    for lead in (0xC1, 0xC2, 0xDF, 0xE0, 0xE1, 0xEC, 0xED, 0xEE, 0xEF, 0xF0, 0xF1, 0xF3, 0xF4, 0xF5):
        for second in edges:
            yield bytes([lead, second])
            yield bytes([lead, second, 0xBF])
            yield bytes([lead, second, 0xBF, 0x80])
            yield bytes([lead, second, 0x80, 0xBF])
        for last in edges:
            yield bytes([lead, 0x90, last])
            yield bytes([lead, 0x90, 0x80, last])
            yield bytes([lead, 0x90, last, 0x80])
    for letter in (0, 0x7F, 0x80, 0x7FF, 0x800, 0xD7FF, 0xE000, 0xFFFF, 0x10000, 0x10FFFF):
        yield chr(letter).encode()
        yield chr(letter).encode()[:-1]
        yield chr(letter).encode() + b"a"
        yield b"a" + chr(letter).encode() + b"\x80"
    yield b""
    yield b"\xef\xbb\xbfbom"


def random_utf8(rng):
    octets = random_text(rng, rng.choice([1, 8, 40, 256, 600])).encode()
    return octets if rng.random() < 0.4 else edited(rng, octets)


# The examples of FIPS 180-4 and lengths around every block.
DIGEST_EDGES = [b"abc", b"abcdbcdecdefdefgefghfghighijhijkijkljklmklmnlmnomnopnopq",
                b"abcdefghbcdefghicdefghijdefghijkefghijklfghijklmghijklmn"
                b"hijklmnoijklmnopjklmnopqklmnopqrlmnopqrsmnopqrstnopqrstu"]


def item_cases(rng, wanted):
    """Reading, digests and text: fixed cases, then random ones."""
    fixed = [read_case(octets) for octets in item_edges()]
    fixed += [[f"utf8 {hexed(octets)}"] for octets in text_edges()]
    fixed += [[f"sha {hexed(octets)}"] for octets in DIGEST_EDGES]
    fixed += [[f"sha {hexed(rng.randbytes(length))}"] for length in range(0, 200)]
    fixed += [[f"sha {hexed(rng.randbytes(length))}"] for length in (16_498, 65_536, 99_990)]
    yield from fixed
    for _ in range(wanted - len(fixed)):
        which = rng.randrange(12)
        if which == 0:
            yield [f"sha {hexed(rng.randbytes(random_length(rng, 12_288)))}"]
        elif which < 4:
            yield [f"utf8 {hexed(random_utf8(rng))}"]
        else:
            yield read_case(random_reading(rng))
