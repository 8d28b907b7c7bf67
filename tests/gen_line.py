"""Seeded test cases for the line: FCS, burst writer, hearing. A case is a list of script lines."""

from model import line


def hexed(octets):
    return octets.hex().upper() if octets else "-"


FCS_VECTORS = [b"", b"123456789", b"\x00", b"\xff", b"\x00\x00", b"\xff\xff", b"\x7e",
               bytes(range(256)), bytes(300), b"\xff" * 300]


def fcs_case(message):
    return [f"fcs {hexed(message)}"]


def write_case(message, room):
    return [f"write {hexed(message)} room={room}"]


def hear_case(octets, count, start=0, work=line.WORK_OCTETS):
    return [f"hear {hexed(octets)} count={count} start={start} work={work}"]


def heard_bits(bits, start=0, work=line.WORK_OCTETS):
    """The case that hears these decoded bits."""
    octets = line.octets_of(line.filled(line.tones_of(bits)))
    return hear_case(octets, len(bits), start, work)


def random_octets(rng, length):
    """Octets of several tempers: even, many ones, few ones, one octet repeated."""
    temper = rng.randrange(6)
    if temper < 3:
        return rng.randbytes(length)
    if temper == 3:
        return bytes(a | b | c for a, b, c in zip(*(rng.randbytes(length) for _ in range(3))))
    if temper == 4:
        return bytes(a & b for a, b in zip(rng.randbytes(length), rng.randbytes(length)))
    return bytes([rng.choice([0x00, 0xFF, 0x7E, 0x1F, 0xF8, 0xAA])]) * length


def random_length(rng, top):
    """Mostly short, sometimes as long as allowed."""
    limit = rng.choice([3, 20, 20, 60, 60, 300, 300, 1000, top])
    return rng.randint(0, min(limit, top))


def random_bits(rng, length):
    return "".join(rng.choice("01") for _ in range(length))


def unstuffed_long(octet_count):
    """A frame of so many octets that needs no stuffed bits, FCS included."""
    for ending in range(256):
        frame = line.with_fcs(bytes(octet_count - 3) + bytes([ending]))
        bits = line.bits_of(frame)
        if line.stuffed(bits) == bits:
            return frame
    raise ValueError("no such frame")


def longest_bodies():
    """Bodies as long as allowed and one bit longer, closed and never closed."""
    flag, limit = line.FLAG, line.LONGEST_BODY
    frame = line.bits_of(unstuffed_long(limit // 8))
    zeros = "0" * (limit - 8)
    yield heard_bits(flag + frame + flag)
    yield heard_bits("1011" + flag * 3 + frame + flag + "1")
    yield heard_bits(flag + frame + "0" + flag)
    yield heard_bits(flag + frame + "0" + flag + "0" * 40)
    yield heard_bits(flag + frame)
    for more in (15, 16, 17, 18):
        yield heard_bits(flag + zeros + "0" * more)
        yield heard_bits(flag * 2 + zeros + "0" * more, 3)
        yield heard_bits(flag + zeros + "1" * more)
    for more in (7, 8, 9):
        yield heard_bits(flag + zeros + "0" * more + flag)
        yield heard_bits(flag + zeros + "0" * more + flag + "01" * 20)
    for octets in (16_499, 16_500, 16_501):
        yield heard_bits(flag + line.stuffed(line.bits_of(line.with_fcs(bytes(octets - 2)))) + flag)
    ones = line.bits_of(line.with_fcs(b"\xff" * 13_748))
    yield heard_bits(flag + line.stuffed(ones) + flag)


def unreadable_lines():
    """Lines that get an error, among comments and empty lines that get nothing."""
    return [["# a comment", "", "fcs 31 # the digit one", "   fcs   31   ",
             "nonsense", "fcs", "fcs 1", "fcs 0G", "fcs 00 00", "write 00", "write 00 room=",
             "write 00 room=-1", "write 00 room=18446744073709551616", "write 00 size=9",
             "hear 00 count=8 start=0", "hear 00 count=x start=0 work=16500", "fcs -"]]


def long_lines():
    """The longest messages heard back, and bursts behind long silence."""
    for message in (bytes(12_288), b"\xff" * 12_288, b"\x7e" * 12_288):
        yield hear_case(*line.burst(message))
    octets, count = line.burst(b"late")
    for silence in (b"\xff" * 90_000, b"\x00\x00" * 40_000, b"\xaa" * 40_000):
        yield hear_case(silence, 8 * len(silence))
        yield hear_case(silence + octets, 8 * len(silence) + count)
        yield hear_case(silence + octets, 8 * len(silence) + count, 8 * len(silence))
    two = octets + octets
    yield from walk(two, 8 * len(octets) + count)


def line_edges():
    """Fixed cases: known values and both sides of every limit."""
    yield from unreadable_lines()
    for vector in FCS_VECTORS:
        yield fcs_case(vector)
    for message in (b"", b"\xff\xff", b"\x7e", b"123456789", bytes(12_288), b"\xff" * 12_288,
                    bytes(12_287), bytes(12_289), b"\xff" * 12_289, bytes(13_000)):
        needed = len(line.burst(message)[0])
        for room in (0, needed - 1, needed, needed + 1, needed + 50):
            yield write_case(message, room)
    for octets in ("", "80", "80AA80", "80AAAA80", "80FFFF", "7F", "FF", "00", "8080", "807F80",
                   "80AA", "80AAAA", "80AA807F", "8000", "80FF80", "80FE"):
        octets = bytes.fromhex(octets)
        for start in range(min(9, 8 * len(octets) + 1)):
            yield hear_case(octets, 8 * len(octets), start)
    octets, count = line.burst(b"job")
    for start, end in ((0, count), (count, count), (count + 1, count), (0, 8 * len(octets)),
                       (0, 8 * len(octets) + 1), (1, 0), (0, 0), (2**64 - 1, count),
                       (0, 2**64 - 1), (2**64 - 1, 2**64 - 1), (2**63, 2**61)):
        yield hear_case(octets, end, start)
        yield hear_case(octets, end, start, 16_499)
    for work in (0, 1, 300, 16_499, 16_500, 16_501, 20_000):
        yield hear_case(octets, count, 0, work)
        yield hear_case(octets, 0, 0, work)
        yield hear_case(octets, count, count + 1, work)
    yield from body_edges()
    yield from longest_bodies()
    yield from long_lines()


def body_edges():
    """Short bodies of every length, endings in ones, shared flags, aborts."""
    flag = line.FLAG
    for length in range(0, 20):
        yield heard_bits(flag + "0" * length + flag)
        yield heard_bits(flag + ("10" * length)[:length] + flag)
        yield heard_bits(flag + "1" * length)
        yield heard_bits(flag + "1" * length + flag)
        yield heard_bits(flag + "0" + "1" * length + flag)
        yield heard_bits(flag + "1" * length + "0" + flag)
    for message in (b"", b"a", b"\xff\xff\xff", b"two jobs"):
        body = line.stuffed(line.bits_of(line.with_fcs(message)))
        for before in ("", "0", "1", "0111111", "01111110111111", flag * 2, "1" * 9, "0" * 9):
            for after in ("", "0", "1111110", "1" * 8, flag):
                yield heard_bits(before + flag + body + flag + after)
        for end in range(len(body) + 12):
            yield heard_bits((flag + body + flag)[:8 + end])
        for place in range(0, len(body) + 1, 3):
            yield heard_bits(flag + body[:place] + "1111111" + body[place:] + flag)
            yield heard_bits(flag + body[:place] + flag + body[place:] + flag, place)


def one_octet_wrong(rng):
    """A message with its FCS in which one octet was changed."""
    frame = bytearray(line.with_fcs(random_octets(rng, random_length(rng, 400))))
    frame[rng.randrange(len(frame))] ^= rng.randint(1, 255)
    return bytes(frame)


def random_piece(rng):
    """A piece of decoded bits as it may stand on a line."""
    which = rng.randrange(12)
    if which < 3:
        return line.stuffed(line.bits_of(line.with_fcs(random_octets(rng, random_length(rng, 400)))))
    if which == 3:
        return line.stuffed(line.bits_of(random_octets(rng, rng.randint(0, 12))))
    if which == 11:
        return line.stuffed(line.bits_of(one_octet_wrong(rng)))
    if which == 4:
        return line.stuffed(random_bits(rng, rng.randint(0, 40)))
    if which == 5:
        return random_bits(rng, rng.randint(0, 60))
    if which == 6:
        return "1" * rng.randint(5, 16)
    if which == 7:
        return "0111111" * rng.randint(1, 5)
    if which == 8:
        return "0" * rng.randint(1, 30)
    return line.FLAG * rng.choice([1, 1, 2, 3, 33])


def random_stream(rng):
    """Pieces in a row, with flags between most of them."""
    bits = ""
    for _ in range(rng.randint(1, 8)):
        bits += random_piece(rng)
        if rng.random() < 0.8:
            bits += line.FLAG * rng.choice([1, 1, 1, 2, 5])
    return bits


def flip(bits, place):
    return bits[:place] + ("0" if bits[place] == "1" else "1") + bits[place + 1:]


def damaged(rng, tones):
    """Some tones flipped, dropped or doubled."""
    for _ in range(rng.choice([1, 1, 1, 2, 3, 8])):
        if not tones:
            break
        place = rng.randrange(len(tones))
        how = rng.randrange(3)
        if how == 0:
            tones = flip(tones, place)
        elif how == 1:
            tones = tones[:place] + tones[place + rng.randint(1, 3):]
        else:
            tones = tones[:place] + tones[place] + tones[place:]
    return tones


def walk(octets, count, start=0, most=6):
    """Hear from place to place, as the places are given by the answers before."""
    for _ in range(most):
        yield hear_case(octets, count, start)
        answer = line.frame(octets, count, start)
        if answer[0] == "quiet":
            return
        start = answer[-1]


def random_hearing(rng):
    """One burst, whole or damaged, heard from one start or from place to place."""
    if rng.random() < 0.5:
        tones = line.tones_of(random_stream(rng))
    else:
        message = random_octets(rng, random_length(rng, 1_000))
        tones = line.tones_of(line.burst_bits(message))
    if rng.random() < 0.6:
        tones = damaged(rng, tones)
    octets, count = line.octets_of(line.filled(tones)), len(tones)
    how = rng.randrange(10)
    if how < 5:
        yield from walk(octets, count)
    elif how < 8:
        yield hear_case(octets, count, rng.randint(0, count))
    elif how == 8:
        yield hear_case(octets, rng.randint(0, count), 0)
    else:
        yield hear_case(octets, rng.randint(0, 8 * len(octets) + 3),
                        rng.randint(0, 8 * len(octets) + 3),
                        line.WORK_OCTETS - rng.choice([0, 0, 0, 1, 5_000]))


def random_write(rng, top):
    message = random_octets(rng, random_length(rng, top))
    needed = len(line.burst(message)[0])
    room = needed + rng.choice([-needed, -9, -1, 0, 0, 0, 1, 7, 100])
    return write_case(message, max(0, room))


def random_long(rng):
    """Long messages written and heard back, some of them damaged."""
    message = random_octets(rng, rng.randint(8_000, 12_288))
    octets, count = line.burst(message)
    yield write_case(message, len(octets) + rng.randint(-1, 2))
    tones = line.bits_of(octets)[:count]
    if rng.random() < 0.5:
        tones = damaged(rng, tones)
    yield hear_case(line.octets_of(line.filled(tones)), len(tones))


def random_endless(rng):
    """A body near the longest one, with a flag near its end or none."""
    filling = line.stuffed(line.bits_of(random_octets(rng, line.LONGEST_BODY // 8)))
    length = line.LONGEST_BODY + rng.choice([-8, -1, 0, 1, 7, 8, 9, 100])
    after = rng.choice(["", "", line.FLAG, line.FLAG + "0" * 20])
    before = random_bits(rng, rng.randint(0, 9)) + line.FLAG * rng.randint(1, 3)
    yield heard_bits(before + filling[:length] + after)


def line_cases(rng, wanted):
    """Fixed cases first, then random ones until there are enough."""
    made = 0
    for case in line_edges():
        made += 1
        yield case
    while made < wanted:
        which = rng.randrange(40)
        if which == 0:
            found = random_long(rng) if rng.random() < 0.5 else random_endless(rng)
        elif which < 4:
            found = [fcs_case(random_octets(rng, random_length(rng, 2_000)))]
        elif which < 9:
            found = [random_write(rng, 1_500)]
        else:
            found = random_hearing(rng)
        for case in found:
            made += 1
            yield case
