"""The line: tones, decoded bits, flags, stuffing, the FCS, hearing a frame, writing a burst.

Bits are strings of '0' and '1', so that a flag is found by looking for it.
"""

FLAG = "01111110"
LONGEST_BODY = 132_000       # bits between the flags
WORK_OCTETS = 16_500         # the work buffer that holds the longest body
LONGEST_MESSAGE = 12_288     # octets the writer takes
LEADING_FLAGS = 33
GOOD_REGISTER = 0xF0B8       # what the register shows behind a message and its FCS


# Bits and octets

def bits_of(octets):
    """Every octet's bits, lowest first."""
    if not octets:
        return ""
    digits = bin(int.from_bytes(octets, "little"))[2:]
    return digits.zfill(8 * len(octets))[::-1]


def octets_of(bits):
    """Whole octets, filled lowest bit first."""
    if not bits:
        return b""
    return int(bits[::-1], 2).to_bytes(len(bits) // 8, "little")


# Tones: a 0 changes the tone, a 1 keeps it; before the first tone stands mark ('1').

def decoded(tones):
    return "".join(["1" if tone == before else "0" for before, tone in zip("1" + tones, tones)])


def tones_of(bits):
    tone, tones = "1", []
    for bit in bits:
        if bit == "0":
            tone = "0" if tone == "1" else "1"
        tones.append(tone)
    return "".join(tones)


# FCS

def fcs_register(octets):
    register = 0xFFFF
    for octet in octets:
        register ^= octet
        for _ in range(8):
            fallen = register & 1
            register >>= 1
            if fallen:
                register ^= 0x8408
    return register


def fcs(octets):
    """The FCS as a number: the register complemented."""
    return fcs_register(octets) ^ 0xFFFF


def with_fcs(message):
    """The message and its FCS, low octet first."""
    return message + fcs(message).to_bytes(2, "little")


# Stuffing

def stuffed(bits):
    """A 0 is put behind every five 1s."""
    out, ones = [], 0
    for bit in bits:
        out.append(bit)
        ones = ones + 1 if bit == "1" else 0
        if ones == 5:
            out.append("0")
            ones = 0
    return "".join(out)


def unstuffed(body):
    """The bits whose stuffed form this is, or None if there are none."""
    out, ones = [], 0
    for bit in body:
        if ones == 5:
            if bit == "1":
                return None
            ones = 0
            continue
        out.append(bit)
        ones = ones + 1 if bit == "1" else 0
    return None if ones == 5 else "".join(out)


# Writing

def burst_bits(message):
    """The bits of a burst before they become tones."""
    return FLAG * LEADING_FLAGS + stuffed(bits_of(with_fcs(message))) + FLAG


def filled(tones):
    """The last tone repeated to the end of its octet."""
    return tones + tones[-1:] * (-len(tones) % 8)


def burst(message):
    """(octets, bit count) of the burst that carries a message."""
    tones = tones_of(burst_bits(message))
    return octets_of(filled(tones)), len(tones)


def write(message, room):
    """('burst', octets, count), or ('refused', number)."""
    if len(message) > LONGEST_MESSAGE:
        return ("refused", 27)
    octets, count = burst(message)
    if len(octets) > room:
        return ("refused", 28)
    return ("burst", octets, count)


# Hearing

def opening(bits, start):
    """Where the body starts, or None if nothing opens or nothing follows."""
    place = bits.find(FLAG, start)
    if place < 0:
        return None
    while bits.startswith(FLAG, place + 8):
        place += 8
    body = place + 8
    return body if body < len(bits) else None


def asked_first(octets, count, start, work):
    """The refusal that needs no look at the burst, or None."""
    if work < WORK_OCTETS:
        return 1
    if not start <= count <= 8 * len(octets):
        return 2
    return None


def frame(octets, count, start):
    """('quiet', next), ('refused', number, next) or ('frame', octets with FCS, next)."""
    bits = decoded(bits_of(octets)[:count])
    body = opening(bits, start)
    if body is None:
        return ("quiet", count)
    close = bits.find(FLAG, body)
    in_time = 0 <= close <= body + LONGEST_BODY
    if not in_time and count - body > LONGEST_BODY + 8:
        return ("refused", 4, body + LONGEST_BODY)
    if close < 0:
        return ("refused", 5, count)
    content = unstuffed(bits[body:close])
    if content is None:
        return ("refused", 5, close)
    if len(content) % 8:
        return ("refused", 6, close)
    found = octets_of(content)
    if len(found) < 2 or fcs_register(found) != GOOD_REGISTER:
        return ("refused", 7, close)
    return ("frame", found, close)


def hear(octets, count, start, work):
    """The line alone: what asking first says, then the frame."""
    number = asked_first(octets, count, start, work)
    if number:
        return ("refused", number, start)
    return frame(octets, count, start)
