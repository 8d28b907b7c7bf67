"""Seeded test cases for messages: passing ones, and damage for every question about them."""

import copy

from gen_items import (BAD_ITEMS, INDEFINITE_ITEMS, edited, ordered_map, put_somewhere,
                       random_number, random_text, random_value)
from gen_line import hexed
from model import items, message

TOP = (1 << 64) - 1
NOW = 1_700_000_000
FALSE, TRUE = items.Raw(b"\xf4"), items.Raw(b"\xf5")     # as keys: in Python False is 0


def command_args(rng, kind):
    """Arguments that pass for a command type."""
    track = random_number(rng) if rng.random() < 0.8 else rng.randbytes(rng.choice([1, 8, 40]))
    if kind == 0:
        return rng.choice([{}, {0: random_number(rng)}])
    if kind == 1:
        args = {0: track, 1: rng.choice([-10, 10, 0, rng.randint(-10, 10)])}
        earliest = random_number(rng)
        if rng.random() < 0.6:
            args[2] = earliest
        if rng.random() < 0.6:
            args[3] = rng.choice([earliest, rng.randint(earliest, TOP)])
        return args
    if kind == 2:
        return {0: track, 1: rng.choice([-5, 5, 0, rng.randint(-5, 5)])}
    if kind == 3:
        return {0: random_number(rng)}
    if kind == 10:
        return {0: rng.randint(0, 2)}
    if kind == 11:
        return {0: rng.choice([-60_000, 60_000, 0, -1, rng.randint(-60_000, 60_000)])}
    if kind == 12:
        return {0: rng.choice([50, 200, rng.randint(50, 200)])}
    if kind == 20:
        return {0: rng.randint(0, 2), 1: rng.randint(0, 2), 2: short_text(rng)}
    if kind in (30, 31):
        return rng.choice([{}, {0: 5}, {0: b"key", "name": [1, 2]}, {-1: None}])
    return {}


def short_text(rng):
    """A text within its limit, often as long as it may be."""
    text = random_text(rng, rng.choice([0, 1, 24, 250]))
    while len(text.encode()) > 256:
        text = text[:-1]
    if rng.random() < 0.3:
        text += "x" * (256 - len(text.encode()))
    return text


def fitting_exp(rng, now):
    """An expiry that passes at this time, often at an edge."""
    least, most = max(0, now - 30), min(TOP, now + 86_400)
    return rng.choice([least, most, rng.randint(least, most), min(most, max(least, now))])


def random_now(rng):
    return rng.choice([0, 1, 29, 30, 31, 100, 1_700_000_000, 1_700_000_000, TOP, TOP - 30,
                       TOP - 86_400, rng.randint(0, TOP)])


def message_tree(rng, now, alg=None, kind=None):
    """A message that passes, as a tree of dicts."""
    alg = alg or rng.choice([1, 2, 3, 3, 3])
    kind = rng.choice(sorted(message.TYPES)) if kind is None else kind
    mid = {0: random_number(rng), 1: random_number(rng), 2: rng.randbytes(16)}
    if rng.random() < 0.7:
        mid[3] = fitting_exp(rng, now)
    cmd = {0: kind, 1: command_args(rng, kind)}
    if rng.random() < 0.2:
        cmd[2] = rng.randbytes(rng.choice([0, 1, 30, 300]))
    auth = {0: alg, 1: rng.randbytes(16), 2: rng.randbytes(message.SIGNATURE_OCTETS[alg])}
    if rng.random() < 0.5:
        auth[3] = rng.randbytes(rng.choice([0, 1, 31, 32]))
    tree = {0: 1, 1: 1, 2: mid, 3: cmd, 4: auth}
    if rng.random() < 0.4:
        tree[5] = {0: auth[3]} if 3 in auth and rng.random() < 0.7 else {}
    if rng.random() < 0.3:
        tree[6] = small_ext(rng, 4_096 - 200 - len(items.encode(tree)))
    return tree


def small_ext(rng, room):
    """An extension map of anything that keeps the limits."""
    for _ in range(20):
        entries = [(random_value(rng, 3), random_value(rng, 2)) for _ in range(rng.randint(0, 4))]
        ext = ordered_map(entries)
        if len(items.encode(ext)) < room and passes_alone(ext):
            return ext
    return {}


def passes_alone(ext):
    octets = items.encode(ext)
    try:
        return items.deterministic(items.read(octets), octets)
    except items.Fault:
        return False


def padded(tree, length):
    """The message filled through its extensions to exactly this length."""
    for small in range(4):
        ext = {key: 0 for key in range(small)}
        filled = {**tree, 6: ext}
        while True:
            left = length - len(items.encode(filled))
            if left <= 0:
                break
            key = len(ext)
            fits = [size for size in (left - 2, left - 3, left - 4)
                    if 0 <= size <= 2_048 and len(items.encode({key: bytes(size)})) - 1 == left]
            ext[key] = bytes(fits[0] if fits else min(2_048, max(0, left - 40)))
        if left == 0 and len(ext) < 24:
            return filled
    raise ValueError("cannot be filled")


def reserved_args(length):
    """Arguments of exactly this many octets, for a type that is not examined."""
    return {0: bytes(length - 5)}


# Damage to a tree. Each takes the tree and the time, and spoils it for one question.

def wrong_value(rng):
    return rng.choice([-1, 0, 5, b"", bytes(16), "", "text", [], {}, [1], {0: 0}, True, None])


def other_kind(rng, value):
    """A value of another type whose head has the same argument."""
    argument = len(value) if not isinstance(value, int) else value if value >= 0 else -1 - value
    found = [argument, -1 - argument]
    if argument <= 60:
        found += [bytes(argument), "a" * argument, [0] * argument, {key: 0 for key in range(argument)}]
    if argument < 2:
        found.append(TRUE if argument else FALSE)
    major = items.encode(value)[0] >> 5
    return rng.choice([other for other in found if items.encode(other)[0] >> 5 != major])


def rename_key(rng, part, key):
    """One key of a map becomes one of another type."""
    part[items.Raw(items.encode(other_kind(rng, key)))] = part.pop(key)


def retype_value(rng, part, key):
    """One value of a map becomes one of another type."""
    part[key] = other_kind(rng, part[key])


def spoil_schema(rng, tree, now):
    """11: keys, types, lengths."""
    mid, cmd, auth = tree[2], tree[3], tree[4]
    part = rng.choice([tree, mid, cmd, auth])
    how = rng.randrange(13)
    if how == 0:
        del part[rng.choice([key for key in ((0, 1, 2, 3, 4) if part is tree else
                                             (0, 1) if part is cmd else (0, 1, 2))])]
    elif how == 1:
        part[rng.choice([7 if part is tree else 4, 24, TOP, -1, "a", b"", TRUE])] = wrong_value(rng)
    elif how == 2:
        part[rng.choice(list(part))] = rng.choice([-1, "text", [], None, False, [1, 2]])
    elif how == 3:
        mid[2] = bytes(rng.choice([0, 15, 17, 32]))
    elif how == 4:
        auth[1] = bytes(rng.choice([0, 15, 17, 32]))
    elif how == 5:
        auth[3] = bytes(rng.choice([33, 34, 100]))
    elif how == 6:
        tree[5] = rng.choice([{0: bytes(33)}, {1: 0}, {0: 0}, {0: "a"}, {0: b"", 1: b""}, [], 0, {-1: b""}])
    elif how == 7:
        tree[6] = rng.choice([[], 0, b"", "", None, -1])
    elif how < 10:
        rename_key(rng, part, rng.choice(list(part)))
    elif how < 12:
        retype_value(rng, part, rng.choice(list(part)))
    else:
        spot = rng.choice([(tree, 0, [0, 2, 24, TOP]), (auth, 0, [0, 4, 24, TOP])])
        spot[0][spot[1]] = rng.choice(spot[2])


def spoil_profile(rng, tree, now):
    """12."""
    tree[1] = rng.choice([0, 2, 3, 24, 257, TOP])


def spoil_size(rng, tree, now):
    """13: one limit passed, mostly by one."""
    how = rng.randrange(7)
    if how == 0:
        limit = message.MESSAGE_OCTETS[tree[4][0]]
        if len(items.encode(tree)) < limit - 200:
            tree[6] = padded(tree, limit + rng.choice([1, 1, 2, 500]))[6]
    elif how == 1:
        tree[3] = {0: 30, 1: reserved_args(1_024 + rng.choice([1, 1, 50]))}
    elif how == 2:
        tree[3] = {0: 20, 1: {0: 0, 1: 0, 2: "t" * (256 + rng.choice([1, 1, 100]))}}
    elif how == 3:
        tree[3][2] = bytes(2_048 + rng.choice([1, 1, 30]))
    elif how == 4:
        tree[6] = {0: bytes(2_049)}
    elif how == 5:
        tree[6] = rng.choice([{"t" * 257: 0}, {0: ["é" * 129]}, {0: {0: "t" * 257}}])
    else:
        tree[6] = {bytes(2_049): 0}


def spoil_echo(rng, tree, now):
    """14: an echo without a context, or another one."""
    if rng.random() < 0.5:
        tree[4].pop(3, None)
        tree[5] = {0: rng.choice([b"", b"ctx"])}
    else:
        tree[4][3] = b"context"
        tree[5] = {0: rng.choice([b"", b"contexu", b"context\0", b"contex", b"Context"])}


def spoil_signature(rng, tree, now):
    """16: another length, mostly by one or another algorithm's."""
    right = message.SIGNATURE_OCTETS[tree[4][0]]
    lengths = [right - 1, right + 1, 0, 1, 16, 64, 2_048, 2_049, 3_309]
    tree[4][2] = bytes(rng.choice([length for length in lengths if length != right]))


def spoil_expired(rng, tree, now):
    """19."""
    if now > 30:
        tree[2][3] = rng.choice([now - 31, 0, max(0, now - 32), rng.randint(0, now - 31)])


def spoil_too_far(rng, tree, now):
    """20."""
    if now + 86_401 <= TOP:
        tree[2][3] = rng.choice([now + 86_401, TOP, rng.randint(now + 86_401, TOP)])


def spoil_type(rng, tree, now):
    """21."""
    tree[3][0] = rng.choice([4, 9, 15, 19, 21, 29, 32, 256, 257, 1 << 32, TOP, rng.randint(33, TOP)])


def spoil_args(rng, tree, now):
    """22: an argument missing, unknown, of another type or just outside its range."""
    kind = rng.choice(sorted(message.TYPES - message.RESERVED))
    args = command_args(rng, kind)
    outside = {1: [(1, -11), (1, 11), (1, -TOP - 1), (1, TOP)], 2: [(1, -6), (1, 6)],
               10: [(0, 3), (0, TOP)], 11: [(0, -60_001), (0, 60_001), (0, TOP), (0, -TOP - 1)],
               12: [(0, 49), (0, 201), (0, 0)], 20: [(0, 3), (1, 3)]}
    how = rng.randrange(9)
    if how == 0 and kind in outside:
        key, value = rng.choice(outside[kind])
        args[key] = value
    elif how == 1 and kind == 1:
        args[2], args[3] = rng.choice([(1, 0), (TOP, TOP - 1), (100, 99)])
    elif how == 2 and args:
        args[rng.choice(list(args))] = rng.choice([-1, "text", [], {}, None, True])
    elif how == 3 and args:
        del args[rng.choice(list(args))]
    elif how in (4, 5) and args:
        rename_key(rng, args, rng.choice(list(args)))
    elif how in (6, 7) and args:
        retype_value(rng, args, rng.choice(list(args)))
    else:
        args[rng.choice([len(args) + 1, 4, 24, TOP, -1, "a", b"", FALSE])] = wrong_value(rng)
    tree[3][0], tree[3][1] = kind, args


SPOILERS = [spoil_schema, spoil_profile, spoil_size, spoil_echo, spoil_signature, spoil_expired,
            spoil_too_far, spoil_type, spoil_args]


def judge_case(octets, now):
    return [f"judge {hexed(octets)} now={now}", f"fields {hexed(octets)} now={now}"]


def message_limits(rng):
    """Both sides of every limit of a message, all else passing."""
    now = NOW
    for alg, limit in message.MESSAGE_OCTETS.items():
        for more in (-1, 0, 1):
            tree = message_tree(rng, now, alg, 0)
            tree.pop(6, None)
            tree[3].pop(2, None)
            yield items.encode(padded(tree, limit + more)), now
    for length in (1_023, 1_024, 1_025):
        tree = message_tree(rng, now, 3, 30)
        tree[3] = {0: rng.choice([30, 31]), 1: reserved_args(length)}
        yield items.encode(tree), now
        tree[3] = {0: 1, 1: {0: bytes(length - 7), 1: 0}}
        yield items.encode(tree), now
    for length in (255, 256, 257):
        for text in ("a" * length, "é" * (length // 2) + "a" * (length % 2)):
            tree = message_tree(rng, now, 3, 20)
            tree[3][1][2] = text
            yield items.encode(tree), now
            tree[3][1][2] = ""
            tree[6] = {text: text}
            yield items.encode(tree), now
    for length in (2_047, 2_048, 2_049):
        tree = message_tree(rng, now, 3, 0)
        for cmd, ext in (({2: bytes(length)}, {}), ({}, {0: bytes(length)}), ({}, {bytes(length): 0}),
                         ({}, {0: [bytes(length)]})):
            tree[3] = {0: 0, 1: {}, **cmd}
            tree[6] = ext
            yield items.encode(tree), now
    for alg in (1, 2, 3):
        for length in (0, 15, 16, 17, 2_049, 3_308, 3_309, 3_310, 7_855, 7_856, 7_857):
            tree = message_tree(rng, now, alg, 0)
            tree[4][2] = bytes(length)
            yield items.encode(tree), now


def time_limits(rng):
    for now, exps in ((130, [100, 99]), (131, [100, 101]), (0, [0, 86_400, 86_401, TOP]),
                      (30, [0]), (31, [0, 1]), (TOP, [TOP, TOP - 30, TOP - 31, 0]),
                      (TOP - 86_400, [TOP, TOP - 1]), (TOP - 86_401, [TOP, TOP - 1]),
                      (TOP - 86_399, [TOP]), (TOP - 1, [TOP, TOP - 31, TOP - 32])):
        for exp in exps:
            tree = message_tree(rng, now, 3, 0)
            tree[2][3] = exp
            yield items.encode(tree), now
        tree = message_tree(rng, now, 3, 0)
        tree[2].pop(3, None)
        yield items.encode(tree), now


def kinds_of_keys(rng):
    """Every key and every value of the named maps, in turn, of another type."""
    for change in (rename_key, retype_value):
        for name in (None, 2, 3, 4, 5):
            for _ in range(4):
                tree = message_tree(rng, 0, 3, 0)
                tree[2][3], tree[3][2], tree[4][3] = 0, b"duo", b"ctx"
                tree[5], tree[6] = {0: b"ctx"}, {}
                part = tree if name is None else tree[name]
                for key in list(part):
                    changed = copy.deepcopy(tree)
                    change(rng, changed if name is None else changed[name], key)
                    yield items.encode(changed), 0


def args_limits(rng):
    """Every numbered argument at and just outside its range; every type and its neighbours."""
    tree = message_tree(rng, 0, 3, 0)
    tree[2].pop(3, None)
    tried = [(1, {0: 0, 1: value}) for value in (-11, -10, -1, 0, 10, 11, TOP, -TOP - 1)]
    tried += [(2, {0: 0, 1: value}) for value in (-6, -5, 5, 6)]
    tried += [(2, {0: value, 1: 0}) for value in (0, TOP, -1, b"t", b"", "t")]
    tried += [(1, {0: 0, 1: 0, **times}) for times in
              ({2: 5}, {3: 5}, {2: 5, 3: 5}, {2: 5, 3: 4}, {2: 0, 3: TOP}, {2: TOP, 3: 0}, {4: 0})]
    tried += [(10, {0: value}) for value in (0, 1, 2, 3, -1)]
    tried += [(11, {0: value}) for value in (-60_001, -60_000, 60_000, 60_001)]
    tried += [(12, {0: value}) for value in (49, 50, 200, 201, -50)]
    tried += [(20, {0: target, 1: mode, 2: "x"}) for target in (0, 2, 3) for mode in (0, 2, 3)]
    tried += [(kind, {}) for kind in range(40)]
    tried += [(kind, {0: 0}) for kind in range(40)]
    tried += [(3, {0: value}) for value in (0, TOP, -1, b"", "a")]
    tried += [(0, {0: value}) for value in (0, TOP, -1, b"", "a")] + [(0, {1: 0})]
    for kind, args in tried:
        tree[3] = {0: kind, 1: args}
        yield items.encode(tree), 0


def args_kinds(rng):
    """Every argument, in turn, of every other type."""
    full = {0: {0: 5}, 1: {0: 5, 1: 0, 2: 1, 3: 1}, 2: {0: 5, 1: 1}, 3: {0: 5}, 10: {0: 1}, 11: {0: 1}, 12: {0: 60},
            20: {0: 1, 1: 1, 2: "a"}}
    tree = message_tree(rng, 0, 3, 0)
    tree[2].pop(3, None)
    for kind, args in full.items():
        for key in args:
            for wrong in (0, -1, TRUE, FALSE, None, b"", b"5", "", "5", [], [5], {}, {0: 5}):
                tree[3] = {0: kind, 1: {**args, key: wrong}}
                yield items.encode(tree), 0


def one_damage_each(rng):
    """Every kind of damage by itself, a few times."""
    for _ in range(5):
        for spoil in SPOILERS:
            tree = message_tree(rng, NOW, 3)
            spoil(rng, tree, NOW)
            yield items.encode(tree), NOW
        pairs = items.as_pairs(message_tree(rng, NOW, 3))
        yield items.encode(items.sloppy(pairs, rng, 0.1)), NOW
        yield items.encode(put_somewhere(rng, pairs, items.Raw(rng.choice(BAD_ITEMS)))), NOW
        pairs = items.as_pairs(message_tree(rng, NOW, 3))
        yield items.encode(put_somewhere(rng, pairs, items.Raw(rng.choice(INDEFINITE_ITEMS)))), NOW


def random_message(rng):
    """A message with a time: passing, spoiled for one or more questions, or badly encoded."""
    now = random_now(rng)
    tree = message_tree(rng, now)
    how = rng.randrange(12)
    if how < 2:
        return items.encode(tree), now
    if how < 8:
        for spoil in rng.sample(SPOILERS, rng.choice([1, 1, 1, 1, 2, 3])):
            spoiled = copy.deepcopy(tree)
            try:
                spoil(rng, spoiled, now)
                items.encode(spoiled)
                tree = spoiled
            except (LookupError, AttributeError, TypeError, ValueError):
                pass    # an earlier damage took away what this one needs
        return items.encode(tree), now
    pairs = items.as_pairs(tree)
    if how == 8:
        return items.encode(items.sloppy(pairs, rng, rng.choice([0.02, 0.3]))), now
    if how == 9:
        return items.encode(put_somewhere(rng, pairs, items.Raw(rng.choice(BAD_ITEMS)))), now
    if how == 10:
        pairs = put_somewhere(rng, pairs, items.Raw(rng.choice(INDEFINITE_ITEMS)))
        if rng.random() < 0.3:
            pairs = put_somewhere(rng, pairs, items.Raw(rng.choice(BAD_ITEMS)))
        return items.encode(pairs), now
    return edited(rng, items.encode(tree)), now


def message_cases(rng, wanted):
    made = 0
    for limits in (message_limits(rng), time_limits(rng), args_limits(rng), kinds_of_keys(rng),
                   args_kinds(rng), one_damage_each(rng)):
        for octets, now in limits:
            made += 1
            yield judge_case(octets, now)
    for kind in sorted(message.TYPES):
        for alg in (1, 2, 3):
            now = random_now(rng)
            made += 1
            yield judge_case(items.encode(message_tree(rng, now, alg, kind)), now)
    for _ in range(wanted - made):
        yield judge_case(*random_message(rng))
