"""Marks that outlast power cuts: cells, the journal over them, floors above it.

A pair is (sid, kid); a mark is (epoch, counter, hash); a position is a mark's first two numbers.
"""

CELL_OCTETS = 81
TABLE_CELLS = 16
BLANK, TORN = "blank", "torn"
NO_HASH = bytes(32)


def position(mark):
    return mark[:2]


def record_octets(pair, mark):
    epoch, counter, digest = mark
    return (b"\x01" + pair[0] + pair[1] + epoch.to_bytes(8, "big") + counter.to_bytes(8, "big")
            + digest)


def cell_of(octets):
    """What 81 octets mean: blank, torn, or (pair, mark)."""
    if octets[0] == 0:
        return BLANK
    if octets[0] != 1:
        return TORN
    pair = (octets[1:17], octets[17:33])
    return pair, (int.from_bytes(octets[33:41], "big"), int.from_bytes(octets[41:49], "big"),
                  octets[49:81])


class Cells:
    """What image and table share: power, charge, and which of three a cut leaves."""

    def __init__(self, on, charge, cut):
        self.on, self.charge, self.cut = on, charge, cut

    def write(self, place, pair, mark):
        if not self.on:
            return "off"
        if place >= self.count():
            return "outside"
        if self.charge > 0:
            self.charge -= 1
            self.put(place, pair, mark)
            return "done"
        self.on = False
        if self.cut == "new":
            self.put(place, pair, mark)
        elif self.cut == "torn":
            self.tear(place)
        return "cut"

    def switch_on(self, charge):
        self.on, self.charge = True, charge


class Image(Cells):
    """Cells in lent octets; those behind the last whole cell are left alone."""

    def __init__(self, octets, on, charge, cut):
        super().__init__(on, charge, cut)
        self.octets = bytearray(octets)

    def count(self):
        return len(self.octets) // CELL_OCTETS

    def read(self, place):
        if place >= self.count():
            return TORN
        start = place * CELL_OCTETS
        return cell_of(bytes(self.octets[start:start + CELL_OCTETS]))

    def put(self, place, pair, mark):
        start = place * CELL_OCTETS
        self.octets[start:start + CELL_OCTETS] = record_octets(pair, mark)

    def tear(self, place):
        self.octets[place * CELL_OCTETS] = 0xFF

    def dump(self):
        return "image", bytes(self.octets)


class Table(Cells):
    """Sixteen cells, blank at first."""

    def __init__(self, on, charge, cut):
        super().__init__(on, charge, cut)
        self.cells = [BLANK] * TABLE_CELLS

    def count(self):
        return TABLE_CELLS

    def read(self, place):
        return self.cells[place] if place < TABLE_CELLS else TORN

    def put(self, place, pair, mark):
        self.cells[place] = (pair, mark)

    def tear(self, place):
        self.cells[place] = TORN

    def dump(self):
        def octets(cell):
            if cell == BLANK:
                return bytes(CELL_OCTETS)
            if cell == TORN:
                return b"\xff" + bytes(CELL_OCTETS - 1)
            return record_octets(*cell)
        return "table", b"".join(map(octets, self.cells))


class Journal:
    """A store over cells: a pair's mark is its highest record, the lowest cell first."""

    def __init__(self, cells):
        self.cells = cells
        self.next = 0

    def on(self):
        return self.cells.on

    def holders(self):
        """For each pair, the cell that gives its mark."""
        found = {}
        for place in range(self.cells.count()):
            cell = self.cells.read(place)
            if cell in (BLANK, TORN):
                continue
            pair, mark = cell
            if pair not in found or position(mark) > position(self.cells.read(found[pair])[1]):
                found[pair] = place
        return found

    def mark(self, pair):
        place = self.holders().get(pair)
        return None if place is None else self.cells.read(place)[1]

    def free(self):
        """The free cells: blank, torn, or not giving their pair's mark."""
        taken = set(self.holders().values())
        return [place for place in range(self.cells.count()) if place not in taken]

    def room(self, pair):
        return bool(self.free())

    def raise_mark(self, pair, mark):
        if not self.on():
            return "off"
        present = self.mark(pair)
        if present is not None and position(mark) <= position(present):
            return "low"
        free = self.free()
        if not free:
            return "full"
        place = min((place for place in free if place >= self.next), default=free[0])
        self.next = place + 1
        return self.cells.write(place, pair, mark)

    def switch_on(self, charge):
        self.cells.switch_on(charge)
        self.next = 0

    def dump(self):
        return self.cells.dump()


class Floor:
    """A store over a store: no mark is below the first position of an epoch."""

    def __init__(self, below, epoch):
        self.below, self.epoch = below, epoch

    def on(self):
        return self.below.on()

    def mark(self, pair):
        present = self.below.mark(pair)
        if present is not None and position(present) >= (self.epoch, 0):
            return present
        return (self.epoch, 0, NO_HASH)

    def room(self, pair):
        return self.below.room(pair)

    def raise_mark(self, pair, mark):
        if not self.on():
            return "off"
        if position(mark) <= position(self.mark(pair)):
            return "low"
        return self.below.raise_mark(pair, mark)

    def switch_on(self, charge):
        self.below.switch_on(charge)

    def dump(self):
        return self.below.dump()
