"""The receiver: every question in its order, and the one write that a release makes."""

from model import line, message
from model.message import Refused, ask


class Duplicate(Exception):
    """The same message as the one that set the mark."""


class Receiver:
    def __init__(self, store):
        self.store = store

    def switch_on(self, charge):
        self.store.switch_on(charge)

    def listen(self, octets, count, start, now, catalog, work, suspect, verifier):
        """('quiet', next), ('duplicate', next), ('refused', number, next),
        or ('released', next, message, command)."""
        number = line.asked_first(octets, count, start, work)
        if number is None and not self.store.on():
            number = 3
        if number is not None:
            return ("refused", number, start)
        heard = line.frame(octets, count, start)
        if heard[0] != "frame":
            return heard
        place = heard[2]
        try:
            found, command = self.judge(heard[1][:-2], now, catalog, suspect, verifier)
        except Refused as refused:
            return ("refused", refused.number, place)
        except Duplicate:
            return ("duplicate", place)
        return ("released", place, found, command)

    def judge(self, octets, now, catalog, suspect, verifier):
        """Questions 8 to 26."""
        found = message.read_message(octets)
        message.ask_form(found)
        ask(15, verifier.known(found.kid, found.alg))
        ask(16, message.signature_fits(found))
        ask(17, verifier.good(found.kid, found.alg, found.transcript(), found.sig))
        self.ask_replay(found)
        message.ask_time(found, now)
        command = message.read_command(found)
        ask(23, allowed(found, command, catalog, suspect))
        ask(24, found.duo is None)
        pair = (found.sid, found.kid)
        ask(25, self.store.room(pair))
        ask(26, self.store.raise_mark(pair, (found.epoch, found.counter, found.hash)) == "done")
        return found, command

    def ask_replay(self, found):
        """Question 18."""
        mark = self.store.mark((found.sid, found.kid))
        if mark == (found.epoch, found.counter, found.hash):
            raise Duplicate
        ask(18, mark is None or (found.epoch, found.counter) > mark[:2])


def allowed(found, command, catalog, suspect):
    if found.type in message.RESERVED:
        return False
    track = command.track()
    if track is not None and track not in catalog:
        return False
    return not suspect or found.type == 0
