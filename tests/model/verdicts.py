"""Two sheets that say which key is known and which signature is good."""

import hashlib


def digest(octets):
    return hashlib.sha256(octets).digest()


def rows(octets, length):
    """The whole rows; what is left at the end is ignored."""
    whole = len(octets) // length * length
    return [octets[start:start + length] for start in range(0, whole, length)]


class VerdictSheet:
    """Rows of 82: kind (0 pin, 1 yes), kid, alg, digest of transcript, digest of signature."""

    def __init__(self, octets):
        self.rows = rows(octets, 82)

    def known(self, kid, alg):
        return any(row[0] == 0 and row[1:17] == kid and row[17] == alg for row in self.rows)

    def good(self, kid, alg, transcript, signature):
        wanted = digest(transcript) + digest(signature)
        yes = any(row[0] == 1 and row[1:17] == kid and row[17] == alg and row[18:] == wanted
                  for row in self.rows)
        return yes and self.known(kid, alg)


class TagSheet:
    """Rows of 64, for alg 3 alone: kid, digest of transcript, tag."""

    def __init__(self, octets):
        self.rows = rows(octets, 64)

    def known(self, kid, alg):
        return alg == 3 and any(row[:16] == kid for row in self.rows)

    def good(self, kid, alg, transcript, signature):
        wanted = kid + digest(transcript) + signature
        return alg == 3 and any(row == wanted for row in self.rows)
