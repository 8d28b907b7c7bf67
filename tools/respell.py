#!/usr/bin/env python3
"""Respells this repository's own definitions and lemmas: words in snake case, types and modules in camel case.

usage: python3 tools/respell.py            once, at the top, behind the kit's own script

Three things change, in specs/, proofs/, the clauses of src/ and must-fail edits: a word in mixed case gets underscores; a type
with dashes loses them; a lemma's dashes become underscores, but where a dash joins the names of two functions. In proof files
the names that Rattle makes get the underscores of the source. Names that would fall together are printed and left alone.
"""

import collections
import glob
import re
import sys

# A name of antt, and what stands before it.
TOKEN = re.compile(r"""[^\s(){}\[\];.,"@:=⌜⌝|\\↦→λ∀]+""")
DECLARED = re.compile(r"^(\s*)(?:(?:abbrev|unfoldable|opaque|pub|private)\s+)*(data\s+|record\s+)?([^\s:(){}=→λ.]+)((?:\s+[({\[].*)?)\s*:\s(.*)$")
PATH = re.compile(r"\bRattle(?:\.[^\s.{}(),;]+)+")
SNAKE = re.compile(r"\b[A-Za-z]\w*_\w+\b")
WORDS_OF_ANTT = {"use", "module", "where", "let", "in", "elim", "--", "mod", "unfolding"}
# Functions of the library that lemmas are named after.
LIBRARY = {"length", "append", "take", "drop", "set", "map", "reverse", "replicate", "cond", "div", "mod", "mul", "add", "sub", "pow"}
# Names that would fall together with a definition's.
CHOSEN = {"fcs-of": "fcs_case", "heard-as": "heard_case", "octet-of": "octet_of_lem", "octets-of": "octets_of_lem", "track-item": "track_item_lem",
          "closes_by": "closes_by_lem", "Heard-frame": "FrameIsHeard", "of-store": "of_store_lem",
          # constructors and fields take no dash, though it would join two names
          "on-floor": "floor_over",
          # lemmas that would differ from a definition by a dash alone
          "big-endian": "big_endian_lem", "first-free": "first_free_lem", "key-at": "key_at_lem", "octets-at": "octets_at_lem",
          "optional-entry": "optional_entry_lem", "put-cell": "put_cell_lem", "track-number": "track_number_lem",
          # facts that a lemma takes
          "frameIs": "FrameIs", "heardBy": "HeardBy"}
# Names of arguments, and of an import.
LOCAL = {"isMap": "is_map", "transcriptHash": "transcript_hash", "signatureHash": "signature_hash", "toneAt": "tone_at"}
PLAIN = {"sorted-is", "starts-long", "ends-long", "next-entry", "above-mark", "shows-number", "shows-octets", "shows-heartbeat", "shows-queue",
         "shows-suggest", "shows-remove", "shows-state", "shows-seek", "shows-rate", "shows-next", "shows-previous", "shows-text", "shows-reserved"}
# Parts of names that Rattle makes.
MADE = {("in", "err"): "in_err", ("in", "ok"): "in_ok", ("in", "default"): "in_default", ("slice", "bounds"): "slice_bounds",
        ("offset", "bounds"): "offset_bounds", ("invariant", "of"): "invariant_of", ("nonzero", "div"): "nonzero_div",
        ("nonzero", "rem"): "nonzero_rem", ("overflow", "step"): "overflow_step", ("overflow", "shr"): "overflow_shr",
        ("overflow", "add"): "overflow_add", ("overflow", "sub"): "overflow_sub",
        ("overflow", "mul"): "overflow_mul", ("overflow", "cast"): "overflow_cast", ("overflow", "shl"): "overflow_shl", ("overflow", "neg"): "overflow_neg"}


def read(path):
    with open(path, encoding="utf-8") as file:
        return file.read()


def files(*patterns):
    return sorted(path for pattern in patterns for path in glob.glob(pattern, recursive=True) if "/out/" not in path)


def is_generated_folder(path):
    return path.endswith(("/Answers.antt", "/Invariants.antt", "/Choices.antt"))


def declared_names():
    """Each own name: the files that declare it, whether it is a type, and whether it is a field."""
    types, fields, names = set(), set(), collections.defaultdict(set)
    for path in files("crates/*/specs/**/*.antt", "crates/*/proofs/**/*.antt"):
        inside = None
        for line in read(path).split("\n"):
            head = re.match(r"^\s*(?:pub\s+)?(?:data|record)\s+(\S+)", line)
            if head and not line.strip().startswith("--"):
                inside = "record" if re.match(r"^\s*(?:pub\s+)?record", line) else "data"
                types.add(head.group(1))
                names[head.group(1)].add(path)
                continue
            found = DECLARED.match(line)
            if not found or found.group(3) in WORDS_OF_ANTT or line.strip().startswith("--"):
                if line.strip() and not line.startswith(" "):
                    inside = None
                continue
            indent, _, name, _, said = found.groups()
            if said.startswith("goal."):
                continue
            if not indent:
                inside = None
            elif inside == "record":
                fields.add(name)
            names[name].add(path)
            if re.search(r"(^|→ )Type \d+\s*$", said):
                types.add(name)
    return names, types, fields


def snake(word):
    return re.sub(r"([a-z0-9])([A-Z])", lambda m: m.group(1) + "_" + m.group(2).lower(), word)


def camel(word):
    return "".join(part[:1].upper() + part[1:] for part in word.split("-"))


def respelled(name, types, functions):
    if name in CHOSEN:
        return CHOSEN[name]
    if name in PLAIN:
        return name.replace("-", "_")
    if name in types:
        return camel(name) if "-" in name and name[0].isupper() else name
    parts = name.split("-")
    said = parts[0] if parts[0][:1].isupper() else snake(parts[0])
    for before, part in zip(parts, parts[1:]):
        joins = before in functions and part in functions or before[:1].isupper() or part[:1].isupper()
        said += ("-" if joins else "_") + (part if part[:1].isupper() else snake(part))
    return said


def source_names():
    """Names with an underscore in the sources: Rattle keeps them in what it makes."""
    found = set()
    for path in files("crates/*/src/**/*.rt"):
        found |= {word for word in SNAKE.findall(read(path))}
    return found


def made(token, kept):
    """A name that Rattle makes, with the underscores of the source."""
    return "+".join(made_part(part, kept) for part in token.split("+"))


def made_part(token, kept):
    parts, said = token.split("-"), []
    while parts:
        for n in range(len(parts), 0, -1):
            joined = "_".join(parts[:n])
            if n > 1 and tuple(parts[:n]) in MADE:
                joined = MADE[tuple(parts[:n])]
            elif n > 1 and joined not in kept:
                continue
            said.append(joined)
            parts = parts[n:]
            break
    return "-".join(said)


def main():
    names, types, fields = declared_names()
    functions = {name for name in names if "-" not in name and name not in types} | LIBRARY
    present = set()
    for path in files("crates/*/specs/**/*.antt", "crates/*/proofs/**/*.antt"):
        for found in TOKEN.finditer(PATH.sub("", read(path))):
            if not found.string[:found.start()].endswith("."):
                present.add(found.group(0))
    present -= set(CHOSEN)
    turned, taken = {}, collections.defaultdict(list)
    for name in sorted(names):
        new = respelled(name, types, functions)
        if new != name:
            taken[new].append(name)
    for new, olds in taken.items():
        if len(olds) > 1 or new in present:
            print("left:", ", ".join(olds), "would fall together as", new)
            continue
        turned[olds[0]] = new
    turned.update(LOCAL)
    kept = source_names()

    def turn(path, text):
        generated = is_generated_folder(path)
        goals = set()
        if generated:
            for line in re.findall(r"^\s*(?:(?:abbrev|pub)\s+)*(\S+) : goal\.", text, re.MULTILINE):
                goals.add(line)
            for listed in re.findall(r"^use \S*\.(?:Goals|Given)\.\{([^}]*)\}", text, re.MULTILINE):
                goals |= {place.strip() for place in listed.split(",")}

        def one(found):
            token, before = found.group(0), text[found.start() - 1:found.start()]
            if generated:
                if token in goals or (before == "." and token not in fields):
                    return made(token, kept)
            return turned.get(token, token)

        out = []
        last = 0
        for found in TOKEN.finditer(text):
            out.append(text[last:found.start()])
            out.append(one(found))
            last = found.end()
        return "".join(out) + text[last:]

    def turn_lines(path, text):
        """Sources and edits: no strings, and of comments only words in mixed case."""
        out = []
        for line in text.split("\n"):
            pieces = re.split(r'("(?:[^"\\]|\\.)*")', line)
            for i in range(0, len(pieces), 2):
                code, mark, comment = pieces[i].partition("//")
                code = TOKEN.sub(lambda m: turned.get(m.group(0), m.group(0)), code)
                comment = TOKEN.sub(lambda m: m.group(0) if "-" in m.group(0) else turned.get(m.group(0), m.group(0)), comment)
                pieces[i] = code + mark + comment
            out.append("".join(pieces))
        return "\n".join(out)

    changed = 0
    for path in files("crates/*/specs/**/*.antt", "crates/*/proofs/**/*.antt", "crates/*/src/**/*.rt", "crates/*/must-fail/*.edit"):
        text = read(path)
        new = turn(path, text) if path.endswith(".antt") else turn_lines(path, text)
        if new != text:
            changed += 1
            with open(path, "w", encoding="utf-8") as file:
                file.write(new)
    print(f"{len(turned)} names respelled in {changed} files")
    if "--list" in sys.argv:
        for name in sorted(turned):
            print(" ", name, turned[name])


if __name__ == "__main__":
    main()
