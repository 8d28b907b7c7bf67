#!/usr/bin/env python3
"""Lists the places in src/ that older forms take, point by point, and counts them.

usage: python3 tools/places.py [--list] [FOLDER]

FOLDER is a checkout, by default the one at hand. It goes by text: a row is a place to look at, not a fault. `--list` prints each place.
A place with a line `// Kept: ` in the three lines above it, or in its function's head, counts as kept.
"""
import difflib
import pathlib
import re
import sys

INTEGER = r'(?:u8|u16|u32|u64|u128|usize|i8|i16|i32|i64)'


class Source:
    """A source file, with the lines that say why a place is kept."""

    def __init__(self, root, path):
        self.path = path
        self.name = str(path.relative_to(root / 'crates')).replace('/src/', '/')
        self.lines = path.read_text().split('\n')
        self.crate = path.relative_to(root / 'crates').parts[0]

    def code(self, n):
        return re.sub(r'//.*', '', self.lines[n])

    def kept(self, n):
        """Whether a reason stands beside line n, up to the item that holds it."""
        for k in range(n, max(-1, n - 60), -1):
            if '// Kept:' in self.lines[k]:
                return True
            if k < n and re.match(r'^ {0,4}\}', self.lines[k]):
                return False
        return False


class Function:
    def __init__(self, source, at, name, params, result, clauses, body, owner):
        self.source, self.at, self.name = source, at, name
        self.params, self.result, self.clauses, self.body, self.owner = params, result, clauses, body, owner

    def tokens(self):
        keep = {'if', 'else', 'match', 'for', 'while', 'loop', 'let', 'return', 'in', 'mut', 'Some', 'None', 'Ok', 'Err', 'true', 'false'}
        found = []
        for t in re.findall(r'[A-Za-z_]\w*|\d\w*|"[^"]*"|\S', self.body):
            if re.match(r'[A-Za-z_]', t) and t not in keep:
                t = 'x'
            elif re.match(r'[\d"]', t):
                t = '0'
            found.append(t)
        return found


def functions(source):
    """The functions of a file, by brackets."""
    found = []
    owner = ''
    n = 0
    while n < len(source.lines):
        line = source.code(n)
        m = re.match(r'^(?:impl|trait|pub trait)\b.*?(?:for )?(\w+)(?:<.*>)? \{', line)
        if m:
            owner = m.group(1)
        if re.match(r'^\}', line):
            owner = ''
        m = re.match(r'^\s*(?:#\[[^\]]*\] )?(?:pub(?:\(crate\))? )?(?:extern "C" )?fn (\w+)', line)
        if not m:
            n += 1
            continue
        at, name = n, m.group(1)
        head = line
        while head.count('(') == 0 or head.count('(') > head.count(')'):
            n += 1
            head += ' ' + source.code(n).strip()
        params = re.search(r'\((.*)\)', head.split('->')[0].split(' requires')[0]).group(1) if '(' in head else ''
        m = re.search(r'-> (.*?)(?: \{|;|$)', head)
        result = m.group(1) if m else ''
        indent = len(source.lines[at]) - len(source.lines[at].lstrip())
        clauses = []
        if head.rstrip().endswith(';'):
            found.append(Function(source, at, name, params, result, clauses, '', owner))
            n += 1
            continue
        if not head.rstrip().endswith('{'):
            n += 1
            while n < len(source.lines) and source.lines[n] != ' ' * indent + '{':
                text = source.code(n).strip()
                if re.match(r'(requires|ensures)', text):
                    clauses.append(text)
                elif clauses:
                    clauses[-1] += ' ' + text
                if re.search(r';\s*$', source.lines[n]):
                    break
                n += 1
            if n >= len(source.lines) or source.lines[n] != ' ' * indent + '{':
                found.append(Function(source, at, name, params, result, clauses, '', owner))
                n += 1
                continue
        body = []
        n += 1
        while n < len(source.lines) and source.lines[n] != ' ' * indent + '}':
            body.append(source.code(n))
            n += 1
        found.append(Function(source, at, name, params, result, clauses, '\n'.join(body), owner))
        n += 1
    return found


def parameters(f):
    """Name and type of each parameter."""
    depth, part, parts = 0, '', []
    for c in f.params:
        depth += c in '(<[' or 0
        depth -= c in ')>]' or 0
        if c == ',' and depth == 0:
            parts.append(part)
            part = ''
        else:
            part += c
    parts.append(part)
    found = set()
    for p in parts:
        m = re.match(r'\s*(?:mut )?(\w+): (.*)', p.strip())
        if m and not m.group(2).strip().startswith('&impl'):
            found.add((m.group(1), re.sub(r"'\w+ ", '', m.group(2).strip())))
    return found


class Places:
    def __init__(self, root):
        self.root = root
        self.sources = [Source(root, p) for p in sorted((root / 'crates').glob('*/src/**/*.rt'))]
        self.functions = [f for s in self.sources for f in functions(s)]
        self.rows = {}

    def add(self, point, kind, source, n, text):
        self.rows.setdefault(point, []).append((kind, source, n, text))

    def lines(self, point, kind, pattern):
        for s in self.sources:
            for n in range(len(s.lines)):
                if re.search(pattern, s.code(n)):
                    self.add(point, kind, s, n, s.lines[n].strip())

    def enums(self):
        for s in self.sources:
            text = '\n'.join(s.code(n) for n in range(len(s.lines)))
            for m in re.finditer(r'^(?:pub(?:\(crate\))? )?enum (\w+)[^{]*\{\n(.*?)^\}', text, re.M | re.S):
                body = re.sub(r'\{[^{}]*\}', '(..)', m.group(2))
                variants = re.findall(r'^\s+(\w+)(\(|\s*\()?', body, re.M)
                held = [v for v in variants if v[1]]
                bare = len(variants) - len(held)
                if len(variants) <= 6 and ((len(held) == 1 and bare) or (len(held) == 2 and bare <= 2)):
                    n = text[:m.start()].count('\n')
                    self.add(1, 'an enum of the shape of Option or Result', s, n, m.group(1))

    def codes(self):
        for s in self.sources:
            whole = '\n'.join(s.code(n) for n in range(len(s.lines)))
            for n in range(len(s.lines)):
                m = re.match(r'^\s*(?:pub(?:\(crate\))? )?const (\w+): ' + INTEGER + ' = ', s.code(n))
                if not m:
                    continue
                name = m.group(1)
                if re.search(r'(\| ' + name + r'\b|\b' + name + r' (=>|\|)|[=!]= ' + name + r'\b)', whole):
                    self.add(1, 'a number for a kind', s, n, name)

    def flags(self):
        for s in self.sources:
            inside = None
            for n in range(len(s.lines)):
                m = re.match(r'^(?:pub(?:\(crate\))? )?struct (\w+)', s.code(n))
                if m and s.code(n).rstrip().endswith('{'):
                    inside = m.group(1)
                if s.code(n) == '}':
                    inside = None
                m = re.match(r'^    (?:pub(?:\(crate\))? )?(\w+): (?:bool|Option<\(\)>),', s.code(n))
                if inside and m:
                    self.add(1, 'a flag in a struct', s, n, f'{inside}.{m.group(1)}')

    def rebuilt(self):
        pattern = r'(None => (?:None|return None|Err\(|return Err\(|true|false)|Err\(_?\w*\) => (?:None|return Err\(|Err\(|false)|Some\((\w+)\) => Ok\(\2\)|Ok\((\w+)\) => Some\(\3\)|Some\(_\) => (?:true|false|1)\b)'
        self.lines(1, 'a match that rebuilds an Option or Result', pattern)
        for s in self.sources:
            for n in range(len(s.lines) - 1):
                if re.search(r'let (Some|Ok)\(.*\) = .* else \{$', s.code(n)) and re.search(r'return None;', s.code(n + 1)):
                    self.add(1, 'a let-else that rebuilds an Option', s, n, s.lines[n].strip())

    def twins(self):
        plain = [f for f in self.functions if len(f.tokens()) >= 24]
        seen = {}
        for f in plain:
            for g in plain:
                if (g.source.name, g.at) <= (f.source.name, f.at):
                    continue
                a, b = f.tokens(), g.tokens()
                if not 0.8 < len(a) / len(b) < 1.25:
                    continue
                if a == b or difflib.SequenceMatcher(None, a, b, False).ratio() > 0.9:
                    seen.setdefault((f.source.name, f.at), (f, []))[1].append(f'{g.source.name}:{g.name}')
        for f, others in seen.values():
            self.add(2, 'a function with twins', f.source, f.at, f'{f.name} ~ ' + ', '.join(others))

    def loops(self):
        self.lines(3, 'a while', r'\bwhile\b')
        self.lines(3, 'a for over numbers', r'\bfor \w+ in .*\.\.')
        for f in self.functions:
            if re.search(r'for [^{]*\{\s*if [^{]*\{\s*return (true|false|Some\([^)]*\));', f.body):
                self.add(3, 'a loop that searches', f.source, f.at, f.name)
            if re.search(r'for [^{]*\{\s*\*\w+ = ', f.body):
                self.add(3, 'a loop that fills', f.source, f.at, f.name)

    def by_hand(self):
        for f in self.functions:
            body = f.body.strip()
            if re.fullmatch(r'[\w.]+ (==|<|!=) [\w.]+', body):
                self.add(4, 'a comparison as a function', f.source, f.at, f.name)
            elif re.fullmatch(r'\(?self\.\w+ [=<]= ?other.*', body, re.S) or ('self.' in body and 'other.' in body):
                self.add(4, 'a comparison field by field', f.source, f.at, f.name)
            elif re.fullmatch(r'[A-Z]\w+ \{[^;]*\}', body, re.S) and f.params and 'self' not in f.params.split(',')[0] and 'fmt' not in f.name \
                    and not re.match(r'(new|at|none|with_cells|resume|from)$', f.name):
                self.add(4, 'a conversion by a function', f.source, f.at, f.name)
            elif f.result.startswith('Result<String') and 'Unreadable' not in f.result and 'format!' in body:
                self.add(4, 'printing into a String', f.source, f.at, f.name)
            elif re.fullmatch(r'match [^{]*\{(\s*[\w:| .=&()_{}]+ => ("[^"]*"|\d+|[A-Z]\w+::\w+|true|false),)+\s*\}', body, re.S) and f.name not in ('number', 'name'):
                self.add(4, 'a table of words or numbers', f.source, f.at, f.name)

    def travels(self):
        for crate in sorted({f.source.crate for f in self.functions}):
            own = [(f, parameters(f)) for f in self.functions if f.source.crate == crate]
            own = [(f, frozenset(q for q in p if q[0] not in ('rt', 'heap', 'alloc', 'f', 'out', 'self'))) for f, p in own]
            groups = set()
            for i in range(len(own)):
                for j in range(i):
                    both = own[i][1] & own[j][1]
                    if len(both) >= 2:
                        groups |= {both} | {both & p for _, p in own if len(both & p) >= 2}
            often = {}
            for g in groups:
                fs = [f for f, p in own if g <= p]
                if len(fs) >= 3:
                    often[g] = fs
            for g, fs in sorted(often.items(), key=lambda o: sorted(o[0])):
                if not any(g < h and len(hs) == len(fs) for h, hs in often.items()):
                    names = ', '.join(f'{n}: {t}' for n, t in sorted(g))
                    self.add(5, 'parameters that travel together', fs[0].source, fs[0].at, f'{names} in {len(fs)} functions of {crate}')
        clauses = {}
        for f in self.functions:
            for c in f.clauses:
                clauses.setdefault((f.source.crate, re.sub(r'^(requires|ensures) ?\w* ?\{', r'\1 {', c)), []).append(f)
        for (crate, c), fs in sorted(clauses.items(), key=lambda g: (g[0][0], g[0][1])):
            if len(fs) >= 3:
                self.add(5, 'a clause that three or more functions have', fs[0].source, fs[0].at, f'{c} in {len(fs)} functions of {crate}')

    def buffers(self):
        for s in self.sources:
            text = '\n'.join(s.code(n) for n in range(len(s.lines)))
            for m in re.finditer(r'^(?:pub(?:\(crate\))? )?struct (\w+)[^{;]*\{\n(.*?)^\}', text, re.M | re.S):
                body = m.group(2)
                arrays = re.findall(r'(\w+): (?:\[[^;\]]+; (?!16\]|32\])[^\]]+\]|&\'a mut \[)', body)
                lengths = re.findall(r'(\w+): (?:usize|u8|u64|Option<usize>),', body)
                if arrays and (lengths or len(arrays) > 1):
                    self.add(6, 'a buffer with numbers beside it', s, text[:m.start()].count('\n'), f'{m.group(1)}: {", ".join(arrays)} with {", ".join(lengths)}')
            for n in range(len(s.lines)):
                if re.match(r'^\s*(?:pub(?:\(crate\))? )?const \w+_AT: usize', s.code(n)) or re.search(r'\[\d+\.\.\d+\]', s.code(n)):
                    self.add(6, 'a place in a buffer by number', s, n, s.lines[n].strip())
            for n in range(len(s.lines)):
                if re.search(r'^\s+(Zero|One)\b', s.code(n)):
                    self.add(6, 'a list by cases', s, n, s.lines[n].strip())

    def switches(self):
        for f in self.functions:
            arms = re.findall(r'=> (?:Ok\()?(?:self\.)?\w+(?:::\w+)*\([^\n]*\)\??(?:\))?,', f.body)
            if len(arms) >= 5:
                self.add(7, 'a switch on which step to run', f.source, f.at, f'{f.name}, {len(arms)} arms')
        self.lines(7, 'a function pointer or boxed closure', r'\bfn\(|Box<dyn|&dyn')

    def proofs(self):
        rows = {}
        for crate in sorted({s.crate for s in self.sources}):
            files = list((self.root / 'crates' / crate / 'proofs').glob('**/*.antt'))
            lines = sum(len(p.read_text().split('\n')) - 1 for p in files)
            answers = sum(len(re.findall(r'^\w[\w-]* (?:\w+ )*(?:g )?c\b.*=', p.read_text(), re.M)) for p in files if p.name == 'Answers.antt')
            rows[crate] = (len(files), lines, answers)
        return rows

    def run(self):
        self.enums()
        self.codes()
        self.flags()
        self.rebuilt()
        self.twins()
        self.loops()
        self.by_hand()
        self.travels()
        self.buffers()
        self.switches()


def main():
    args = [a for a in sys.argv[1:] if a != '--list']
    root = pathlib.Path(args[0] if args else '.').resolve()
    places = Places(root)
    places.run()
    for point in sorted(places.rows):
        rows = places.rows[point]
        kept = sum(s.kept(n) for _, s, n, _ in rows)
        print(f'point {point}: {len(rows)} places, {kept} with a reason beside them')
        kinds = {}
        for kind, s, n, text in rows:
            kinds.setdefault(kind, []).append((s, n, text))
        for kind, found in kinds.items():
            print(f'  {kind}: {len(found)}')
            if '--list' in sys.argv:
                for s, n, text in found:
                    print(f'    {"kept " if s.kept(n) else ""}{s.name}:{n + 1}: {text}')
    print('point 8: proofs, by crate (files, lines, answers)')
    for crate, (files, lines, answers) in places.proofs().items():
        print(f'  {crate}: {files}, {lines}, {answers}')


if __name__ == '__main__':
    main()
