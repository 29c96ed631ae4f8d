#!/usr/bin/env python3
"""Counts the places in src/ that docs/DESIGN-PASS.md speaks of, point by point.

    python3 tools/places.py [POINT..]    at the top of the repository; with -q the counts alone

It goes by text, so what it finds is a place to look at, not a judgement.
"""
import collections
import glob
import re
import sys

FILES = sorted(glob.glob('crates/*/src/**/*.rt', recursive=True))
SOURCE = {f: open(f).read() for f in FILES}
CODE = {f: re.sub(r'//[^\n]*', '', t) for f, t in SOURCE.items()}


def functions():
    """(file, name, head, body) of each function; the head has the parameters, the result and the clauses."""
    for f, t in CODE.items():
        for m in re.finditer(r'\n[ ]*(?:pub )?(?:extern "C" )?fn (\w+)', t):
            rest = t[m.end():]
            brace = re.search(r'\n[ ]*\{\n|\)(?: -> [^{\n]+)? \{\n|\n[ ]*\{\}', rest)
            if not brace:
                continue
            indent = re.match(r'\n([ ]*)', m.group(0)).group(1)
            end = re.search(r'\n' + indent + r'\}', rest[brace.start() + 1:])
            body = rest[brace.end():brace.start() + 1 + (end.start() if end else 0)]
            yield f, m.group(1), rest[:brace.end()], body


def structs():
    for f, t in CODE.items():
        for m in re.finditer(r'\nstruct (\w+)[^{;]*\{(.*?)\n\}|\npub struct (\w+)[^{;]*\{(.*?)\n\}', t, re.S):
            yield f, m.group(1) or m.group(3), m.group(2) or m.group(4)


def lines(pattern):
    for f, t in CODE.items():
        for i, line in enumerate(t.split('\n'), 1):
            if re.search(pattern, line):
                yield f'{f}:{i}: {line.strip()}'


def point1():
    """Own enums of the shape of Option or Result; flags in structs; numbers for refusals and kinds; success as a bool."""
    absent = r'\b(Nothing|Missing|Slash|Absent|End|Unsound|Refused|Faulty|LengthNeeded)\b'
    for f, t in CODE.items():
        for m in re.finditer(r'enum (\w+)[^{]*\{(.*?)\n\}', t, re.S):
            variants = re.findall(r'\n    ([A-Z]\w*)', m.group(2))
            if any(re.fullmatch(absent, v) for v in variants) and len(variants) < 4:
                yield f'{f}: enum {m.group(1)}: {" ".join(variants)}'
    for f, name, fields in structs():
        for b in re.findall(r'(\w+): bool', fields):
            yield f'{f}: struct {name}: flag {b}'
        for n, ty in re.findall(r'(\w+): (u8|u16|u32|usize|i32)\b', fields):
            if n in ('state', 'flag', 'settled', 'row', 'filed', 'ir', 'tr', 'dd', 'rank', 'copy', 'rain_indicator', 'rain_duration', 'wind_direction'):
                yield f'{f}: struct {name}: number {n}'
    yield from lines(r'(Refused|Faulty)\([0-9a-z]')
    yield from lines(r'^    pub const [A-Z_]+: usize = \d+;|^pub const (TIME|STATION|VISIBILITY|WIND|GALE|TEMPERATURE|DEW_POINT|PRESSURE|RAIN|MAXIMUM|MINIMUM|LATER_RAIN|UNREAD): ')
    for f, name, head, body in functions():
        if re.search(r'-> bool', head) and re.search(r'&mut', head):
            yield f'{f}: fn {name}: a bool says whether it succeeded'
        if re.search(r'-> u8\b', head) and re.search(r'(?m)^\s+return [12];', body):
            yield f'{f}: fn {name}: a number says why it failed'


def shape(text):
    text = re.sub(r'"[^"]*"|b\'[^\']*\'', '0', text)
    words = re.findall(r'[A-Za-z_][A-Za-z_0-9]*|\d+|[^\sA-Za-z_0-9]', text)
    keep = {'if', 'else', 'match', 'for', 'in', 'while', 'loop', 'let', 'mut', 'return', 'as', 'Some', 'None', 'Ok', 'Err'}
    return ' '.join(w if w in keep or not re.match(r'\w', w) else 'x' for w in words)


def point2():
    """Functions whose bodies differ in names and numbers alone, of 12 words and more."""
    same = collections.defaultdict(list)
    for f, name, head, body in functions():
        s = shape(body)
        if len(s.split()) >= 12:
            same[s].append(f'{f}: {name}')
    for s, where in sorted(same.items()):
        if len(where) > 1:
            yield ' ~ '.join(where)


def point3():
    """Loops by hand, and loops over a range of numbers."""
    yield from lines(r'^\s*(while|loop)\b')
    yield from lines(r'^\s*for \w+ in .*\.\.')


def point4():
    """Matches whose arms are all literals; bytes and signs by arithmetic; printing by hand."""
    for f, name, head, body in functions():
        arms = re.findall(r'=> ([^,\n]+),', body)
        if len(arms) > 2 and all(re.fullmatch(r'(true|false|-?\d+|[A-Z]\w*(::\w+)?)', a) for a in arms):
            yield f'{f}: fn {name}: {len(arms)} arms'
    yield from lines(r'(/|%|\*|\+|-) (256|65536|32768|65535)\b|\b(256|65536|32768|65535) (\*|\+|-)')
    for f, name, head, body in functions():
        if re.search(r'0 - wide|n % 10|size\(', body):
            yield f'{f}: fn {name}: by hand'


def point5():
    """Clauses that stand in three functions and more; three parameters and more that three functions and more share."""
    clauses = collections.defaultdict(list)
    together = collections.defaultdict(list)
    for f, name, head, body in functions():
        for c in re.findall(r'\n\s+requires (?:\w+ )?\{(.*)\}', head):
            for fact in re.split(r' × ', c):
                clauses[re.sub(r'\.(now|old|new)', '', fact).strip().strip('()')].append(f'{f}: {name}')
        parameters = sorted(set(re.findall(r'(\w+): ([^,()]+)', head.split(')')[0])))
        for i in range(len(parameters) - 2):
            for j in range(i + 1, len(parameters) - 1):
                for k in range(j + 1, len(parameters)):
                    together[tuple(' '.join(p) for p in (parameters[i], parameters[j], parameters[k]))].append(f'{f}: {name}')
    for c, where in sorted(clauses.items()):
        if len(where) > 2:
            yield f'{len(where)} functions require {c}'
    groups = collections.defaultdict(set)
    for p, where in together.items():
        if len(where) > 2:
            groups[tuple(sorted(where))].update(p)
    for where, p in sorted(groups.items()):
        yield f'{len(where)} functions take {", ".join(sorted(p))}'


def point6():
    """Structs with two arrays of one length; arrays or buffers with a length beside."""
    for f, name, fields in structs():
        sizes = re.findall(r'\w+: \[[^;]+; (\w+)\]', fields)
        if any(n > 1 for n in collections.Counter(sizes).values()):
            yield f'{f}: struct {name}: parallel arrays'
        if sizes and re.search(r'\b(count|length|held|len): usize', fields):
            yield f'{f}: struct {name}: an array with a length beside'
    for f, name, head, body in functions():
        if re.search(r'(buf|out|kept): &mut \[u8[^,]*, (n|at|held): usize|(kept: &(mut )?\[u8\])', head):
            yield f'{f}: fn {name}: a buffer with a length beside'


def point7():
    """Parameters that choose what to do: bools, and own enums of two or more cases that a match sends to other calls."""
    for f, name, head, body in functions():
        for b in re.findall(r'(\w+): bool', head.split('{')[0].split('ensures')[0]):
            yield f'{f}: fn {name}: {b}: bool'
    yield from lines(r'^\s*match (step|tie|area|of|copies)\b|= match (of|copies) \{')


def point8():
    """Proof files and their lines."""
    files = sorted(glob.glob('crates/*/proofs/**/*.antt', recursive=True))
    for f in files:
        yield f'{f}: {sum(1 for _ in open(f))} lines'


if __name__ == '__main__':
    quiet = '-q' in sys.argv
    asked = [a for a in sys.argv[1:] if a.isdigit()] or list('12345678')
    for n in asked:
        point = globals()['point' + n]
        found = list(point())
        print(f'{n}: {len(found)} places. {point.__doc__}')
        if not quiet:
            for place in found:
                print('   ', place)
