#!/usr/bin/env python3
"""Lists, point by point, the places in src/ that docs/DESIGN-PASS.md counts.

    python3 tools/places/places.py          the count of each point
    python3 tools/places/places.py 3        the places of point 3

It goes by the text of crates/*/src/**/*.rt, and in point 8 by the proof files.
"""
import collections
import glob
import re
import sys

INT = r'\b(?:u8|u16|u32|u64|u128|usize|i8|i16|i32|i64)\b'


def sources():
    for name in sorted(glob.glob('crates/*/src/**/*.rt', recursive=True)):
        with open(name) as f:
            yield name, f.read()


def functions():
    """(file, line, name, head, body) of each function."""
    for name, text in sources():
        for m in re.finditer(r'^([ ]*)(?:pub(?:\([a-z]+\))? )?(?:const )?(?:extern "C" )?fn (\w+)', text, re.M):
            rest = text[m.start():]
            brace = re.search(r'^%s\{\n|\) (?:-> [^{;]*)?\{\n' % m.group(1), rest, re.M)
            if not brace:
                continue
            end = re.search(r'^%s\}' % m.group(1), rest[brace.end():], re.M)
            if not end:
                continue
            line = text.count('\n', 0, m.start()) + 1
            yield name, line, m.group(2), rest[:brace.start() + 1], rest[brace.end():brace.end() + end.start()]


def point1():
    """Declared enums."""
    for name, text in sources():
        for m in re.finditer(r'^ *(?:pub(?:\([a-z]+\))? )?enum (\w+)', text, re.M):
            yield '%s:%d enum %s' % (name, text.count('\n', 0, m.start()) + 1, m.group(1))


def shape(name, head, body):
    text = re.sub(r'(requires|ensures)\b.*', '', head.split('{')[0]) + body
    text = re.sub(r'//.*', '', text)
    text = re.sub(r'(?<![.\w])%s\b' % name, 'SELF', text)
    text = re.sub(INT, 'INT', text)
    text = re.sub(r'\b(?:0x[0-9a-f_]+|[0-9][0-9_]*)(?:u8|u16|u32|u64|usize)?\b', 'N', text)
    text = re.sub(r'b?"[^"]*"', 'TEXT', text)
    text = re.sub(r'\b[A-Z][A-Z0-9_]+\b', 'CONST', text)
    names = {}
    def number(m):
        word = m.group(0)
        if word in ('if', 'else', 'while', 'for', 'in', 'match', 'let', 'mut', 'return', 'fn', 'pub', 'as', 'loop', 'break',
                    'INT', 'N', 'CONST', 'TEXT', 'SELF', 'len', 'Some', 'None', 'Ok', 'Err', 'true', 'false', 'crate', 'self'):
            return word
        return names.setdefault(word, 'v%d' % len(names))
    text = re.sub(r'\b[A-Za-z_]\w*\b', number, text)
    return re.sub(r'\s+', '', text).replace('pub(v0)', 'pub')


def point2():
    """Functions of one shape: equal but for names, types, numbers and constants."""
    groups = collections.defaultdict(list)
    for name, line, fn, head, body in functions():
        if name.startswith('crates/exports_c/') or len(body.split()) < 4:
            continue
        groups[shape(fn, head, body)].append('%s:%d %s' % (name, line, fn))
    for places in groups.values():
        if 1 < len(places):
            yield from places


def point3():
    """Loops that are no `for`."""
    for name, text in sources():
        for number, line in enumerate(text.split('\n'), 1):
            if re.match(r"\s*('\w+: )?(while|loop)\b", line):
                yield '%s:%d %s' % (name, number, line.strip())


BY_HAND = re.compile(
    r'^(same_bytes|lesser|smaller|pick\w*|saturating_\w+|less_one|number_of|version_of|bit|wide|past'
    r'|from_parser|report_of|clear_\w+|fill_bytes|copy_bytes|store_\w+|join_\w+|times_\w+|scrambled|stepped'
    r'|half_where|is_ascending|kind_of|number_in|row_with|first_of|same_\w+)$')


def point4():
    """Equality, order, copying and conversion by hand: functions by their names, and types that derive no comparison."""
    for name, line, fn, head, body in functions():
        if BY_HAND.match(fn):
            yield '%s:%d fn %s' % (name, line, fn)
    for name, text in sources():
        for m in re.finditer(r'#\[derive\(([^)]*)\)\]\n *(?:pub(?:\([a-z]+\))? )?(struct|enum) (\w+)', text):
            if 'PartialEq' not in m.group(1):
                yield '%s:%d %s %s derives %s' % (name, text.count('\n', 0, m.start()) + 1, m.group(2), m.group(3), m.group(1))


TOGETHER = [('keys', 'indices'), ('used', 'moves'), ('builtins', 'table', 'job'), ('work', 'text', 'keys'),
            ('start', 'length'), ('version2', 'start', 'length'), ('ro_start', 'ro_length'), ('file', 'layout')]


def parameters(head):
    inside = head[head.index('('):]
    return re.findall(r'(\w+): ', inside.split('->')[0])


def point5():
    """Functions that take parameters which always travel together."""
    for name, line, fn, head, body in functions():
        if name.startswith('crates/exports_c/'):
            continue
        names = parameters(head.split('requires')[0].split('ensures')[0])
        for group in TOGETHER:
            if all(n in names for n in group):
                yield '%s:%d %s (%s)' % (name, line, fn, ', '.join(group))


def point6():
    """Arrays and slices with their length or fellows beside them; searches by hand."""
    for name, line, fn, head, body in functions():
        names = parameters(head.split('requires')[0].split('ensures')[0])
        if 'keys' in names and ('used' in names or 'indices' in names or 'n' in names):
            yield '%s:%d %s' % (name, line, fn)
    for name, text in sources():
        for m in re.finditer(r'^ *(?:pub )?(\w+): \[\w+; \w+\],', text, re.M):
            yield '%s:%d field %s' % (name, text.count('\n', 0, m.start()) + 1, m.group(1))


def point7():
    """Functions with a flag or number that says which step to run."""
    for name, line, fn, head, body in functions():
        if re.search(r'\b(wide|split|halves|in_text|kind|question|cut): (bool|u32)', head):
            yield '%s:%d %s' % (name, line, fn)


def point8():
    """Proof files with answers."""
    for name in sorted(glob.glob('crates/*/proofs/**/Answers.antt', recursive=True)):
        if '/out/' not in name:
            yield name


POINTS = {'1': point1, '2': point2, '3': point3, '4': point4, '5': point5, '6': point6, '7': point7, '8': point8}


def main():
    asked = sys.argv[1:]
    for key, places in POINTS.items():
        if asked and key not in asked:
            continue
        found = list(places())
        print('point %s: %d  (%s)' % (key, len(found), places.__doc__.strip()))
        if asked:
            print('\n'.join(found))


if __name__ == '__main__':
    main()
