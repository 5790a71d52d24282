#!/usr/bin/env python3
"""Prints, old beside new, what the design pass changed: public signatures with their clauses, types, definitions and theorems; and which helper laws went.

    python3 tools/places/changes.py           the lists, as Markdown
    python3 tools/places/changes.py --check   fails where something that is gone is not accounted for
    python3 tools/places/changes.py --write   puts the lists at the end of docs/DESIGN-PASS.md

Old is the commit in that page's first line, new the working tree. It goes by the text alone. What has another name
now, what states the promise of what is gone, and how constructors and types are spelled now, stands in names.txt beside it.
"""
import glob
import os
import re
import subprocess
import sys

PAGE = 'docs/DESIGN-PASS.md'
NAMES = os.path.join(os.path.dirname(os.path.realpath(__file__)), 'names.txt')
HEADING = '## What changed, old and new'
TOKEN = re.compile(r"[^\W\d][\w']*(?:-[^\W\d_][\w']*)*|\d\w*|◌[^\s◌]+◌|->|=>|::|\S")
CLAUSE = re.compile(r'^\s*(?:requires|ensures|ghost)\b', re.M)


def old_files(commit):
    names = subprocess.run(['git', 'ls-tree', '-r', '--name-only', commit, 'crates', 'docs', 'README.md'],
                           capture_output=True, text=True, check=True).stdout.split('\n')
    names = [n for n in names if n.endswith(('.rt', '.antt', '.md'))]
    asked = ''.join('%s:%s\n' % (commit, n) for n in names).encode()
    out = subprocess.run(['git', 'cat-file', '--batch'], input=asked, capture_output=True, check=True).stdout
    files, at = {}, 0
    for n in names:
        end = out.index(b'\n', at)
        size = int(out[at:end].split()[2])
        files[n] = out[end + 1:end + 1 + size].decode()
        at = end + size + 2
    return files


def new_files():
    names = [n for pattern in ('crates/**/*.rt', 'crates/**/*.antt', 'docs/*.md', 'README.md')
             for n in glob.glob(pattern, recursive=True)]
    return {n: open(n).read() for n in sorted(names) if '/out/' not in n}


def dedent(lines):
    depth = min(len(l) - len(l.lstrip()) for l in lines if l.strip())
    return '\n'.join(l[depth:].rstrip() for l in lines)


def functions_of(text):
    """(name, with its type or trait before it; text up to the body; public?; type, trait or constant?) of a .rt file."""
    around, lines = '', text.split('\n')
    for i, line in enumerate(lines):
        m = re.match(r'(?:pub )?(?:impl|trait)\b(?:<[^{]*?>)? ?(.*?) ?\{', line)
        if m:
            around = re.split(r'[<:]', re.sub(r'.* for ', '', m.group(1)))[0].strip() + '.'
        if line == '}':
            around = ''
        f = re.match(r'( *)(pub(?:\(\w+\))? )?(?:const )?(?:unsafe )?(?:extern "C" )?fn (\w+)', line)
        t = re.match(r'( *)(pub(?:\(\w+\))? )?(struct|enum|trait) (\w+)', line)
        if f:
            end = next(j for j in range(i, len(lines)) if re.match(r'%s\{' % f.group(1), lines[j])
                       or re.search(r'(?<!\w)\{$|;$', lines[j]) and not CLAUSE.match(lines[j]))
            head = lines[i:end] + ([re.sub(r' ?\{$', '', lines[end])] if lines[end].strip() != '{' else [])
            yield around + f.group(3), dedent(head), f.group(2) or around.startswith('trait'), ''
        elif t:
            end = i if re.search(r'[;}]$', line) else next(j for j in range(i, len(lines)) if lines[j] == t.group(1) + '}')
            body = [l for l in lines[i:end + 1] if not l.strip().startswith('//')]
            yield t.group(4), dedent(body), t.group(2), t.group(3)


START = re.compile(r'( *)((?:(?:abbrev|opaque|unfoldable|pub|instance)\s+)*)(?:(record|data)\s+)?([^\s:(){},.=|]+)(?:\s+[^=:]*|\s+\(.*?\))?\s*(?::(?:\s|$)|$)')


def definitions_of(text):
    """(name, kind, text) of the definitions, types and theorems of a file of specs or proofs, with the modules around them."""
    lines = [re.sub(r'\s*--.*', '', l) for l in text.split('\n')]
    modules, i = [], 0
    while i < len(lines):
        line = lines[i]
        depth = len(line) - len(line.lstrip())
        if line.strip():
            modules = [m for m in modules if m[0] < depth]
        inside = modules[-1][0] + 2 if modules else 0
        if re.match(r' *module\b', line) and depth == inside:
            modules.append((depth, line.strip()))
            i += 1
            continue
        m = START.match(line)
        if not m or depth != inside or m.group(4) in ('use', 'mod', 'module', 'open', 'infix', 'infixl', 'infixr', 'unfolding', 'using'):
            i += 1
            continue
        name, words = m.group(4), m.group(2).split()
        kind = m.group(3) or ('definition' if 'abbrev' in words or 'unfoldable' in words or 'opaque' in words else 'theorem')
        end = i + 1
        while end < len(lines):
            l = lines[end]
            d = len(l) - len(l.lstrip())
            more = d > depth or l.strip()[:1] in '})' or l.strip().startswith(name + ' ') or name[0] == '◌' or re.match(r'unfolding\b|using\b', l.strip())
            if l.strip() and (d < depth or not more or (d == depth and START.match(l) and ' : ' in l.split('=')[0] and l.split()[0] != name)):
                break
            end += 1
        part = lines[i:end]
        if kind == 'theorem':
            stop = next((j for j in range(1, len(part)) if part[j].strip() and len(part[j]) - len(part[j].lstrip()) == depth), len(part))
            part = part[:stop]
        part = [l for l in part if l.strip()]
        heads = [re.sub(r'\s*where$', '', h) for _, h in modules if h != 'module _ where']
        yield name, kind, '\n'.join(heads + [dedent(part)])
        i = end


def collect(files):
    """Of each crate: functions, types, and the definitions and theorems of specs/ and of proofs/."""
    out = {}
    for path, text in files.items():
        if not path.startswith('crates/'):
            continue
        crate = path.split('/')[1]
        found = out.setdefault(crate, {'functions': {}, 'private': {}, 'types': {}, 'definitions': {}, 'theorems': {}, 'laws': {}, 'own': {}})
        place = path.split('/', 2)[2]
        if path.endswith('.rt') and place.startswith('src/'):
            for name, head, public, kind in functions_of(text):
                found['types' if kind else 'functions' if public else 'private'].setdefault(name, []).append((place, head))
        elif place.startswith('specs/'):
            for name, kind, body in definitions_of(text):
                found['theorems' if kind == 'theorem' else 'definitions'].setdefault(name, []).append((place, body))
        elif re.match(r'proofs/\w+\.antt$', place):
            for name, kind, body in definitions_of(text):
                found['laws' if kind == 'theorem' else 'own'].setdefault(name, []).append((place, body))
    return out


def words(text):
    return TOKEN.findall(re.sub(r',(\s*[)}>\]])', r'\1', re.sub(r'//.*', '', text)))


def read_names():
    """names.txt: `CRATE OLD -> NEW: why` (a new name; NEW is `CRATE/NAME` where it stands in another crate), `CRATE OLD: why` (gone), `* OLD now NEW` (a spelling),
    `~ CRATE NAME` (a law that only shares its name with what a page names)."""
    renamed, gone, spelled = {}, {}, []
    for line in open(NAMES):
        line = line.rstrip('\n')
        if not line or line.startswith('#'):
            continue
        crate, rest = line.split(' ', 1)
        if crate == '*':
            a, b = rest.split(' now ')
            spelled.append((TOKEN.findall(a), TOKEN.findall(b), '`%s` is `%s`' % (a, b)))
            continue
        if crate == '~':
            gone['~', rest] = ''
            continue
        names, why = rest.split(': ', 1)
        a, _, b = names.partition(' -> ')
        for each in a.split(', '):
            if b:
                renamed[crate, each] = (b, why)
            else:
                gone[crate, each] = why
    return renamed, gone, spelled


def partners(tokens):
    out, open_at = {}, []
    for i, t in enumerate(tokens):
        if t == '(':
            open_at.append(i)
        elif t == ')' and open_at:
            j = open_at.pop()
            out[i], out[j] = j, i
    return out


def respelled(old, new, spelled):
    """The spellings by which the old words become the new ones, or None. Parentheses may come or go only in pairs, and only beside a spelling."""
    pairs_old, pairs_new, failed = partners(old), partners(new), set()
    steps = [((0, 0, frozenset(), frozenset(), False), ())]
    while steps:
        state, used = steps.pop()
        if state in failed:
            continue
        failed.add(state)
        i, j, gone, come, beside = state
        if i == len(old) and j == len(new):
            return sorted(set(used))
        rules = [(a, b, text) for a, b, text in spelled if old[i:i + len(a)] == a and new[j:j + len(b)] == b]
        if j < len(new) and new[j] == ')' and pairs_new.get(j) in come:
            steps.append(((i, j + 1, gone, come, beside), used))
        if i < len(old) and old[i] == ')' and pairs_old.get(i) in gone:
            steps.append(((i + 1, j, gone, come, beside), used))
        if j < len(new) and new[j] == '(' and j in pairs_new and (beside or any(old[i:i + len(a)] == a and new[j + 1:j + 1 + len(b)] == b for a, b, _ in spelled)):
            steps.append(((i, j + 1, gone, come | {j}, beside), used))
        if i < len(old) and old[i] == '(' and i in pairs_old and (beside or any(old[i + 1:i + 1 + len(a)] == a for a, b, _ in spelled)):
            steps.append(((i + 1, j, gone | {i}, come, beside), used))
        if i < len(old) and j < len(new) and old[i] == new[j]:
            steps.append(((i + 1, j + 1, gone, come, False), used))
        for a, b, text in rules:
            lost = {i + k for k, t in enumerate(a) if t == '('}
            opened = {j + k for k, t in enumerate(b) if t == '('}
            steps.append(((i + len(a), j + len(b), gone | lost, come | opened, True), used + (text,)))
    return None


def named_in_pages(files):
    return {w for n, t in files.items() if n.endswith('.md') for code in re.findall(r'`([^`\n]+)`', t) for w in TOKEN.findall(code)}


def columns(name, place, old, new):
    out = ['<tr><td colspan="2"><b>%s</b> %s</td></tr>' % (name, place)]
    for text, open_tag, close_tag in ((old, '<tr><td>', '</td>'), (new, '<td>', '</td></tr>')):
        out += [open_tag, '', '```', text, '```', '', close_tag]
    return '\n'.join(out)


TITLES = {'functions': 'Public functions', 'types': 'Types', 'definitions': 'Definitions', 'theorems': 'Theorems and examples of specs/',
          'laws': 'Theorems of proofs/ that README.md or docs/ names'}
KINDS = [('functions', 'private'), ('types',), ('definitions', 'own'), ('theorems', 'laws')]


def without_place(before, after):
    """Of the places of a name before those that no place after is left for, of the same file or else of the same words or else of another."""
    for same in (lambda x, y: x[0] == y[0], lambda x, y: words(x[1]) == words(y[1]), lambda x, y: True):
        rest = []
        for x in before:
            y = next((y for y in after if same(x, y)), None)
            if y:
                after = [z for z in after if z is not y]
            else:
                rest.append(x)
        before = rest
    return before


def helper_laws(crate, old, new, everywhere, names, cited, why_gone):
    """What proofs/ had and has no more, in the order of the files, by what states it now; but the laws that a page names, which have a row of their own."""
    by_why = {}
    for kind, kinds in (('own', ('definitions', 'own')), ('laws', ('theorems', 'laws'))):
        for name in old[kind]:
            if kind == 'laws' and name in cited and ('~', crate + ' ' + name) not in names[1]:
                continue
            before, after = [[x for k in kinds for x in c[k].get(name, [])] for c in (old, new)]
            missing = [x for x in without_place(before, after) if x[0].startswith('proofs/')]
            if not missing or any(words(x[1]) == words(missing[0][1]) for c in everywhere.values() for k in kinds for x in c[k].get(name, [])):
                continue
            there, now = ([''] + names[0].get((crate, name), ('',))[0].split('/'))[-2:]
            if any(now in (everywhere[there] if there else new)[k] for k in kinds):
                why = 'now `%s`%s: %s' % (now, ' of `%s`' % there if there else '', names[0][crate, name][1])
            else:
                why = why_gone(name, missing[0][0])
            by_why.setdefault(why, []).append(name)
    return by_why.items()


def crate_lists(crate, old, new, everywhere, names, cited, open_items):
    renamed, gone, spelled = names
    out, spelling, shown = [], {}, set()

    def why_gone(name, where):
        if (crate, name) not in gone:
            open_items.append('%s %s %s' % (crate, name, where))
        return gone.get((crate, name), 'NOT ACCOUNTED FOR')

    for kind, title in TITLES.items():
        beside, missing = [], []
        for name, places in sorted(old[kind].items()):
            if kind == 'laws' and (name not in cited or ('~', crate + ' ' + name) in gone):
                continue
            kinds = [kind] + [k for k in KINDS if kind in k for k in k]
            now, why = renamed.get((crate, name), (name, ''))
            if '/' in now:
                there, now = now.split('/')
                found = next((everywhere[there][k][now] for k in kinds if now in everywhere[there][k]), None)
                now = 'of %s, %s' % (there, now)
            else:
                found = next((new[k][now] for k in kinds if now in new[k]), None)
            if found is None and now != name:
                now, why = name, ''
                found = next((new[k][now] for k in kinds if now in new[k]), None)
            if found is None:
                found = [x for c in everywhere.values() for k in kinds for x in c[k].get(now, []) if words(x[1]) == words(places[0][1])]
            if not found:
                missing.append((places, why_gone(name, places[0][0])))
                shown.add(name)
                continue
            left = list(found)
            for place, text in places:
                left.sort(key=lambda x: (x[0] != place, words(x[1]) != words(text)))
                how = [(x, respelled(words(text), words(x[1]), spelled)) for x in left]
                how = [(x, h) for x, h in how if h is not None]
                if how:
                    left.remove(how[0][0])
                    if how[0][1]:
                        spelling.setdefault(tuple(how[0][1]), []).append(name)
                    continue
                if not left and now == name:
                    missing.append(([(place, text)], why_gone(name, place)))
                    continue
                after = left.pop(0)[1] if left else '\n'.join(w for _, w in found)
                label = name if now == name else '%s, now %s' % (name, now)
                shown.add(name)
                beside.append(columns(label, place + (': ' + why if why else ''), text, after))
        if beside or missing:
            out += ['#### %s' % title, '']
        if beside:
            out += ['<table><tr><th>old</th><th>new</th></tr>'] + beside + ['</table>', '']
        if missing:
            out += ['<table><tr><th>gone</th><th>what states its promise now</th></tr>']
            for places, why in missing:
                out += ['<tr><td>', '', '```', '\n'.join(t for _, t in places), '```', '', '</td><td>', '', why, '', '</td></tr>']
            out += ['</table>', '']
    private = sorted(n for n in old['private'] if n not in new['private'] and n not in new['functions'] and (crate, n) not in renamed)
    if private:
        out += ['Private functions that are gone: ' + '; '.join('`%s` (%s)' % (n, why_gone(n, '(private)')) for n in private) + '.', '']
    laws = helper_laws(crate, old, new, everywhere, names, cited, why_gone)
    if laws:
        out += ['Helper laws of `proofs/` that are gone: ' + '; '.join('%s (%s)' % (', '.join('`%s`' % n for n in of), why) for why, of in laws) + '.', '']
    moved = sorted(n for c, n in renamed if c == crate and n not in shown and any(n in old[k] and n not in new[k] for k in old))
    if moved:
        out += ['Under another name or in another crate, with the same words but for names, or private: '
                + '; '.join('`%s` is `%s` (%s)' % ((n,) + renamed[crate, n]) for n in moved) + '.', '']
    if spelling:
        out += ['#### Respelled only', '', '| Spelling | In |', '|---|---|']
        for rules, where in sorted(spelling.items(), key=lambda x: (len(x[0]), x[0])):
            out.append('| %s | %s |' % ('; '.join(rules).replace('|', '\\|') or 'parentheses', ', '.join('`%s`' % w for w in sorted(set(where)))))
        out.append('')
    return ['### ' + crate, ''] + out if out else []


def main():
    commit = open(PAGE).readline().strip()
    before, after = old_files(commit), new_files()
    old, new, names = collect(before), collect(after), read_names()
    cited, open_items, out = named_in_pages(before), [], []
    empty = {'functions': {}, 'private': {}, 'types': {}, 'definitions': {}, 'theorems': {}, 'laws': {}, 'own': {}}
    order = [re.split(r'[ :]', l)[0] for l in open('crates.txt') if l.strip() and not l.startswith('#')]
    for crate in order + sorted(set(old) - set(order)):
        if crate in old:
            everywhere = {c: new[c] for c in new if c != crate}
            out += crate_lists(crate, old[crate], new.get(crate, empty), everywhere, names, cited, open_items)
    top = [HEADING, '', '`python3 tools/places/changes.py --write` made this section: old is the commit in the first line, new the sources beside this page. '
           'Parameters of the modules around a definition or theorem stand above it. What differs only by another spelling of a constructor or a type is named '
           'in a table "Respelled only"; its spellings stand in `tools/places/names.txt`, as do the new names and what states the promise of what is gone.', '']
    if open_items:
        out += ['### Not accounted for', ''] + ['- ' + x for x in open_items] + ['']
    text = '\n'.join(top + out).rstrip() + '\n'
    if '--check' in sys.argv:
        print('\n'.join(open_items) or 'all that is gone is accounted for')
        raise SystemExit(1 if open_items else 0)
    if '--write' not in sys.argv:
        print(text)
        return
    page = open(PAGE).read()
    with open(PAGE, 'w') as f:
        f.write(page.split('\n' + HEADING)[0].rstrip() + '\n\n' + text)


if __name__ == '__main__':
    main()
