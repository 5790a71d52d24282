#!/usr/bin/env python3
"""Wrong programs, and the sample of loads that tells each of them from the right one (README.md).

wrong.py try [NAME..]      runs a program of the gate with each change of the lists: something that it writes must differ
wrong.py choose POOL..     prints the cases of these folders that tell the wrong programs of the lists; with names before the folders, of these
wrong.py made [POOL..]     runs `load_vectors` with each change made by rule, and says which it does not tell; prints a case that does

`rt try` lowers a program and its libraries to one module and has the kit's clang compile it. Here it is given a kit whose clang keeps
that module and fails; the module is then compiled and linked once, without a sanitizer (on x86-64). Nothing is proved.
JOBS=2 in the environment works on two wrong programs at a time."""
import collections, os, queue, re, shutil, struct, subprocess, sys, tempfile
from concurrent.futures import ThreadPoolExecutor

HERE = os.path.dirname(os.path.realpath(__file__))
ROOT = os.path.dirname(os.path.dirname(HERE))
CRATES = os.path.join(ROOT, 'crates')
KIT = os.path.dirname(os.path.dirname(os.path.realpath(shutil.which('rt'))))
TOOLS = os.path.join(KIT, 'toolchain')
TARGET = 'x86_64-unknown-linux-gnu'
FLAGS = f'--target={TARGET} --sysroot={TOOLS} -march=x86-64 --no-default-config -fPIE -c -x ir'.split()
C_CODE = [os.path.join(KIT, 'c', name) for name in ('libos_c.a', 'liblibc_c.a')]
JOBS = int(os.environ.get('JOBS', 1))

# ---- the wrong programs

# The new text of each file, by its path below crates/.
Wrong = collections.namedtuple('Wrong', 'crate name texts')


def listed():
    """Those of the lists: a name, then one or more changes, each a file, an old text and a new one (`\\n` is a line's end)."""
    wrongs, stale = [], []
    for crate in sorted(f[:-4] for f in os.listdir(HERE) if f.endswith('.txt')):
        for line in open(os.path.join(HERE, crate + '.txt')):
            word, _, text = line.rstrip('\n').partition(':')
            text = text.removeprefix(' ').replace('\\n', '\n')
            if word == 'wrong': wrongs.append(Wrong(crate, text, {}))
            elif word == 'file': path = os.path.join(crate, text)
            elif word == 'old': old = text
            elif word == 'new':
                texts = wrongs[-1].texts
                before = texts.get(path) or open(os.path.join(CRATES, path)).read()
                if before.count(old) != 1: stale.append(f'{crate} {wrongs[-1].name}: the old text is there {before.count(old)} times: {old}')
                texts[path] = before.replace(old, text)
    if stale: sys.exit('\n'.join(stale))
    return wrongs


# Changes that can be made anywhere: tests, limits, numbers, sums. A number grows by one; a hexadecimal one falls by one.
RULES = [(re.compile(rule), to) for rule, to in (
    (r' < ', ' <= '), (r' <= ', ' < '), (r' == ', ' != '), (r' != ', ' == '), (r' & ', ' | '), (r' \| ', ' & '), (r'!(?=[a-z])', ''),
    (r'\btrue\b', 'false'), (r'\bfalse\b', 'true'), (r' - 1\b', ''), (r' / 8\b', ' / 4'), (r' \* [0-9]+', ''),
    (r'\.saturating_(?:add|sub)\([^()]+\)', ''), (r'\.min\(', '.max('), (r'\.max\(', '.min('),
    (r'\b[1-9][0-9_]*\b', lambda m: str(int(m[0]) + 1)), (r'\b0x[0-9a-f_]+\b', lambda m: hex(int(m[0], 16) - 1)))]
# Lines without code, and those of contracts.
NO_CODE = ('//', 'use ', 'ghost ', 'ensures ', 'requires ', 'mod ', 'pub use ', 'pub mod ')


def made():
    """Those that a rule makes of a line. The table of keys is left out: the lists have two of its entries."""
    wrongs = []
    for crate in ('ebpf', 'elf_parser', 'program', 'loader'):
        for file in sorted(os.listdir(os.path.join(CRATES, crate, 'src'))):
            path = os.path.join(crate, 'src', file)
            code, keys, table = open(os.path.join(CRATES, path)).read().partition('const KEYS')
            lines = code.split('\n')
            for at, line in enumerate(lines):
                if line.strip().startswith(NO_CODE) or 'fn ' in line: continue
                for rule, to in RULES:
                    for found in rule.finditer(line):
                        new = line[:found.start()] + (to(found) if callable(to) else found.expand(to)) + line[found.end():]
                        text = '\n'.join(lines[:at] + [new] + lines[at + 1:])
                        wrongs.append(Wrong(crate, f'{file}:{at + 1}: {new.strip()}', {path: text + keys + table}))
    return wrongs


# ---- a wrong program, compiled and run

def mirror(source, to, but):
    """Links in `to` for all that `source` holds but for one path, whose folders are made."""
    os.makedirs(to)
    for name in os.listdir(source):
        if name != but[0]: os.symlink(os.path.realpath(os.path.join(source, name)), os.path.join(to, name))
        elif len(but) > 1: mirror(os.path.join(source, name), os.path.join(to, name), but[1:])


# Keeps the program's module, which alone is compiled with a sanitizer.
CLANG = """#!/bin/bash
case "$*" in *-fsanitize=address*) cp module.bc {module}; exit 1 ;; esac
exec -a clang {clang} "$@"
"""


class Builder:
    """Builds programs in a copy of the sources. Without optimization the compiler takes a fifth of the time, and the program ten times it."""

    def __init__(self, level):
        self.level, self.room = level, tempfile.TemporaryDirectory()
        self.kit, self.module, self.copy = (os.path.join(self.room.name, x) for x in ('kit', 'module.bc', 'copy'))
        mirror(KIT, self.kit, ['toolchain', 'bin', 'clang'])
        path = os.path.join(self.kit, 'toolchain', 'bin', 'clang')
        with open(path, 'w') as f: f.write(CLANG.format(module=self.module, clang=os.path.join(TOOLS, 'bin', 'clang')))
        os.chmod(path, 0o755)
        # `rt` finds its kit by where its own files stand, so these are copies
        os.remove(os.path.join(self.kit, 'bin'))
        os.mkdir(os.path.join(self.kit, 'bin'))
        for name in os.listdir(os.path.join(KIT, 'bin')):
            put = shutil.copy if name in ('rt', 'rtlib.py') else os.symlink
            put(os.path.join(KIT, 'bin', name), os.path.join(self.kit, 'bin', name))
        without = shutil.ignore_patterns('out', 'proofs', 'must-fail', 'stdin', 'stdout')
        shutil.copytree(CRATES, os.path.join(self.copy, 'crates'), ignore=without)
        shutil.copy(os.path.join(ROOT, 'crates.txt'), self.copy)

    def lower(self, program, texts):
        """Whether a program with these texts compiles; its module."""
        if os.path.exists(self.module): os.remove(self.module)
        for path, text in texts.items(): open(os.path.join(self.copy, 'crates', path), 'w').write(text)
        words = [os.path.join(self.kit, 'bin', 'rt'), 'try', '--steps', '1']
        subprocess.run(words, cwd=os.path.join(self.copy, 'crates', program), stdin=subprocess.DEVNULL, capture_output=True)
        for path in texts: shutil.copy(os.path.join(CRATES, path), os.path.join(self.copy, 'crates', path))
        return os.path.exists(self.module)

    def build(self, program, wrong):
        """The path of a program with a wrong change; None where that does not compile."""
        if not self.lower(program, wrong.texts): return None
        object, to = self.module + '.o', os.path.join(self.room.name, program)
        clang, link = os.path.join(TOOLS, 'bin', 'clang'), os.path.join(KIT, 'bin', 'rattle-link')
        subprocess.run([clang, *FLAGS, self.level, self.module, '-o', object], check=True)
        subprocess.run([link, '--target', TARGET, '--toolchain', TOOLS, '-o', to, object, *C_CODE], check=True, capture_output=True)
        return to


def each(wrongs, level, work):
    """What WORK answers to each wrong program and the path of the program built with it (None: it does not compile), in turn."""
    builders = queue.SimpleQueue()
    for _ in range(JOBS): builders.put(Builder(level))

    def one(wrong):
        builder = builders.get()
        try: return wrong, work(wrong, builder.build(program_of(wrong), wrong))
        finally: builders.put(builder)

    with ThreadPoolExecutor(JOBS) as pool: yield from pool.map(one, wrongs)


# What no load comes to is told by `worked`, which asks through the C interface.
ASKED = ('exports', 'hash_table')


def program_of(wrong):
    """The program of the gate that must tell it."""
    return 'worked' if wrong.crate in ASKED else 'load_vectors'


def lines_of(folder, name): return open(os.path.join(folder, name), 'rb').read().split(b'\n')[:-1]


def told_by(folder, program):
    """The numbers of the cases in FOLDER/stdin for which a program does not write its line of FOLDER/stdout.

    A wrong program may stop, or not end: the first case without a line is told, and nothing is known of those behind it."""
    right = lines_of(folder, 'stdout')
    library = os.path.join(TOOLS, 'lib')
    words = [os.path.join(library, 'ld-linux-x86-64.so.2'), '--library-path', library, program]
    with open(os.path.join(folder, 'stdin'), 'rb') as f:
        try: wrote = subprocess.run(words, stdin=f, capture_output=True, timeout=10 + len(right) / 1000).stdout
        except subprocess.TimeoutExpired as stopped: wrote = stopped.stdout or b''
    lines = wrote.split(b'\n')[:-1] + [b'']
    return [i for i, (a, b) in enumerate(zip(right, lines)) if a != b]


def try_listed(names):
    def count(wrong, path):
        if not path: sys.exit(f'{wrong.crate} {wrong.name}: {program_of(wrong)} does not compile')
        return len(told_by(os.path.join(CRATES, program_of(wrong)), path))

    wrongs, missed = [w for w in listed() if not names or w.name in names], []
    for name in names:
        if not any(w.name == name for w in wrongs): sys.exit(f'{name}: the lists have no such wrong program')
    for wrong, told in each(wrongs, '-O0', count):
        print(f'{wrong.crate} {wrong.name}: {told} lines of {program_of(wrong)} differ', flush=True)
        if not told: missed.append(wrong.name)
    print(f'{len(wrongs) - len(missed)} told, {len(missed)} not told', *missed)
    sys.exit(bool(missed))


# ---- choosing

# So many chosen cases tell a wrong program of the lists, and so many are there of each number and version. The choice is from all cases of
# a pool that tell the program, and from the next pool where these are fewer than ENOUGH.
TOLD, OF_EACH, ENOUGH = 3, 8, 60


class Case:
    """A case of a pool: its line in the list, its bytes, its line of answers, and as bits the wrong programs that it tells."""

    def __init__(self, name, bytes, line):
        self.name, self.bytes, self.line, self.tells = name, bytes, line, 0
        file = bytes[40 + 4 * struct.unpack_from('<I', bytes, 8)[0]:]
        words = line.split()
        # the word behind the text's size is 0 or 44, where the text part of an accepted file is refused
        self.group = (int(words[1] if words[0] == b'refused' else words[12]), file[48:52] == b'\x20\0\0\0')


def cases_of(folder):
    cases, at, bytes = [], 0, open(os.path.join(folder, 'stdin'), 'rb').read()
    for name, line in zip(lines_of(folder, 'list'), lines_of(folder, 'stdout')):
        length, _, builtins = struct.unpack_from('<3I', bytes, at)
        end = at + 40 + 4 * builtins + length
        cases.append(Case(name.decode(), bytes[at:end], line))
        at = end
    return cases


class Pools:
    def __init__(self, folders):
        self.cases = {folder: cases_of(folder) for folder in folders}

    def telling(self, path):
        """Cases that tell a wrong program, from one pool after the other until they are enough."""
        told = []
        for folder, cases in self.cases.items():
            told += [cases[i] for i in told_by(folder, path)]
            if ENOUGH <= len(told): break
        return told


def tell_listed(pools, chosen, names):
    """The cases that tell the most wrong programs that are not told often enough yet; small ones first."""
    def telling(wrong, path):
        if not path: sys.exit(f'{wrong.crate} {wrong.name} does not compile')
        return pools.telling(path)

    left, candidates = {}, {}
    wrongs = [w for w in listed() if w.crate not in ASKED and (not names or w.name in names)]
    for k, (wrong, told) in enumerate(each(wrongs, '-O1', telling)):
        for case in told: case.tells |= 1 << k
        candidates.update((case.name, case) for case in told)
        left[k] = min(TOLD, len(told))
        print(f'{wrong.crate} {wrong.name}: told by {len(told)} cases', file=sys.stderr, flush=True)
    while any(left.values()):
        asked = sum(1 << k for k, n in left.items() if n)
        best = max(candidates.values(), key=lambda c: (c.tells & asked).bit_count() / (300 + len(c.bytes)))
        chosen.add(candidates.pop(best.name))
        for k in left: left[k] -= bool(left[k] and best.tells >> k & 1)


def tell_numbers(cases, chosen):
    """The smallest cases of each number and version."""
    count = collections.Counter(case.group for case in chosen)
    for case in sorted(cases, key=lambda c: len(c.bytes)):
        if case not in chosen and count[case.group] < OF_EACH:
            chosen.add(case)
            count[case.group] += 1


def choose(words):
    names, folders = [w for w in words if not os.path.isdir(w)], [w for w in words if os.path.isdir(w)]
    pools, chosen = Pools(folders), set()
    cases = [case for folder in folders for case in pools.cases[folder]]
    tell_listed(pools, chosen, names)
    if not names: tell_numbers(cases, chosen)
    for case in cases:
        if case in chosen: print(case.name)


def try_made(folders):
    """The smallest case that tells each wrong program made by rule that the sample does not."""
    pools, printed, counts = Pools(folders), set(), collections.Counter()

    def telling(wrong, path):
        if not path: return 'not compiled', []
        if told_by(os.path.join(CRATES, 'load_vectors'), path): return 'told', []
        return 'not told', pools.telling(path)

    for wrong, (end, told) in each(made(), '-O0', telling):
        counts[end] += 1
        if end == 'not told': print(f'{wrong.crate} {wrong.name}: told by {len(told)} cases of the pools', file=sys.stderr, flush=True)
        if told and not any(case.name in printed for case in told):
            name = min(told, key=lambda c: len(c.bytes)).name
            printed.add(name)
            print(name, flush=True)
    print(dict(counts), file=sys.stderr)


if __name__ == '__main__':
    words = sys.argv[1:]
    if words[:1] == ['try']: try_listed(words[1:])
    elif words[:1] == ['made']: try_made(words[1:])
    elif words[:1] == ['choose'] and words[1:]: choose(words[1:])
    else: sys.exit(__doc__)
