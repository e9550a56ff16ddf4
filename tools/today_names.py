#!/usr/bin/env python3
"""today_names.py: brings the repository's own names of definitions, lemmas, fields and constructors to snake case.

Run once, at the top, after the kit's port.py. Types, modules, constants and whatever comes from Rattle source keep their spelling. A dash
stays where it joins the names of two definitions (length-drop); elsewhere a dash becomes `_` and a capital inside a name becomes `_` and
the small letter. Where that gives a name that stands already in the repository, `_lem` is added. The list of what was renamed is written
to docs/PORT-NAMES.txt.
"""
import collections
import os
import re

OWN = {l.split(':')[0].split()[0] for l in open('crates.txt') if l.strip() and not l.startswith('#')}
TOKEN = re.compile(r"[^\s(){}\[\],;.«»\"↦`]+")
OLD = re.compile(r"^[a-z][\w'₁₂]*[a-z0-9'][A-Z]|[\w'*]-[A-Za-z0-9]")
NOTES = re.compile(r'--[^\n]*')


def paths(ends, tops=('crates',)):
    for top in tops:
        for d, subs, fs in os.walk(top):
            subs[:] = sorted(s for s in subs if s not in ('out', '.git'))
            for f in sorted(fs):
                if f.endswith(ends):
                    yield os.path.join(d, f)


def kind(f):
    p = f.split('/')
    return 'specs' if p[2] == 'specs' else 'lemmas' if len(p) == 4 else 'walk'


def module_file(m):
    p = m.split('.')
    if p[0] != 'Rattle' or len(p) < 4 or p[1] not in OWN:
        return None
    return '/'.join(['crates', p[1], p[2]] + p[3:]) + '.antt'


def snake(part):
    return part if part[:1].isupper() else re.sub(r'(?<=[a-z0-9])([A-Z])', lambda m: '_' + m.group(1).lower(), part)


ANTT = list(paths('.antt'))
TEXT = {f: open(f).read() for f in ANTT}

# names that come from elsewhere: the library's, and what the check makes of the code
foreign = set()
for s in TEXT.values():
    for m in re.finditer(r'^use (\S+?)\.\{([^}]*)\}', s, flags=re.M):
        f = module_file(m.group(1))
        if f is None or f not in TEXT:
            foreign |= {x.strip().split(' as ')[-1].strip() for x in m.group(2).split(',')}

definitions, tokens = set(), collections.Counter()
for f, s in TEXT.items():
    if kind(f) == 'walk':
        continue
    s = NOTES.sub('', s)
    body = re.sub(r'^use [^\n]*$', '', s, flags=re.M)
    if kind(f) == 'specs':
        for m in re.finditer(r"^(?:(?:abbrev|unfoldable|pub|record|data|opaque) )*([^\s:(){}\"]+)\s*((?:[({].*?[)}]\s*)*):\s", body, flags=re.M):
            definitions.add(snake(m.group(1)))
    for m in TOKEN.finditer(body):
        tokens[m.group(0)] += 1
stated = set(definitions)
for x in foreign:
    if '-' not in x:
        definitions.add(x)
definitions |= {'length', 'map', 'append', 'take', 'drop', 'set', 'reverse', 'replicate', 'sum'}


def made(n, t):
    """Of a walk: is n a name that the check asks for, rather than a helper's?"""
    return bool(re.match(r'[\w-]+\.', t)) or t.startswith(('statement', 'Statement', '{M')) or n.endswith(('-spec', '_spec'))


# helpers of walks, which a walk declares beside the answers (those of a cycle of calls are left)
for f, s in TEXT.items():
    if kind(f) != 'walk' or '/+' in f:
        continue
    for m in re.finditer(r"^(?:abbrev )?(?:pub )?([^\s:(){}\"]+)\s*:\s+(\S+)", s, flags=re.M):
        n, t = m.groups()
        if OLD.search(n) and n not in foreign and not made(n, t):
            tokens[n] += 1

stands = {t for t in tokens} | foreign


def renamed(n):
    parts = [snake(p) for p in n.split('-')]
    out = parts[0]
    for i in range(1, len(parts)):
        left = any('_'.join(parts[j:i]) in definitions for j in range(i))
        right = any('_'.join(parts[i:j]) in definitions for j in range(i + 1, len(parts) + 1))
        typed = parts[i - 1][:1].isupper() or parts[i][:1].isupper()
        out += ('-' if typed or left and right else '_') + parts[i]
    return out


table = {}
taken = collections.defaultdict(list)
for n in sorted(tokens, key=lambda t: (snake(t) not in stated, t)):
    if OLD.search(n) and n not in foreign and not n[0].isdigit() and re.match(r"^[A-Za-z][\w'₁₂₃*≤<≡+-]*$", n):
        new = renamed(n)
        if new != n:
            table[n] = new
            taken[new].append(n)
for new, olds in sorted(taken.items()):
    clash = new in stands
    for k, n in enumerate(olds):
        if clash or k:
            table[n] = new + '_lem' + (str(k) if k > 1 else '')
            print('falls together:', n, '->', table[n])

fields = set()
for f, s in TEXT.items():
    if kind(f) == 'walk':
        continue
    for m in re.finditer(r'^ *(?:pub )?record [^\n]*where\n((?:  +[^\n]*\n|\n)+)', s, flags=re.M):
        fields |= set(re.findall(r"^ +(?:pub )?([^\s:]+)\s*:\s", m.group(1), flags=re.M))


def turn(s, keep=frozenset(), aliases=frozenset(), dotted=True):
    out, at, last = [], 0, ''
    for m in TOKEN.finditer(s):
        t = m.group(0)
        out.append(s[at:m.start()])
        after_dot = m.start() > 0 and s[m.start() - 1] == '.' and last != ''
        new = t
        if t in table and t not in keep:
            if not after_dot or (t in fields and dotted) or last in aliases:
                new = table[t]
        out.append(new)
        at, last = m.end(), t
    out.append(s[at:])
    return ''.join(out)


changed = 0
for f, s in TEXT.items():
    keep = set()
    if kind(f) == 'walk':
        for m in re.finditer(r"^(?:abbrev )?(?:pub )?([^\s:(){}\"]+)\s*:\s+(\S+)", s, flags=re.M):
            if '/+' in f or made(*m.groups()):
                keep.add(m.group(1))
        for m in re.finditer(r'^use (\S+?)\.\{([^}]*)\}', s, flags=re.M):
            g = module_file(m.group(1))
            if g is None or g not in TEXT:
                keep |= {x.strip().split(' as ')[-1].strip() for x in m.group(2).split(',')}
    aliases = {m.group(2) for m in re.finditer(r'^use (\S+) as (\S+)$', s, flags=re.M) if (module_file(m.group(1)) or '') in TEXT}
    new = turn(s, keep, aliases)
    if new != s:
        open(f, 'w').write(new)
        changed += 1

# of a source file the clauses, and the names in its notes
CLAUSE = re.compile(r'(ghost use [^;]*;|(?:requires|ensures|invariant)\b[^{\n]*\{.*\}|ghost \w+: \{.*\}|//[^\n]*)')
for f in paths('.rt'):
    s = open(f).read()
    new = CLAUSE.sub(lambda m: turn(m.group(0)), s)
    if new != s:
        open(f, 'w').write(new)
        changed += 1

# of a page what stands between backquotes, and of the checks' lists each name
for f in [*paths('.md', ('docs', 'crates', 'harness', 'bindings')), 'README.md']:
    s = open(f).read()
    new = re.sub(r'`[^`\n]*`', lambda m: turn(m.group(0)), s)
    if new != s:
        open(f, 'w').write(new)
        changed += 1

with open('docs/PORT-NAMES.txt', 'w') as o:
    for a, b in sorted(table.items()):
        o.write(a + ' ' + b + '\n')
print(len(table), 'names,', changed, 'files')
