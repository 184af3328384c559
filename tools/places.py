#!/usr/bin/env python3
"""Counts the places of docs/DESIGN-PASS.md's points in crates/*/src, by text.

usage: tools/places.py [--list] [FOLDER]     FOLDER: a checkout, else this one

Comments are left out. Each line of the answer is one kind of place, its number, and with --list each place.
"""
import collections
import glob
import os
import re
import sys

listed = '--list' in sys.argv
folders = [a for a in sys.argv[1:] if not a.startswith('--')]
os.chdir(folders[0] if folders else os.path.join(os.path.dirname(os.path.abspath(__file__)), '..'))

CODES = r'(?:sampling|order|range|matrix|packing|mode|plane|wanted|component|code)'


def closing(t, i):
    deep = 0
    for j in range(i, len(t)):
        deep += (t[j] in '({[') - (t[j] in ')}]')
        if deep == 0:
            return j
    return len(t) - 1


class Function:
    def __init__(self, crate, t, m):
        self.crate, self.name = crate, m.group('name')
        self.exported = 'extern' in m.group(0)
        i = m.end() - 1
        j = closing(t, i)
        self.parameters = [p.strip() for p in re.split(r',\s*(?![^<\[(]*[>\])])', t[i + 1:j]) if ':' in p]
        k = j + 1
        head = re.compile(r'\s*(?:->\s*(?P<result>[^{;]*?))?\s*(?=requires\b|ensures\b|decreases\b|where\b|\{|;)').match(t, k)
        self.result = (head.group('result') or '').strip() if head else ''
        k = head.end() if head else k
        self.facts = []
        while True:
            c = re.compile(r'\s*(requires|ensures|decreases)\*?\s*\w*\s*\{').match(t, k)
            if not c:
                break
            e = closing(t, c.end() - 1)
            if c.group(1) == 'requires':
                self.facts += [re.sub(r'\s+|\.(now|old|new|entry)\b', lambda x: ' ' if x.group(0).isspace() else '', f).strip(' ()') for f in t[c.end():e].split('×')]
            k = e + 1
        b = re.compile(r'\s*\{').match(t, k)
        self.body = t[b.end() - 1:closing(t, b.end() - 1) + 1] if b else ''

    def place(self):
        return self.crate + ' ' + self.name


texts, functions = {}, []
for f in sorted(glob.glob('crates/*/src/**/*.rt', recursive=True)):
    t = re.sub(r'//[^\n]*', '', open(f).read())
    crate = f.split('/')[1]
    texts[f] = (crate, t)
    for m in re.finditer(r'(?P<head>(?:pub )?(?:extern "C" )?)fn (?P<name>\w+)\s*(?:<[^(]*>)?\(', t):
        functions.append(Function(crate, t, m))


def items(kind):
    for crate, t in texts.values():
        for m in re.finditer(r'\b%s (\w+)(?:<[^>{(]*>)?\s*\{' % kind, t):
            yield crate, m.group(1), t[m.end():closing(t, m.end() - 1)]


def say(kind, places):
    places = sorted(places)
    print('%-78s %4d' % (kind, len(places)))
    if listed:
        for p in places:
            print('      ' + p)


def cases(inside):
    return [c.strip() for c in re.split(r',\s*(?![^(]*\))', inside) if c.strip()]


say('1 enums with cases that hold a value and cases that hold none',
    [c + ' ' + n for c, n, i in items('enum') if {('(' in x) for x in cases(i)} == {True, False}])
say('1 structs with a flag or an answer beside values',
    [c + ' ' + n for c, n, i in items('struct') if re.search(r':\s*bool\b|: YuvError\b', i)])
say('1 numbers for kinds as parameters, exports left out',
    [f.place() + ': ' + p for f in functions if not f.exported for p in f.parameters
     if re.match(r'%s: u(8|32)$' % CODES, p)])
say('1 tests of an answer where `?` may stand (`is_accepted`)',
    [f.place() for f in functions for _ in re.findall(r'\bis_accepted\(', f.body)])

names = collections.defaultdict(set)
for f in functions:
    if not f.exported:
        names[re.sub(r'(?<=[a-z])_?(8|16)(?=_|$)', '', f.name)].add((f.crate, f.name))
twins = set()
for group in names.values():
    if len({n for _, n in group}) > 1 and any(re.search(r'8|16', n) for _, n in group):
        twins |= {c + ' ' + n for c, n in group if re.search(r'8|16', n)}
shapes = collections.defaultdict(set)
for f in functions:
    shape = re.sub(r'\s+', ' ', re.sub(r'\b(u8|u16)\b', 'T', f.body))
    shape = re.sub(r'(?<=[a-z])(8|16)\b', '', shape)
    if shape.count(';') >= 3 or len(shape) > 160:
        shapes[re.sub(r'\b\d+\b', 'N', shape)].add(f.place())
for group in shapes.values():
    if len(group) > 1:
        twins |= group
say('2 functions that differ in a width or a constant from another', twins)
say('2 of them exports, which C needs',
    [f.place() for f in functions if f.exported and re.search(r'8|16', f.name)])

say('3 `while` and `loop`', [f.place() for f in functions for _ in re.findall(r'\bwhile\b|\bloop\b', f.body)])

indexed = []
for f in functions:
    for m in re.finditer(r'\bfor (\w+) in [^{]*\.\.[^{]*\{', f.body):
        inside = f.body[m.end():closing(f.body, m.end() - 1)]
        if re.search(r'\[[^\]]*\b%s\b' % m.group(1), inside):
            indexed.append(f.place())
say('3 `for` over a range whose variable is an index', indexed)

say('4 comparing and converting by hand: by name',
    [f.place() for f in functions
     if re.match(r'(lesser|at_most|at_most_\d+|saturating_sub32|same|is_same\w*|is_text|begins_with|is_digit|narrow(8|16)?|widen(8|16)?|wide(8|16)?)$', f.name)])
say('4 a code to a case, a case to a constant',
    [f.place() for f in functions if re.fullmatch(r'\{\s*match [\w.]+ \{(\s*[\w:]+(\([\w, ]*\))? => [\w:]+(\([\w, ]*\))?,)+\s*\}\s*\}', f.body)])

facts = collections.defaultdict(set)
for f in functions:
    for x in f.facts:
        facts[x].add(f.place())
say('5 facts that three or more functions ask for',
    ['%d: %s' % (len(g), x[:110]) for x, g in facts.items() if len(g) > 2])
say('5 functions of more than seven parameters, exports left out',
    ['%s: %d' % (f.place(), len(f.parameters)) for f in functions if not f.exported and len(f.parameters) > 7])

say('6 fixed arrays lent to write, with a place beside them',
    [f.place() for f in functions if any('&mut [' in p for p in f.parameters) and any(re.match(r'(at|place): usize', p) for p in f.parameters)])
say('6 structs of an array and its length',
    [c + ' ' + n for c, n, i in items('struct') if re.search(r'\[\w+; ?\w+\]', i) and re.search(r'\b(length|count|len)\b', i)])
say('6 fixed arrays made',
    [f.place() + ' ' + a for f in functions for a in re.findall(r'\[[\w.]+; ?\w+\]', f.body)])

say('7 flags that choose a step', [f.place() + ': ' + p for f in functions for p in f.parameters if re.search(r': bool$', p)])

say('7 const parameters that are flags',
    sorted({c + ' ' + n for c, t in texts.values() for n in re.findall(r'\bif (\w+)(?: == 1)? \{', t)
            if re.search(r'\bconst %s: (usize|bool)' % n, t)}))

for name in ('Answers', 'Invariants', 'Proof'):
    files = glob.glob('crates/*/proofs/**/%s.antt' % name, recursive=True)
    if files:
        print('8 %-76s %4d' % ('files %s.antt' % name, len(files)) + ', %d lines' % sum(len(open(f).readlines()) for f in files))
files = [f for f in glob.glob('crates/*/proofs/**/*.antt', recursive=True) if not re.search(r'/(Answers|Invariants|Proof)\.antt$', f)]
print('8 %-76s %4d' % ('files of lemmas', len(files)) + ', %d lines' % sum(len(open(f).readlines()) for f in files))
print('  %-76s %4d' % ('functions', len(functions)))
