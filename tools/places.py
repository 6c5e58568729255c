#!/usr/bin/env python3
"""Counts places in crates/*/src of the eight points of docs/DESIGN-PASS.md. At the top: python3 tools/places.py [-l]; -l lists each place."""
import collections
import glob
import re
import sys

FILES = sorted(glob.glob('crates/*/src/**/*.rt', recursive=True))
places = collections.OrderedDict()


def add(point, what, path, line, text):
    places.setdefault((point, what), []).append((path, line, text.strip()))


def grep(point, what, pattern):
    """The lines of code with this pattern."""
    for path in FILES:
        for number, line in enumerate(open(path), 1):
            if re.search(pattern, line) and not line.lstrip().startswith('//'):
                add(point, what, path, number, line)


def functions(path):
    """Each function of a file: its name, first line, head, clauses and body, by the layout that rt fmt gives."""
    lines = open(path).read().split('\n')
    found, at = [], 0
    while at < len(lines):
        start = re.match(r'( *)(pub )?fn (\w+)', lines[at])
        if not start or lines[at].endswith(';'):
            at += 1
            continue
        end = next((n for n in range(at, len(lines)) if lines[n].startswith(start.group(1) + '}')), len(lines) - 1)
        head, clauses, body, part = [], [], [], 'head'
        for line in lines[at:end + 1]:
            text = line.strip()
            if part != 'body' and text.startswith(('requires', 'ensures')):
                part = 'clauses'
            if part == 'head':
                head.append(text)
            elif part == 'clauses' and text != '{':
                clauses.append(text)
            else:
                body.append(text)
            if text == '{' or part == 'head' and text.endswith('{'):
                part = 'body'
        found.append((start.group(3), at + 1, ' '.join(head), clauses, body))
        at = end + 1
    return found


WORDS = ('if', 'else', 'match', 'while', 'for', 'in', 'return', 'let', 'mut')


def shape(head, body):
    """A function's text without its names, types and numbers."""
    text = re.sub(r'^.*?\(', '(', head) + ' '.join(body)
    text = re.sub(r'b?"[^"]*"', 'x', text)
    text = re.sub(r'\b\d\w*\b', '0', text)
    return re.sub(r'[A-Za-z_]\w*(::\w+)*', lambda m: m.group(0) if m.group(0) in WORDS else 'x', text)


def answers():
    """1: own enums of the shape of Option or Result, a flag or a number beside a value, numbers for refusals and kinds."""
    grep(1, 'a variant for none, or with a refusal\'s number, in an own enum', r'^    (Refused\(u32\)|Refusal\(u32\)|Nothing|Out|Wrong|Long),')
    grep(1, 'a refusal\'s number handed back beside a value', r'number: &mut u32|^    (pub )?number: u32,')
    grep(1, 'a flag with a value beside it', r'^    (pub )?(taken|running|empties|took|listed|stopped|goes_on): bool')
    grep(1, 'a place 32 for none', r'(at < 32|\) < 32| 32 <= slots)')
    for path in FILES:
        for name, line, head, clauses, body in functions(path):
            if re.search(r'(number|gate|judge|judge_as|judge_rows|^set)(<[^>]*>)?\(', head) and '-> u32' in head and 'fresh_number' not in head:
                add(1, 'a function that answers 0 or a refusal\'s number', path, line, head)
    grep(1, 'a number for a kind, handed to a function', r'fn .*\b(stype|reason|status|kind|place|sort): u(8|64)')


def twins():
    groups = collections.defaultdict(list)
    for path in FILES:
        for name, line, head, clauses, body in functions(path):
            if len(body) >= 3:
                groups[shape(head, body)].append((path, line, head))
    for group in groups.values():
        if len(group) > 1:
            for path, line, head in group:
                add(2, 'a function of the same shape as another, names and numbers aside', path, line, head)


def facts():
    asked, together = collections.defaultdict(list), collections.defaultdict(list)
    for path in FILES:
        for name, line, head, clauses, body in functions(path):
            for clause in clauses:
                fact = re.match(r'requires( \w+)? \{ ([A-Z]\w*) ', clause)
                if fact:
                    asked[path, fact.group(2)].append((line, clause))
            parameters = re.findall(r'(\w+: [^,()]+)', re.sub(r'<[^(]*>\(', '(', head.split('->')[0]))
            for first in range(len(parameters) - 2):
                together[path, tuple(parameters[first:first + 3])].append((line, head))
    for (path, fact), uses in asked.items():
        if len(uses) >= 3:
            for line, clause in uses:
                add(5, 'a fact that three or more contracts of a file ask', path, line, clause)
    seen = set()
    for (path, parameters), uses in together.items():
        if len(uses) >= 3:
            for line, head in uses:
                if (path, line) not in seen:
                    seen.add((path, line))
                    add(5, 'a function with three parameters that two others of its file have too', path, line, head)


answers()
twins()
grep(3, 'a while loop', r'^\s*while ')
grep(4, 'a conversion, an equality or printing by hand',
     r'fn (header_of|header_bytes|header_in|received_of|wide_of|tag|form_in|phase_in|element_in|wish_in|timer_in|phase_field|status|is_connected|is_selected|'
     r'is_item|is_plain|is_known)\(')
grep(4, 'a branch that answers true or false', r'^\s*(return )?(true|false)[;,]?$')
facts()
grep(6, 'a buffer with a length beside it, or three numbers for a row',
     r'^    (pub )?(count|used): usize,|\(pub \[u8; \d+\], pub usize\)|\w+: &(\'a )?(mut )?\[u8\], c?used: usize|table: &(mut )?\[u32\]|let mut digits = \[0u8')
grep(7, 'a switch on which step to run', r'match letter|q: Query|match q\b')
for (point, what), found in sorted(places.items()):
    print(f'{point}\t{len(found)}\t{what}')
    for path, line, text in found if '-l' in sys.argv else ():
        print(f'\t{path}:{line}\t{text}')
