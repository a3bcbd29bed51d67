#!/usr/bin/env python3
"""Counts the places of docs/DESIGN-PASS.md in crates/*/src.

    tools/design_count.py [--list] [CRATE..]

A line for each point; with --list each place as FILE:LINE. What a command can't tell (whether two functions are twins, whether a flag has a value beside it)
is counted wide here, and read one by one in the page.
"""
import os, re, sys

args = [a for a in sys.argv[1:] if not a.startswith('-')]
if '--help' in sys.argv[1:] or '-h' in sys.argv[1:]:
    print(__doc__)
    sys.exit(0)
top = os.path.dirname(os.path.dirname(os.path.abspath(__file__)))
if not os.path.isdir(os.path.join(top, 'crates')):
    top = os.getcwd()
said = {}


def place(point, path, line):
    said.setdefault(point, []).append('%s:%d' % (os.path.relpath(path, top), line))


def blocks(lines, word):
    """The structs or enums of a file: (first line, name, lines of the body)."""
    at = 0
    while at < len(lines):
        m = re.match(r'\s*(?:pub(?:\(\w+\))? )?%s (\w+)' % word, lines[at])
        if m and '{' in lines[at]:
            start = at
            depth = lines[at].count('{') - lines[at].count('}')
            while depth > 0:
                at += 1
                depth += lines[at].count('{') - lines[at].count('}')
            yield start, m.group(1), lines[start + 1:at]
        at += 1


shape = re.compile(r'^\s*(Bad|NoRoom|OutOfRange|Nothing|Malformed|NotSeven|NoCard|Repeat)\b')
for crate in sorted(os.listdir(os.path.join(top, 'crates'))):
    if args and crate not in args:
        continue
    src = os.path.join(top, 'crates', crate, 'src')
    facts = {}
    for folder, _, files in sorted(os.walk(src)):
        for f in sorted(files):
            if not f.endswith('.rt'):
                continue
            path = os.path.join(folder, f)
            lines = open(path, encoding='utf-8').read().split('\n')
            for start, name, body in blocks(lines, 'enum'):
                if any(shape.match(b) for b in body) and any('(' in b or '{' in b for b in body):
                    place('1a own enums of the shape of Option or Result', path, start + 1)
            for start, name, body in blocks(lines, 'struct'):
                flags = [i for i, b in enumerate(body) if re.search(r': bool\b', b)]
                if flags and len([b for b in body if re.search(r'^\s*(pub )?\w+: ', b)]) > len(flags):
                    place('1b structs with a flag beside values', path, start + 1)
            pairs = {}
            for i, line in enumerate(lines):
                if re.match(r'\s*(pub(\(\w+\))? )?const \w+: u(8|32) = \d+;', line) and re.search(r': u8 = (\d|1\d);', line):
                    place('1c numbers for kinds or refusals (constants)', path, i + 1)
                m = re.match(r'\s*(pub(\(\w+\))? )?fn \w*(code|refusal|judge|check)\w*\(.*-> u(8|32)', line)
                if m:
                    place('1d functions that answer a refusal number', path, i + 1)
                if re.match(r'\s*(while|loop)\b', line):
                    place('3 while and loop', path, i + 1)
                if re.match(r'\s*for ', line):
                    place('3 for', path, i + 1)
                if re.search(r'\.iter\(\)|\.into_iter\(\)|\.chunks|\.windows', line):
                    place('3 iterator chains', path, i + 1)
                if re.match(r'\s*(pub(\(\w+\))? )?fn (wide|same|copied|is_value|value_in|as_\w+|to_\w+)\(', line):
                    place('4 conversions and equalities by hand', path, i + 1)
                m = re.match(r'\s*requires (.*)', line)
                if m:
                    for fact in set(re.findall(r'\b([A-Z]\w+) [a-z]', m.group(1))):
                        facts.setdefault(fact, []).append((path, i + 1))
                if re.match(r'\s*(pub(\(\w+\))? )?fn \w+.*\b(at|from): usize\b', line):
                    place('6 a place handed on beside its slice', path, i + 1)
                if re.search(r'derive\(.*(PartialEq|Ord|Default|Debug)', line):
                    place('4 derives beyond Clone and Copy', path, i + 1)
                if re.match(r'\s*impl\b', line):
                    place('5 impl blocks', path, i + 1)
    for fact, at in sorted(facts.items()):
        if len(at) >= 3:
            for path, i in at:
                place('5 contracts that ask a fact which three or more of the crate ask', path, i)
for point in sorted(said):
    print('%s: %d' % (point, len(said[point])))
    if '--list' in sys.argv[1:]:
        for p in said[point]:
            print('    ' + p)
