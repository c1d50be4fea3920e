#!/usr/bin/env python3
"""Counts the places of docs/DESIGN-PASS.md in the code below crates/*/src, point by point. `places.py` prints the counts, `places.py N` lists
those of point N. A place is found by its text alone; whether it is to be changed is for a reader to say."""
import re
import sys
from collections import defaultdict
from pathlib import Path

ROOT = Path(__file__).resolve().parent.parent
FILES = sorted(ROOT.glob('crates/*/src/*.rt'))
# A variant that says that there is nothing, or why not.
WITHOUT = re.compile(r'^(Invalid|Malformed|Misplaced|Fault|Refused|Failed|Broken|Stops?|Fails|Nothing|NoLetter|TooLong|TooMany|Bad\w*|Listed|Neither|Ended|None|Spent|Last|Skips)$')
NUMBERED = re.compile(r'\b(NONE|[A-Z]+_KIND)\b|\] == [01]\b|\bend == 1\b|\b256 <= \w+|\b\w+ < 256\b|letter == 0\b|code\w*(\(\w+\))? == 0\b|\] = 1;|length == 0\b')
ITEM = re.compile(r'^( *)(?:pub(?:\(\w+\))? )?(fn|enum|struct) (\w+)')


def lines(path):
    return path.read_text().split('\n')


def items(path):
    """Each function, enum and struct of a file: its kind, name, first line and text, up to the line that closes it."""
    text = lines(path)
    for n, line in enumerate(text):
        head = ITEM.match(line)
        if not head:
            continue
        end = n
        if not line.rstrip().endswith(';'):
            while end < len(text) - 1 and not re.match(head.group(1) + r'\}|.*\{\}$', text[end]):
                end += 1
        yield head.group(2), head.group(3), n + 1, text[n:end + 1]


def found(test):
    """The lines of code that a pattern is in; imports, clauses and constants are none."""
    for path in FILES:
        imports = False
        for n, line in enumerate(lines(path)):
            code = line.split('// ')[0]
            imports = imports or line.startswith('use ')
            other = imports or re.match(r' *(ghost|requires|ensures|×|→|pub const|const) ?', code)
            imports = imports and ';' not in line
            if not other and test.search(code):
                yield path, n + 1, line.strip()


def choices():
    """1: enums of the shape of Option or Result; flags beside values; numbers that say which kind, or that there is none."""
    for path in FILES:
        for kind, name, n, text in items(path):
            if kind == 'enum':
                variants = re.findall(r'^    (\w+)', '\n'.join(text), re.M)
                if len(variants) < 6 and any(WITHOUT.match(v) for v in variants):
                    yield path, n, f'enum {name}: ' + ', '.join(variants)
            if kind == 'struct' and any(': bool' in line for line in text):
                yield path, n, f'struct {name} with a flag'
    yield from found(NUMBERED)


def twins():
    """2: functions that are the same but for names, types and numbers."""
    same = defaultdict(list)
    for path in FILES:
        for kind, name, n, text in items(path):
            if kind != 'fn':
                continue
            code = [l for l in text if not re.match(r' +(requires|ensures|×|→|\++ |//)', l)]
            words = re.findall(r'\w+|[^\w\s]', ' '.join(code))
            keys = {'fn', 'let', 'mut', 'while', 'if', 'else', 'return', 'for', 'in', 'match', 'true', 'false', 'as', 'self', 'pub'}
            shape = tuple(w if w in keys or not re.match(r'\w', w) else '_' for w in words if w != 'pub')
            if len(shape) > 24:
                same[shape].append((path, n, name))
    for group in same.values():
        if len(group) > 1:
            for path, n, name in group:
                yield path, n, f'fn {name}: as ' + ', '.join(g[2] for g in group if g != (path, n, name))


def loops():
    """3: loops that count, or go on from place to place, by hand."""
    yield from found(re.compile(r'^ *(while|loop)\b'))


def by_hand():
    """4: conversion, copying and printing by hand."""
    yield from found(re.compile(r'\bwiden::|\bsay\(|show::(say|number)\(|\b(tell::)?number\((to|err|rt|out)|_numbers\('))
    yield from found(re.compile(r' as (u8|u16|u32|u64|usize)\b'))


def together():
    """5: functions of seven parameters or more, and premises that stand in three functions or more."""
    premises = defaultdict(list)
    for path in FILES:
        for kind, name, n, text in items(path):
            if kind != 'fn':
                continue
            head = ' '.join(text).split(' requires ')[0].split(' ensures ')[0].split('{')[0]
            count = len(re.findall(r'[(,] *(?:mut )?\w+: ', head))
            if count > 6:
                yield path, n, f'fn {name}: {count} parameters'
            for line in text:
                clause = re.match(r' +requires (?:\w+ )?\{ (.*) \}', line)
                if clause:
                    premises[clause.group(1)].append((path, n, name))
    for premise, where in premises.items():
        if len(where) > 2:
            for path, n, name in where:
                yield path, n, f'fn {name}: {premise}'


def buffers():
    """6: arrays of a fixed size, and structs that hold one beside a count."""
    yield from found(re.compile(r'\[[\w]+(\.\w+)?; [\w:+* ]+\]'))


def switches():
    """7: a number or a sign that says which step to run."""
    yield from found(re.compile(r'\bmatch (sign|kind|task|read|side)\b|\bif (kind|sign|read|task)\b|== [A-Z]+_KIND'))


POINTS = [choices, twins, loops, by_hand, together, buffers, switches]

if len(sys.argv) > 1:
    for path, n, what in POINTS[int(sys.argv[1]) - 1]():
        print(f'{path.relative_to(ROOT)}:{n}: {what}')
else:
    for point in POINTS:
        print(f'{point.__doc__.split(":")[0]}  {len(list(point())):4}  {point.__doc__.split(": ", 1)[1]}')
