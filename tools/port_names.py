#!/usr/bin/env python3
"""Brings the repository's own definitions and lemmas to the spelling of today's Rattle: words in camel case become words in snake case.

usage: tools/port_names.py      at the top of the checkout, once, behind port.py

Types, modules and facts keep their capital. Names that stand in strings, characters, comments of .rt files and names made by Rattle stay.
A lemma that would fall together with its function gets `_lem` behind its name.
"""
import pathlib
import re

ROOT = pathlib.Path('crates')
# Not ours, made by Rattle, or a part of a string of escapes
KEPT = re.compile(r"^(not_T|sint_\w+|walk_Meets|inside-at-Inv-loop|[nt][A-Z]+)$")
# lemmas that have the name their function gets
LEMMAS = ['in_order', 'is_digit', 'last_step', 'left_over', 'same_answer', 'same_bool', 'same_whole']
WORD = re.compile(r"(?<![\w'\\])([a-z][a-z0-9_]*(?:[A-Z][\w']*)+(?:-[\w']+)*)(?![\w'])")


def snake(name):
    return re.sub(r'(?<=[a-z0-9])([A-Z])', lambda m: '_' + m[1].lower(), name)


def turn(text):
    out = []
    for line in text.split('\n'):
        # strings stay
        parts = re.split(r'("(?:[^"\\]|\\.)*")', line)
        for i in range(0, len(parts), 2):
            parts[i] = WORD.sub(lambda m: m[1] if KEPT.match(m[1]) else snake(m[1]), parts[i])
        out.append(''.join(parts))
    return '\n'.join(out)


def main():
    for path in sorted(ROOT.rglob('*')):
        if 'out' in path.parts or path.suffix not in ('.antt', '.rt') or not path.is_file():
            continue
        old = path.read_text()
        text = old
        if path.suffix == '.antt':
            for name in LEMMAS:
                text = re.sub(r"(?<![\w'.\-])" + name + r"(?![\w'\-])", name + '_lem', text)
        text = turn(text)
        if text != old:
            path.write_text(text)


if __name__ == '__main__':
    main()
