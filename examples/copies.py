#!/usr/bin/env python3
"""Holds every copy of the two-contact sheet to two-contact.sheet, which make.py writes.

A copy is a file of that name, or in a source under crates/ a list of 50 numbers or more behind the name two_contact or
twoContact. The proofs and the command line's demonstration must each have one: where none is found, it was renamed and
nobody compares it any more. (The C side has no copy: host/Makefile takes the file itself.)
"""
import os
import re
import sys

TOP = os.path.dirname(os.path.dirname(os.path.abspath(__file__)))
NAME = re.compile(r'two_?contact\b', re.IGNORECASE)
# Behind the name, before the list: a type, a bracket, an equals sign, the name once more; never another number.
LIST = re.compile(r'[^0-9;]{0,40}?(?:\[u8; \d+\]\s*\{?)?[\s=:\[{(]*((?:(?:0x[0-9A-Fa-f]+|\d+)[\s,∷]*){50,})')


def content(path):
    with open(path, 'rb') as file:
        return file.read()


def main():
    source = content(os.path.join(TOP, 'examples', 'two-contact.sheet'))
    found = {'.rt': 0, '.antt': 0, '.sheet': 0}
    wrong = []
    for folder, folders, files in os.walk(os.path.join(TOP, 'crates')):
        for name in sorted(files):
            path = os.path.join(folder, name)
            kind = os.path.splitext(name)[1]
            copies = []
            if name == 'two-contact.sheet':
                copies = [content(path)]
            elif kind in ('.rt', '.antt'):
                text = content(path).decode('utf-8')
                matches = [LIST.match(text, at.end()) for at in NAME.finditer(text)]
                lists = {m.start(1): m.group(1) for m in matches if m}
                copies = [bytes(int(n, 0) for n in re.findall(r'0x[0-9A-Fa-f]+|\d+', numbers)) for numbers in lists.values()]
            for copy in copies:
                found[kind] += 1
                good = copy == source
                print(f'{os.path.relpath(path, TOP)}: {"the same" if good else "ANOTHER SHEET"}')
                if not good:
                    wrong.append(path)
    lost = [kind for kind in found if found[kind] == 0]
    if wrong or lost:
        sys.exit(f'{len(wrong)} copies differ from examples/two-contact.sheet; no copy was found in files {lost}')


if __name__ == '__main__':
    main()
