#!/usr/bin/env python3
"""Holds the names on the pages to the tree: what docs/*.md and the two READMEs name must be there.

- a file of a crate, as `reader/specs/Reading` or promises/proofs/Closing, and in it each name that stands before it, as in
  `Moves`, moves/specs/Moves;
- a path, as host/second.c or crates/explain/src/lib.rt;
- fields of a theorem or a record, as `refusals .room .no-state`, `table .sheets .p7` or `Rules .states`;
- an edit, as edit `sheet/pair_names_earlier`, and each edit of the tree must be named in TRACE.md;
- a wrong library, as mutant *home with a wait*, and a family of cases, as differ *P11*;
- a word in backquotes that looks like a definition, a theorem or a function (no blank, no dot at its front): it must stand
  somewhere in crates/, host/, include/ or examples/, or be a command of the system.

docs/reviews/ is left out: a review names what was there on its day. So are docs/PORT.md and docs/DESIGN-PASS.md, which have names
of two days.
"""
import os
import re
import sys

TOP = os.path.dirname(os.path.dirname(os.path.abspath(__file__)))
CRATES = os.path.join(TOP, 'crates')
PAGES = ['README.md', 'host/README.md']
PAGES += sorted('docs/' + name for name in os.listdir(os.path.join(TOP, 'docs')) if name.endswith('.md') and name not in ('PORT.md', 'DESIGN-PASS.md'))
COMMANDS = {'rt', 'PATH', 'apt-get', 'callgrind_annotate'}
WORD = r'[^\s(){}\[\],;.`"|]+'


def read(*path):
    with open(os.path.join(TOP, *path), encoding='utf-8') as file:
        return file.read()


def tree():
    """All that is written in the sources, and the edits."""
    text, edits = [], set()
    for top in ['crates', 'host', 'include', 'examples']:
        for folder, folders, files in os.walk(os.path.join(TOP, top)):
            for name in files:
                kind = os.path.splitext(name)[1]
                if kind in ('.rt', '.antt', '.c', '.h', '.py', '.sh', '.rs') or name == 'Makefile':
                    text.append(read(folder, name))
                if kind == '.edit':
                    edits.add(os.path.basename(os.path.dirname(folder)) + '/' + name[:-5])
    return '\n'.join(text), edits


def records():
    """The fields of each record under specs/, with their types. Records of one name are taken as one."""
    fields = {}
    for folder, folders, files in os.walk(CRATES):
        if '/specs' not in folder:
            continue
        for name in files:
            record = None
            for line in read(folder, name).splitlines():
                begins = re.match(r'pub record (\w+)', line)
                field = re.match(r'  pub ([\w-]+) :\s*(?:\w+\.)?(\w*)', line)
                if begins:
                    record = fields.setdefault(begins.group(1), {})
                elif field and record is not None:
                    record[field.group(1)] = field.group(2)
                elif line[:1] not in ('', ' '):
                    record = None
    return fields


def missing(quoted, fields):
    """Of `refusals .room .no-state` the fields that neither the record has nor a field named before them."""
    head, *rest = [part.strip() for part in quoted.split(' .')]
    kind = fields['Promises'].get(head, head[0].upper() + head[1:])
    if kind not in fields:
        return [head]
    kinds = [kind]
    lost = []
    for name in rest:
        of = [kind for kind in kinds if name in fields.get(kind, {})]
        kinds += [fields[kind][name] for kind in of]
        lost += [] if of else [name]
    return lost


def main():
    sources, edits = tree()
    fields = records()
    families = set(re.findall(r'ask_family\("([^"]+)"\)', sources))
    words = set(re.findall(WORD, sources))
    mutants = {line.split('|')[0].strip() for line in read('host', 'mutants.sh').splitlines() if '|' in line}
    crates = set(os.listdir(CRATES))
    known = words | crates | COMMANDS
    faults = []
    named = set()
    for page in PAGES:
        for number, line in enumerate(read(page).splitlines(), 1):
            def fault(what):
                faults.append(f'{page}:{number}: {what}')
            for crate, folder, name in re.findall(r'\b([a-z]+)/(specs|proofs)/((?:inside/)?[A-Za-z0-9]+)', line):
                path = os.path.join(CRATES, crate, folder, name)
                if crate in crates and not os.path.exists(path + '.antt') and not os.path.isdir(path):
                    fault(f'no file {crate}/{folder}/{name}')
                if crate not in crates and crate != 'crates':
                    fault(f'no crate {crate}')
            for names, file in re.findall(r'((?:`[^`]+`(?:, | and ))+)([a-z]+/(?:specs|proofs)/(?:inside/)?[A-Za-z0-9]+)', line):
                path = os.path.join(CRATES, file + '.antt')
                there = set(re.findall(WORD, read(path))) if os.path.exists(path) else set()
                for name in re.findall(r'`([^`]+)`', names):
                    if there and name.split(' .')[0] not in there:
                        fault(f'`{name}` does not stand in {file}')
            for path in re.findall(r'(?<![\w/])(?:crates|host|docs|include|examples|tests)/[\w./-]*\w', line):
                if 'NAME' not in path and not any(os.path.exists(os.path.join(TOP, path + end)) for end in ('', '.antt')):
                    fault(f'no file {path}')
            for part in re.findall(r'\bedits? ((?:`[a-z]+/\w+`(?:, | and )?)+)', line):
                for edit in re.findall(r'`([a-z]+/\w+)`', part):
                    if edit not in edits:
                        fault(f'no edit {edit}')
            if page == 'docs/TRACE.md':
                named |= edits & set(re.findall(r'`([a-z]+/\w+)`', line))
            for what, there in (('mutant', mutants), ('differ', families)):
                for part in re.findall(what + r's? ((?:\*[^*]+\*(?:, | and )?)+)', line):
                    for name in re.findall(r'\*([^*]+)\*', part):
                        if name not in there:
                            fault(f'no {what} *{name}*')
            for quoted in re.findall(r'`([^`]+)`', line):
                if re.fullmatch(r'[A-Za-z][\w-]*', quoted) and quoted not in known:
                    fault(f'`{quoted}` stands nowhere')
                if re.fullmatch(r'[A-Za-z][\w-]*( \.[\w-]+)+', quoted):
                    for name in missing(quoted, fields):
                        fault(f'`{quoted}`: no field {name}')
    for edit in sorted(edits - named):
        faults.append(f'docs/TRACE.md: the edit {edit} is traced nowhere')
    for fault in faults:
        print(fault)
    print(f'{len(PAGES)} pages, {len(edits)} edits: {len(faults)} names are not there or not traced')
    sys.exit(1 if faults else 0)


if __name__ == '__main__':
    main()
