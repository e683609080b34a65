#!/usr/bin/env python3
"""Which files of definitions a reader has to believe: those that the archive's contracts, demand 3, the worked cases
and the claims of requests rest on, by the names of files in their text, comments apart.

  tools/believed.py      at the root of the repository

Prints a line for each file of definitions, with what rests on it. A first line of such a file, or the table of
docs/DEFINITIONS.md, that says otherwise is a finding. Of requests a first line speaks where nothing else rests on
its file. The last line is `believed: N, inner: N, findings: N`; exit status 0 with no finding, else 1.
"""
import glob
import os
import re
import sys

ROOTS = {
    "archive's contracts": sorted(glob.glob('crates/legacy_pairing/src/*.rt')),
    'demand 3': ['crates/protocol/specs/FairRuns.antt'],
    'worked cases': ['crates/cases/specs/Cases.antt'],
}
REQUESTS = {
    'list of methods': ['crates/method_lines/specs/EveryPair.antt'],
}
PAGE = 'docs/DEFINITIONS.md'
SPECS = sorted(f for f in glob.glob('crates/*/specs/*.antt') if os.path.basename(f) != 'Lib.antt')


def text(file):
    with open(file, encoding='utf-8') as f:
        return f.read()


def used(file):
    # files of definitions that a file names
    names = re.findall(r'\bRattle\.(\w+)\.specs\.([A-Z]\w*)', re.sub(r'(--|//).*', '', text(file)))
    return {f'crates/{crate}/specs/{module}.antt' for crate, module in names}


def reached(roots):
    seen, rest = set(), [f for root in roots for f in (used(root) | {root})]
    while rest:
        file = rest.pop()
        if file in SPECS and file not in seen:
            seen.add(file)
            rest += used(file)
    return seen


def main():
    if sys.argv[1:2] in (['-h'], ['--help']):
        print(__doc__.strip())
        return 0
    rests = {name: reached(roots) for name, roots in {**ROOTS, **REQUESTS}.items()}
    page = text(PAGE)
    table = '\n'.join(line for line in page.split('\n') if line.startswith('|'))
    told = re.search(r'are the (\d+) files below', page), re.search(r'The other (\d+) files of definitions', page)
    believed, findings = 0, []
    for file in SPECS:
        on_it = [name for name in rests if file in rests[name]]
        spoken = [name for name in on_it if name in ROOTS] or on_it
        first = text(file).split('\n', 1)[0].lower()
        print(f"{file}: {', '.join(on_it) or '-'}")
        if not first.startswith('-- believed:' if on_it else '-- inner:'):
            findings.append(f"{file}: its first line has to begin '-- {'Believed' if on_it else 'Inner'}:'")
        elif on_it:
            findings += [f'{file}: its first line is wrong about {name}' for name in rests
                         if (name in first) != (name in spoken)]
        believed += bool(on_it)
        listed = re.search(r'`(crates/%s/specs/)?%s`' % tuple(file.split('/')[1::2]), table)
        if bool(listed) != bool(on_it):
            findings.append(f"{PAGE}: {file} is {'not ' if on_it else ''}in its table")
    counts = [str(believed), str(len(SPECS) - believed)]
    for found, count in zip(told, counts):
        if not found or found.group(1) != count:
            findings.append(f"{PAGE}: says {found.group(1) if found else 'nothing'} where {count} is right")
    print('\n'.join(findings), end='\n' if findings else '')
    print(f'believed: {counts[0]}, inner: {counts[1]}, findings: {len(findings)}')
    return 1 if findings else 0


if __name__ == '__main__':
    sys.exit(main())
