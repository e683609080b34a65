#!/usr/bin/env python3
"""Gives crates the names that say what is in them. Run once on this repository; kept for texts that have the old names.

usage: tools/rename_crates.py FOLDER

Folders of crates move; in files the script turns `NAME::` in code, `Rattle.NAME.` in definitions and proofs (also with the
middle dots of an older Rattle), paths such as crates/NAME/src and NAME/specs, lines of a crates.txt, and in pages and
comments a name between backticks or behind the word crate. A diff is turned as the files are that it names; the rest of an
older syntax stays. What happened before keeps the names of its time: docs/LANDINGS.md, PORT.md, DESIGN-PASS.md. A folder
that has a crate of a new name is left alone.
"""
import os
import re
import subprocess
import sys

NEW = {
    'types': 'smp_types',
    'host': 'host_calls', 'answer': 'host_answers', 'ops': 'host_ops', 'call_list': 'host_call_list',
    'record': 'machine_record',
    'handlers': 'handler_parts', 'phases': 'handlers',
    'octet_values': 'c_values', 'octet_steps': 'c_steps',
    'lines': 'line_reading', 'answer_lines': 'line_writing',
}
ANY = '|'.join(sorted(NEW, key=len, reverse=True))
HISTORY = {'docs/LANDINGS.md', 'docs/PORT.md', 'docs/DESIGN-PASS.md', 'tools/rename_crates.py'}
CODE = ('.rt', '.antt', '.edit', '.diff', '.md', '.txt', '.py', '.h', '.c', '.rs', '.toml')
# `ops` is also a parameter's name, `host`, `record`, `answer`, `types` and `lines` are words: between backticks they are turned
# in pages and in the code's comments alone, and `ops` only beside another crate's name.
TICKED = re.compile(rf'`({ANY})`')


def new(match):
    return match.group(0).replace(match.group('name'), NEW[match.group('name')])


def paths(text):
    text = re.sub(rf'(?<![\w./-])(?P<lead>(?:[ab]/)?crates/)(?P<name>{ANY})(?![\w.])', lambda m: m.group('lead') + NEW[m.group('name')], text)
    return re.sub(rf'(?<![\w/])(?P<name>{ANY})(?=/(?:specs|src|proofs|must-fail)\b)', lambda m: NEW[m.group('name')], text)


def ticked(line):
    names = TICKED.findall(line)
    parameter = 'ops' in names and not {'handlers', 'phases', 'answer'} & set(names) and '`Ops`, the host in a handler' not in line
    return TICKED.sub(lambda m: m.group(0) if m.group(1) == 'ops' and parameter else f'`{NEW[m.group(1)]}`', line)


def turn(path, text):
    """A file's text, whose path says which crate it is of."""
    own = re.match(r'(?:.*/)?(?:crates|code)/(\w+)/', path)
    own = own.group(1) if own else ''
    text = paths(text)
    if path.endswith('crates.txt'):
        return re.sub(rf'(?<!\w)(?P<name>{ANY})(?!\w)', new, text)
    text = re.sub(rf'\bRattle[.\u00b7](?P<name>{ANY})(?=[.\u00b7])', new, text)

    # a module of a crate may have a crate's name: `types` of smp_types
    def code(m):
        return m.group(0) if m.group('name') == own or own == NEW[m.group('name')] else new(m)
    if not path.endswith(('.rs', '.c', '.h', '.py')):
        text = re.sub(rf'(?<![\w:.])(?P<name>{ANY})(?=::)', code, text)
    if path.endswith('.md') or re.search(r'(?:crates|code)/\w+/(?:src/)?', path):
        text = '\n'.join(ticked(line) for line in text.split('\n'))
        text = re.sub(rf'(?<=\bcrate )(?P<name>{ANY})\b', new, text)
    return text


def turn_diff(text):
    """A diff, part by part, each as the file that it names."""
    parts = re.split(r'(?m)^(?=diff --git |--- a/)', text)
    named = (re.search(r'^(?:diff --git a/|--- a/|\+\+\+ b/)(\S+)', part, re.M) for part in parts)
    return ''.join(turn(found.group(1) if found else '', part) for part, found in zip(parts, named))


def files_of(top):
    tracked = subprocess.run(['git', '-C', top, 'ls-files'], capture_output=True, text=True)
    names = tracked.stdout.split('\n') if tracked.returncode == 0 else []
    if any(names):
        return names
    return [os.path.relpath(os.path.join(folder, name), top) for folder, _, found in os.walk(top) for name in found]


def move(folder):
    """Folders of crates, first away from the names that another one takes."""
    moved = [old for old in NEW if os.path.isdir(os.path.join(folder, old))]
    for old in moved:
        os.rename(os.path.join(folder, old), os.path.join(folder, '+' + old))
    for old in moved:
        os.rename(os.path.join(folder, '+' + old), os.path.join(folder, NEW[old]))


def main():
    if len(sys.argv) != 2 or sys.argv[1] in ('-h', '--help'):
        print(__doc__.strip())
        sys.exit(0 if len(sys.argv) == 2 else 2)
    top = os.path.abspath(sys.argv[1])
    folders = [folder for folder, _, _ in os.walk(top) if os.path.basename(folder) in ('crates', 'code')]
    for folder in folders:
        for name in set(NEW.values()) - set(NEW):
            if os.path.isdir(os.path.join(folder, name)):
                sys.exit(f'rename_crates: {folder} has {name}: it has run here before')
    for name in files_of(top):
        path = os.path.join(top, name)
        if name in HISTORY or not name.endswith(CODE) or not os.path.isfile(path) or os.path.islink(path):
            continue
        with open(path, encoding='utf-8', newline='') as f:
            text = f.read()
        turned = turn_diff(text) if name.endswith('.diff') else turn(name, text)
        if turned != text:
            with open(path, 'w', encoding='utf-8', newline='') as f:
                f.write(turned)
    for folder in folders:
        move(folder)


if __name__ == '__main__':
    main()
