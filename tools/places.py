#!/usr/bin/env python3
"""Lists the places in crates/*/src that are written as an older Rattle needed it, by the points of docs/DESIGN-PASS.md.

  tools/places.py [--list] [COMMIT]

Counts them in a commit, or in the files as they stand, point by point and crate by crate; --list shows each. It reads
the text alone: a line is a place to look at, and what stays has its reason beside it.
"""
import re
import subprocess
import sys
import collections

ABSENT = {'InvalidValue', 'InsufficientSpace', 'None', 'Stop', 'Refused', 'WrongLength', 'InvalidParameters', 'Malformed',
          'NoRoom', 'Unknown', 'Not', 'Err', 'Pending', 'Other', 'Nothing'}


def sources(commit):
    if commit:
        names = subprocess.run(['git', 'ls-tree', '-r', '--name-only', commit, 'crates'], capture_output=True, text=True,
                               check=True).stdout.split('\n')
        read = lambda n: subprocess.run(['git', 'show', commit + ':' + n], capture_output=True, text=True, check=True).stdout
    else:
        names = subprocess.run(['git', 'ls-files', 'crates'], capture_output=True, text=True, check=True).stdout.split('\n')
        read = lambda n: open(n, encoding='utf-8').read()
    return [(n, read(n)) for n in names if re.match(r'crates/\w+/src/.*\.rt$', n)]


def blocks(text, word):
    # the enums or structs of a file: line, name, lines of the body
    for m in re.finditer(r'^(?:pub(?:\(crate\))? )?%s (\w+)[^;{]*\{(.*?)^\}' % word, text, re.M | re.S):
        body = re.sub(r'//[^\n]*', '', m.group(2))
        yield text[:m.start()].count('\n') + 1, m.group(1), body


def variants(body):
    out, depth, word = [], 0, ''
    for c in body:
        if c in '({':
            depth += 1
        if c in ')}':
            depth -= 1
        if c == ',' and depth == 0:
            out.append(word.strip())
            word = ''
        else:
            word += c
    if word.strip():
        out.append(word.strip())
    return [re.match(r'\w+', v).group(0) for v in out if re.match(r'\w+', v)]


def functions(text):
    # line, name, parameters, result, body
    for m in re.finditer(r'^( *)(?:pub(?:\(crate\))? )?(?:unsafe )?(?:extern "C" )?fn (\w+)(?:<[^(]*>)?\(', text, re.M):
        i, depth = m.end(), 1
        while depth and i < len(text):
            depth += {'(': 1, ')': -1}.get(text[i], 0)
            i += 1
        params = ' '.join(text[m.end():i - 1].split())
        end = re.search(r'^%s\}|;$' % m.group(1), text[i:], re.M)
        rest = text[i:i + end.end()] if end else text[i:]
        result = re.match(r'\s*->\s*([^\n{]*)', rest)
        yield text[:m.start()].count('\n') + 1, m.group(2), params, (result.group(1).strip() if result else ''), rest


def places(files):
    for name, text in files:
        crate = name.split('/')[1]

        def at(line, what):
            return '%s:%d: %s' % (name, line, what)

        # 1: enums of the shape of Option or Result
        for line, enum, body in blocks(text, 'enum'):
            names = variants(body)
            if len(names) >= 2 and len([v for v in names if v not in ABSENT]) <= 1:
                yield '1a', crate, at(line, 'enum ' + enum)
        # 1: a struct that holds a flag or a refusal beside the value
        for line, struct, body in blocks(text, 'struct'):
            fields = re.findall(r'(\w+):', body)
            if len(fields) >= 2 and {'reading', 'answer', 'end', 'finish', 'more', 'outcome', 'features'} & set(fields) \
                    and struct != 'Stepped':
                yield '1b', crate, at(line, 'struct ' + struct)
        # 1: numbers in place of kinds or refusals
        for m in re.finditer(r'^ *Refused\(u8\),', text, re.M):
            yield '1c', crate, at(text[:m.start()].count('\n') + 1, 'Refused(u8)')
        for m in re.finditer(r'^(?:pub )?const [A-Z_]+: u8 = (\d+|0x\w+);', text, re.M):
            yield '1c', crate, at(text[:m.start()].count('\n') + 1, m.group(0))
        for line, fn, params, result, rest in functions(text):
            if re.search(r'\b(role|kind|outcome|phase|code): u(8|16)\b', params):
                yield '1c', crate, at(line, 'fn %s(%s)' % (fn, re.search(r'\b(role|kind|outcome|phase|code): u(8|16)\b', params).group(0)))
            if result == 'u8' and re.search(r'^\s*(return )?(\d+|[A-Z_]{4,})[;,]?$|=> (\d+|[A-Z_]{4,}|n),', rest, re.M) \
                    and 'into_u8' not in fn and 'code' not in fn and 'kind' not in fn:
                yield '1c', crate, at(line, 'fn %s -> u8' % fn)
            # 2: the same body under several types
            if fn == 'stop' or fn == 'halt':
                yield '2', crate, at(line, 'fn ' + fn)
            if re.fullmatch(r'(byte\d|read_\d+|read_u\d+|read_word|read_seven|join\w*|split|write_word|join_u\d+)', fn):
                yield '2', crate, at(line, 'fn ' + fn)
            # 4: equality, conversion and printing by hand
            if fn in ('equals', 'same', 'into_u8', 'into_bool', 'try_from', 'from_u8', 'is_some', 'flag', 'halt_of',
                      'default') and not re.search(r'impl (TryFrom|From|Default|PartialEq)', text[:text.find('fn ' + fn)].split('\nimpl')[-1].join(['impl', ''])):
                yield '4', crate, at(line, 'fn ' + fn)
            elif re.fullmatch(r'(octet_of|digit|digit_text|phase_code|method_code|role_of|read_method|read_reason|method_of|number|value|octets|pad|hex\w*|put_decimal|put_word)', fn):
                yield '4', crate, at(line, 'fn ' + fn)
            # 5: parameters that travel together
            for pair in (r'trace: Trace, answers: &\[u8\]', r'confirm_data: ConfirmPhaseData, pairing_data: PairingData',
                         r'preq: \[u8; 7\], pres: \[u8; 7\]', r'payload: &\[u8\], answers: &\[u8\]', r'input: u16, payload: &\[u8\]'):
                if re.search(pair, params):
                    yield '5', crate, at(line, 'fn %s(.. %s ..)' % (fn, pair.replace('\\', '')))
            # 6: a buffer with a place or a length beside it
            if re.search(r'&mut \[u8\], (at|place|have|past|given): usize|(have|past|place|at|given): usize', params):
                yield '6', crate, at(line, 'fn ' + fn)
            # 7: a switch on which step comes next, or which kind is meant, by a number
            if re.search(r'match (state|phase|kind|code|input - 0x100|role)\b', rest) and 'u8' in params + result:
                yield '7', crate, at(line, 'fn ' + fn)
        # 2: structs and enums that differ in a type alone
        for word in ('enum', 'struct'):
            for line, n, body in blocks(text, word):
                if re.fullmatch(r'Asked\w+|Taken\w+|\w+Answer|\w+Result', n):
                    yield '2', crate, at(line, word + ' ' + n)
        # 3: loops that count an index by hand
        for m in re.finditer(r'^ *(for \w+ in [^{]*\.\.[^{]*|while [^{]*)\{', text, re.M):
            yield '3', crate, at(text[:m.start()].count('\n') + 1, m.group(1).strip())
        # 6: structs with a buffer and its length
        for line, struct, body in blocks(text, 'struct'):
            if re.search(r'\[u8; \w+\]', body) and re.search(r'\b(len|at|have|read): usize', body):
                yield '6', crate, at(line, 'struct ' + struct)


def main(args):
    shown = '--list' in args
    commit = next((a for a in args if not a.startswith('--')), None)
    table = collections.defaultdict(collections.Counter)
    lines = collections.defaultdict(list)
    for point, crate, text in places(sources(commit)):
        table[point][crate] += 1
        lines[point].append(text)
    for point in sorted(table):
        print('%-3s %4d  %s' % (point, sum(table[point].values()),
                               ', '.join('%s %d' % (c, n) for c, n in sorted(table[point].items()))))
        if shown:
            for text in lines[point]:
                print('        ' + text)


if sys.argv[1:2] in (['-h'], ['--help']):
    print(__doc__.strip())
else:
    main(sys.argv[1:])
