"""The method of every pair of feature records, as Vol 3 Part H, 2.3.5.1, Tables 2.6 and 2.8, gives it for LE legacy
pairing; of the port and of the Rust nothing is used. differential/methods calls it.

  method_table.py                       writes a line for each of the 400 pairs that differ in I/O, OOB and MITM
  method_table.py compare RUST PROGRAM  holds two files of such lines against these, octet by octet
  method_table.py self-test RUST PROGRAM
                                        changes each of the three texts in many ways, one at a time, and fails where the
                                        comparison does not notice
"""
import sys
from itertools import product, zip_longest
from pathlib import Path

# Table 2.8, LE legacy pairing: a row for each I/O capability of the responder, in it the initiators in the
# same order.
CAPABILITIES = ["DisplayOnly", "DisplayYesNo", "KeyboardOnly", "NoInputNoOutput", "KeyboardDisplay"]
TABLE_2_8 = {
    "DisplayOnly": [
        "Just Works",
        "Just Works",
        "Passkey Entry: responder displays, initiator inputs",
        "Just Works",
        "Passkey Entry: responder displays, initiator inputs",
    ],
    "DisplayYesNo": [
        "Just Works",
        "Just Works",
        "Passkey Entry: responder displays, initiator inputs",
        "Just Works",
        "Passkey Entry: responder displays, initiator inputs",
    ],
    "KeyboardOnly": [
        "Passkey Entry: initiator displays, responder inputs",
        "Passkey Entry: initiator displays, responder inputs",
        "Passkey Entry: initiator and responder input",
        "Just Works",
        "Passkey Entry: initiator displays, responder inputs",
    ],
    "NoInputNoOutput": [
        "Just Works",
        "Just Works",
        "Just Works",
        "Just Works",
        "Just Works",
    ],
    "KeyboardDisplay": [
        "Passkey Entry: initiator displays, responder inputs",
        "Passkey Entry: initiator displays, responder inputs",
        "Passkey Entry: responder displays, initiator inputs",
        "Just Works",
        "Passkey Entry: initiator displays, responder inputs",
    ],
}

# Table 2.6, LE legacy pairing: the OOB data flags of initiator and responder; where they leave it open, the
# MITM flags of both.
TABLE_2_6_OOB = {(1, 1): "Use OOB", (1, 0): "Check MITM", (0, 1): "Check MITM", (0, 0): "Check MITM"}
TABLE_2_6_MITM = {
    (1, 1): "Use IO Capabilities",
    (1, 0): "Use IO Capabilities",
    (0, 1): "Use IO Capabilities",
    (0, 0): "Use Just Works",
}

LETTERS = {
    "Just Works": "J",
    "Passkey Entry: initiator displays, responder inputs": "C",
    "Passkey Entry: responder displays, initiator inputs": "P",
    "Passkey Entry: initiator and responder input": "B",
    "OOB": "O",
}


def method(initiator, responder):
    io, oob, mitm = zip(initiator, responder)
    if TABLE_2_6_OOB[oob] == "Use OOB":
        return "OOB"
    if TABLE_2_6_MITM[mitm] == "Use Just Works":
        return "Just Works"
    return TABLE_2_8[CAPABILITIES[io[1]]][io[0]]


def table_text():
    pairs = product(range(5), range(2), range(2), range(5), range(2), range(2))
    return "".join(f"{''.join(map(str, pair))} {LETTERS[method(pair[:3], pair[3:])]}\n" for pair in pairs).encode()


def differences(texts):
    """The lines, each with its line feed, that are not the same in all texts; a line that is missing is one."""
    rows = list(zip_longest(*(text.splitlines(keepends=True) for text in texts)))
    return len(rows), [row for row in rows if len(set(row)) > 1]


def compare(texts):
    count, rows = differences(texts)
    for row in rows:
        print(" | ".join("nothing" if line is None else repr(line)[2:-1] for line in row))
    print(f"{count} pairs, {len(rows)} different")
    return count == 400 and not rows


def wrong_texts(text):
    """The text with one thing changed: an octet, a line left out, said twice or exchanged with the next, an end cut off."""
    lines = text.splitlines(keepends=True)
    for at, octet in enumerate(text):
        yield text[:at] + bytes([octet ^ 1]) + text[at + 1:]
    for at, line in enumerate(lines):
        yield b"".join(lines[:at] + lines[at + 1:])
        yield b"".join(lines[:at] + [line] + lines[at:])
        yield b"".join(lines[:at] + [line[:-1] + b" \n"] + lines[at + 1:])
        yield b"".join(lines[:at] + [b"\n"] + lines[at:])
    for at in range(len(lines) - 1):
        yield b"".join(lines[:at] + [lines[at + 1], lines[at]] + lines[at + 2:])
    yield text[:-1]
    yield text + b"\n"
    yield b""


def self_test(texts):
    if not compare(texts):
        return False
    tried = missed = 0
    for n, text in enumerate(texts):
        for wrong in wrong_texts(text):
            tried += 1
            missed += not differences(texts[:n] + [wrong] + texts[n + 1:])[1]
    print(f"{tried} changes, {missed} not noticed")
    return tried > 0 and missed == 0


def main(words):
    if words in (["-h"], ["--help"]):
        print(__doc__.strip())
        return 0
    if not words:
        sys.stdout.buffer.write(table_text())
        return 0
    if len(words) != 3 or words[0] not in ("compare", "self-test"):
        print("method_table: compare or self-test, and two files, are wanted; -h says more", file=sys.stderr)
        return 2
    texts = [table_text(), *(Path(file).read_bytes() for file in words[1:])]
    return 0 if (compare if words[0] == "compare" else self_test)(texts) else 1


if __name__ == "__main__":
    sys.exit(main(sys.argv[1:]))
