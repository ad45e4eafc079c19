#!/usr/bin/env python3
"""The words of the refusals stand once, in include/refusals.txt: a line for each, NUMBER<TAB>words, in the checking order, 255 last. This writes them into the
header's table and into Python's copy; with --check it writes nothing, and fails where either differs from the file. Run in the repository's root.

The file is judged too: its numbers must be those of `checking_order` (crates/refusal/specs/Refusals.antt), in that order, which every call is proved to keep.
A line of the table that begins with no number is a note: it is the header's own and stays behind the refusal that it stands behind."""
import re
import sys
from pathlib import Path

WORDS = Path('include/refusals.txt')
HEADER = Path('include/stakebook.h')
# the repository has no links, so Python's package has a copy
COPY = Path('python/stakebook/refusals.txt')
ORDER = Path('crates/refusal/specs/Refusals.antt')
MALFORMED = 255
LONGEST = 165  # of a line in the header
TABLE = re.compile(r'(?<= \* Refusals, in the order in which they are checked:\n)(?: \* .*\n)+(?= \*/\n)')
ROW = re.compile(r' \* {1,3}(\d+)  \S')
REPLAY = re.compile(r'(?<=/\* of stakebook_replay: )[^.]*(?=\. )')


def fail(what):
    sys.exit(f'refusal words: {what}')


def read_words():
    words = {}
    for number, line in enumerate(WORDS.read_text(encoding='utf-8').splitlines(), 1):
        row = re.fullmatch(r'([1-9][0-9]*)\t(\S.*\S)', line)
        if not row:
            fail(f'{WORDS}:{number}: not NUMBER<TAB>words')
        if int(row[1]) in words or row[2] in words.values():
            fail(f'{WORDS}:{number}: its number or its words stand twice')
        if '*/' in row[2] or len(f' * 255  {row[2]}') > LONGEST:
            fail(f'{WORDS}:{number}: does not fit a line of the header')
        words[int(row[1])] = row[2]
    return words


def proved_order():
    listed = re.search(r'^checking_order = ([0-9 ∷]*) ∷ \[\]$', ORDER.read_text(encoding='utf-8'), re.M)
    if not listed:
        fail(f'{ORDER} has no checking_order')
    return [int(number) for number in listed[1].split(' ∷ ')]


# The one match of a pattern in the header.
def only(pattern, text, what):
    found = list(pattern.finditer(text))
    if len(found) != 1:
        fail(f'{HEADER} has {len(found)} places for {what}, and needs one')
    return found[0]


def written(header, words):
    table = only(TABLE, header, 'the table of refusals')
    notes, number = {}, None
    for line in table[0].splitlines(keepends=True):
        row = ROW.match(line)
        if row:
            number = int(row[1])
        elif number is None:
            fail(f'{HEADER}: the table of refusals begins with a note')
        else:
            notes[number] = notes.get(number, '') + line
    for number in sorted(notes.keys() - words.keys()):
        fail(f'{HEADER} has a note on {number}, which {WORDS} has not')
    rows = ''.join(f' * {number:>3}  {words[number]}\n' + notes.get(number, '') for number in words if number != MALFORMED)
    header = header[: table.start()] + rows + header[table.end() :]
    only(REPLAY, header, 'the words of a malformed list')
    return REPLAY.sub(lambda _: words[MALFORMED], header)


def main():
    if sys.argv[1:] not in ([], ['--check']):
        sys.exit('usage: tools/refusal_words.py [--check]')
    words = read_words()
    order = proved_order() + [MALFORMED]
    if list(words) != order:
        fail(f'{WORDS} has the numbers {list(words)}, and the checking order is {order}')
    header = HEADER.read_text(encoding='utf-8')
    right = written(header, words)
    if sys.argv[1:] == ['--check']:
        for line, (is_now, should_be) in enumerate(zip(header.splitlines(), right.splitlines()), 1):
            if is_now != should_be:
                fail(f'{HEADER}:{line} is not as {WORDS} has it; `python3 tools/refusal_words.py` writes it:\n{should_be}')
        if header != right:
            fail(f'{HEADER} has more or fewer refusals than {WORDS}; `python3 tools/refusal_words.py` writes them')
        if COPY.read_bytes() != WORDS.read_bytes():
            fail(f'{COPY} is not as {WORDS}; `python3 tools/refusal_words.py` writes it')
    else:
        if header != right:
            HEADER.write_text(right, encoding='utf-8')
        COPY.write_bytes(WORDS.read_bytes())
    print(f'refusal words: {len(words)} in the checking order, and the header and Python have them')


main()
