#!/usr/bin/env python3
"""The twins of the must-fail edits: an edit of the same place and shape after which nothing is wrong, which the prover must accept. Where it does not,
the refusal of the edit shows only that the proof did not fit another shape. Run in the repository's root.

An edit changes in place if its new text has the tokens of the old one but for names and numbers, comparisons, signs of arithmetic, or `&` and `|`,
each for one of its kind, with the same calls in the same order: then the code as it stands is its twin. Every other edit has a file
tools/twins/CRATE/NAME.edit in the same format, which may change proofs/ too, or one of comments alone, which say why there is no twin.

Without words it checks just that, in a moment. `--run` has the prover try every twin (a minute each), `--run CRATE` or `--run CRATE/NAME` some.
`--said FILE` reads what `rt must-fail` or `rt ci` printed: a proof that names what an edit took away did not fit the shape, in place or not."""
import re
import shutil
import subprocess
import sys
import tempfile
from pathlib import Path

CRATES = Path('crates')
TWINS = Path('tools/twins')
# a number; a name with its path and fields; a sign
TOKEN = re.compile(r'\d[\w]*(?:\.\d+(?:e-?\d+)?)?|[^\W\d]\w*(?:(?:::|\.)[^\W\d]\w*|\.\d+)*|<=|>=|==|!=|\.\.|\S')
# words of the language; a test of `true` or `false` is not even made
WORDS = {'as', 'const', 'else', 'false', 'for', 'if', 'in', 'let', 'match', 'mut', 'return', 'true', 'while'}
KINDS = [{'<', '<=', '>', '>=', '==', '!=', '≤'}, {'+', '-', '*', '/'}, {'&', '|'}]
MISFIT = 'only because a proof file names what the edit took away'
wrong = []


def pairs(path):
    file = old = None
    for line in path.read_text(encoding='utf-8').splitlines():
        if line.startswith('file: '):
            file = line[len('file: '):]
        elif line.startswith('old: '):
            old = line[len('old: '):]
        elif line.startswith('new:'):
            yield file, old, re.sub('^new: ?', '', line)


def is_operand(token):
    return token not in WORDS and re.match(r'\w', token) is not None


def kind(token):
    return 'operand' if is_operand(token) else next((min(signs) for signs in KINDS if token in signs), token)


def calls(tokens):
    return [token for token, after in zip(tokens, tokens[1:]) if after == '(' and is_operand(token)]


def in_place(old, new):
    a, b = TOKEN.findall(old), TOKEN.findall(new)
    return [*map(kind, a)] == [*map(kind, b)] and calls(a) == calls(b)


def check_twin(crate, path):
    texts = {}
    for file, old, new in pairs(path):
        where = CRATES / crate / file
        text = texts.get(file) or (where.read_text(encoding='utf-8') if where.is_file() else '')
        if text.count(old) != 1:
            wrong.append(f'{path}: the old text stands {text.count(old)} times in {file}, and not once: {old}')
            return
        texts[file] = text.replace(old, new)


def label(path):
    return f'{path.parent.name}/{path.stem}'


def check():
    edits = {f'{path.parent.parent.name}/{path.stem}': path for path in sorted(CRATES.glob('*/must-fail/*.edit'))}
    twins = {label(path): path for path in sorted(TWINS.glob('*/*.edit'))}
    standing = {name for name, path in edits.items() if all(in_place(old, new) for _, old, new in pairs(path))}
    for name in sorted(edits.keys() - standing - twins.keys()):
        wrong.append(f'{edits[name]}: it does not change in place, and there is no {TWINS}/{name}.edit')
    for name, path in twins.items():
        if name not in edits:
            wrong.append(f'{path}: there is no such edit')
        elif path.read_text(encoding='utf-8').startswith('# '):
            check_twin(path.parent.name, path)
        else:
            wrong.append(f'{path}: it does not begin with a comment')
    none = [name for name, path in twins.items() if not any(pairs(path))]
    return f'{len(edits)} edits: {len(standing)} change in place, {len(twins) - len(none)} have a twin, {len(none)} say why not', twins


# A copy of the crates, and the twins in the place of the edits. A check there begins with what one here kept.
def copy_to(folder, chosen):
    shutil.copytree(CRATES, folder / 'crates', ignore=shutil.ignore_patterns('must-fail', 'out'))
    shutil.copy('crates.txt', folder)
    for path in chosen:
        to = folder / 'crates' / path.parent.name / 'must-fail'
        to.mkdir(exist_ok=True)
        shutil.copy(path, to)


# Has `rt must-fail` try the twins: it must refuse none.
def run(twins, wanted):
    chosen = [path for name, path in twins.items() if any(pairs(path)) and (not wanted or name in wanted or path.parent.name in wanted)]
    crates = sorted({path.parent.name for path in chosen})
    with tempfile.TemporaryDirectory() as folder:
        copy_to(Path(folder), chosen)
        said = subprocess.run(['rt', 'must-fail', *crates], cwd=folder, stdout=subprocess.PIPE, stderr=subprocess.STDOUT, encoding='utf-8', check=False).stdout
        told = dict(re.findall(r'^rt: must-fail (\S+)\.edit: (.*)$', said, re.M))
        for path in chosen:
            what = told.get(label(path), said[-300:])
            if not what.startswith('NOT REFUSED'):
                wrong.append(f'{path}: not accepted: {what}')
    return f'{len(chosen)} accepted'


def read_said(path):
    told = re.findall(r'^rt: must-fail (\S+)\.edit: (.*)$', Path(path).read_text(encoding='utf-8'), re.M)
    wrong.extend(f'{name}: the proof did not fit the shape' for name, what in told if MISFIT in what)
    return f'{len(told)} edits: the proofs fitted the shape'


def main():
    said, twins = check()
    if not wrong and sys.argv[1:2] == ['--run']:
        said = run(twins, sys.argv[2:])
    elif not wrong and sys.argv[1:2] == ['--said'] and len(sys.argv) == 3:
        said = read_said(sys.argv[2])
    for line in wrong:
        print('twins:', line)
    if not wrong:
        print('twins:', said)
    return 1 if wrong else 0


sys.exit(main())
