#!/usr/bin/env python3
"""Checks what a proof does not see: crates.txt, must-fail edits, the layer table of docs/DESIGN.md, the lists of files of docs/READING.md, long contracts,
definitions apart from laws. Run in the repository's root.

crates.txt: every crate folder is on it and the other way round, each crate after those it rests on. A line lists the libraries that the crate's own
files name, may list those that declare the types which its code reaches, and no others: the prover finds what these rest on by itself.
Edits: the first line is a comment that names an input; each `old:` text stands exactly once in its file.
docs/DESIGN.md: the table of layers has every crate, in the order of crates.txt. Each edit is named, as `WHAT`, or as `CRATE/WHAT`, which it must be where two crates have
an edit of that name.
Both: what is named as `CRATE::NAME` is in the code of that crate.
docs/READING.md: each list of files to read has as many lines as it says, and so have the files of its command, which are those of the first table.
Files: no contract line is longer than 300 characters; no comment of specs/ or proofs/ says that nothing is assumed, which the prover sees to.
specs/: a file whose first comment says `Definitions only.` has no law, and any other has no definition that is `pub`.

With --lines it prints crates.txt's lines as they should be, and checks nothing."""
import re
import sys
from itertools import takewhile, zip_longest
from pathlib import Path

KIT = {'check', 'io', 'itoa'}
LONGEST = 300
CRATES = Path('crates')
DESIGN = Path('docs/DESIGN.md')
READING = Path('docs/READING.md')
wrong = []


def files(crate, parts):
    return sorted(f for part in parts for f in (CRATES / crate / part).rglob('*') if f.suffix in ('.rt', '.antt'))


def without_comments(path):
    mark = r'//.*' if path.suffix == '.rt' else r'(^|\s)--.*'
    return re.sub(mark, '', path.read_text(encoding='utf-8'), flags=re.M)


def listed_crates():
    crates = {}
    for number, line in enumerate(Path('crates.txt').read_text(encoding='utf-8').splitlines(), 1):
        line = line.split('#')[0].strip()
        if not line:
            continue
        name, _, deps = line.partition(':')
        name = name.removesuffix(' staticlib')
        for dep in deps.split():
            if dep not in crates and dep not in KIT:
                wrong.append(f'crates.txt:{number}: {name} stands before {dep}, on which it rests, or there is no {dep}')
        crates[name.strip()] = deps.split()
    return crates


def code_of(crate):
    return '\n'.join(without_comments(f) for f in files(crate, ['src']))


# The libraries that a crate names: `NAME::` in its code, where no module of its own has that name, and `Rattle.NAME` in contracts, definitions and
# proofs.
def named_by(crate, libraries):
    code = code_of(crate)
    paths = set(re.findall(r'(?<![\w:])(\w+)::', code)) - set(re.findall(r'\bmod (\w+);', code))
    logic = {name for f in files(crate, ['src', 'specs', 'proofs']) for name in re.findall(r'\bRattle\.(\w+)', without_comments(f))}
    return (paths & libraries | logic) - {crate, 'std'}


# What code uses of the crates: (NAME, item) for `NAME::item`.
def items_in(code, crates):
    return {(name, item) for name, item in re.findall(r'(?<![\w:])(\w+)::(\w+)', code) if name in crates}


# The types in a function's signature, or in a type's fields and methods: (NAME, type), NAME the crate that declares it.
def types_of(crate, item, crates):
    code = code_of(crate)
    owner = {name: crate for name in re.findall(r'\bpub (?:struct|enum) (\w+)', code)}
    owner.update({name: of for of, name in items_in(code, crates)})
    function = rf'\bpub fn {item}\b.*?(?=\brequires\b|\bensures\b|{{)'
    fields = rf'\bpub (?:struct|enum) {item}\b.*?(?:^}}|\);$)'
    methods = rf'^impl {item}\b.*?^}}'
    texts = re.findall(f'{function}|{fields}|{methods}', code, re.S | re.M)
    return {(owner[word], word) for text in texts for word in re.findall(r'\b[A-Z]\w*', text) if word in owner}


# The crates that declare the types which a crate's code reaches, named or not: the prover asks for some of these on the crate's line.
def reached_by(crate, crates):
    todo, seen = items_in(code_of(crate), crates), set()
    while todo:
        name, item = todo.pop()
        seen.add((name, item))
        todo |= types_of(name, item, crates) - seen
    return {name for name, item in seen if item[0].isupper()} - {crate}


def check_crates(crates):
    folders = {d.name for d in CRATES.iterdir() if d.is_dir()}
    wrong.extend(f'crates.txt: crates/{name} is not on it' for name in sorted(folders - crates.keys()))
    wrong.extend(f'crates.txt: there is no crates/{name}' for name in sorted(crates.keys() - folders))
    for crate in (name for name in crates if name in folders):
        deps, named, reached = crates[crate], named_by(crate, crates.keys() | KIT), reached_by(crate, crates)
        wrong.extend(f'crates.txt: {crate} lists {dep}, and neither names it nor reaches a type of it' for dep in deps if dep not in named | reached)
        wrong.extend(f'crates.txt: {crate} names {dep}, and does not list it' for dep in sorted(named - set(deps)))
        wrong.extend(f'crates.txt: {crate} lists {dep} twice' for dep in sorted({d for d in deps if deps.count(d) > 1}))


def check_edit(path):
    crate, texts, pairs, file, old = path.parent.parent, {}, 0, None, None
    lines = path.read_text(encoding='utf-8').splitlines()
    if not lines or not re.match(r'# .*\d', lines[0]):
        wrong.append(f'{path}: the first line is no comment that names an input, with its numbers')
    for line in lines:
        if line.startswith('file: '):
            file = crate / line[len('file: '):]
        elif line.startswith('old: '):
            old = line[len('old: '):]
        elif line.startswith('new:'):
            if file is None or not file.is_file() or file.relative_to(crate).parts[0] not in ('src', 'specs'):
                wrong.append(f'{path}: no file of src/ or specs/ is named')
                return
            text = texts.get(file) or file.read_text(encoding='utf-8')
            count = text.count(old) if old else 0
            if count != 1:
                wrong.append(f'{path}: the old text stands {count} times in {file}, and not once')
                return
            texts[file] = text.replace(old, re.sub('^new: ?', '', line))
            old, pairs = None, pairs + 1
    if pairs == 0:
        wrong.append(f'{path}: it changes nothing')


def check_edits(crates):
    edits = 0
    for crate in crates:
        for path in sorted((CRATES / crate / 'must-fail').glob('*')):
            if path.suffix == '.edit':
                check_edit(path)
                edits += 1
            else:
                wrong.append(f'{path}: not NAME.edit, so nothing tries it')
    return edits


def check_design(crates):
    part = DESIGN.read_text(encoding='utf-8').split('## Layers')[-1].split('\n## ')[0]
    rows = re.findall(r'^\| `(\w+)` \|', part, re.M)
    wrong.extend(f'{DESIGN}: the layers have no row for {name}' for name in crates if name not in rows)
    wrong.extend(f'{DESIGN}: the layers have a row for {name}, which is no crate' for name in rows if name not in crates)
    if set(rows) == crates.keys() and rows != [*crates]:
        ours, theirs = next(pair for pair in zip_longest(rows, crates, fillvalue='no more') if pair[0] != pair[1])
        wrong.append(f'{DESIGN}: the layers have {ours} where crates.txt has {theirs}')


def check_edits_named(crates):
    quoted = set(re.findall(r'`([^`\n]+)`', DESIGN.read_text(encoding='utf-8')))
    paths = [path for crate in crates for path in sorted((CRATES / crate / 'must-fail').glob('*.edit'))]
    names = [path.stem for path in paths]
    for path in paths:
        name, whole = path.stem, f'{path.parent.parent.name}/{path.stem}'
        if whole not in quoted and (name not in quoted or names.count(name) > 1):
            wrong.append(f'{DESIGN}: the edit {whole} is not named')


# An item that a text names as `CRATE::NAME`, or with modules and types between, is declared or passed on in that crate.
def check_items_named(crates):
    for text in (DESIGN, READING):
        for name in sorted(set(re.findall(r'`([a-z_]+(?:::\w+)+)`', text.read_text(encoding='utf-8')))):
            crate, item = name.split('::')[0], name.split('::')[-1]
            if crate in crates and not re.search(rf'\b(?:fn|struct|enum|const|trait|type|mod|macro_rules!)\s+{item}\b|\bpub use\b[^;]*\b{item}\b', code_of(crate)):
                wrong.append(f'{text}: there is no {name}')


# The files that a text names: CRATE/specs/NAME, or several as CRATE/specs/{NAME,NAME}.
def files_named(text):
    found = re.findall(r'(\w+/specs/)(?:\{([\w,]+)\}|(\w+))', text)
    return [CRATES / f'{folder}{name}.antt' for folder, several, one in found for name in (several or one).split(',')]


def count_lines(paths, begin=''):
    return sum(line.startswith(begin) for path in paths for line in path.read_text(encoding='utf-8').splitlines())


def check_reading():
    text = READING.read_text(encoding='utf-8')
    row = re.compile(r'^\| .* \| (.*) \| (\d+) \|$', re.M)
    lists = [(files_named(files), int(said)) for files, said in row.findall(text)]
    first = files_named(' '.join(files for files, _ in row.findall(text.split('```')[0])))
    command = files_named(' '.join(re.findall(r'^wc -l .*', text, re.M)))
    missing = sorted({path for files in [command, *(files for files, _ in lists)] for path in files if not path.is_file()})
    wrong.extend(f'{READING}: there is no {path}' for path in missing)
    if missing:
        return
    for files, said in lists:
        if count_lines(files) != said:
            wrong.append(f'{READING}: the files from {files[0]} on have {count_lines(files)} lines, and not {said}')
    total = f'{count_lines(command):,} lines in {len(command)} files, {count_lines(command, "use ")} of them imports'
    if f'\n{total},' not in text:
        wrong.append(f'{READING}: its command counts {total}')
    if sorted(first) != sorted(command):
        wrong.append(f'{READING}: its command and the table above it have other files: {", ".join(sorted(map(str, {*first} ^ {*command})))}')


def check_files(crates):
    for crate in crates:
        for path in files(crate, ['src']):
            for number, line in enumerate(path.read_text(encoding='utf-8').splitlines(), 1):
                if re.match(r'\s*(?:requires|ensures)\b', line) and len(line) > LONGEST:
                    wrong.append(f'{path}:{number}: a contract line of {len(line)} characters, where {LONGEST} is the most')
        for path in files(crate, ['specs', 'proofs']):
            if 'Assumes nothing.' in path.read_text(encoding='utf-8'):
                wrong.append(f'{path}: it says `Assumes nothing.`, which holds of every file')


# The first lines of a file's declarations, those inside `module _ .. where` too, and without fields, `where` and what goes on.
def declarations(lines):
    level = 0
    for line in lines:
        text = line.lstrip(' ')
        indent = len(line) - len(text)
        if text and not text.startswith('--') and indent <= level:
            level = indent + 2 * text.startswith('module ')
            yield text


# A law has no word before its name but `pub`: by that it is told from a definition.
def check_specs(crates):
    for crate in crates:
        for path in files(crate, ['specs']):
            lines = path.read_text(encoding='utf-8').splitlines()
            comment = ' '.join(line.strip('- ') for line in takewhile(lambda line: line.startswith('--'), lines))
            only = 'Definitions only.' in comment
            kind = r'(?:pub )?(\S+) :(?: |$)' if only else r'(?:unfoldable pub|abbrev pub|pub record|pub data) (\S+)'
            found = [m[1] for m in (re.match(kind, text) for text in declarations(lines)) if m]
            if found:
                wrong.append(f'{path}: it {"says" if only else "does not say"} `Definitions only.`, and has the {"law" if only else "definition"} {found[0]}')


def main():
    crates = listed_crates()
    if sys.argv[1:] == ['--lines']:
        for crate in crates:
            named = named_by(crate, crates.keys() | KIT) | reached_by(crate, crates)
            print(f'{crate}:', *[name for name in [*crates, *sorted(KIT)] if name in named])
        return 0
    check_crates(crates)
    edits = check_edits(crates)
    check_design(crates)
    check_edits_named(crates)
    check_items_named(crates)
    check_reading()
    check_files(crates)
    check_specs(crates)
    for line in wrong:
        print('layout:', line)
    if wrong:
        return 1
    print(f'layout: {len(crates)} crates and {edits} edits: dependencies, old texts, names in the tables, lists of files, contract lines and definitions are in order')
    return 0


sys.exit(main())
