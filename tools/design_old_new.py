"""Makes docs/DESIGN-PASS-OLD-NEW.md anew: python3 tools/design_old_new.py FILE

FILE is what `contracts.py OLD NEW --json` of Rattle's kit printed, of the trees of two commits. The two tables of what went, with what states its promise now, are
written by hand: they are taken over from the page, and what they lack is printed."""
import json
import re
import sys
from pathlib import Path

PAGE = Path('docs/DESIGN-PASS-OLD-NEW.md')


def flat(text):
    return re.sub(r'\s+', ' ', text).strip()


def diff(title, old, new):
    lines = [f'- {flat(t)}' for t in old if t not in new] + [f'+ {flat(t)}' for t in new if t not in old]
    return f'{title}\n\n```diff\n' + '\n'.join(lines) + '\n```\n'


def clauses(pairs):
    return [f'{label}: {text}' if label else text for label, text in pairs]


def main():
    data = json.loads(Path(sys.argv[1]).read_text(encoding='utf-8'))
    page = PAGE.read_text(encoding='utf-8')
    head = page[:page.index('## Signatures')]
    went = page[page.index('## Functions that went'):page.index('## Definitions and laws\n')]
    gone = [re.match(r'(\S+) src/(\S+) (.*?) \(requires', f).groups() for f in data['functions not found again']]
    named = set(re.findall(r'^\| `(\w+)`, (\S+): `([^`]+)` \|', went, re.M))
    laws = set(re.findall(r'^\| `(\w+)` \| `([^`]+)` \|', went, re.M))
    for missing in [g for g in gone if g not in named] + [tuple(g) for g in data['definitions']['gone'] if tuple(g) not in laws]:
        print('the page lacks', missing)
    for back in [n for n in named if n not in gone] + [n for n in laws if list(n) not in data['definitions']['gone']]:
        print('the page has, and it stands', back)
    out = [head + '## Signatures\n']
    out += [diff(f'`{name}`', [old], [new]) for name, old, new in sorted(data['signatures changed'])]
    out.append('## Clauses\n')
    for name, old_requires, old_ensures, new_requires, new_ensures in sorted(data['contracts changed']):
        old = [f'requires {c}' for c in clauses(old_requires)] + [f'ensures {c}' for c in clauses(old_ensures)]
        new = [f'requires {c}' for c in clauses(new_requires)] + [f'ensures {c}' for c in clauses(new_ensures)]
        out.append(diff(f'`{name}`', old, new))
    out.append(went.rstrip() + '\n')
    out.append('## Definitions and laws\n')
    out += [diff(f'`{crate}`: `{name}`', old, new) for crate, name, old, new in sorted(data['definitions']['changed'])]
    out.append('## Must-fail edits\n\nEach has its name, its input and what is wrong in it as before.\n')
    out += [diff(f'`{crate}`: `{name}`', [old], [new]) for crate, name, old, new in sorted(data['edits and outputs']['changed'])]
    PAGE.write_text('\n'.join(out), encoding='utf-8')


main()
