#!/usr/bin/env python3
"""Compares the t table and the z scores of specs/ with the text of the Rust, entry by entry. Run in the repository's root.

The 180 entries and the six z scores are read out of crates/statistics/specs/Table.antt, in thousandths, and which z score belongs to
which confidence out of Scores.antt beside it. The Rust is reference/src/statistics.rs. Nothing is written here a second time."""
import re
import sys
from decimal import Decimal

TABLE = 'crates/statistics/specs/Table.antt'
SCORES = 'crates/statistics/specs/Scores.antt'
RUST = 'reference/src/statistics.rs'


def without_comments(text, mark):
    return '\n'.join(line.split(mark)[0] for line in text.split('\n'))


def list_of_specs(name):
    text = without_comments(open(TABLE, encoding='utf-8').read(), '--')
    body = re.search(rf'^{name} =(.*?)\[\]', text, re.M | re.S).group(1)
    return [int(word) for word in body.replace('∷', ' ').split()]


def z_scores_of_specs():
    text = without_comments(open(SCORES, encoding='utf-8').read(), '--')
    numbers = list_of_specs('z_thousandths')
    return {name: numbers[int(col)] for name, col in re.findall(r'^z_score (P\d+) = z_at (\d+)$', text, re.M)}


def entries_of_rust(text):
    body = re.search(r'const T_TABLE: &\[&\[f64\]\] = &\[(.*?)\n\s*\];', text, re.S).group(1)
    body = re.sub(r'/\*.*?\*/', '', body)
    rows = re.findall(r'&\[(.*?)\]', body)
    return [word.strip() for row in rows for word in row.split(',')]


def z_scores_of_rust(text):
    body = re.search(r'pub fn z_score\(self\) -> f64 \{(.*?)\n    \}', text, re.S).group(1)
    return dict(re.findall(r'Confidence::(P\d+) => ([\d.]+),', body))


def main():
    rust = open(RUST, encoding='utf-8').read()
    ours, theirs = list_of_specs('thousandths'), entries_of_rust(rust)
    z_ours, z_theirs = z_scores_of_specs(), z_scores_of_rust(rust)
    wrong = []
    if len(ours) != 180 or len(theirs) != 180:
        wrong.append(f'{len(ours)} entries in {TABLE}, {len(theirs)} in {RUST}, and not 180')
    for i, (a, b) in enumerate(zip(ours, theirs)):
        if a != Decimal(b) * 1000:
            wrong.append(f'df {i // 6 + 1}, column {i % 6 + 1}: {a} thousandths in {TABLE}, {b} in {RUST}')
    if len(z_ours) != 6 or z_ours.keys() != z_theirs.keys():
        wrong.append(f'z scores {sorted(z_ours)} in {SCORES}, {sorted(z_theirs)} in {RUST}')
    for name in sorted(z_ours.keys() & z_theirs.keys()):
        if z_ours[name] != Decimal(z_theirs[name]) * 1000:
            wrong.append(f'z score {name}: {z_ours[name]} thousandths in {TABLE}, {z_theirs[name]} in {RUST}')
    for line in wrong:
        print('table:', line)
    if wrong:
        return 1
    print(f'table: {len(ours)} entries and {len(z_ours)} z scores agree with {RUST}')
    return 0


sys.exit(main())
