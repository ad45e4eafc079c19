"""Counts the places of docs/DESIGN-PASS.md in src/: python3 tools/design_places.py [COMMIT] [--list POINT]

Without a commit it reads the files of the checkout. What a pattern can't see was counted by reading; the page says so.
"""
import re
import subprocess
import sys
from pathlib import Path

ROOT = Path(__file__).resolve().parent.parent


def sources(commit):
    if commit is None:
        for path in sorted(ROOT.glob("crates/*/src/*.rt")):
            yield str(path.relative_to(ROOT)), path.read_text()
        return
    names = subprocess.run(["git", "ls-tree", "-r", "--name-only", commit, "crates"], cwd=ROOT, capture_output=True, text=True, check=True).stdout.split()
    for name in names:
        if re.fullmatch(r"crates/\w+/src/\w+\.rt", name):
            yield name, subprocess.run(["git", "show", f"{commit}:{name}"], cwd=ROOT, capture_output=True, text=True, check=True).stdout


def functions(text):
    """Name, signature with clauses, and body of each function."""
    for found in re.finditer(r"^( *)(?:pub )?(?:extern \"C\" )?fn (\w+)", text, re.M):
        end = re.search(rf"^{found.group(1)}\}}$", text[found.start():], re.M)
        whole = text[found.start():found.start() + end.end()] if end else text[found.start():]
        head, _, body = whole.partition(f"\n{found.group(1)}{{\n")
        yield found.group(2), head, body


def structs(text, kind):
    for found in re.finditer(rf"^(?:pub )?{kind} (\w+)[^{{;]*\{{\n(.*?)^\}}", text, re.M | re.S):
        yield found.group(1), found.group(2)


def own_enums(text):
    for name, body in structs(text, "enum"):
        variants = re.findall(r"^    (\w+)", body, re.M)
        if len(variants) <= 3 and not name.endswith("Error") and {"Refused", "None", "End", "Malformed"} & set(variants):
            yield name


def number_functions(text):
    for name, head, _ in functions(text):
        if re.search(r"-> u8\b", head) and re.search(r"refusal|^first$|^number$", name):
            yield name


def number_tests(text):
    for name, _, body in functions(text):
        for _ in re.finditer(r"\w*(?:refus|number)\w* != 0 \{", body):
            yield name


def flags(text):
    for name, body in structs(text, "struct"):
        fields = re.findall(r"^ +(?:pub )?(\w+): ([\w\[]+)", body, re.M)
        if len(fields) > 1 and any((f, t) in {("solved", "bool"), ("found", "bool"), ("told", "bool"), ("failed", "bool"), ("number", "u8")} for f, t in fields):
            yield name


def bits(text):
    """Private functions that answer 0 or 1 as a number, or 0 to 5 for a kind."""
    for name, head, _ in functions(text):
        if re.search(r"-> (u64|usize|u8)\b", head) and re.search(r"result ≤ 1|if t then 1 else 0|result < 6", head):
            yield name


def hand_counted(text):
    for name, _, body in functions(text):
        for found in re.finditer(r"while (\w+) < ", body):
            if re.search(rf"\b{found.group(1)} \+= ", body):
                yield name


def index_loops(text):
    for name, _, body in functions(text):
        for found in re.finditer(r"^( *)(?:'\w+: )?for (\w+) in [^{]*\.\.[^{]*\{\n(.*?)^\1\}", body, re.M | re.S):
            if re.search(rf"\[{found.group(2)}\]", found.group(3)):
                yield name


def range_loops(text):
    for name, _, body in functions(text):
        for _ in re.finditer(r"^ *(?:'\w+: )?for \w+ in [^{]*\.\.", body, re.M):
            yield name


def lengths_beside(text):
    for name, head, _ in functions(text):
        if re.search(r"\b[nmk]: usize", head) and re.search(r"\b[nmk] ≤ length \w+\.(now|old)", head):
            yield name


FACTS = [r"k\.0 ≤ max_terms", r"n ≤ length \w+\.(now|old)", r"sum_places ≤ length", r"matrix_places ≤ length", r"All Plain"]


def facts(text):
    for name, head, _ in functions(text):
        if any(re.search(f"requires.*{fact}", head) for fact in FACTS):
            yield name


def long_lists(text):
    for name, head, _ in functions(text):
        if len(re.findall(r"\w+: ", head.split("requires")[0].split("ensures")[0])) >= 9 and "extern" not in head:
            yield name


POINTS = {
    "1 own enums like Option or Result": own_enums,
    "1 functions that answer a refusal's number": number_functions,
    "1 tests of such a number": number_tests,
    "1 structs with a flag or a number beside values": flags,
    "1 numbers for yes and no, or for kinds": bits,
    "3 loops that count by hand": hand_counted,
    "3 index loops over a slice": index_loops,
    "(3 all loops over a range)": range_loops,
    "5 functions that require one of the five common facts": facts,
    "5 functions of nine parameters and more, C's apart": long_lists,
    "6 functions that take a slice and a length": lengths_beside,
}


def main():
    arguments = [a for a in sys.argv[1:] if not a.startswith("--")]
    listed = "--list" in sys.argv
    if listed:
        point = arguments.pop()
    texts = list(sources(arguments[0] if arguments else None))
    for point_name, find in POINTS.items():
        found = [(path, name) for path, text in texts for name in find(text)]
        if not listed:
            print(f"{len(found):4}  {point_name}")
        elif point in point_name:
            print(point_name)
            for path, name in found:
                print(f"    {path} {name}")


main()
