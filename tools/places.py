#!/usr/bin/env python3
"""Candidates for the points of docs/DESIGN-PASS.md in crates/*/src, by pattern: `tools/places.py [FOLDER] [POINT..]`.

With no point it prints one line for each pattern, with the count of lines; with points also the lines. A candidate is a
place to look at, and the page says which of them are places.
"""
import collections
import pathlib
import re
import sys

PATTERNS = [
    ("1 a number for a kind, a layer or a refusal", r"fn (number|code|layer)\(self\) -> u8|_(KIND|LAYER): u8|pub (number|layer): u8"),
    ("1 a bool in a struct or a parameter", r"^\s+(pub(\([a-z: ]+\))? )?[a-z_]+: bool,$|fn .*[(, ][a-z_]+: bool[,)]"),
    ("1 an enum", r"^\s*(pub(\([a-z]+\))? )?enum "),
    ("1 a test of plain data, after which a literal may be built", r"^(?!.*fn is_).*is_(valid|task_set|order|choice)\("),
    ("3 a loop over a range by a named index", r"for (?!_ )[a-z_]+ in \(?[0-9a-z_]+\.\."),
    ("3 an index that is counted up or down", r"[+-]= 1;"),
    ("3 a loop that numbers its items", r"for .*enumerate\(\)"),
    ("3 a loop that ends at the first item that fits", r"^\s+return (true|false|Some\([a-z]\)|i);"),
    ("4 a value written out where a derive would do", r"const (BLANK|EMPTY|NOBODY|NO_TASK)\b"),
    ("4 a conversion or a print by hand", r"fn (number|code|notice|outcome|came|refused|line|word_of|print_[a-z]+|add_(fixed|tasks|numbers))\(|cost \{\}, deadline"),
    ("6 an array of 8 or 32", r"\[[A-Za-z0-9_:() ]+; (8|32)\]"),
    ("7 a switch, a dyn value or a function pointer", r"\bdyn |: fn\(|higher: bool|with_bounds: bool"),
]


def sources(top):
    return sorted(top.glob("crates/*/src/**/*.rt"))


def repeated_clauses(top):
    """Clauses that stand in three or more contracts, word for word."""
    found = collections.defaultdict(list)
    for path in sources(top):
        for number, line in enumerate(path.read_text().split("\n"), 1):
            clause = re.match(r"\s+(requires|ensures)( [a-z_]+)? \{ (.*)", line)
            if clause:
                found[clause.group(1) + " " + clause.group(3)].append(f"{path.relative_to(top)}:{number}")
    return [(text, at) for text, at in found.items() if len(at) >= 3]


def same_parameters(top):
    """Runs of three or more parameters that stand in three or more functions."""
    found = collections.defaultdict(set)
    for path in sources(top):
        for call in re.finditer(r"fn (\w+)(?:<[^(]*>)?\(([^)]*)\)", path.read_text()):
            names = [p.split(":")[0].strip() for p in call.group(2).split(",") if ":" in p]
            for size in range(3, len(names) + 1):
                for start in range(len(names) - size + 1):
                    found[tuple(names[start:start + size])].add(f"{path.relative_to(top)} {call.group(1)}")
    return [(names, sorted(at)) for names, at in found.items() if len(at) >= 3]


def main():
    args = sys.argv[1:]
    top = pathlib.Path(args.pop(0)) if args and not args[0].isdigit() else pathlib.Path(".")
    for title, pattern in PATTERNS:
        lines = [f"{path.relative_to(top)}:{number}: {line.strip()}" for path in sources(top)
                 for number, line in enumerate(path.read_text().split("\n"), 1) if re.search(pattern, line)]
        print(f"{len(lines):4}  {title}")
        if title[0] in args:
            print("\n".join("      " + line for line in lines))
    for title, groups in [("5 clauses that stand in three or more contracts", repeated_clauses(top)),
                          ("5 runs of three or more parameters in three or more functions", same_parameters(top))]:
        print(f"{len(groups):4}  {title}")
        if "5" in args:
            for what, at in groups:
                print(f"      {len(at)} {what}")
    answers = list(top.glob("crates/*/proofs/**/Answers.antt"))
    goals = sum(len(re.findall(r"^pub \S+ : goal", path.read_text(), re.M)) for path in answers)
    print(f"{goals:4}  8 goals that are answered by hand, in {len(answers)} files")
    proofs = list(top.glob("crates/*/proofs/**/*.antt"))
    print(f"{sum(len(path.read_text().splitlines()) for path in proofs):4}  8 lines of proofs, in {len(proofs)} files")


main()
