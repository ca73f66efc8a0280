#!/usr/bin/env python3
"""Respells this repository's own definitions and lemmas: words joined by '_' where they were joined by '-'.

usage: python3 tools/respell.py [--list]      at the top, once, after port.py

Names of the library keep their spelling. Names that the checker makes (of goals, and of the steps that an answer cites) keep
their dashes between parts, and have the words of the source in the source's spelling.
"""
import collections
import glob
import re
import sys

TOKEN = re.compile(r"(?<![\w'-])[A-Za-z_][\w']*(?:-[\w']+)+(?![\w'-])")
DEFINED = re.compile(r"^\s*(?:(?:pub|abbrev|unfoldable|data|record|ruleset)\s+)*((?:[\w'-]+\s+)*?[\w'-]+)\s*(?:[({].*[)}]\s*)?:(?=\s|$)", re.M)
USE = re.compile(r"^\s*(?:pub\s+)?(?:ghost\s+)?use\s+([^\s{;]+)\.\{([^}]*)\}", re.M)
SINGLE = re.compile(r"^\s*(?:pub\s+)?(?:ghost\s+)?use\s+([^\s{;]+)(?:\s+as\s+\S+)?;?\s*$", re.M)
MADE = {"Goals", "Given"}


def read(p):
    with open(p, encoding="utf-8") as f:
        return f.read()


def crates():
    return {p.split("/")[1] for p in glob.glob("crates/*/src")}


def imported(text, own):
    """Names that a file takes from a library or from what the checker makes."""
    out = set()
    for path, names in USE.findall(text):
        parts = path.split(".")
        mine = parts[0] == "Rattle" and len(parts) > 1 and parts[1] in own
        if mine and parts[-1] not in MADE and "declared" not in parts:
            continue
        for n in names.split(","):
            out.add(n.strip().split(" ")[0])
    return out


def goals(text):
    return set(re.findall(r"goal\.([\w'-]+)", text))


def words(crate):
    """Identifiers of a crate's sources, which keep their spelling inside the names that the checker makes."""
    found = {"push_reserved", "index_mut", "into_iter", "as_slice", "as_str", "split_at", "with_capacity", "to_vec", "from_residual", "wrapping_add", "checked_sub",
             "saturating_sub", "saturating_add", "from_fn", "in_default", "in_ok", "in_err", "invariant_of", "overflow_add", "overflow_sub", "overflow_mul",
             "overflow_cast", "overflow_step", "nonzero_div", "nonzero_rem", "slice_bounds", "offset_bounds", "type_inv", "read_exact", "copy_from_slice", "is_empty",
             "split_first", "split_last", "is_some", "is_none", "deref_mut", "starts_with", "write_all", "is_ascii_digit"}
    for p in glob.glob(f"crates/{crate}/src/**/*.rt", recursive=True):
        body = re.sub(r"//.*", "", read(p))
        found |= set(re.findall(r"\b[a-z][a-z0-9]*(?:_[a-z0-9]+)+\b", body))
    return sorted(found, key=lambda w: -w.count("_"))


def made(name, sources):
    for w in sources:
        name = re.sub(r"(?<![\w'])" + w.replace("_", "-") + r"(?![\w'])", w, name)
    return name


def main():
    own = crates()
    antt = sorted(glob.glob("crates/*/specs/**/*.antt", recursive=True) + glob.glob("crates/*/proofs/**/*.antt", recursive=True))
    rt = sorted(glob.glob("crates/*/src/**/*.rt", recursive=True))
    texts = {p: read(p) for p in antt + rt}
    defined, plain = set(), set()
    for p in antt:
        t = re.sub(r"--.*", "", texts[p])
        g = goals(t)
        for names in DEFINED.findall(t):
            for n in names.split():
                (defined if "-" in n else plain).add(n) if n not in g else None
    loose = collections.Counter()
    lib_all = set()
    for p, t in texts.items():
        lib_all |= imported(t, own)
    for p in antt:
        t = re.sub(r"--.*", "", texts[p])
        lib = imported(t, own)
        g = goals(t)
        for m in TOKEN.finditer(t):
            n = m.group(0)
            if n in lib or n in g or (m.start() and t[m.start() - 1] == "."):
                continue
            loose[n] += 1
    mine = {n for n in defined | set(loose) if (n not in lib_all or n in defined) and not re.match(r"(then|else|in-[A-Z]|in-default)(-|$)", n)}
    to = {n: n.replace("sumBy", "sum_by").replace("-", "_") for n in mine}
    # names that fall together
    seen = set(re.findall(r"(?<![\w'.-])[A-Za-z_][\w']*(?![\w'-])", "\n".join(re.sub(r"--.*", "", texts[p]) for p in antt)))
    rust = set()
    for p in rt:
        rust |= set(re.findall(r"\b(?:fn|struct|enum|const|let|mut|mod)\s+([A-Za-z_]\w*)", texts[p]))
    for n, s in sorted(to.items()):
        if "--list" in sys.argv:
            print(n, s)
        if s in plain or s in lib_all:
            print("falls together:", n, s, "defined" if s in plain else "", "library" if s in lib_all else "")
        if n in lib_all:
            print("a library's too:", n)
        if s in rust:
            print("a name of src too:", n)
    if "--list" in sys.argv:
        print(len(to))
        return
    sources = {c: words(c) for c in own}
    for p, t in texts.items():
        lib, g, known = imported(t, own), goals(t), sources[p.split("/")[1]]

        def turn(m, t=t, p=p, lib=lib, g=g, known=known):
            n, before = m.group(0), t[max(0, m.start() - 5):m.start()]
            if re.search(r"(?<![\w'])(?:c|l|goal)\.$", before) or n in g:
                return made(n, known) if p.endswith(".antt") else n
            if n in to and (n not in lib or n in defined and n not in lib):
                return to[n]
            if n in lib:
                return made(n, known) if re.search(r"Goals\.\{[^}]*" + re.escape(n), t) else n
            return made(n, known) if p.endswith(".antt") else n

        new = TOKEN.sub(turn, t)
        if new != t:
            with open(p, "w", encoding="utf-8") as f:
                f.write(new)


main()
