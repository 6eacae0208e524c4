#!/usr/bin/env python3
"""Counts, in crates/*/src, the places of the points of docs/DESIGN-PASS.md that the text shows.

    tools/places.py [COMMIT] [--list]    of the commit, or of the checkout; --list names each place
"""
import collections
import re
import subprocess
import sys

ARGS = [a for a in sys.argv[1:] if not a.startswith("-")]


def sources():
    """Each source file of the commit, or of the checkout, with its text; comments are taken out."""
    if ARGS:
        names = subprocess.run(["git", "ls-tree", "-r", "--name-only", ARGS[0], "crates"], capture_output=True, text=True, check=True)
        read = lambda name: subprocess.run(["git", "show", f"{ARGS[0]}:{name}"], capture_output=True, text=True, check=True).stdout
    else:
        names = subprocess.run(["git", "ls-files", "crates"], capture_output=True, text=True, check=True)
        read = lambda name: open(name, encoding="utf-8").read()
    for name in names.stdout.split():
        if re.fullmatch(r"crates/\w+/src/.*\.rt", name):
            yield name.split("/", 1)[1].replace("/src/", "/"), re.sub(r"//[^\n]*", "", read(name))


def functions(text):
    """Name, parameters and clauses of each function."""
    for it in re.finditer(r"\bfn (\w+)(?:<[^(]*>)?\(", text):
        depth, at = 1, it.end()
        while depth:
            depth += {"(": 1, ")": -1}.get(text[at], 0)
            at += 1
        body = re.compile(r"\n[ \t]*\{\n| \{\n|;\n").search(text, at)
        clauses = text[at : body.start() if body else at]
        yield it.group(1), [p.strip() for p in re.split(r",\s*(?![^\[(<]*[\])>])", text[it.end() : at - 1]) if p.strip()], clauses


def found(all_files):
    """Point by point: what is counted, and where."""
    out = collections.OrderedDict()

    def lines(title, pattern):
        hits = [(name, line.strip()) for name, text in all_files for line in text.split("\n") if re.search(pattern, line)]
        out[title] = [f"{name}: {line}" for name, line in hits]

    enums, flags = [], []
    for name, text in all_files:
        for it in re.finditer(r"\benum (\w+)(?:<[^>]*>)? \{(.*?)\n\}", text, re.S):
            cases = re.findall(r"^    (\w+)(\([^)]*\))?,", it.group(2), re.M)
            if len(cases) == 2 and any(c[1] for c in cases):
                enums.append(f"{name}: {it.group(1)} {' | '.join(a + b for a, b in cases)}")
        for it in re.finditer(r"\bstruct (\w+)(?:<[^>]*>)? \{(.*?)\n\}", text, re.S):
            if re.search(r"\b(verdict|how|fault|cold|failed|found): ", it.group(2)):
                flags.append(f"{name}: struct {it.group(1)}")
    out["1a enums of two cases, one of them with a value"] = enums
    out["1b structs of a flag or verdict with values beside it"] = flags
    lines("1c constants that number kinds", r"^\s*(pub )?const [A-Z_0-9]+: u(8|16|32|64|size) =")
    lines("1d matches and tests of a code, a form, a tag or a status by its number",
          r"^\s*\d+ => |\b(op|tag|form|kind|phase|how|source|fault|status)\)? (==|!=|<=|<) (\d+|[A-Z][A-Z_]+\b|\w+::[A-Z_]+\b)")
    lines("1e words, states or numbers that are 0 or 32 for none", r"\b(o|r|p|s)\.\w+ (==|!=) 0|!= 0\) \||(== 0\) &)|state < 32|32 <= s")
    lines("3a loops that count an index by hand (while)", r"^\s*while ")
    lines("3b for loops over a range of indices", r"^\s*for \w+ in .*\.\.")
    lines("4a functions that print by hand (put..)", r"\bfn put")
    lines("4b comparison of texts by hand (same)", r"\bsame\(")
    lines("4c conversions by a function or a remainder of their own", r"\bfn (low_\w+|wide|number_or_none|flag_of)\b|% (256|65536|4294967296)\) as ")
    facts = collections.defaultdict(list)
    pairs = collections.defaultdict(list)
    buffers = []
    for name, text in all_files:
        for fn, params, clauses in functions(text):
            for clause in re.findall(r"requires(?: \w+)? \{ (.*?) \}\n?", clauses):
                for fact in re.split(r" × ", clause):
                    fact = re.sub(r"\.(old|now)\b", "", fact.strip("()"))
                    facts[f"{name.split('/')[0]}: {fact}"].append(f"{name}: {fn}")
            short = [p for p in params if ":" in p]
            for i, a in enumerate(short):
                for b in short[i + 1 :]:
                    pairs[f"{a}, {b}"].append(f"{name}: {fn}")
                if re.search(r"&(mut )?\[", a) and i + 1 < len(short) and re.search(r": (usize|u32)$", short[i + 1]):
                    buffers.append(f"{name}: {fn}({a}, {short[i + 1]})")
    out["5a facts required by three or more functions of a crate"] = [f"{k}: {len(v)} functions" for k, v in sorted(facts.items()) if len(v) >= 3]
    out["5b pairs of parameters that three or more functions have"] = [f"{k}: {len(v)} functions" for k, v in sorted(pairs.items()) if len(v) >= 3]
    out["6 buffers with a length or a place beside"] = buffers
    lines("7 steps picked by comparing words or numbers", r"^\s*if (.*\bsame\(|number|kind|fault)")
    return out


def main():
    for title, places in found(list(sources())).items():
        print(f"{len(places):4}  {title}")
        if "--list" in sys.argv:
            print("".join(f"        {it}\n" for it in places), end="")


main()
