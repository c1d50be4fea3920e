#!/usr/bin/env python3
"""Brings the names of this repository's own definitions and lemmas to today's spelling, in place.

Functions, fields and lemmas are written in snake case, functions into `Type` in upper camel case; a dash joins two names of definitions.
Names that come from src/, exported C names, strings and outputs stay. Run once, at the top, after port.py.
"""

import collections
import glob
import os
import re

WORD = r"[^\W\d_][\w'₀-₉-]*|_[\w'-]+"
TOKEN = re.compile(r"(?<![\w'₀-₉-])(?:[^\W\d]|_(?=\w))[\w'₀-₉-]*")
LIBRARY = set("""length drop take append cons snoc mem set sets map le lt add sub mul eq suc zero fold filter leb ltb eqb true false not
get_or concat reverse replicate tabulate nil sum""".split())
# lemmas that bear the name which a definition beside them gets
FREED = """made_as told_of by_tests same_word tried_of move_start written_on plain_by word_on last_line rows_in counts_of with_first
turned_down letter_at lines_left held_by one_more""".split()
CRATES = {"hex": "hexadecimal"}  # the library of the kit has that name


def read(path):
    with open(path, encoding="utf-8") as f:
        return f.read()


def files(pattern):
    return [p for p in sorted(glob.glob(pattern, recursive=True)) if "/out/" not in p and os.path.isfile(p)]


def declared(path):
    """Name and signature of what a file declares: definitions, lemmas, fields, constructors, and records."""
    text = re.sub(r"--.*", "", read(path))
    for m in re.finditer(r"(?m)^[ ]*(?:(?:pattern|unfoldable|abbrev|pub)[ ]+)*(" + WORD + r")(?:[ ]\{[^}:]*\})?[ ]:[ ]((?:.*\n)(?:[ ]{4,}(?:→|\(|\{).*\n)*)", text):
        yield m.group(1), m.group(2)


def words(name):
    """The words of a name in camel case or with dashes."""
    for part in name.split("-"):
        yield re.sub(r"(?<=[a-z0-9])(?=[A-Z])", "_", part).lower() if re.match(r"[a-z]", part) else part


def into_type(signature):
    return re.search(r"(?:^|→\s*)Type\s+\S+\s*$", signature.strip()) is not None


def definition(name, signature):
    if into_type(signature):
        return name[0].upper() + name[1:]
    return "_".join(words(name))


def lemma(name, known):
    parts, units = list(words(name)), []
    i = 0
    while i < len(parts):
        j = next((j for j in range(len(parts), i, -1) if "_".join(parts[i:j]) in known), None)
        units.append(("_".join(parts[i:j]), True) if j else (parts[i], False))
        i = j or i + 1
    out, last = units[0]
    for text, is_name in units[1:]:
        out += ("-" if last and is_name else "_") + text
        last = is_name
    return out


def foreign():
    """Names that some file takes from a library, not from this repository."""
    own = set(os.listdir("crates"))
    names = set()
    for p in files("crates/**/*.antt") + files("crates/**/*.rt"):
        for m in re.finditer(r"(?m)^\s*(?:ghost )?use ([^\s{]+)\.\{([^}]*)\}", read(p)):
            head = m.group(1).split(".")
            if not (head[0] == "Rattle" and head[1] in own):
                names |= {w.strip().split(" ")[0] for w in m.group(2).split(",")}
    return names


def table():
    signatures = collections.OrderedDict()
    for p in files("crates/**/*.antt"):
        if os.path.basename(p) in ("Proof.antt", "Answers.antt", "Invariants.antt"):
            continue
        for name, signature in declared(p):
            signatures.setdefault(name, []).append(signature)
    kept = foreign()
    camel = [n for n in signatures if re.match(r"[a-z]\w*[A-Z]", n) and "-" not in n and n not in kept]
    dashed = [n for n in signatures if "-" in n and n not in kept]
    new = {n: definition(n, signatures[n][0]) for n in camel}
    new.update(upperSide="upper_side", lowerSide="lower_side")  # declared together, on one line
    known = LIBRARY | set(new.values()) | {n for n in signatures if re.fullmatch(r"[a-z][a-z0-9_']*", n)}
    tokens = set()
    for p in files("crates/**/*.antt") + files("crates/**/*.rt"):
        tokens |= set(TOKEN.findall(re.sub(r"--.*|//.*", "", read(p))))
    taken = set(new.values()) | known | (tokens - set(dashed))
    for n in dashed:
        to = lemma(n, known)
        if to != n:
            while to in taken:
                to += "_lem" if not to.endswith("_lem") else "'"
        taken.add(to)
        new[n] = to
    clash = collections.defaultdict(list)
    for a, b in new.items():
        clash[b].append(a)
    for b, names in clash.items():
        if len(names) > 1:
            print("falls together:", b, names)
    for n in camel:
        if new[n] in tokens:
            print("stands already:", n, "->", new[n])
    return {a: b for a, b in new.items() if a != b}


def respell(text, new):
    return TOKEN.sub(lambda m: new.get(m.group(0), m.group(0)), text)


def code(line, new, mark):
    """A line with a comment: the names in the code change, and in the comment those in code quotes."""
    cut = line.find(mark)
    head, tail = (line, "") if cut < 0 else (line[:cut], line[cut:])
    return respell(head, new) + quoted(tail, new)


def quoted(text, new):
    return re.sub(r"`[^`\n]+`", lambda m: respell(m.group(0), new), text)


def freed(text):
    return re.sub(r"(?<![\w'-])(?<!proofs\.)(?<!specs\.)(" + "|".join(FREED) + r")(?![\w'-]|\.[A-Z])", r"\1_lem", text)


def crates(text):
    for old, name in CRATES.items():
        text = re.sub(rf"\bRattle\.{old}\.", f"Rattle.{name}.", text)
        text = re.sub(rf"(?<![\w.]){old}::", f"{name}::", text)
    return text


def write(path, text):
    if text != read(path):
        with open(path, "w", encoding="utf-8") as f:
            f.write(text)


def main():
    for p in files("crates/**/*.antt"):
        if os.path.basename(p) != "Proof.antt":
            write(p, freed(read(p)))
    new = table()
    for p in files("crates/**/*.antt"):
        write(p, crates("".join(code(l, new, "--") for l in read(p).splitlines(True))))
    for p in files("crates/**/*.rt"):
        write(p, crates("".join(code(l, new, "//") if '"' not in l else l for l in read(p).splitlines(True))))
    for p in files("crates/*/must-fail/*.edit"):
        lines = [respell(l, new) if re.match(r"(old|new): ", l) and '"' not in l else l for l in read(p).splitlines(True)]
        write(p, crates("".join(lines)))
    for p in ["README.md"] + files("docs/**/*.md"):
        write(p, quoted(read(p), new))
    for old, name in CRATES.items():
        os.rename(f"crates/{old}", f"crates/{name}")
        text = re.sub(rf"(?m)^{old}:", f"{name}:", read("crates.txt"))
        write("crates.txt", re.sub(rf"(?m)(:.*)(?<=[ ]){old}\b", rf"\1{name}", text))
    print(len(new), "names")


if __name__ == "__main__":
    main()
