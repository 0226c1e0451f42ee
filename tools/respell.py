#!/usr/bin/env python3
"""Brings the repository's own definitions and lemmas to today's spelling: words in snake case, types in camel case.

usage: respell.py [--list] FOLDER       FOLDER is the top of a checkout on which port.py has run

A name is the repository's where a file of specs/ or proofs/ defines or binds it and no line imports it from the kit.
Functions of src/, exported names, strings and paths keep theirs. It also renames the folder `contracts` below specs/ and
proofs/, a name that Rattle now keeps for itself, and says which names would fall together.
"""
import collections, os, re, sys

WORD = r"[^\s(){}\[\];,.:@\"`|]"
TOKEN = re.compile(WORD + "+")
KIT = re.compile(r"^\s*(?:pub\s+)?(?:ghost\s+)?use\s+(?:Prim|mathlib|native|lib|borrow|mir|base|types|denote|contract|prog|fml|Rattle\.std)\b[^{]*\{([^}]*)\}", re.M)
# names whose plain respelling would fall on another name of the same file
SPECIAL = {
    "Nearer-wf": "nearer_wf",
    "first_out": "first_out_lem",
    "map_at": "map_at_lem",
    "first-of": "first_of_lem",
    "put-in": "put_in_lem",
    "row-at": "row_at_lem",
    "field-at": "field_at_lem",
}


def texts(root, ends):
    for folder, dirs, files in os.walk(os.path.join(root, "crates")):
        dirs[:] = sorted(d for d in dirs if d != "out")
        for f in sorted(files):
            if f.endswith(ends):
                yield os.path.join(folder, f)


def read(path):
    with open(path, encoding="utf-8") as f:
        return f.read()


def snake(name):
    if name in SPECIAL:
        return SPECIAL[name]
    if name[0].isupper() and "-" in name:
        return "".join(w[:1].upper() + w[1:] for w in name.split("-"))
    name = re.sub(r"(?<=[a-z0-9])(?=[A-Z])", "_", name)
    name = re.sub(r"_([A-Z])", lambda m: "_" + m.group(1).lower(), name)
    return name.replace("-", "_")


def is_old(word):
    if not re.match(r"^[A-Za-z][A-Za-z0-9_'₀-₉\-]*$", word):
        return False
    return bool(re.search(r"[A-Za-z0-9_']-[A-Za-z0-9]", word)) or bool(re.match(r"^[a-z][a-z0-9_\-]*[A-Z]", word))


def is_proof(path):
    return os.path.basename(path) == "Proof.antt"


def own(root):
    imported, found, defined = set(), collections.Counter(), set()
    for p in texts(root, (".antt", ".rt")):
        for m in KIT.finditer(read(p)):
            imported |= set(re.split(r"[\s,]+", m.group(1).replace(" as ", " ")))
    for p in texts(root, ".antt"):
        t = re.sub(r"--.*", "", read(p))
        if is_proof(p):
            # what is generated for a function is named there too: only what the file defines counts
            for m in re.finditer(r"^\s*(?:(?:pub|abbrev|unfoldable)\s+)*(" + WORD + r"+)\s*:(?=\s)", t, re.M):
                if is_old(m.group(1)):
                    found[m.group(1)] += 1
            continue
        for w in TOKEN.findall(t):
            if is_old(w):
                found[w] += 1
    camel = {snake(w) for w in found if re.match(r"^[a-z][a-z0-9_]*[A-Z]", w) and "-" not in w}
    names = {}
    for w in found:
        if w not in imported:
            names[w] = snake(w)
            # a lemma that would have its definition's name
            if "-" in w and names[w] in camel and w not in SPECIAL:
                names[w] += "_lem"
    for w in SPECIAL:
        names[w] = SPECIAL[w]
    return names


def together(names, root):
    """Pairs of names that would fall together, and names that would fall on one that stands already."""
    by = collections.defaultdict(set)
    for a, b in names.items():
        by[b].add(a)
    standing = set()
    for p in texts(root, ".antt"):
        standing |= set(TOKEN.findall(re.sub(r"--.*", "", read(p))))
    for b, olds in sorted(by.items()):
        if len(olds) > 1 or b in standing:
            yield b, sorted(olds), b in standing


def main(argv):
    listing = "--list" in argv
    root = [a for a in argv if not a.startswith("--")][0]
    names = own(root)
    for b, olds, stands in together(names, root):
        print(f"look: {' and '.join(olds)} become {b}" + (", which stands already" if stands else ""))
    if listing:
        for a, b in sorted(names.items()):
            print(a, b)
        return 0
    for c in sorted(os.listdir(os.path.join(root, "crates"))):
        for part in ("specs", "proofs"):
            for end in ("", ".antt"):
                old = os.path.join(root, "crates", c, part, "contracts" + end)
                if os.path.exists(old):
                    os.rename(old, os.path.join(root, "crates", c, part, "clauses" + end))
    for p in texts(root, (".antt", ".rt", ".edit")):
        t = read(p)
        u = TOKEN.sub(lambda m: names.get(m.group(0), m.group(0)), t)
        u = re.sub(r"\b(specs|proofs)\.contracts\.(?=[A-Z])", r"\1.clauses.", u)
        u = re.sub(r"^(pub )?mod contracts$", r"\1mod clauses", u, flags=re.M)
        u = re.sub(r"^file: (specs|proofs)/contracts/", r"file: \1/clauses/", u, flags=re.M)
        if u != t:
            with open(p, "w", encoding="utf-8") as f:
                f.write(u)
    return 0


if __name__ == "__main__":
    raise SystemExit(main(sys.argv[1:]))
