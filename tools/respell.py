#!/usr/bin/env python3
"""Respells this repository's own definitions, lemmas, fields and local names in today's style: words in snake case.

usage: python3 tools/respell.py [--list]     at the top of the repository, once, behind the kit's port.py

It collects the names that specs/ and proofs/ declare in camel case or with dashes, and rewrites them in specs/, proofs/, the clauses of
src/, must-fail/ and the pages for auditors. Functions of src/, exported names, strings, inputs and outputs are left. --list prints the
names that fall together.
"""
import os, re, sys, collections

# What port.py respells by itself, since a library had the same spelling. The pages name them too.
BY_THE_KIT = """
add-at add-body add-done add-wide all-found all-so all-there allBelow allFit andThen any-left as-long at-each at-least at-most
back-is below-64 between-is bit-at bit-is bits-of bitsOf both-hold both-read built-in built-of by-rows bySign bytes-left bytesAt
bytesOf choiceOf count-spec cut-small depthOf each-below end-is endOf ends-as ends-there entries-fit entry-at entry-found
entry-place enum-told even-is few-bytes fieldAt find-spec first-entry firstOf fits-all found-first found-passed found-within
four-bytes front-length front-rest goes-on has-room head-spec high-bits high-byte holds-more in-order in-row inWords indexOf
inside-is is-finite is-later is-none is-row is-said is-signed jumpRow keep-spec label-is labelOf last-bit left-over length-digits
lengthOf lengths-differ line-at lineOf lines-fit lines-long linesFrom listOf load-spec low-byte map-both markOf moved-twice mul-at
next-fits next-row no-bytes no-line no-nan no-other no-record no-room no-rows no-start no-way-back none-between none-left
none-spec not-none nothing-left nothing-put nothing-written number-in numberAt numberIn numberOf odd-is of-word of-zero one-bit
one-byte one-digit-more one-entry one-found one-less one-line one-more one-of only-one other-sign own-bits partOf pass-spec
past-the-end pickLine place-inside place-is pow-even pow-le-back put-spec putAt read-as read-at read-behind read-by readBy
rest-from resultOf room-for row-at row-inside rowAt rowLines rowOf rows-are rows-fit rowsFrom rowsOf same-answer same-bytes
same-float same-index same-length same-line same-numbers same-place same-row same-rows same-sign same-size same-step same-test
same-total same-version says-two sideBySide sign-bit signOf signedOf sizeOf so-far some-bytes sourceOf startOf sub-read tableOf
there-and-back to-one too-long too-many too-short too-small two-bytes typeOf up-one valid-with-both valueAt valueOf walk-ends
was-read way-back wide-both wordAt writes-as written-as zero-is
""".split()

NAME = re.compile(r"[^\W\d][\w'₀-₉]*(?:-[\w'₀-₉]+)*")
DECL = [
    re.compile(r"^\s*(?:abbrev |unfoldable )?(?:pub )?(?:abbrev |unfoldable )?([^\W\d][\w'-]*(?: [^\W\d][\w'-]*)*) :(?= |$)", re.M),
    re.compile(r"^\s*(?:pub )?(?:record|data) ([^\W\d][\w'-]*)", re.M),
]
# A lemma that would fall together with a definition in the same file, and names with the letter of a number's format.
BY_HAND = {"is-kept": "is_kept_lem", "vaxDDropped": "vax_D_dropped", "vaxDDropped-exact": "vax_D_dropped_exact"}


def crates(root):
    base = os.path.join(root, "crates")
    for folder, dirs, files in os.walk(base):
        dirs[:] = sorted(d for d in dirs if d != "out")
        for f in sorted(files):
            yield os.path.join(folder, f)


def snake(name):
    if name in BY_HAND:
        return BY_HAND[name]
    if name[0].isupper():
        return name
    parts = re.sub(r"(?<=[a-z0-9])(?=[A-Z])", "-", name).split("-")
    # a type keeps its capital only where the whole name is one
    return "_".join(p.lower() if p[:1].isupper() and not p.isupper() else p for p in parts)


def is_ours(name):
    return name[0].islower() and ("-" in name or re.search(r"[a-z0-9][A-Z]", name)) and not re.search(r"-[A-Z]", name)


def library_names(root):
    """Every name that the repository imports from elsewhere."""
    found = set()
    line = re.compile(r"^\s*(?:pub )?(?:ghost )?use (Rattle\.std\.|Rattle\.bytes\.|Prim|native|mathlib|lib\.|borrow|denote|logic|sem|float)\S*?\.\{([^}]*)\}", re.M)
    for p in crates(root):
        if p.endswith((".antt", ".rt")):
            for m in line.finditer(open(p, encoding="utf-8").read()):
                for item in m.group(2).split(","):
                    found.add(item.split(" as ")[0].strip())
    return found


def declared(root):
    names = collections.defaultdict(set)
    for p in crates(root):
        if not p.endswith(".antt"):
            continue
        t = open(p, encoding="utf-8").read()
        for rx in DECL:
            for m in rx.finditer(t):
                for n in m.group(1).split():
                    names[n].add(p)
        # names given to imports, binders
        for m in re.finditer(r"\bas ([a-z][\w'-]*)", t):
            names[m.group(1)].add(p)
        for m in re.finditer(r"[({λ]\s*((?:[^\W\d][\w'-]*\s+)+):", t):
            for n in m.group(1).split():
                names[n].add(p)
        for m in re.finditer(r"\blet ([^\W\d][\w'-]*)", t):
            names[m.group(1)].add(p)
        # the arguments of an equation
        for m in re.finditer(r"^\s*[^\W\d][\w'-]*((?: +[^\W\d(][\w'-]*)+) +=", t, re.M):
            for n in m.group(1).split():
                names[n].add(p)
    for p in crates(root):
        if p.endswith(".rt"):
            t = open(p, encoding="utf-8").read()
            for m in re.finditer(r"^ghost use .*$", t, re.M):
                for n in re.findall(r"\bas ([a-z][\w'-]*)", m.group(0)):
                    names[n].add(p)
    return names


def turn_text(text, names):
    return NAME.sub(lambda m: names.get(m.group(0), m.group(0)), text)


def turn_comment(text, names):
    camel = {n: s for n, s in names.items() if "-" not in n}
    text = re.sub(r"`[^`]*`", lambda m: turn_text(m.group(0), names), text)
    return NAME.sub(lambda m: camel.get(m.group(0), m.group(0)), text)


def turn_lines(text, names, mark):
    out = []
    for line in text.split("\n"):
        at = line.find(mark)
        if mark == "//" and '"' in line[: at if at >= 0 else None]:
            out.append(line)
            continue
        if at >= 0:
            out.append(turn_text(line[:at], names) + turn_comment(line[at:], names))
        else:
            out.append(turn_text(line, names))
    return "\n".join(out)


def main():
    root = os.getcwd()
    lib = library_names(root)
    names = {}
    where = declared(root)
    for n in where:
        if is_ours(n) and n not in lib and snake(n) != n:
            names[n] = snake(n)
    if "--list" in sys.argv:
        by = collections.defaultdict(set)
        for n, s in names.items():
            by[s].add(n)
        for s, ns in sorted(by.items()):
            others = set(ns)
            if s in where:
                others.add(s)
            if s in lib:
                others.add("LIB " + s)
            if len(others) > 1:
                print(s, "<-", sorted(others), sorted({os.path.relpath(p, root) for o in others for p in where.get(o, ())})[:8])
        print(len(names))
        return
    for p in crates(root):
        if p.endswith(".antt"):
            t = open(p, encoding="utf-8").read()
            n = turn_lines(t, names, "--")
        elif p.endswith((".rt", ".edit")) :
            t = open(p, encoding="utf-8").read()
            n = turn_lines(t, names, "//")
        else:
            continue
        if n != t:
            open(p, "w", encoding="utf-8").write(n)
    for page in ("README.md", "docs/AUDIT.md", "docs/DECISIONS.md", "docs/DEMANDS.md", "rust/README.md", "rust/independent/README.md"):
        p = os.path.join(root, page)
        if os.path.exists(p):
            t = open(p, encoding="utf-8").read()
            n = turn_comment(t, names | {k: snake(k) for k in BY_THE_KIT})
            if n != t:
                open(p, "w", encoding="utf-8").write(n)


main()
