#!/usr/bin/env python3
"""Spells the repository's own definitions, lemmas, record fields and local names as Rattle's library does: words in snake case.

Run once, at the top of the repository, after the toolchain's own port script. It reads which names the files of specs/ and proofs/
declare, and respells those that begin in lower case and have a capital or a dash: viewOf is view_of, and come-home is come_home.
Types, facts, constructors and modules keep their capitals. A goal's name is made by the checker and stays. In a .rt file such names stand in
clauses alone; texts in quotes stay. In README and docs/ names stand in backquotes.

    tools/respell.py            respells, and prints the names that fell together
    tools/respell.py --list     prints what it would respell
"""
import os
import re
import sys

WORD = r"[A-Za-z_][A-Za-z0-9_'-]*"
DECLARED = re.compile(r"^(\s*)((?:(?:pub|abbrev|unfoldable) )*)(" + WORD + r")((?: " + WORD + r")*) :(?: (.*))?$")
CLAUSE = re.compile(r"^\s*" + WORD + r"((?: [^=:→λ]+)?) =(?: |$)")
# names that would fall together with another: the definition keeps the plain name, and the lemma about it or the hypothesis takes this one
OTHERWISE = {
    "all-drained": "drained_of_all",
    "all_in": "in_all",
    "all_yes": "every_yes",
    "is-idle": "idle_is",
    "is-lent": "lent_is",
    "is-page": "is_page_of",
    "leaving-from": "leaves_or_not",
    "less-leaf": "leaf_dropped",
    "less-mid": "mid_dropped",
    "less-up": "up_dropped",
    "load-faults": "faults_at_load",
    "load-pokes": "pokes_at_load",
    "no-leaf": "leaf_gone",
    "no-mid": "mid_gone",
    "no-page": "table_at_no_page",
    "no-registers": "registers_bared",
    "no-up": "up_gone",
    "not-of": "other_dev",
    "not_yet": "still_not",
    "open_by": "opened_in_meaning",
    "owner-is": "owner_as",
    "shut-all": "through_shut_all",
    "store_faults": "faults_at_store",
    "store-pokes": "pokes_at_store",
    "use-of": "use_there",
}


def antt_files():
    for top in ("crates",):
        for folder, folders, files in os.walk(top):
            folders[:] = sorted(f for f in folders if f != "out")
            for f in sorted(files):
                if f.endswith(".antt"):
                    yield os.path.join(folder, f)


def source_files():
    for folder, folders, files in os.walk("crates"):
        folders[:] = sorted(f for f in folders if f not in ("out", "must-fail"))
        for f in sorted(files):
            if f.endswith(".rt"):
                yield os.path.join(folder, f)


def pages():
    yield "README.md"
    for f in sorted(os.listdir("docs")):
        if f.endswith(".md"):
            yield os.path.join("docs", f)


def edits():
    for folder, folders, files in os.walk("crates"):
        folders[:] = sorted(f for f in folders if f != "out")
        if os.path.basename(folder) == "must-fail":
            for f in sorted(files):
                if f.endswith(".edit"):
                    yield os.path.join(folder, f)


def snake(name):
    """viewOf: view_of; come-home: come_home; rowA: row_a."""
    s = re.sub(r"(?<=[a-z0-9'])(?=[A-Z])", "_", name)
    return s.replace("-", "_").lower()


def is_goal(path, name, kind):
    """Whether this line answers a goal of a function, whose name the checker makes."""
    return (kind or "").startswith(("goal.", "need."))


def imported():
    """The names that files take from the libraries."""
    names = set()
    for path in antt_files():
        for m in re.finditer(r"^use (?:Rattle\.std|mathlib|lib|borrow|native|Prim)[^{\n]*\{([^}]*)\}", open(path, encoding="utf-8").read(), re.M):
            names.update(n.split(" as ")[-1] for n in re.split(r", *", m.group(1)))
    return names


def declared():
    """The names of the repository's own, each with a file that declares it."""
    own, goals = {}, set()
    for path in antt_files():
        text = open(path, encoding="utf-8").read()
        for line in text.splitlines():
            m = DECLARED.match(line)
            if m and not line.lstrip().startswith(("--", "use ", "let ")):
                for name in [m.group(3)] + m.group(4).split():
                    if is_goal(path, name, m.group(5)):
                        goals.add(name)
                    else:
                        own.setdefault(name, path)
        # names that a clause binds on its left
        for line in text.splitlines():
            m = CLAUSE.match(line)
            if m and not line.lstrip().startswith("--"):
                for name in re.findall(r"(?<![.\w'-])" + WORD + r"(?![.\w])", m.group(1)):
                    own.setdefault(name, path)
        # names that a let, a λ or a binder brings in
        for m in re.finditer(r"\blet (" + WORD + r")\b|[({](" + WORD + r"(?: " + WORD + r")*) : ", text):
            for name in (m.group(1) or m.group(2) or "").split():
                own.setdefault(name, path)
    return own, goals


def main(argv):
    own, goals = declared()
    library = imported()
    turned = {}
    for name in own:
        if name in library:
            continue
        if name in OTHERWISE:
            turned[name] = OTHERWISE[name]
        elif name[0].islower() and name not in goals and (re.search(r"[A-Z]", name) or "-" in name):
            turned[name] = snake(name)
    if "--list" in argv:
        for name in sorted(turned):
            print(name, turned[name], own[name])
        return 0
    by_new = {}
    for name in own:
        by_new.setdefault(turned.get(name, name), set()).add(name)
    for new, olds in sorted(by_new.items()):
        if len(olds) > 1:
            print("fell together:", new, "from", ", ".join(f"{o} ({own[o]})" for o in sorted(olds)))
    token = re.compile(WORD)

    # a function of src/ may have the name of a lemma: only files of specs/ and proofs/ have lemmas
    functions = set(n for n in turned if not re.search(r"[A-Z-]", n))

    def turn(text, lemmas=False):
        return token.sub(lambda m: m.group(0) if m.group(0) in functions and not lemmas else turned.get(m.group(0), m.group(0)), text)

    def turn_source(text):
        # texts in quotes, chars and attributes' strings stay
        parts = re.split(r'("(?:[^"\\\n]|\\.)*")', text)
        return "".join(p if i % 2 else turn(p) for i, p in enumerate(parts))

    count = 0
    for path in list(antt_files()) + list(source_files()) + list(edits()):
        text = open(path, encoding="utf-8").read()
        new = turn_source(text) if path.endswith((".rt", ".edit")) else turn(text, True)
        if new != text:
            count += 1
            with open(path, "w", encoding="utf-8") as f:
                f.write(new)
    for path in pages():
        text = open(path, encoding="utf-8").read()
        new = re.sub(r"`[^`\n]+`", lambda m: turn(m.group(0)), text)
        if new != text:
            count += 1
            with open(path, "w", encoding="utf-8") as f:
                f.write(new)
    print(f"{len(turned)} names respelled, {count} files")
    return 0


if __name__ == "__main__":
    sys.exit(main(sys.argv[1:]))
