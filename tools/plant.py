#!/usr/bin/env python3
"""Plants bugs, one at a time, and says which of them `rt check` refuses.

    tools/plant.py [--limit SECONDS] [--keep FOLDER] [ID or CRATE ..]
    tools/plant.py --table

Run it at the top of the repository. It reads tools/plants.txt, works on a copy of the repository in a temporary folder,
and writes what it found to tools/planted.txt and into the table of docs/STRENGTH.md. With ids or crates it tries these
alone and keeps what it found of the others; --table only writes the table again. With --keep the copy is made in that
folder, used again if it is there, and stays.

A plant is refused if the check ends with an error of a proof. One that does not compile, or whose text is not there
exactly once, is bad, and one over the limit is late: neither counts as refused.
"""

import os
import re
import shutil
import signal
import subprocess
import sys
import tempfile
import time

TOP = os.path.dirname(os.path.dirname(os.path.abspath(__file__)))
LIST = os.path.join(TOP, "tools", "plants.txt")
FOUND = os.path.join(TOP, "tools", "planted.txt")
TABLE = os.path.join(TOP, "docs", "STRENGTH.md")
BEGIN, END = "<!-- table -->", "<!-- end of table -->"


def read_plants(path):
    plants, one = [], None
    for number, line in enumerate(open(path, encoding="utf-8"), 1):
        line = line.rstrip("\n")
        if not line.strip() or line.startswith("#"):
            continue
        word, colon, rest = line.partition(": ")
        if not colon:
            sys.exit(f"{path}:{number}: no line of a plant")
        if word == "id":
            one = {"id": rest, "pairs": []}
            plants.append(one)
        elif word == "file":
            one.setdefault("file", rest)
            file = rest
        elif word == "old":
            one["pairs"].append([file, rest.replace("\\n", "\n"), None])
        elif word == "new":
            one["pairs"][-1][2] = rest.replace("\\n", "\n")
        else:
            one[word] = rest
    return plants


def copy_repository(folder):
    """What git knows, as it stands in the working tree, and what the crates' checks kept."""
    names = subprocess.run(["git", "ls-files"], cwd=TOP, capture_output=True, text=True, check=True).stdout.split("\n")
    for name in filter(None, names):
        source, target = os.path.join(TOP, name), os.path.join(folder, name)
        if os.path.exists(source):
            os.makedirs(os.path.dirname(target), exist_ok=True)
            shutil.copy2(source, target)
    for crate in os.listdir(os.path.join(TOP, "crates")):
        out, target = os.path.join(TOP, "crates", crate, "out"), os.path.join(folder, "crates", crate, "out")
        if os.path.isdir(out) and not os.path.exists(target):
            shutil.copytree(out, target, symlinks=True)


def check(folder, crate, limit):
    """The exit status of `rt check`, None if it took too long, and what it printed."""
    with tempfile.TemporaryFile("w+", encoding="utf-8", errors="replace") as printed:
        run = subprocess.Popen(["rt", "check"], cwd=os.path.join(folder, "crates", crate), stdout=printed,
                               stderr=subprocess.STDOUT, start_new_session=True)
        try:
            status = run.wait(timeout=limit)
        except subprocess.TimeoutExpired:
            os.killpg(run.pid, signal.SIGTERM)
            run.wait()
            status = None
        printed.seek(0)
        return status, printed.read()


ANSWER = re.compile(r"^\./proofs/(\S+?)/(?:Answers|Invariants|Proof)\.antt:\d+:\d+: error: (?:`([^`]+)`)?")
OPEN = re.compile(r"^(?:note|error\S*): (src/\S+?):(\d+):\d+: it is not proved that (.*)$")
PROOF = re.compile(r"^\./(proofs|specs)/(\S+?)\.antt:(\d+):\d+: error: (.*)$")
NAMED = re.compile(r"has no field|can be named|not found|was not admitted|were not admitted")
GONE = "; the proof speaks of a step that is gone"


def function_at(folder, crate, file, line):
    """The name of the function around a line of a source file."""
    name = "?"
    for text in open(os.path.join(folder, "crates", crate, file), encoding="utf-8").read().split("\n")[:line]:
        found = re.match(r"\s*(?:pub(?:\([a-z]+\))? )?(?:fn|struct|enum) (\w+)", text)
        name = found.group(1) if found else name
    return name


def goal_words(goal):
    """What a goal's name stands for."""
    if goal.startswith("returns"):
        return "what it ensures"
    if goal.endswith("-requires") or "-requires-" in goal:
        return f"what `{goal.split('-requires')[0]}` asks of its caller"
    if goal.startswith("invariant_of") or "-invariant_of" in goal:
        return "the invariant of `" + goal.split("invariant_of-")[-1] + "`"
    if goal.startswith(("loop-", "while-")) or "-preserved" in goal or "-init" in goal:
        return "the invariant of its loop"
    return f"`{goal}`"


def first_refusal(folder, crate, printed):
    """The first error of a proof in what was printed, as words; None if there is none. An error that is only of a name, which
    the proof has and the planted code has not, counts where there is no other."""
    named = None
    for line in printed.split("\n"):
        if found := ANSWER.match(line):
            goal = found.group(2)
            words = f"`{found.group(1).split('/')[-1]}`: " + (f"{goal_words(goal)} (answer of `{goal}`)" if goal else "its proof")
            if not NAMED.search(line):
                return words
            named = named or words + GONE
            continue
        if found := OPEN.match(line):
            name = function_at(folder, crate, found.group(1), int(found.group(2)))
            return f"`{name}`: not proved that {found.group(3).split(';')[0]}"
        if found := PROOF.match(line):
            return f"lemma file {found.group(1)}/{found.group(2)}, line {found.group(3)}: {found.group(4)[:120]}"
    return named


def try_plant(folder, plant, limit, logs):
    before, after = {}, {}
    for file, old, new in plant["pairs"]:
        path = os.path.join(folder, "crates", plant["crate"], file)
        if not os.path.exists(path):
            return "bad", f"there is no file {file}"
        if path not in after:
            before[path] = after[path] = open(path, encoding="utf-8").read()
        if after[path].count(old) != 1:
            return "bad", f"its text stands {after[path].count(old)} times in {file}: {old!r}"
        after[path] = after[path].replace(old, new)
    if after == before:
        return "bad", "it changes nothing"
    try:
        for path, text in after.items():
            open(path, "w", encoding="utf-8").write(text)
        status, printed = check(folder, plant["crate"], limit)
        open(os.path.join(logs, plant["id"] + ".txt"), "w", encoding="utf-8").write(printed)
        if status == 0:
            return "passes", ""
        if status is None:
            return "late", f"no end within {limit} s"
        refusal = first_refusal(folder, plant["crate"], printed)
        if refusal:
            return "refused", refusal
        errors = [line for line in printed.split("\n") if "error" in line]
        return "bad", (errors or ["no error of a proof was found"])[0][:200]
    finally:
        for path, text in before.items():
            open(path, "w", encoding="utf-8").write(text)


def read_found():
    found = {}
    if os.path.exists(FOUND):
        for line in open(FOUND, encoding="utf-8"):
            name, verdict, seconds, words = line.rstrip("\n").split("\t")
            found[name] = (verdict, seconds, words)
    return found


def write_found(plants, found):
    with open(FOUND, "w", encoding="utf-8") as file:
        for plant in plants:
            if plant["id"] in found:
                file.write("\t".join((plant["id"],) + found[plant["id"]]) + "\n")


def place_of(plant):
    """The function that a plant is in."""
    text = open(os.path.join(TOP, "crates", plant["crate"], plant["file"]), encoding="utf-8").read()
    at = text.find(plant["pairs"][0][1])
    if at < 0:
        return plant["file"]
    name = None
    for found in re.finditer(r"^\s*(?:pub(?:\([a-z]+\))? )?(?:fn|const|enum) (\w+)", text[:at + len(plant["pairs"][0][1])], re.M):
        name = found.group(1)
    return f"{plant['file'][4:]}, `{name}`" if name else plant["file"][4:]


def write_table(plants, found):
    rows = []
    for crate in dict.fromkeys(plant["crate"] for plant in plants):
        rows += [f"### {crate}", "", "| id | bug | where | kind | refused by |", "|---|---|---|---|---|"]
        for plant in (p for p in plants if p["crate"] == crate and p["id"] in found):
            verdict, _, words = found[plant["id"]]
            said = plant.get("found", words) if verdict == "refused" else f"**{verdict}**: {plant.get('passed', words)}"
            cells = (plant["id"], plant["wrong"], place_of(plant), plant["kind"], said)
            rows.append("| " + " | ".join(cell.replace("|", "\\|") for cell in cells) + " |")
        rows.append("")
    table = "\n".join(rows)
    if os.path.exists(TABLE):
        text = open(TABLE, encoding="utf-8").read()
        if BEGIN in text and END in text:
            head, tail = text.split(BEGIN)[0], text.split(END)[1]
            open(TABLE, "w", encoding="utf-8").write(f"{head}{BEGIN}\n\n{table}\n{END}{tail}")


def summary(plants, found):
    counts = {}
    for plant in plants:
        if plant["id"] in found:
            verdict = found[plant["id"]][0]
            counts[verdict] = counts.get(verdict, 0) + 1
    text = f"{sum(counts.values())} planted, {counts.get('refused', 0)} refused, {counts.get('passes', 0)} passed"
    return text + "".join(f", {n} {verdict}" for verdict, n in sorted(counts.items()) if verdict in ("bad", "late"))


def main(words):
    limit, keep, wanted, table_only = 300, None, [], False
    while words:
        word = words.pop(0)
        if word == "--limit":
            limit = int(words.pop(0))
        elif word == "--keep":
            keep = words.pop(0)
        elif word == "--table":
            table_only = True
        elif word in ("-h", "--help"):
            sys.exit(__doc__)
        else:
            wanted.append(word)
    plants, found = read_plants(LIST), read_found()
    names = {plant["id"] for plant in plants} | {plant["crate"] for plant in plants}
    if len({plant["id"] for plant in plants}) != len(plants):
        sys.exit("an id stands twice in tools/plants.txt")
    if strange := [word for word in wanted if word not in names]:
        sys.exit("no id and no crate of a plant: " + ", ".join(strange))
    chosen = [p for p in plants if not wanted or p["id"] in wanted or p["crate"] in wanted]
    if not table_only:
        folder = keep or tempfile.mkdtemp(prefix="plants-")
        try:
            os.makedirs(os.path.join(folder, "logs"), exist_ok=True)
            copy_repository(folder)
            for crate in dict.fromkeys(plant["crate"] for plant in chosen):
                status, printed = check(folder, crate, 4 * limit)
                if status != 0:
                    sys.exit(f"{crate} is refused with nothing planted:\n{printed[:2000]}")
            for plant in chosen:
                begun = time.monotonic()
                verdict, said = try_plant(folder, plant, limit, os.path.join(folder, "logs"))
                seconds = f"{time.monotonic() - begun:.0f}"
                found[plant["id"]] = (verdict, seconds, said.replace("\t", " "))
                print(f"{plant['id']} {verdict} {seconds} s: {plant['wrong']}: {said}", flush=True)
                write_found(plants, found)
        finally:
            if not keep:
                shutil.rmtree(folder, ignore_errors=True)
    write_table(plants, found)
    print(summary(chosen, found))


if __name__ == "__main__":
    signal.signal(signal.SIGTERM, lambda *_: sys.exit("stopped"))
    main(sys.argv[1:])
