#!/usr/bin/env python3
"""Plants the bugs of planted/CRATE.bugs, one at a time, in a copy of the repository, and says what refuses each.

    tools/planted.py try COPY CRATE..    plants them in the copy COPY, which is made or brought up to date, and says of each
                                         where it is refused; the last line counts those that did not end as their list says
    tools/planted.py write COPY CRATE..  plants only those whose block does not say yet where, and writes it there
    tools/planted.py table               prints every bug of the lists, in tables by crate and by what refuses it

A list is blocks with a blank line between; a line that begins with # is not read. A block's lines:

    bug: a_name_that_says_what_is_turned
    file: src/lib.rt         and then pairs of old: and new:, as in a must-fail edit; more files may follow
    tried: tests             where tests judge it and no proof: `rt try --test` in this crate, or `tried: tests CRATE`
    tried: run               where a run of the program judges it: what it writes of its stdin is not its stdout; or
                             `tried: run CRATE`
    tried: cases             where what the gate runs of `compare` and `play` judges it (.ci/programs)
    falls: WHERE             the function whose contract refuses it, as try says it, or what test or run
    stays: REASON            in place of falls, where nothing refuses it: why that is right
"""
import os
import re
import shutil
import subprocess
import sys

HERE = os.path.dirname(os.path.dirname(os.path.abspath(__file__)))
REFUSED = re.compile(r"must-fail \w+/(\w+)\.edit: (refused, as it must be|NOT REFUSED|BAD EDIT|NOT TRIED)(.*)")
PLACE = re.compile(r"(?:\./)?((?:src|specs|proofs)/\S+?):(\d+):\d+: *(.*)")


class Bug:
    """One block of a list."""

    def __init__(self, block):
        self.name, self.edits, self.tried, self.falls, self.stays = "", [], "", "", ""
        for line in block:
            key, _, text = line.partition(": ")
            if key in ("file", "old", "new") or line in ("new:", "old:"):
                self.edits.append(line)
            elif key == "bug":
                self.name = text
            elif key in ("tried", "falls", "stays"):
                setattr(self, key, text)
            else:
                sys.exit(f"no line of a list: {line}")
        if not re.fullmatch(r"[a-z][a-z0-9_]*", self.name):
            sys.exit(f"no name of a bug: {self.name!r}")

    def changed(self, folder):
        """Returns the texts of the crate's files with this bug, by their paths."""
        texts, at, old = {}, None, None
        for line in self.edits:
            key, _, text = line.partition(":")
            text = text[1:]
            if key == "file":
                at = text
                texts.setdefault(at, open(f"{folder}/{at}", encoding="utf-8").read())
            elif key == "old":
                old = text
            elif texts[at].count(old) != 1:
                sys.exit(f"{self.name}: in {at} the old text stands {texts[at].count(old)} times: {old}")
            else:
                texts[at] = texts[at].replace(old, text)
        return texts


def bugs_of(crate):
    """Returns the bugs of the crate's list."""
    at = f"{HERE}/planted/{crate}.bugs"
    text = open(at, encoding="utf-8").read() if os.path.exists(at) else ""
    lines = [it for it in text.split("\n") if not it.startswith("#")]
    blocks = "\n".join(lines).split("\n\n")
    return [Bug(it.strip("\n").split("\n")) for it in blocks if it.strip()]


def bring(copy):
    """Makes the copy, or brings it up to date; what was built there stays."""
    apart = (".git", "out", "must-fail", "planted")
    for root, folders, files in os.walk(HERE):
        folders[:] = [it for it in folders if it not in apart]
        to = f"{copy}/{os.path.relpath(root, HERE)}"
        os.makedirs(to, exist_ok=True)
        for one in os.listdir(to):
            if os.path.isdir(f"{to}/{one}"):
                if one not in folders and one not in apart:
                    shutil.rmtree(f"{to}/{one}")
            elif one not in files:
                os.remove(f"{to}/{one}")
        for one in files:
            old, new = f"{to}/{one}", f"{root}/{one}"
            if not os.path.exists(old) or open(old, "rb").read() != open(new, "rb").read():
                shutil.copy2(new, old)
    if not os.path.isdir(f"{copy}/.git"):
        subprocess.run(["git", "init", "-q", copy], check=True)


def function_at(text, line):
    """Returns the function in which a line of a source file stands, with the type or trait that it belongs to."""
    owner, name = "", ""
    rows = text.split("\n")
    while rows[line - 1].lstrip().startswith("#["):
        line += 1
    for row in rows[:line]:
        found = re.match(r"(?:pub(?:\([a-z]+\))? )?(?:impl|trait)\b(?:<[^{]*?>)? *(.*?) *\{?$", row)
        if found:
            owner = re.sub(r"\s*\bwhere\b.*", "", found.group(1))
        found = re.match(r"( *)(?:pub(?:\([a-z]+\))? )?(?:const )?fn (\w+)", row)
        if found:
            name = f"{owner}: {found.group(2)}" if found.group(1) and owner else found.group(2)
        if row == "}":
            owner = ""
    return name or owner


def where(said, bug, folder):
    """Returns where a refused bug was met."""
    found = PLACE.search(said)
    if not found:
        return said.strip(": ")[:100]
    path, line, told = found.group(1), int(found.group(2)), found.group(3)
    if path.startswith("src/"):
        text = bug.changed(folder).get(path) or open(f"{folder}/{path}", encoding="utf-8").read()
        place = function_at(text, line)
    else:
        place = path
    lost = " (a name went)" if said.startswith(" (only because") else ""
    return f"{place}{lost}", told[:110]


def judge_by_proof(copy, crate, bugs):
    """Returns what the checker says of each bug, by its name."""
    folder = f"{copy}/crates/{crate}"
    edits = f"{folder}/must-fail"
    shutil.rmtree(edits, ignore_errors=True)
    os.mkdir(edits)
    for bug in bugs:
        with open(f"{edits}/{bug.name}.edit", "w", encoding="utf-8") as out:
            out.write("\n".join(bug.edits) + "\n")
    subprocess.run(["rt", "check"], cwd=folder, stdout=subprocess.DEVNULL, stderr=subprocess.DEVNULL)
    ran = subprocess.run(["rt", "must-fail", crate], cwd=copy, capture_output=True, text=True)
    shutil.rmtree(edits)
    said = {it.group(1): (it.group(2), it.group(3)) for it in REFUSED.finditer(ran.stdout + ran.stderr)}
    for bug in bugs:
        kind, rest = said.get(bug.name, ("NOT TRIED", ran.stdout[-300:] + ran.stderr[-300:]))
        yield bug, *(where(rest, bug, folder) if kind.startswith("refused") and PLACE.search(rest) else (kind, rest[:200]))


def drop(path):
    """Removes a built program, so that it is built anew."""
    if os.path.exists(path):
        os.remove(path)


def judge_by_running(copy, crate, bug):
    """Returns whether tests, the program's own run or the cases of sheets tell the bug, and what was said."""
    folder, what = f"{copy}/crates/{crate}", bug.tried.split()
    texts = bug.changed(folder)
    kept = {it: open(f"{folder}/{it}", encoding="utf-8").read() for it in texts}
    try:
        for at, text in texts.items():
            open(f"{folder}/{at}", "w", encoding="utf-8").write(text)
        at = f"{copy}/crates/{what[1]}" if len(what) > 1 else folder
        if what[0] == "tests":
            ran = subprocess.run(["rt", "try", "--test"], cwd=at, capture_output=True, text=True)
            # (6: it did not come to an end in its time, so no test has told anything)
            told = ran.returncode not in (0, 6)
        elif what[0] == "cases":
            drop(f"{folder}/out/{crate}")
            ran = subprocess.run([f"{copy}/.ci/programs"], capture_output=True, text=True)
            told = re.search(r"^(compare|play) (?!.*(as expected|: \d+ cases)$)", ran.stdout, re.M) is not None
            drop(f"{folder}/out/{crate}")
        else:
            given = open(f"{at}/stdin", "rb") if os.path.exists(f"{at}/stdin") else subprocess.DEVNULL
            ran = subprocess.run(["rt", "run"], cwd=at, stdin=given, capture_output=True, text=True)
            told = ran.stdout != open(f"{at}/stdout", encoding="utf-8").read()
        return what[0] if told else "NOT REFUSED", (ran.stdout + ran.stderr)[-200:].strip()
    finally:
        for at, text in kept.items():
            open(f"{folder}/{at}", "w", encoding="utf-8").write(text)


def put_down(crate, places):
    """Writes into the crate's list where each of these bugs, by name, was refused."""
    at = f"{HERE}/planted/{crate}.bugs"
    text = open(at, encoding="utf-8").read().rstrip("\n") + "\n"
    for name, place in places.items():
        text = re.sub(rf"(^bug: {name}\n(?:.+\n)*)", rf"\g<1>falls: {place}\n", text, flags=re.M)
    open(at, "w", encoding="utf-8").write(text)


def try_all(copy, crates, writes=False):
    """Tries the bugs of the crates, and returns how many did not end as their list says, or now says."""
    bring(copy)
    odd = 0
    for crate in crates:
        bugs = [it for it in bugs_of(crate) if not (writes and (it.falls or it.stays))]
        for bug in bugs:
            bug.changed(f"{HERE}/crates/{crate}")
        proved = judge_by_proof(copy, crate, [it for it in bugs if not it.tried])
        run = ((it, *judge_by_running(copy, crate, it)) for it in bugs if it.tried)
        found = {}
        for bug, place, told in [*proved, *run]:
            if writes and place.upper() != place:
                found[bug.name] = bug.falls = place
            is_so = place == "NOT REFUSED" if bug.stays else place == bug.falls
            odd += not is_so
            print(f"{'' if is_so else '! '}{crate}/{bug.name}: {place}: {told}", flush=True)
        if found:
            put_down(crate, found)
    return odd


WAYS = ("a function", "an answer", "tests", "a run", "the cases", "nothing")


def way(bug):
    """Returns in which column a bug is counted."""
    if bug.stays:
        return "nothing"
    named = {"tests": "tests", "run": "a run", "cases": "the cases"}
    return named.get(bug.falls, "an answer" if bug.falls.startswith("proofs/") else "a function")


def place_in_words(place):
    """Returns a place as the tables have it: of answers the function whose they are."""
    found = re.fullmatch(r"proofs/(?:[a-z_]+/)*(?:([A-Z]\w*)/)?(\w+)/Answers\.antt", place)
    if not found:
        return f"`{place}`" if place.startswith("proofs/") else place
    return f"{found[1] + ': ' if found[1] else ''}{found[2]}, in its answers"


def table(crates):
    """Prints the bugs of the lists as tables: how many ended in which way, and for each crate where."""
    lists = {it: bugs_of(it) for it in crates}
    print("| Crate | Planted |", " | ".join(f"Refused by {it}" for it in WAYS[:5]), "| By nothing |\n|" + "---|" * 8)
    for crate, bugs in lists.items():
        print(f"| `{crate}` | {len(bugs)} |", " | ".join(str(sum(way(bug) == it for bug in bugs) or "–") for it in WAYS), "|")
    every = [bug for bugs in lists.values() for bug in bugs]
    print(f"| all | {len(every)} |", " | ".join(str(sum(way(bug) == it for bug in every)) for it in WAYS), "|")
    for crate, bugs in lists.items():
        rows = {}
        for bug in bugs:
            at = f"nothing: {bug.stays}" if bug.stays else place_in_words(bug.falls)
            rows.setdefault(at, []).append(bug.name.replace("_", " "))
        print(f"\n### `{crate}`\n\n| Refused by | Bugs |\n|---|---|")
        for place, names in rows.items():
            print(f"| {place} | {'; '.join(names)} |")


if __name__ == "__main__":
    if len(sys.argv) > 3 and sys.argv[1] in ("try", "write"):
        count = try_all(os.path.abspath(sys.argv[2]), sys.argv[3:], sys.argv[1] == "write")
        print(f"{count} did not end as their list says")
        sys.exit(count != 0)
    if sys.argv[1:] == ["table"]:
        table([it.split(":")[0] for it in open(f"{HERE}/crates.txt", encoding="utf-8") if re.match(r"\w+:", it)])
    else:
        sys.exit(__doc__)
