#!/usr/bin/env python3
"""Puts what came of the second tier of edits into the tables of docs/evidence/WRONG_BODIES.md.

    tools/wrong_bodies.sh > LOG; tools/wrong_bodies_table.py COMMIT LOG..

COMMIT is the text at which those bodies were tried; it should be the one that stands here, since functions are found by their lines. A log is what
tools/wrong_bodies.sh printed, or what rt itself did where it tried them (lines `must-fail CRATE/NAME.edit: ..`). The rows of bodies that a log has
are made anew, by the last log that has one; other rows stay, but for bodies that are gone, and a body without a row gets one. With no log only that is
done. The table by crate is counted again. What a log says of a body that stands in neither tier is told.

A result stands as long as nothing changed that it hangs on: the body, and src, specs and proofs of its crate and of every crate below it, are those of
the commit at which it was tried. How many stand at HEAD is counted for each crate.
"""

import collections
import functools
import glob
import os
import re
import subprocess
import sys

ROOT = os.path.join(os.path.dirname(os.path.abspath(__file__)), "..")
PAGE = os.path.join(ROOT, "docs/evidence/WRONG_BODIES.md")
UNTRIED, FORM, LIMIT, THROUGH = "not tried since it stands here", "by form alone", "by a limit alone", "let through"


def names(pattern):
    return sorted(os.path.basename(path)[: -len(".edit")] for path in glob.glob(os.path.join(ROOT, pattern, "*.edit")))


def lists(text):
    """The crates of a crates.txt, the lowest first, each with what its line names."""
    return dict((name, below.split()) for name, below in re.findall(r"^([a-z]\w*)[^:\n]*:(.*)$", text, re.M))


def crates():
    """The crates, the lowest first."""
    with open(os.path.join(ROOT, "crates.txt"), encoding="utf-8") as file:
        return list(lists(file.read()))


def git(*words):
    return subprocess.run(["git", "-C", ROOT, *words], capture_output=True, text=True, check=True).stdout


@functools.lru_cache(None)
def is_there(commit):
    return subprocess.run(["git", "-C", ROOT, "cat-file", "-e", commit + "^{commit}"], capture_output=True).returncode == 0


@functools.lru_cache(None)
def files(commit):
    """The files of a commit that results hang on, by crate, and its bodies, with their sums."""
    by_crate, bodies = collections.defaultdict(dict), {}
    for line in git("ls-tree", "-r", commit, "crates", "wrong_bodies").splitlines():
        head, path = line.split("\t")
        parts = path.split("/")
        if parts[0] == "wrong_bodies":
            bodies[path] = head.split()[2]
        elif parts[2] in ("src", "specs", "proofs"):
            by_crate[parts[1]][path] = head.split()[2]
    return by_crate, bodies


@functools.lru_cache(None)
def text_of(commit, crate):
    """The files of a crate and of all below it, with their sums."""
    below, reached, left = lists(git("show", commit + ":crates.txt")), set(), [crate]
    while left:
        one = left.pop()
        if one in below and one not in reached:
            reached.add(one)
            left += below[one]
    return {path: number for one in reached for path, number in files(commit)[0][one].items()}


def body_of(commit, path):
    """A body's text without the lines that are for the reader, if it is there."""
    if path not in files(commit)[1]:
        return None
    return [line for line in git("cat-file", "blob", files(commit)[1][path]).splitlines() if not line.startswith("#")]


def stands(crate, name, commit):
    """Whether all that the result of a body hangs on is at HEAD as it was at a commit."""
    path = "wrong_bodies/%s/%s.edit" % (crate, name)
    if not is_there(commit) or path not in files("HEAD")[1] or text_of(commit, crate) != text_of("HEAD", crate):
        return False
    return files(commit)[1].get(path) == files("HEAD")[1][path] or body_of(commit, path) == body_of("HEAD", path)


def edit_of(crate, name):
    with open(os.path.join(ROOT, "wrong_bodies", crate, name + ".edit"), encoding="utf-8") as file:
        return file.read()


def place(crate, said):
    """The function and the goal at which a refusal stands, by what rt said: of an answer on file, or of a place of the code."""
    answer = re.search(r"proofs/([^:]*)\.antt:[\d:]* error: `([^`]*)`", said)
    if answer:
        return "%s %s" % (re.sub(r"/(?:Answers|Invariants|Proof)$", "", answer.group(1)), answer.group(2))
    code = re.search(r"src/([^:]*)\.rt:(\d+):\d+:.*\(`([^`]*)`", said)
    if not code:
        return said
    file, line = code.group(1), int(code.group(2))
    with open(os.path.join(ROOT, "crates", crate, "src", file + ".rt"), encoding="utf-8") as text:
        lines = text.read().split("\n")
    # In a function's head the next one is meant, in its body the last one.
    is_head = re.match(r" *(?:pub|fn|#\[|//)", lines[line - 1])
    found = re.findall(r"\bfn (\w+)", "\n".join(lines[line - 1 :] if is_head else lines[:line]))
    return "%s/%s %s" % (file, found[0 if is_head else -1] if found else line, code.group(3))


def outcome(crate, name, said):
    """What a line of rt comes to, as tools/wrong_bodies.sh tells it: a word, and where the body falls."""
    has_reason = "# let through: " in edit_of(crate, name)
    if said.startswith("refused") and "(only by a limit" in said:
        return "limit", said.split("sooner): ")[-1]
    if said.startswith("refused"):
        kind = "mended" if has_reason else "form" if "only because a proof file names" in said else "refused"
        return kind, place(crate, said)
    if said.startswith("NOT REFUSED"):
        return "known" if has_reason else "through", "the crate is still proved with it"
    return "bad" if said.startswith("BAD EDIT") else "untried", said


def said_of(path):
    """What a log says of each body of the second tier."""
    found = {}
    with open(path, encoding="utf-8", errors="replace") as file:
        text = file.read()
    told = re.findall(r"^(refused|form|limit|known|through|bad|untried|mended) (\w+)/([\w-]+): (.*)$", text, re.M)
    of_rt = re.findall(r"^(?:rt: )?must-fail (\w+)/([\w-]+)\.edit: (.*)$", text, re.M)
    for crate, name, said in of_rt:
        if name in names("wrong_bodies/" + crate):
            kind, where = outcome(crate, name, said)
            told.append((kind, crate, name, where))
        elif name not in names("crates/%s/must-fail" % crate):
            print("no such body: %s/%s" % (crate, name))
    for kind, crate, name, said in told:
        said = said.replace("`", "").replace("|", "/")
        found[crate, name] = {"refused": said, "form": "%s: %s" % (FORM, said), "limit": "%s: %s" % (LIMIT, said), "known": THROUGH}.get(kind, "%s: %s" % (kind, said))
    return found


def rows_of(text):
    """The rows of the table of bodies: what is said of each, and the text at which it was tried."""
    found = re.findall(r"^\| `(\w+)/([\w-]+)` \| ([^|]*?) \|(?: (\w*) ?\|)?$", text, re.M)
    return {(crate, name): (said, commit) for crate, name, said, commit in found}


def told_of(commits, count):
    """The texts at which so many bodies of a crate were tried, each with its number where they are not all of one."""
    found = collections.Counter(commits)
    if list(found.values()) == [count]:
        return commits[0]
    return ", ".join("%s %d" % one for one in found.most_common())


def with_clause(crate, name, said):
    """What is said of a body, with the clause that is false where it is refused by form alone."""
    breaks = re.search(r"^# breaks: (.*)$", edit_of(crate, name), re.M)
    return said.replace(FORM + ":", "%s; false is %s:" % (FORM, breaks.group(1))) if breaks else said


def main(commit, logs):
    with open(PAGE, encoding="utf-8") as file:
        text = file.read()
    rows = rows_of(text)
    found = {}
    for log in logs:
        found.update(said_of(log))
    for (crate, name), said in found.items():
        if name in names("wrong_bodies/" + crate):
            rows[crate, name] = (with_clause(crate, name, said), commit)
    counted, lines, total = [], [], [0] * 6
    for crate in crates():
        gate, second = names("crates/%s/must-fail" % crate), names("wrong_bodies/" + crate)
        told = [rows.get((crate, name), (UNTRIED, "")) for name in second]
        counts = [len(gate), len(second)]
        counts.append(sum(not said.startswith((UNTRIED, FORM, LIMIT, THROUGH, "through: ", "bad: ", "untried: ", "mended: ")) for said, _ in told))
        counts += [sum(said.startswith(start) for said, _ in told) for start in (FORM, THROUGH)]
        counts.append(sum(tried != "" and stands(crate, name, tried) for name, (_, tried) in zip(second, told)))
        total = [one + more for one, more in zip(total, counts)]
        if gate or second:
            tried = [one for _, one in told if one]
            shown = [str(count) for count in counts[:2]] + [told_of(tried, len(second)) if tried else ""]
            shown += [str(count) if tried else "" for count in counts[2:]]
            counted.append("| `%s` | %s |" % (crate, " | ".join(shown)))
        lines += ["| `%s/%s` | %s | %s |" % (crate, name, said, tried) for name, (said, tried) in zip(second, told)]
    counted.append("| all | %d | %d |  | %d | %d | %d | %d |" % tuple(total))
    text = re.sub(r"(^\| crate \| in the gate .*\n\|.*\n)(?:\|.*\n)*", lambda match: match.group(1) + "\n".join(counted) + "\n", text, count=1, flags=re.M)
    front = re.split(r"\n\| body \| falls at \|", text)[0]
    with open(PAGE, "w", encoding="utf-8") as file:
        file.write(front + "\n| body | falls at | tried at |\n|---|---|---|\n" + "\n".join(lines) + "\n")
    print("in the gate %d, in the second tier %d: refused at a clause or goal %d, by form alone %d, let through %d; %d results stand" % tuple(total))


if __name__ == "__main__":
    if len(sys.argv) < 2:
        sys.exit(__doc__)
    main(sys.argv[1], sys.argv[2:])
