#!/usr/bin/env python3
"""The page of the definitions, docs/DEFINITIONS.md, made from the comments of `specs/`.

    tools/definitions.py            writes the page
    tools/definitions.py --check    says where the page is not as it would be written, and what is wrong with the comments

In a file of `specs/` the comment at its top says what the file is about, and the comment right above a definition what that definition
says. A comment ends in its source, in brackets: the clauses of a standard, of IEEE Std 802.11-2020 also by their number alone, and
`profile` where this project chose (docs/PROFILE.md):

    (IEEE Std 802.11-2020, 12.7.6.2)    (9.4.2.48, profile)    (12.7.6.2 to 12.7.6.5)    (FIPS 197, 4.4, 5.1.1)    (RFC 8018, 5.2; J.4)

The comment at the top has the source of all definitions of the file whose own comment ends in none. A definition without a comment
shares the row of the one before it. A file whose top ends in the line PRIVATE below is left out of the tables.

Wrong is
    a file that has no comment at its top, or begins with a definition that has none;
    a definition that has a comment but no source, by itself or by its file;
    a definition that has no comment where a contract of a public function cites it;
    a definition of a file that is left out, where a contract of a public function cites it;
    a page that is not what the comments make.

It prints each fault, and a last line with counts; its status is 0 where nothing is wrong.
"""

import difflib
import glob
import os
import re
import sys
import textwrap

ROOT = os.path.join(os.path.dirname(os.path.abspath(__file__)), "..")
PAGE = "docs/DEFINITIONS.md"
PRIVATE = "For the code alone: no public contract speaks of it."
DEFINITION = re.compile(r"^(?:(?:abbrev|unfoldable) )?pub (?:(?:record|data) ([\w-]+)|([\w-]+)\s+:(?!\S))")
IEEE = "IEEE Std 802.11-2020, "
CLAUSE = r"(?:\d+|[A-Z])(?:\.\d+)+"
ITEM = r"(?:profile|(?:%s)?%s(?: to %s)?|(?:FIPS|RFC) \d+(?:, \d+(?:\.\d+)*)*)" % (re.escape(IEEE), CLAUSE, CLAUSE)
SOURCE = re.compile(r"\s*\((%s(?:[,;] %s)*)\)\.?$" % (ITEM, ITEM))

TOP = """\
# Definitions

This page is made by `tools/definitions.py` from the comments of the crates' `specs/`, and the gate checks that it is up
to date: change a comment there and run the tool, not the page.

What a reader must believe: the definitions that contracts of public functions cite, and those that these are made of,
in plain words, with the clause of the standard that each restates. A number alone is a clause of IEEE Std 802.11-2020;
FIPS 197 is cited in its text of 2023. Where it says `profile` this project chose (`docs/PROFILE.md`). Above each table
stands what its file is about. The rows are in the order of the file, and a comment may go on from the one before it.

A definition without a comment of its own shares the row of the one before it, whose case, part or whole it is.
Constructors and fields stand under their type. What a contract of a public function cites has a row of its own. A file
is left out as a whole where only private functions, invariants of types and lemmas cite it; these files are named at
the end. In the others some definitions may stand that only such parts cite.

Octet strings are lists of numbers. That each number is below 256 is said by a premise of its own where it matters
(`AreOctets`, `IsBlock`). Histories and journals are lists, newest first.
"""

END = """\
## What only private functions cite

These files of `specs/` carry proofs of the code from one function to the next, and some say what always holds of the fields of a type (its
`invariant`). No clause of a function that another crate can call names them.

| crate | files |
|---|---|
"""


def lines_of(path):
    with open(os.path.join(ROOT, path), encoding="utf-8") as file:
        return file.read().split("\n")


def crates():
    """The crates that have definitions, in the order of crates.txt: each after those that it stands on."""
    names = [line.split(":")[0].split()[0] for line in lines_of("crates.txt") if line.strip() and not line.startswith("#")]
    return [name for name in names if os.path.isdir(os.path.join(ROOT, "crates", name, "specs"))]


def files(crate):
    """The files of definitions of a crate, in the order in which it lists them."""
    listed = [line[len("pub mod "):].strip() for line in lines_of("crates/%s/specs/Lib.antt" % crate) if line.startswith("pub mod ")]
    return [(name, "crates/%s/specs/%s.antt" % (crate, name)) for name in listed if name != "declared"]


def comment_above(lines, place):
    """The lines of the comment that ends right above that line."""
    begin = place
    while begin > 0 and lines[begin - 1].startswith("--"):
        begin -= 1
    return [line[2:].strip() for line in lines[begin:place]]


def split_source(comment):
    """A comment's text without its source, and the source, or None."""
    text = " ".join(comment)
    found = SOURCE.search(text)
    return (text[:found.start()], found.group(1).replace(IEEE, "")) if found else (text, None)


class File:
    """What a file of definitions says of itself: its top, its source, and its rows, each with names, text and source."""

    def __init__(self, path, report):
        lines = lines_of(path)
        begin = next((place for place, line in enumerate(lines) if not line.startswith("--")), len(lines))
        top = comment_above(lines, begin)
        self.is_private = top[-1:] == [PRIVATE]
        self.top, self.source = split_source(top[:-1] if self.is_private else top)
        self.rows, self.own, self.names = [], set(), set()
        if not top:
            report("%s: no comment at its top" % path)
        for place, line in enumerate(lines):
            found = DEFINITION.match(line)
            if not found:
                continue
            name = found.group(1) or found.group(2)
            self.names.add(name)
            comment = comment_above(lines, place)
            if comment:
                text, source = split_source(comment)
                self.own.add(name)
                self.rows.append(([name], text, source or self.source))
                if not self.is_private and not (source or self.source):
                    report("%s:%d: `%s`: no clause of a standard, nor the word profile" % (path, place + 1, name))
            elif self.rows:
                self.rows[-1][0].append(name)
            elif not self.is_private:
                report("%s:%d: `%s`: the first definition has no comment" % (path, place + 1, name))


def exported(crate):
    """The names that other crates can use of a crate: what its `lib.rt` declares or hands on, and the files of its public modules."""
    text = re.sub(r"//.*", "", "\n".join(lines_of("crates/%s/src/lib.rt" % crate)))
    names = set(re.findall(r"\w+", " ".join(re.findall(r"^pub use ([^;]*);", text, re.M))))
    return names | set(re.findall(r"^pub (?:const )?(?:fn|struct|enum|trait) (\w+)", text, re.M)), set(re.findall(r"^pub mod (\w+)", text, re.M))


def contracts(text, names, is_open):
    """The contracts in a file of code that other crates see: each function's name, and its clauses."""
    owner, is_trait = None, False
    for found in re.finditer(r"^(?P<end>\})|^(?:pub )?trait (?P<trait>\w+)|^impl\b(?P<impl>[^{]*)\{"
                             r"|^ *(?P<pub>pub )?(?:const )?fn (?P<call>\w+)(?P<rest>.*?)(?=^ *(?:\{$|\})|;$)", text, re.M | re.S):
        if found["end"]:
            owner, is_trait = None, False
        elif found["trait"]:
            owner, is_trait = found["trait"], True
        elif found["impl"] is not None:
            subject = re.sub(r"<[^<>]*>", "", re.sub(r"<[^<>]*>", "", found["impl"])).split(" where ")[0]
            owner, is_trait = subject.split()[-1], False
        elif (found["pub"] or is_trait) and (is_open or (owner or found["call"]) in names):
            clause = re.search(r"\b(?:requires|ensures)\b", found["rest"])
            yield found["call"], found["rest"][clause.start():] if clause else ""


def cited():
    """The definitions that contracts of public functions cite, by file and name, each with a function that cites it."""
    found = {}
    for crate in crates():
        names, modules = exported(crate)
        for path in sorted(glob.glob(os.path.join(ROOT, "crates/%s/src/**/*.rt" % crate), recursive=True)):
            text = re.sub(r"//.*", "", "\n".join(lines_of(path)))
            used = {}
            for other, file, group in re.findall(r"ghost use Rattle\.(\w+)\.specs\.(\w+)\.\{([^}]*)\}", text):
                for name, _, local in (part.strip().partition(" as ") for part in group.split(",")):
                    used[local or name] = ("crates/%s/specs/%s.antt" % (other, file), name)
            is_open = os.path.splitext(os.path.basename(path))[0] in modules | {"lib", "laws"}
            for call, clauses in contracts(text, names, is_open):
                for word in set(re.findall(r"[\w-]+", clauses)) & set(used):
                    found.setdefault(used[word], "%s::%s" % (crate, call))
    return found


def table(name, file):
    """The part of the page that tells a file."""
    top = textwrap.fill("`%s`: %s (%s)" % (name, file.top.rstrip("."), file.source or "no source"), 120, break_long_words=False, break_on_hyphens=False)
    rows = []
    for names, text, source in file.rows:
        first = ", ".join("`%s`" % each for each in ["%s.%s" % (name, names[0]), *names[1:]])
        rows.append("| %s | %s | %s |" % (first, text.replace("|", "\\|").rstrip("."), source or "none"))
    return "%s.\n\n| definition | says | source |\n|---|---|---|\n%s\n" % (top, "\n".join(rows))


def page(report):
    """The page, and how many definitions it lists."""
    parts, private, count, wanted = [TOP], [], 0, cited()
    for crate in crates():
        told, hidden = [], []
        for name, path in files(crate):
            file = File(path, report)
            for each in sorted(file.names):
                if (path, each) in wanted and (file.is_private or each not in file.own):
                    why = "its file is left out" if file.is_private else "no comment"
                    report("%s: `%s`: %s, but the contract of %s cites it" % (path, each, why, wanted[path, each]))
            if file.is_private:
                hidden.append("`%s`" % name)
            elif file.rows:
                told.append(table(name, file))
                count += sum(len(names) for names, _, _ in file.rows)
        if told:
            parts.append("\n".join(["## `%s`\n" % crate, *told]))
        if hidden:
            private.append("| `%s` | %s |" % (crate, ", ".join(hidden)))
    return "\n".join(parts) + "\n" + END + "\n".join(private) + "\n", count


def main():
    wrong = []
    text, count = page(wrong.append)
    path = os.path.join(ROOT, PAGE)
    if sys.argv[1:] == ["--check"]:
        new, old = text.split("\n"), lines_of(PAGE) if os.path.exists(path) else []
        same = difflib.SequenceMatcher(None, old, new, autojunk=False).get_opcodes() if old != new else []
        for kind, begin, _, start, _ in same:
            if kind != "equal":
                line = (new[start:start + 1] or old[begin:begin + 1])[0]
                wrong.append("%s:%d: not as the comments say: %s" % (PAGE, begin + 1, line[:80]))
    elif sys.argv[1:]:
        print("usage: tools/definitions.py [--check]", file=sys.stderr)
        return 2
    else:
        with open(path, "w", encoding="utf-8") as file:
            file.write(text)
    for line in wrong:
        print(line)
    print("definitions %d wrong %d" % (count, len(wrong)))
    return 1 if wrong else 0


if __name__ == "__main__":
    sys.exit(main())
