#!/usr/bin/env python3
"""Names that the documents cite and that are not there (any more).

    tools/names.py

Read are README.md, CONTRIBUTING.md, SECURITY.md, CHANGELOG.md, docs/ with its folders, and the page CALLING.md of each crate that has
one. What stands in code quotes is a name of the repository where it has one of these forms:

    crates/.., docs/.., examples/.., tools/.., bench/..   a file or folder; an example is named without its ending
    CRATE/src/FILE.rt:NAME                                what that file declares: a function, type, constant, module, variant
    CRATE/specs/FILE.NAME                                 what that file defines: with a signature, or as a record or data
    CRATE/proofs/FILE, CRATE/must-fail/EDIT               a file of proofs, an edit that the gate tries
    wrong_bodies/CRATE/EDIT                               an edit of the second tier
    CRATE::CALL.CLAUSE, CRATE::TYPE::CALL.CLAUSE          a call that the crate declares, and a clause of it

In docs/PROVED.md each section is of the crates that its heading names: a bracket with nothing but names in it has clauses or
calls (small letters), types and definitions (a capital) of them, or fields. So has the second column of a table; where the first
one has calls (CRATE::CALL), a clause there is one of these calls. Every other name has to be a word of their code or of
definitions.

In docs/evidence/WRONG_BODIES.md the last table has CRATE/NAME in its first column, the edits of the second tier, each of them.

In a table of docs/DEFINITIONS.md the first column has FILE.NAME, or NAME of the file before it, of the crate that the row begins
with or else the heading. Where a crate fills the first column, the second has files of its definitions, and names of the file before.

A name RECORD.FIELD, of a record of some crate's definitions, has to have a field of that one.

In a page CALLING.md each signature between fences, as `fn TYPE::CALL(..) -> ..;` or `fn CALL(..);`, has to stand in the code of its
crate, spaces apart, and its type too.

Every other name, of words joined by `::`, `.` or `/`, has to consist of words of one crate, or of the tools or benches; comments
have none. Where a bullet has crates in front of its first colon, or a row in its first column, it has to be a crate that it names.
Left out is what has other signs or spaces (a line, an expression), or is written by pairs of hexadecimal digits alone.

It prints each name that is not there with its place, and a last line with counts; its status is 0 where all are there.
"""

import functools
import os
import re
import sys

ROOT = os.path.join(os.path.dirname(os.path.abspath(__file__)), "..")
CRATES = sorted(os.listdir(os.path.join(ROOT, "crates")))
TOP = ["README.md", "CONTRIBUTING.md", "SECURITY.md", "CHANGELOG.md"]
OTHERS = [*TOP, "crates.txt", "HANDLES", "tools", "bench", ".ci", "wrong_bodies"]
BODIES = "docs/evidence/WRONG_BODIES.md"
PAGE = "/CALLING.md"


@functools.cache
def text_of(path):
    """A file's text, of code without comments."""
    with open(os.path.join(ROOT, path), encoding="utf-8") as file:
        text = file.read()
    comment = {".rt": r"//.*", ".antt": r"(?<!\S)--.*", ".sh": r"(?<!\S)#.*", ".py": r"(?<!\S)#.*"}.get(os.path.splitext(path)[1])
    return re.sub(comment, "", text) if comment else text


@functools.cache
def files(folder, ending):
    """The files in a folder with that ending, or a file alone; what a gate or Python built is left out."""
    found = [folder] if os.path.isfile(os.path.join(ROOT, folder)) else []
    for place, below, names in os.walk(os.path.join(ROOT, folder)):
        below[:] = [name for name in below if name not in ("out", "__pycache__")]
        found += [os.path.relpath(os.path.join(place, name), ROOT) for name in names if name.endswith(ending)]
    return found


def is_there(path):
    return os.path.exists(os.path.join(ROOT, path))


@functools.cache
def words(folder):
    """The words of the files in a folder, or of a file, and of their paths; a page on a crate is none of its files."""
    found = set()
    for path in files(folder, ""):
        if path.endswith(PAGE):
            continue
        found.update(re.findall(r"[\w-]+", text_of(path)), re.findall(r"[\w-]+", path), [os.path.basename(path)])
    return found


@functools.cache
def declared(path):
    """What a file of code declares."""
    text = text_of(path)
    found = set(re.findall(r"\b(?:fn|struct|enum|trait|const|static|type|mod)\s+(\w+)", text))
    for _, body in re.findall(r"^( *)(?:pub(?:\([^)]*\))? )?enum [^\n;]*\{\n(.*?)^\1\}", text, re.M | re.S):
        found.update(re.findall(r"^\s*([A-Z]\w*)", body, re.M))
    return found


@functools.cache
def clauses(path):
    """The clauses in a file of code, each with its function: it stands between that `fn` and the next one."""
    found, call = set(), None
    for name, clause in re.findall(r"\bfn (\w+)|\b(?:ensures|requires) ([\w-]+) \{", text_of(path)):
        call = name or call
        found.add((call, clause))
    return found


@functools.cache
def defined(path, margin=""):
    """What a file of definitions defines in lines with that margin: where there is one, fields and constructors."""
    form = r"^%s(?:(?:abbrev|unfoldable|pub) )*(?:(?:record|data) ([\w-]+)|([\w-]+)\s+:(?!\S))"
    return {name for pair in re.findall(form % margin, text_of(path), re.M) for name in pair if name}


@functools.cache
def fields(path):
    """The fields of each record that a file of definitions defines."""
    blocks = re.findall(r"^(?:pub )?record ([\w-]+).*\n((?:[ \t]+.*\n|\n)*)", text_of(path), re.M)
    return {name: set(re.findall(r"^ +(?:pub )?([\w-]+)\s+:(?!\S)", body, re.M)) for name, body in blocks}


def wrong_field(span):
    """What is wrong with RECORD.FIELD, or None: also where no record is called so, or where it is FILE.NAME."""
    record, _, field = span.partition(".")
    specs = [path for crate in CRATES for path in files("crates/%s/specs" % crate, ".antt")]
    found = [fields(path)[record] for path in specs if record in fields(path)]
    is_known = any(field in one for one in found) or any(path.endswith("/%s.antt" % record) and field in defined(path) for path in specs)
    return "no such field of `%s`" % record if found and not is_known else None


def wrong_path(span):
    """What is wrong with a name of the first forms, or None."""
    crate, _, rest = span.partition("/")
    if crate in CRATES and rest.startswith("src/"):
        path, _, name = rest.partition(":")
        path = "crates/%s/%s" % (crate, path)
        if not is_there(path):
            return "no such file"
        return None if not name or name in declared(path) else "not declared in that file"
    if crate in CRATES and rest.startswith("specs/"):
        path, _, name = re.sub(r"\.antt$", "", rest).partition(".")
        path = "crates/%s/%s.antt" % (crate, path)
        if not is_there(path):
            return "no such file"
        return None if not name or name in defined(path) else "no such definition in that file"
    if crate in CRATES:
        path = "crates/%s" % span
        return None if any(is_there(path + end) for end in ("", ".antt", ".edit")) else "no such file"
    if crate == "wrong_bodies":
        return None if is_there(span) or is_there(span + ".edit") else "no such edit"
    if crate == "examples":
        return None if is_there(span) or (is_there(span + ".txt") and is_there(span + ".report")) else "no such example"
    return None if is_there(span) else "no such file"


def wrong_call(span):
    """What is wrong with CRATE::CALL.CLAUSE, or None."""
    crate, rest = span.split("::", 1)
    path, _, clause = rest.partition(".")
    names = path.split("::")
    code = files("crates/%s/src" % crate, ".rt")
    for name in names:
        if not any(name in declared(path) for path in code):
            return "`%s` is not declared in that crate" % name
    if clause and not any((names[-1], clause) in clauses(path) for path in code):
        return "no such clause of that call"
    return None


def second_column(row):
    """The calls in the first column of a row, and where the second one begins and ends."""
    cells = row.split("|")
    begin = len(cells[1]) + 2
    return [span for span in SPAN.findall(cells[1]) if CALL.match(span)], range(begin, begin + len(cells[2]))


def wrong_in_row(crates, calls, span):
    """What is wrong with a name in the second column of a row of PROVED.md, or None."""
    name = re.split(r"\.", span)[-1]
    specs = [path for crate in crates for path in files("crates/%s/specs" % crate, ".antt")]
    is_clause = any(wrong_call("%s.%s" % (call, name)) is None for call in calls)
    if not calls or is_clause or any(name in defined(path) or name in defined(path, " +") for path in specs):
        return wrong_in(crates, span, True)
    return "no such clause of %s" % ", ".join(calls) if name[0].islower() else wrong_in(crates, span, True)


def wrong_in(crates, span, is_bracket):
    """What is wrong with a name in a section of PROVED.md, or None."""
    name = re.split(r"::|\.", span)[-1].strip("()")
    if not re.fullmatch(r"[A-Za-z][\w-]*", name):
        return None
    is_small = name[0].islower()
    code = [path for crate in crates for path in files("crates/%s/src" % crate, ".rt")]
    specs = [path for crate in (crates if is_small else CRATES) for path in files("crates/%s/specs" % crate, ".antt")]
    if is_bracket:
        is_code = any(any(name in pair for pair in clauses(path)) if is_small else name in declared(path) for path in code)
        is_known = is_code or any(name in defined(path) or name in defined(path, " +") for path in specs)
        return None if is_known else "no such clause, call, type or definition in %s" % ", ".join(crates)
    folders = ["crates/%s/src" % crate for crate in crates] + ["crates/%s/specs" % crate for crate in CRATES]
    return None if name in CRATES or any(name in words(folder) for folder in folders) else "no such word in %s" % ", ".join(crates)


def wrong_word(crates, span):
    """What is wrong with a name in a bullet or row of these crates, or None."""
    folders = ["crates/%s" % crate for crate in crates or CRATES] + ([] if crates else OTHERS)
    parts = re.split(r"::|/|\.(?!(?:antt|rt|py|sh|txt|md)$)", span)
    is_known = any(all(part in words(folder) for part in parts) for folder in folders)
    return None if is_known else "no such word in %s" % (", ".join(crates) or "the repository")


def wrong_in_table(crates, row):
    """What is wrong with each definition in a row of DEFINITIONS.md, or None, by its place in the row."""
    wrong, path, cells = {}, None, row.split("|")
    has_files = cells[1].strip(" `") in CRATES
    for match in SPAN.finditer("|".join(cells[:3 if has_files else 2])):
        file, _, name = match.group(1).rpartition(".")
        if match.start() == 2 and name in CRATES:
            crates = [name]
            continue
        folder = "crates/%s/specs/" % "".join(crates[:1])
        if has_files and is_there(folder + name + ".antt"):
            file, name = name, ""
        path = folder + file + ".antt" if file else path
        is_known = path is not None and is_there(path) and (not name or name in defined(path))
        wrong[match.start()] = None if is_known else "no such definition in %s" % (path or "any file")
    return wrong


SPAN = re.compile(r"`([^`\n]+)`")
PATH = re.compile(r"^(?:%s|crates|docs|examples|tools|bench|wrong_bodies|\.ci)/[\w./:,'-]*$" % "|".join(CRATES))
CALL = re.compile(r"^(?:%s)::[\w:]+(?:\.\w+)?$" % "|".join(CRATES))
FIELD = re.compile(r"^[A-Z]\w*\.[a-z][\w-]*$")
WORD = re.compile(r"^(?!(?:[0-9a-f]{2})+$)[A-Za-z_][\w-]*(?:(?:::|[./])[A-Za-z_][\w-]*)*$")
# The same forms with a crate that is not there.
OTHER = re.compile(r"^[a-z]\w*(?:/(?:src|specs|proofs|must-fail)/[\w./:-]+|::\w[\w:]*(?:\.\w+)?)$")
# A heading, a row of a table, a bullet or another paragraph.
BLOCK = re.compile(r"^[^\n].*(?:\n(?!\n|#|\||\s*- ).*)*", re.M)


def packed(text):
    """Code without spaces, and without the comma that ends a list."""
    return re.sub(r",(?=[)>])", "", re.sub(r"\s+", "", text))


@functools.cache
def code_of(crate):
    """The code of a crate, packed."""
    return "\n".join(packed(text_of(path)) for path in files("crates/%s/src" % crate, ".rt"))


def wrong_signatures(name, report):
    """Reports each signature of a page on a crate that its code does not have, and gives how many there are."""
    crate, text = name.split("/")[1], text_of(name)
    count = 0
    for fence in re.finditer(r"^```.*?^```", text, re.M | re.S):
        for match in re.finditer(r"^fn (?:(\w+)::)?(\w+)(.*?);$", fence.group(0), re.M | re.S):
            owner, call, rest = match.groups()
            is_there = packed("fn %s%s" % (call, rest)) in code_of(crate)
            if not is_there or (owner and not any(owner in declared(path) for path in files("crates/%s/src" % crate, ".rt"))):
                line = text.count("\n", 0, fence.start() + match.start()) + 1
                report("%s:%d: `%s`: no such signature in that crate" % (name, line, call))
            count += 1
    return count


def crates_in(text):
    """The crates that a text names, also in front of a path or a call."""
    return [crate for crate in (re.split(r"::|/", span)[0] for span in SPAN.findall(text)) if crate in CRATES]


def check(name, report):
    count, section, bodies = 0, [], set()
    plain = re.sub(r"^```.*?^```", lambda match: "\n" * match.group(0).count("\n"), text_of(name), flags=re.M | re.S)
    for block in BLOCK.finditer(plain):
        text = block.group(0)
        is_heading = text.startswith("#")
        section = crates_in(text) if is_heading else section
        front = re.match(r"\s*- [^.;]*?:(?=\s)|\|[^|]*", text)
        crates = crates_in(text) if front and crates_in(front.group(0)) else []
        brackets = {match.start(1) + found.start() for match in re.finditer(r"\(((?:`[^`\n]+`(?:,|\s|and)*)+)\)", text)
                    for found in SPAN.finditer(match.group(1))}
        is_row = name == "docs/PROVED.md" and text.startswith("| ")
        calls, second = second_column(text) if is_row else ([], ())
        table = wrong_in_table(section, text) if name == "docs/DEFINITIONS.md" and text.startswith("| ") else {}
        for match in SPAN.finditer(text):
            span, wrong = match.group(1), None
            if "/out/" in span or re.search(r"[<>{}*]|\b(?:CRATE|FILE|NAME|CALL)\b", span):
                continue
            count += 1
            if name == BODIES and match.start() == 2 and text.startswith("| ") and re.fullmatch(r"\w+/[\w-]+", span):
                wrong = wrong_path("wrong_bodies/" + span)
                bodies.add("wrong_bodies/%s.edit" % span)
            elif PATH.match(span):
                wrong = wrong_path(span)
            elif CALL.match(span):
                wrong = wrong_call(span)
            elif OTHER.match(span):
                wrong = "no such crate"
            elif is_heading and name in ("docs/PROVED.md", "docs/DEFINITIONS.md") and not re.search(r"[:(]", text[:match.start()]):
                wrong = None if span in CRATES else "no such crate"
            elif match.start() in table:
                wrong = table[match.start()]
            elif match.start() in second:
                wrong = wrong_in_row(section, calls, span)
            elif name == "docs/PROVED.md" and section:
                wrong = wrong_in(section, span, match.start() in brackets)
            elif WORD.match(span):
                wrong = wrong_word(crates, span)
            else:
                count -= 1
            if wrong is None and FIELD.match(span) and match.start() not in table:
                wrong = wrong_field(span)
            if wrong is not None:
                report("%s:%d: `%s`: %s" % (name, plain.count("\n", 0, block.start() + match.start()) + 1, span, wrong))
    for path in sorted(set(files("wrong_bodies", ".edit")) - bodies) if name == BODIES else []:
        report("%s: `%s`: no row has it" % (name, path))
    return count


def main():
    wrong = []
    pages = [path for path in ("crates/%s%s" % (crate, PAGE) for crate in CRATES) if is_there(path)]
    documents = TOP + sorted(files("docs", ".md")) + pages
    count = sum(check(name, wrong.append) for name in documents) + sum(wrong_signatures(name, wrong.append) for name in pages)
    for line in wrong:
        print(line)
    print("names %d wrong %d" % (count, len(wrong)))
    return 1 if wrong else 0


if __name__ == "__main__":
    sys.exit(main())
