#!/usr/bin/env python3
"""Whether the manual of scripts has the lines and the texts that the program knows.

    tools/forms.py

Read are the definitions of `script_words` and `script_lines`: the table of lines, with what stands at each place of a line, and the texts of reasons,
limits and causes. In docs/user/SCRIPTS.md each form has to stand in code quotes; each line in the table of the header or in that of
events, which have no other; what goes with some suites, in one kind of run, in version 2 or with `mfp` alone has to say so there. Each reason, each limit and
each cause has to stand in its table, and nothing else: a cause without the colon before it, and with `<n>` where a number follows.
It prints each that is wrong, and a last line with counts; its status is 0 where none is.
"""

import os
import re
import sys

ROOT = os.path.join(os.path.dirname(os.path.abspath(__file__)), "..")
SPECS = "crates/%s.antt"
MANUAL = "docs/user/SCRIPTS.md"
# Which positions may stand in each list of lines.
ANYWHERE = ("Outside", "Anywhere", "Opening")
LISTS = (
    ("Optional", "LastOptional", "Aps", "Stas") + ANYWHERE,
    ("LastOptional", "Aps", "Stas") + ANYWHERE,
    ("Aps", "Stas") + ANYWHERE,
    ("Stas",) + ANYWHERE,
    ANYWHERE,
    ("Anywhere", "Closing"),
)
# What a list says of a line that goes with some suites alone, and of one that stands in some scripts alone.
SUITES = {"Every": "", "Transition": " with ft-psk", "Others": " without ft-psk", "Sha256": " without psk"}
VERSIONS = {"": "", "second_": " with domain 2", "protecting_": " with mfp"}


def text_of(path):
    with open(os.path.join(ROOT, path), encoding="utf-8") as file:
        return file.read()


def texts(name, function):
    """The texts that a definition gives, by what it is given, in order."""
    found = re.findall(r'^%s ([^=\n]*) = (?:codes "([^"]*)"|\[\])$' % function, text_of(SPECS % name), re.M)
    if not found:
        sys.exit("no %s in %s" % (function, SPECS % name))
    return {given.strip("()").split()[0].split(".")[-1]: text for given, text in found}


def table():
    """The rows of the table of lines, in order: word, position, suites, runs, what stands after the word, and in which scripts it stands."""
    specs = text_of(SPECS % "script_words/specs/Grammar")
    order = re.findall(r"form\.(\w+)", specs[specs.index("\nlines =") : specs.index("-- the word with which")])
    words, kinds = texts("script_words/specs/Grammar", "word_of"), texts("script_words/specs/Texts", "kind_text")
    kinds["Suite"] = kinds.pop("Akm")
    rows = {}
    for form, scripts, position, suites, runs, after in re.findall(
        r"^row_of form\.(\w+) = ((?:second_|protecting_)?)row (\(Head \d\)|\w+) (\w+) (\w+) (none|\(.*\))$", specs, re.M
    ):
        after = "".join(kinds[kind] for kind in after.strip("()").split()[1:])
        rows[form] = (words[form], position.strip("()").split()[0], suites, runs, after, scripts)
    return [rows[form] for form in order], rows


def joined(words):
    return " or ".join([", ".join(words[:-1])] * (len(words) > 1) + words[-1:])


def lists(rows, runs):
    """The lists of lines that may stand somewhere in a kind of run."""
    for positions in LISTS:
        yield "that of " + joined(
            [
                word + VERSIONS[scripts] + SUITES[suites]
                for word, position, suites, kinds, _, scripts in rows
                if position in positions and kinds in ("Both", runs)
            ]
        )


def shown(cause):
    """A cause as the manual has it."""
    text = cause.removeprefix(": ")
    return text + "<n>" if text.endswith(": ") else text


def rows_under(manual, head):
    """The rows of the table that begins with that head."""
    start = manual.index("\n%s\n" % head)
    return manual[start + 1 :].split("\n\n", 1)[0].split("\n")[2:]


def cells(manual, head, column):
    """The texts in code quotes of a column of the table that begins with that head."""
    return [text for row in rows_under(manual, head) for text in re.findall(r"`([^`]*)`", row.split(" | ")[column])]


def main():
    manual = text_of(MANUAL)
    quoted = set(re.findall(r"`([^`\n]*)`", manual))
    rows, by_form = table()
    reasons = list(texts("script_lines/specs/Refusals", "refusal_text").values())
    causes = [shown(cause) for cause in texts("script_words/specs/Causes", "cause_text").values() if cause]
    forms = [row[0] + row[4] for row in rows]
    others, key = (by_form["LiveSeed"], by_form["KeyedSta"]), (by_form["Passphrase"], by_form["Psk"])
    # Of the lists of lines in a live run the manual tells how they differ.
    whole = forms + [row[0] + row[4] for row in others] + [" or ".join(row[0] + row[4] for row in key)] + list(lists(rows, "Replays"))
    wrong, count = [], 0
    for text in whole + reasons + causes:
        count += 1
        if text not in quoted:
            wrong.append("not there: %s" % text)
    for head, column, known in (
        ("| reason | text | where |", 1, reasons),
        ("| limit | text | where |", 1, reasons),
        ("| text | when |", 0, causes),
    ):
        for text in cells(manual, head, column):
            count += 1
            if text not in known:
                wrong.append("no such text: %s" % text)
    # The tables of lines: which words begin one, and what is said of suites, kinds of run and versions.
    listed = {}
    for head in ("| form | example | what it says |", "| form | example | what happens |"):
        for row in rows_under(manual, head):
            for text in re.findall(r"`([^`]*)`", row.split(" | ")[0]):
                listed.setdefault(text.split()[0], "")
                listed[text.split()[0]] += row
    for word, position, suites, runs, _, scripts in rows:
        count += 1
        if position in ("Opening", "Closing"):
            continue
        if word not in listed:
            wrong.append("no line of this word: %s" % word)
        elif position != "Head" and suites == "Transition" and "with `akm ft-psk` alone" not in listed[word]:
            wrong.append("not said that it is one of akm ft-psk alone: %s" % word)
        elif runs == "Lives" and "in a live run alone" not in listed[word]:
            wrong.append("not said that it is one of a live run alone: %s" % word)
        elif suites == "Others" and " with suites 2 and 6 alone" not in listed[word]:
            wrong.append("not said that it is one of suites 2 and 6 alone: %s" % word)
        elif suites == "Sha256" and " with suites 4 and 6 alone" not in listed[word]:
            wrong.append("not said that it is one of suites 4 and 6 alone: %s" % word)
        elif scripts == "second_" and not re.search("in version 2 (with suites [24] and 6 )?alone", listed[word]):
            wrong.append("not said that it is one of version 2 alone: %s" % word)
        elif scripts == "protecting_" and "with `mfp` alone" not in listed[word]:
            wrong.append("not said that it is one of networks with mfp alone: %s" % word)
    replays = joined(["`%s`" % row[0] for row in rows if row[3] == "Replays"]).replace(" or ", " and ")
    count += 1
    if "There %s are refused" % replays not in manual:
        wrong.append("not said that they are refused in a live run: %s" % replays)
    for word in sorted(set(listed) - {row[0] for row in rows}):
        wrong.append("no such line: %s" % word)
    for line in wrong:
        print("%s: %s" % (MANUAL, line))
    print("texts %d wrong %d" % (count, len(wrong)))
    return 1 if wrong else 0


if __name__ == "__main__":
    sys.exit(main())
