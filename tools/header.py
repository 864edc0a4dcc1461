#!/usr/bin/env python3
"""The declarations of `crates/kehtrop_c/kehtrop.h`, made from the comments and signatures of `crates/kehtrop_c/src`.

    tools/header.py                       writes them, between the two lines MADE and ENDS below
    tools/header.py --check [ARCHIVE]     says where they are not as they would be written, and lets the C compiler read the header

Made are
    an enumeration of the constants of each module in ENUMS, with their comments, and one of the limits of a network (`run_journal`);
    each `#[repr(C)]` struct of `crossing.rt`, with its fields and their comments;
    the words of refusals, and of events that did nothing, by their numbers: both as `specs` have them;
    a prototype of each exported function, with its comment. A slice is a pointer and a length, and a `Global` is passed by nobody.

With `--check` wrong is
    a text between the two lines that is not the one made;
    a handle that is not one pointer;
    a header that the C compiler does not take, alone and without a warning, or that a compiler of C++ does not take;
    a header in which the C compiler finds another number, another layout of a struct or another type of a function than `src` has: for each
    an assertion is compiled, whatever part of the header the declaration stands in;
    a number of `src` that has no name, where another of its module has one: a numeral as an event, a status or the kind of an item;
    an archive that defines other functions of this name than the header declares.

It prints each fault, and a last line with counts; its status is 0 where nothing is wrong. What is not there (a compiler, an archive) is
skipped, with a line that says so.
"""
import difflib
import pathlib
import re
import shutil
import subprocess
import sys
import tempfile
import textwrap

ROOT = pathlib.Path(__file__).resolve().parent.parent
CRATE = ROOT / "crates" / "kehtrop_c"
HEADER = CRATE / "kehtrop.h"
MADE = "/* ---- made by tools/header.py from src/ ---- */"
ENDS = "/* ---- by hand again ---- */"
ENUMS = {"statuses": "kehtrop_status", "items": "kehtrop_what", "events": "kehtrop_event_number"}
STRUCTS = {"Config": "kehtrop_config", "Address": "kehtrop_address", "Psk": "kehtrop_psk_octets", "R1Key": "kehtrop_r1_key", "Item": "kehtrop_item"}
LIMITS = ("MOST_APS", "MOST_STAS", "MOST_PAYLOAD")
SIZES = {"u8": 1, "u16": 2, "u32": 4, "u64": 8}
NUMBERS = {"u8": "uint8_t", "u16": "uint16_t", "u32": "uint32_t", "u64": "uint64_t", "usize": "size_t"}
WIDTH = 120


def source(module):
    """A file of the crate."""
    return (CRATE / "src" / f"{module}.rt").read_text()


def comment(lines):
    """The text of `///` or `//!` lines, in C's words."""
    text = " ".join(line.strip()[3:].strip() for line in lines.strip().splitlines())
    return text.replace("`", "")


def above(text, indent=""):
    """A comment above a declaration."""
    return textwrap.wrap(f"/* {text} */", WIDTH, initial_indent=indent, subsequent_indent=f"{indent} * ", break_long_words=False, break_on_hyphens=False)


def beside(rows):
    """Lines `    CODE /* COMMENT */`, with the comments below one another."""
    column = max(len(code) for code, _ in rows) + 5
    for code, text in rows:
        yield from textwrap.wrap(f"/* {text} */", WIDTH, initial_indent=f"    {code}".ljust(column), subsequent_indent=" " * (column + 3))


# ---- what there is in src


def constants(module):
    """Of each constant of a module its name, number and comment."""
    for lines, name, number in re.findall(r"((?:^///[^\n]*\n)+)pub const (\w+): u8 = (\d+);", source(module), re.M):
        yield name, number, comment(lines)


def limits():
    """Of each limit that the header tells its name, number and comment."""
    text = (ROOT / "crates" / "run_journal" / "src" / "domain.rt").read_text()
    for lines, name, number in re.findall(r"((?:^///[^\n]*\n)+)pub const (\w+): usize = ([\d_]+);", text, re.M):
        if name in LIMITS:
            yield name, number.replace("_", ""), comment(lines)


def structs():
    """Of each struct that crosses its name, its comment, and its fields: their number type, name, count (0: no array) and comment."""
    pattern = r"((?:^///[^\n]*\n)+)#\[repr\(C\)\]\n(?:#\[[^\n]*\]\n)*pub struct (\w+) \{\n(.*?)^\}"
    for lines, name, body in re.findall(pattern, source("crossing"), re.M | re.S):
        rows = []
        for said, field, kind in re.findall(r"((?:^ *///[^\n]*\n)+) *pub (\w+): ([^,\n]+),", body, re.M):
            array = re.fullmatch(r"\[(\w+); (\d+)\]", kind)
            rows.append((array[1] if array else kind, field, int(array[2]) if array else 0, comment(said)))
        yield name, comment(lines), rows


def parameters(name, kind):
    """The C parameters of a parameter of that name and type."""
    if kind == "Global":
        return []
    by = re.fullmatch(r"&(mut )?(\[u8\]|\w+)", kind)
    if by is None:
        return [f"{NUMBERS[kind]} {name}"]
    const = "" if by[1] else "const "
    if by[2] == "[u8]":
        return [f"{const}uint8_t *{name}", f"size_t {name}_len"]
    return [f"{const}{'kehtrop' if by[2] == 'Handle' else STRUCTS[by[2]]} *{name}"]


def exports():
    """Of each exported function its name, its comment, its result and its parameters."""
    pattern = r'((?:^///[^\n]*\n)+)(?:#\[(?:tactic|unsafe)[^\n]*\]\n)+pub extern "C" fn (\w+)\(([^)]*)\)(?:\s*->\s*(\w+))?'
    for lines, name, listed, result in re.findall(pattern, source("lib"), re.M):
        kinds = [[word.strip() for word in each.split(":", 1)] for each in listed.split(",") if each.strip()]
        yield name, comment(lines), NUMBERS[result] if result else "void", [word for each in kinds for word in parameters(*each)]


def words(kind):
    """The words of `reason` or `why` in reports, by their numbers here."""
    numbers, texts = (CRATE / "specs" / "Items.antt").read_text(), (ROOT / "crates" / "run_journal" / "specs" / "Report.antt").read_text()
    told = dict(re.findall(rf'^{kind}_text \(?{kind}\.(\w+)[^=]*= (?:numbered )?\(?codes "([\w-]+) ?"', texts, re.M))
    by = {0: "none"}
    for variant, number in re.findall(rf"^{kind}_of \(?{kind}\.(\w+)[^=]*= \(?(\d+)", numbers, re.M):
        by[int(number)] = told[variant]
    return [by[n] for n in range(max(by) + 1)]


# ---- what is made of it


def enumeration(name, said, listed):
    rows = [(f"KEHTROP_{each} = {number}{',' if n + 1 < len(listed) else ''}", text) for n, (each, number, text) in enumerate(listed)]
    return [*above(said), f"enum {name} {{", *beside(rows), "};", ""]


def prototype(name, said, result, listed):
    start = f"{result} {name}("
    # a parameter stays on one line
    text = start.replace(" ", "\u00a0") + ", ".join(each.replace(" ", "\u00a0") for each in listed or ["void"]) + ");"
    wrapped = textwrap.wrap(text, WIDTH, subsequent_indent=" " * len(start), break_on_hyphens=False)
    return [*above(said), *(line.replace("\u00a0", " ") for line in wrapped), ""]


def table(name, said, kind):
    listed = ", ".join(f'"{word}"' for word in words(kind))
    start = "    static const char *const words[] = {"
    return [
        *above(said),
        f"static inline const char *{name}(uint8_t reason) {{",
        *textwrap.wrap(f"{start}{listed}}};", WIDTH, subsequent_indent=" " * len(start), break_on_hyphens=False),
        '    return reason < sizeof words / sizeof *words ? words[reason] : "?";',
        "}",
        "",
    ]


def made():
    """The lines between MADE and ENDS."""
    lines = [""]
    lines += enumeration("kehtrop_most", "What a network has at most.", list(limits()))
    for module, name in ENUMS.items():
        lines += enumeration(name, comment(re.match(r"(?:^//![^\n]*\n)+", source(module), re.M)[0]), list(constants(module)))
    for name, said, rows in structs():
        fields = [(f"{NUMBERS[kind]} {field}{f'[{count}]' if count else ''};", text) for kind, field, count, text in rows]
        lines += [*above(said), f"typedef struct {STRUCTS[name]} {{", *beside(fields), f"}} {STRUCTS[name]};", ""]
    lines += table("kehtrop_reason", "The word of a refusal, as in reports (docs/user/STATES.md).", "reason")
    lines += table("kehtrop_why", "The word for why an event did nothing.", "why")
    for each in exports():
        lines += prototype(*each)
    return lines


# ---- what is wrong


def layout(rows):
    """The offset of each field of a `#[repr(C)]` struct, and its size: each stands at a multiple of its own size, the whole of the largest."""
    at, most, offsets = 0, 1, []
    for kind, field, count, _ in rows:
        size = SIZES[kind]
        at, most = -(-at // size) * size, max(most, size)
        offsets.append((field, at))
        at += size * (count or 1)
    return offsets, -(-at // most) * most


def asserted():
    """A text in C that compiles where the header has the numbers, the structs and the functions of `src`."""
    facts = [f"KEHTROP_{name} == {number}" for name, number, _ in [*limits(), *(row for module in ENUMS for row in constants(module))]]
    for name, _, rows in structs():
        offsets, size = layout(rows)
        facts += [f"sizeof({STRUCTS[name]}) == {size}", *(f"offsetof({STRUCTS[name]}, {field}) == {at}" for field, at in offsets)]
    facts.append("sizeof(kehtrop) == sizeof(void *)")
    lines = ['#include "kehtrop.h"', *(f'_Static_assert({fact}, "{fact}");' for fact in facts)]
    return lines + [f"{result} (*const is_{name})({', '.join(listed) or 'void'}) = {name};" for name, _, result, listed in exports()]


def compiles(work):
    """How often a C compiler does not take the header as it is, or what is asserted of it, or a C++ compiler the header."""
    wrong = 0
    alone = ['#include "kehtrop.h"', '#include "kehtrop.h"', "int main(void) { return KEHTROP_OK; }"]
    for compiler, suffix, words, lines in (
        ("cc", "c", ["-std=c11", "-Wpedantic"], alone),
        ("cc", "c", ["-std=c11", "-Wpedantic"], asserted()),
        ("c++", "cc", ["-std=c++11"], alone),
    ):
        if shutil.which(compiler) is None:
            print(f"skipped: no {compiler}, so it did not read the header")
            continue
        file = pathlib.Path(work) / f"reads.{suffix}"
        file.write_text("\n".join(lines) + "\n")
        words += ["-Wall", "-Wextra", "-Werror", "-I", CRATE, "-c", file, "-o", f"{work}/reads.o"]
        wrong += subprocess.run([compiler, *words]).returncode != 0
    return wrong


def unnamed():
    """Numerals where a named number belongs."""
    wrong = 0
    for module, pattern in (("items", r"of_(?:node|peer|sender)\(domain, \d+|\bbare\(\d+"), ("events", r"^\s+\d+(?: \| \d+)* =>"), ("statuses", r"=> \d+,")):
        for found in re.findall(pattern, source(module), re.M):
            wrong += 1
            print(f"src/{module}.rt: a numeral has no name: {found.strip()}")
    return wrong


def built(archive, names):
    """Functions that are in the archive alone, or not in it."""
    if not archive.exists() or shutil.which("nm") is None:
        print("skipped: no archive, or no nm, so its functions were not compared")
        return 0
    listed = subprocess.run(["nm", "--defined-only", "--extern-only", archive], capture_output=True, text=True).stdout
    defined = set(re.findall(r" T (kehtrop_\w+)", listed))
    for name in sorted(defined ^ set(names)):
        print(f"{name}: {'in the archive alone' if name in defined else 'not in the archive'}")
    return len(defined ^ set(names))


def main():
    text = HEADER.read_text()
    before, _, rest = text.partition(MADE + "\n")
    old, _, after = rest.partition(ENDS + "\n")
    new = "\n".join(made()) + "\n"
    if sys.argv[1:2] != ["--check"]:
        HEADER.write_text(f"{before}{MADE}\n{new}{ENDS}\n{after}")
        return 0
    wrong = 0
    if old != new:
        wrong += 1
        sys.stdout.writelines(difflib.unified_diff(old.splitlines(True), new.splitlines(True), "kehtrop.h", "as it would be made"))
    fields = re.search(r"pub struct Handle \{(.*?)\n\}", source("handle"), re.S)[1]
    if re.findall(r"^    (?!pub ghost|///)(\w[^\n]*)", fields, re.M) != ["at: *mut u8,"]:
        wrong += 1
        print("src/handle.rt: a handle is not one pointer")
    names = [each[0] for each in exports()]
    archive = pathlib.Path(sys.argv[2]) if len(sys.argv) > 2 else CRATE / "out" / "libkehtrop_c.a"
    wrong += unnamed() + built(archive, names)
    with tempfile.TemporaryDirectory() as work:
        wrong += compiles(work)
    numbers = sum(len(list(constants(module))) for module in ENUMS)
    print(f"functions {len(names)} structs {len(list(structs()))} numbers {numbers} limits {len(list(limits()))} wrong {wrong}")
    return 1 if wrong or not names or not numbers else 0


if __name__ == "__main__":
    sys.exit(main())
