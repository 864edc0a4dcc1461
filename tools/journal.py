#!/usr/bin/env python3
"""The files that `kehtrop journal` writes, read back by a reader that shares nothing with the program. `tools/journal.sh` calls it.

    tools/journal.py PROGRAM [SCRIPT..]

Each script (else each of `examples` that a replay takes) goes through `replay` and `journal`. Where the replay ends with 0 the file has to
be `audit 1`, `script <n>`, the n lines of the script, and lines of entries. Each of these is taken apart by the grammar of docs/PROFILE.md,
"Lines of entries", into a value, written again from the value alone, and has to be the same octets. What the report prints has to be what
the entries say, line for line, and the sums those of the entries. What is drawn has to come of the seed of the script, and each pairwise key
and each PMK-R1 of the inputs that its line names, by HMAC of Python alone (IEEE Std 802.11-2020, 12.7.1). Where the replay ends otherwise,
`journal` has to end so, too, and to write nothing. The last line has counts; the status is 0 where nothing is wrong.
"""
import hashlib
import hmac
import re
import subprocess
import sys
from pathlib import Path

SECONDS = 120
NUMBER = re.compile(r"0|[1-9][0-9]*")
DIGITS = re.compile(r"(?:[0-9a-f][0-9a-f])+")
NODE = re.compile(r"([as])([1-9][0-9]*)")
MESSAGES = ["m1", "m2", "m3", "m4", "g1", "g2"]
KINDS = ["assoc-req", "assoc-resp", "ft-req", "ft-resp", "re-req", "re-resp", *MESSAGES, "data", "action", "ignored", "unread", "eapol"]
PLAIN_REASONS = ["not-for-me", "unknown-peer", "unawaited", "nonce", "mic", "wrap", "no-holder", "name", "no-key", "seal", "spent"]
# Reasons with numbers: for each number the greatest one, and for the kind of a fault its least one.
NUMBERED_REASONS = {"out-of-profile": [(0, 255)], "counter": [(0, 2**64 - 1)], "key-data": [(1, 6)], "status": [(0, 65535)], "replayed": [(0, 2**64 - 1)]}


class Wrong(Exception):
    """A line that is none of the grammar."""


def needs(holds, what):
    if not holds:
        raise Wrong(what)


# ---- the fields of a line: each reads its words off the front, and writes its value as words

class Words:
    """One of some words."""

    def __init__(self, *words):
        self.words = words

    def read(self, words):
        word = words.pop(0)
        needs(word in self.words, "no word of %s: %s" % (" ".join(self.words), word))
        return word

    def write(self, value):
        return [value]


class Number:
    """A decimal number up to a greatest one."""

    def __init__(self, greatest=2**64 - 1):
        self.greatest = greatest

    def read(self, words):
        word = words.pop(0)
        needs(NUMBER.fullmatch(word) and int(word) <= self.greatest, "no number up to %d: %s" % (self.greatest, word))
        return int(word)

    def write(self, value):
        return ["%d" % value]


class Octets:
    """Octets, of that number where one is given; `-` is none where none may be."""

    def __init__(self, count=None, most=None, missing=False):
        self.count, self.most, self.missing = count, most, missing

    def read(self, words):
        word = words.pop(0)
        if word == "-":
            needs(self.count is None or self.missing, "octets are missing")
            return None if self.missing else b""
        needs(DIGITS.fullmatch(word), "no octets: %s" % word)
        value = bytes.fromhex(word)
        needs(self.count is None or len(value) == self.count, "not %s octets: %s" % (self.count, word))
        needs(self.most is None or len(value) <= self.most, "more than %s octets: %s" % (self.most, word))
        return value

    def write(self, value):
        return ["-" if not value else "".join("%02x" % octet for octet in value)]


class Node:
    """An access point or a station, from 1, or with `all` all stations."""

    def __init__(self, group=False):
        self.group = group

    def read(self, words):
        word = words.pop(0)
        if self.group and word == "all":
            return "all", 0
        found = NODE.fullmatch(word)
        needs(found and int(found[2]) <= 65536, "no node: %s" % word)
        return found[1], int(found[2])

    def write(self, value):
        return ["all" if value[0] == "all" else "%s%d" % value]


class Each:
    """Fields one after another."""

    def __init__(self, *fields):
        self.fields = fields

    def read(self, words):
        needs(len(words) >= len(self.fields), "words are missing")
        return [field.read(words) for field in self.fields]

    def write(self, value):
        return [word for field, part in zip(self.fields, value) for word in field.write(part)]


class Key:
    """A key that is installed: a pairwise one with key id 0 and its inputs, or a group key with its id and BSSID."""

    def of(self, sort):
        return Each(Words("ptk"), Octets(16), Number(0), INPUTS) if sort == "ptk" else Each(Words("gtk", "igtk"), Octets(16), Number(255), Octets(6))

    def read(self, words):
        needs(words and words[0] in ("ptk", "gtk", "igtk"), "no sort of a key")
        return self.of(words[0]).read(words)

    def write(self, value):
        return self.of(value[0]).write(value)


class Outcome:
    """What came of a frame: its words, with points between them."""

    def read(self, words):
        parts = words.pop(0).split(".")
        if parts in (["accepted"], ["answered"], ["ignored"]):
            return parts
        needs(len(parts) >= 2 and parts[0] == "refused", "no outcome")
        reason, numbers = parts[1], parts[2:]
        needs(all(NUMBER.fullmatch(number) for number in numbers), "no numbers of a reason")
        numbers = [int(number) for number in numbers]
        if reason == "malformed":
            needs(len(numbers) == 3 and 1 <= numbers[0] <= 3 and numbers[1] < 2**64, "no place of a fault")
            # Of an air frame number 3 is that it is out of profile, which is a reason of its own.
            needs(numbers[2] in ((1, 2, 4), range(1, 6), range(1, 6))[numbers[0] - 1], "no such fault")
            # A fault of the version of an air frame stands at its first octet.
            needs(numbers[0] != 1 or numbers[2] != 2 or numbers[1] == 0, "no such place of a version")
        elif reason in NUMBERED_REASONS:
            ranges = NUMBERED_REASONS[reason]
            needs(len(numbers) == len(ranges) and all(low <= n <= high for n, (low, high) in zip(numbers, ranges)), "no numbers of that reason")
        else:
            needs(reason in PLAIN_REASONS and not numbers, "no reason: %s" % reason)
        return ["refused", reason] + numbers

    def write(self, value):
        return [".".join(str(part) for part in value)]


INPUTS = Each(Words("psk", "psk-sha256", "ft-psk"), Octets(32), Octets(), Octets(2), Octets(), Octets(6), Octets(6), Octets(32), Octets(32))
SEAL = Each(Octets(missing=True), Octets(16, missing=True))
FORMS = {
    "opened": Each(Node(), Words("connect", "roam", "renew")),
    "closed": Each(Node(), Words("attempt", "session")),
    "drew": None,  # by its last word
    "derived": Each(INPUTS, Octets(48)),
    "sent": Each(Number(), Node(group=True), Words(*KINDS), Octets(), SEAL),
    "took": Each(Words(*KINDS), Outcome(), Octets(), SEAL),
    "installed": Each(Node(group=True), Key()),
    "resumed": Each(Node(), Key()),
    "used": Each(Node(group=True), Octets(16), Number(255), Number(), Octets()),
    "handed": Each(Node(), Octets(16), Number(255), Number(15), Number(), Octets()),
    "finished": Each(Node(), INPUTS),
    "put": Each(Octets(), Octets(16), Node(), Words("held", "held-already", "full"), Words("-")),
    "looked": Each(Octets(), Octets(16), Node(), Words("found", "absent", "no-holder"), Octets(32, missing=True)),
    "revoked": Each(Octets(most=48), Octets(16), Node(), Words("revoked", "absent"), Words("-")),
    "gave-up": Each(Words(*MESSAGES), Node()),
    "idle": Each(Words("no-session", "same-peer", "nothing", "rekey-pending", "no-key", "spent")),
    "secret": Each(Node(), Octets(32)),
}
DREW = {"nonce": Each(Octets(32), Words("nonce")), "gtk": Each(Octets(16), Words("gtk")), "igtk": Each(Octets(16), Words("igtk"))}


class Entry:
    """An entry: its round, its node, its kind and the values of its fields."""

    def __init__(self, line):
        words = line.split(" ")
        needs(len(words) > 3, "too few words")
        self.round, self.node = Number().read(words), Node().read(words)
        self.kind = words.pop(0)
        needs(self.kind in FORMS, "no kind: %s" % self.kind)
        self.form = FORMS[self.kind] or DREW.get(words[-1])
        needs(self.form is not None, "no sort of what is drawn")
        try:
            self.values = self.form.read(words)
        except IndexError:
            raise Wrong("words are missing") from None
        needs(not words, "words are left")
        if self.kind == "looked":
            needs((self.values[3] == "found") == (self.values[4] is not None), "a key found, or none")
        if self.kind in ("sent", "took"):
            sealed, key = self.values[-1]
            needs(key is not None or sealed is None, "what is sealed has no key")

    def line(self):
        return " ".join(Number().write(self.round) + Node().write(self.node) + [self.kind] + self.form.write(self.values))

    def report(self):
        """The line of a report, or None: what is drawn and derived is in none."""
        node, v = "%s%d" % self.node, self.values
        name = lambda value: Node().write(value)[0]  # noqa: E731
        payload = lambda value: Octets().write(value)[0]  # noqa: E731
        words = {
            "opened": lambda: ["open", node, name(v[0]), v[1]],
            "closed": lambda: ["close", node, name(v[0]), v[1]],
            "sent": lambda: ["sent", v[0], node, name(v[1]), v[2], len(v[3])],
            "took": lambda: ["took", node, v[0], *v[1]],
            "installed": lambda: ["install", node, name(v[0]), *v[1][:1]] if v[1][0] == "ptk" else ["install", node, name(v[0]), v[1][0], v[1][2]],
            "resumed": lambda: ["resume", node, name(v[0]), v[1][0], v[1][2]],
            "used": lambda: ["used", node, name(v[0]), v[2], v[3]],
            "handed": lambda: ["up", node, name(v[0]), v[2], v[3], v[4], payload(v[5])],
            "finished": lambda: ["finish", node, name(v[0])],
            "put": lambda: ["put", node, name(v[2]), v[3]],
            "looked": lambda: ["look", node, name(v[2]), v[3]],
            "revoked": lambda: ["revoke", node, name(v[2]), v[3]],
            "gave-up": lambda: ["gave-up", node, name(v[1]), v[0]],
            "idle": lambda: ["idle", node, v[0]],
            "secret": lambda: ["secret", node, name(v[0])],
        }.get(self.kind)
        return None if words is None else " ".join(str(word) for word in words())


# ---- what entries have to say of each other

def sums(entries):
    """The first two of the lines that end a report."""
    count = lambda kind: sum(entry.kind == kind for entry in entries)  # noqa: E731
    outcome = lambda word: sum(entry.kind == "took" and entry.values[1][0] == word for entry in entries)  # noqa: E731
    return ["end frames %d accepted %d answered %d refused %d ignored %d" % (count("sent"), *map(outcome, ("accepted", "answered", "refused", "ignored"))),
            "keys installed %d resumed %d used %d handed-up %d" % tuple(map(count, ("installed", "resumed", "used", "handed")))]


def kdf(key, label, context, size):
    """KDF-SHA256 of that many octets (12.7.1.6.2)."""
    blocks = [hmac.new(key, count.to_bytes(2, "little") + label + context + (8 * size).to_bytes(2, "little"), hashlib.sha256).digest()
              for count in range(1, size // 32 + 2)]
    return b"".join(blocks)[:size]


def prf(key, label, context, size):
    """PRF of that many octets, with SHA-1 (12.7.1.2)."""
    blocks = [hmac.new(key, label + b"\0" + context + bytes([count]), hashlib.sha1).digest() for count in range(size // 20 + 1)]
    return b"".join(blocks)[:size]


def pmk_r1(psk, ssid, mdid, r0kh_id, aa, spa):
    """PMK-R1 (12.7.1.6.3, 12.7.1.6.4)."""
    context = bytes([len(ssid)]) + ssid + mdid + bytes([len(r0kh_id)]) + r0kh_id + spa
    return kdf(kdf(psk, b"FT-R0", context, 48)[:32], b"FT-R1", aa + spa, 32)


def ptk(akm, psk, ssid, mdid, r0kh_id, aa, spa, anonce, snonce):
    """KCK, KEK and TK (12.7.1.3, 12.7.1.6.5)."""
    if akm == "ft-psk":
        return kdf(pmk_r1(psk, ssid, mdid, r0kh_id, aa, spa), b"FT-PTK", snonce + anonce + aa + spa, 48)
    context = min(aa, spa) + max(aa, spa) + min(anonce, snonce) + max(anonce, snonce)
    return (prf if akm == "psk" else kdf)(psk, b"Pairwise key expansion", context, 48)


class Script:
    """What a script says that its entries come of."""

    def __init__(self, lines):
        self.seed, self.ssid, self.mdid, self.addresses, self.ids = None, b"", bytes(2), {}, {}
        self.psk, self.keys = None, {}
        count = {"ap": 0, "sta": 0}
        for line in lines:
            word, _, rest = line.removesuffix("\r").partition(" ")
            if word == "seed":
                self.seed = bytes.fromhex(rest)
            elif word == "ssid":
                self.ssid = rest.encode()
            elif word == "passphrase":
                self.psk = hashlib.pbkdf2_hmac("sha1", rest.encode(), self.ssid, 4096, 32)
            elif word == "psk":
                self.psk = bytes.fromhex(rest)
            elif word == "mdid":
                self.mdid = bytes.fromhex(rest)
            elif word in count:
                count[word] += 1
                node = (word[0], count[word])
                self.addresses[node] = bytes.fromhex(rest[:12])
                self.ids[node] = rest[13:].encode()
        self.owners = {address: node for node, address in self.addresses.items()}


def derives(script, entries):
    """Each value is what the rules make of the seed, of the keys of the header and of the changed ones."""
    drawn = {}
    for entry in entries:
        values = entry.values
        if entry.kind == "drew":
            number = drawn.get(entry.node, 0)
            drawn[entry.node] = number + 1
            context = script.addresses[entry.node] + number.to_bytes(8, "big")
            label, size = (b"Init Counter", 32) if values[1] == "nonce" else (b"Group key expansion", 16)
            needs(values[0] == kdf(script.seed, label, context, size), "not what is drawn there: %s" % entry.line())
        elif entry.kind == "derived":
            needs(values[1] == ptk(*values[0]), "not the key of its inputs: %s" % entry.line())
        elif entry.kind == "installed" and values[1][0] == "ptk":
            needs(values[1][1] == ptk(*values[1][3])[32:], "not the temporal key of its inputs: %s" % entry.line())
        elif entry.kind == "looked" and values[4] is not None:
            psks = {one.values[0][1] for one in entries if one.kind == "derived" and one.values[0][6] == script.addresses[values[2]]}
            keys = {pmk_r1(psk, script.ssid, script.mdid, values[0], script.addresses[entry.node], script.addresses[values[2]]) for psk in psks}
            needs(values[4] in keys, "not the PMK-R1 of that station: %s" % entry.line())


def reads_back(script, report, written):
    """The file is that of the script and of the run with that report; how many entries it has."""
    needs(written.endswith(b"\n"), "the last line has no line feed")
    lines = written.decode("latin-1").split("\n")[:-1]
    of_script = script.decode("latin-1").split("\n")
    if of_script[-1] == "":
        of_script.pop()
    needs(lines[:2] == ["audit 1", "script %d" % len(of_script)], "line 1 or 2: %s" % lines[:2])
    needs(lines[2:2 + len(of_script)] == of_script, "the lines are not those of the script")
    entries = []
    for place, line in enumerate(lines[2 + len(of_script):], 3 + len(of_script)):
        try:
            entry = Entry(line)
            needs(entry.line() == line, "written again it is %s" % entry.line())
        except Wrong as wrong:
            raise Wrong("line %d: %s: %s" % (place, line, wrong)) from None
        entries.append(entry)
    rounds = [entry.round for entry in entries]
    needs(rounds == sorted(rounds), "the rounds are not in order")
    numbers = [entry.values[0] for entry in entries if entry.kind == "sent"]
    needs(numbers == list(range(1, len(numbers) + 1)), "the frames sent are not numbered in order")
    told = [line for line in (entry.report() for entry in entries) if line is not None]
    printed = report.decode().split("\n")[:-1]
    needs(told == printed[:-3], "the report is not that of the entries")
    needs(sums(entries) == printed[-3:-1], "the sums are not those of the entries")
    derives(Script(of_script), entries)
    return len(entries)


def run(program, word, script):
    done = subprocess.run([program, word], input=script, capture_output=True, timeout=SECONDS)
    return done.returncode, done.stdout, done.stderr


def compared(program, path):
    """How many entries the file has that comes of the script, or None where none may."""
    script = path.read_bytes()
    status, report, said = run(program, "replay", script)
    ended, written, also = run(program, "journal", script)
    needs((ended, also) == (status, said), "ended with %d: %s; a replay with %d: %s" % (ended, also.decode().strip(), status, said.decode().strip()))
    if status != 0:
        needs(written == b"", "something was written though the run did not end with 0")
        return None
    return reads_back(script, report, written)


def main():
    if len(sys.argv) < 2:
        print(__doc__.split("\n\n")[1].strip(), file=sys.stderr)
        return 2
    program = sys.argv[1]
    paths = [Path(word) for word in sys.argv[2:]] or sorted(Path("examples").glob("*.txt"))
    files = entries = others = wrong = 0
    for path in paths:
        try:
            count = compared(program, path)
        except (Wrong, OSError, ValueError, subprocess.SubprocessError) as error:
            wrong += 1
            print("%s: %s" % (path, error))
            continue
        if count is None:
            others += 1
        else:
            files, entries = files + 1, entries + count
    print("files %d entries %d without a file %d wrong %d" % (files, entries, others, wrong))
    return 1 if wrong or files == 0 else 0


if __name__ == "__main__":
    sys.exit(main())
