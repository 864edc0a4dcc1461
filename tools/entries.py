"""The file that `kehtrop journal` writes, read for other tools of this folder. The file holds keys.

Its lines are `audit 1`, `script <n>`, the n lines of the script, and then a line for each entry of the journal: what a node did, with the
round, the octets and the keys. docs/PROFILE.md has their forms ("Lines of entries"). A line that has none of them is told with its number.
"""
import re

INPUTS = ["akm", "psk", "ssid", "mdid", "r0kh_id", "aa", "spa", "anonce", "snonce"]
# The fields of each kind of entry, after round and node. A field is an attribute of the entry; those of a key go on by its sort.
FORMS = {
    "opened": ["peer", "start"], "closed": ["peer", "part"], "drew": ["value", "sort"], "derived": INPUTS + ["ptk"],
    "sent": ["number", "peer", "frame", "octets", "sealed", "key"], "took": ["frame", "outcome", "octets", "sealed", "key"],
    "installed": ["peer", "sort", "key", "id"], "resumed": ["peer", "sort", "key", "id"],
    "used": ["peer", "key", "id", "number", "octets"], "handed": ["peer", "key", "id", "tid", "number", "octets"],
    "finished": ["peer"] + INPUTS, "put": ["r0kh_id", "name", "station", "answer", "pmk_r1"],
    "looked": ["r0kh_id", "name", "station", "answer", "pmk_r1"], "revoked": ["r0kh_id", "name", "station", "answer", "pmk_r1"],
    "gave-up": ["message", "peer"], "idle": ["why"], "secret": ["station", "psk"],
}
OCTETS, NUMBER, WORD = re.compile(r"(?:[0-9a-f]{2})+$"), re.compile(r"(?:0|[1-9][0-9]*)$"), re.compile(r"[a-z0-9.-]+$")
NODE = re.compile(r"[as][1-9][0-9]*$")
DIGITS = 8  # of a key, where it is named
NODES, NUMBERS = ("peer", "station"), ("number", "id", "tid")
WORDS = ("start", "part", "sort", "frame", "outcome", "answer", "message", "why", "akm")


class Unreadable(Exception):
    """No such file, with the line and what is wrong with it."""


class Entry:
    """An entry of the journal: `line` is its place in the file, from 1. Octets are `bytes`, empty where there are none."""

    def __init__(self, line, text):
        self.line = line
        words = text.split(" ")
        if len(words) < 3 or words[2] not in FORMS or not NUMBER.match(words[0]) or not NODE.match(words[1]):
            raise Unreadable("line %d: no entry" % line)
        self.round, self.node, self.kind = int(words[0]), words[1], words[2]
        names = list(FORMS[self.kind])
        if self.kind in ("installed", "resumed"):
            names += INPUTS if words[4:5] == ["ptk"] else ["bssid"]
        if len(words) != 3 + len(names):
            raise Unreadable("line %d: %d fields of `%s`, and not %d" % (line, len(words) - 3, self.kind, len(names)))
        for name, word in zip(names, words[3:]):
            setattr(self, name, self.field_of(name, word))

    def field_of(self, name, word):
        if name in NODES and (NODE.match(word) or word == "all"):
            return word
        if name in NUMBERS and NUMBER.match(word):
            return int(word)
        if name in WORDS and WORD.match(word):
            return word
        if name not in NODES + NUMBERS + WORDS and (word == "-" or OCTETS.match(word)):
            return b"" if word == "-" else bytes.fromhex(word)
        raise Unreadable("line %d: the field %s of `%s`" % (self.line, name, self.kind))

    def told(self):
        """The line of a report, or None: what is drawn and derived is in none."""
        front = "%s %s " % ({"opened": "open", "closed": "close", "installed": "install", "resumed": "resume", "handed": "up", "finished": "finish",
                             "looked": "look", "revoked": "revoke"}.get(self.kind, self.kind), self.node)
        if self.kind in ("drew", "derived"):
            return None
        if self.kind == "sent":
            return "sent %d %s %s %s %d" % (self.number, self.node, self.peer, self.frame, len(self.octets))
        if self.kind == "took":
            return front + "%s %s" % (self.frame, self.outcome.replace(".", " "))
        if self.kind in ("installed", "resumed"):
            return front + "%s %s" % (self.peer, self.sort if self.sort == "ptk" else "%s %d" % (self.sort, self.id))
        if self.kind == "used":
            return front + "%s %d %d" % (self.peer, self.id, self.number)
        if self.kind == "handed":
            return front + "%s %d %d %d %s" % (self.peer, self.id, self.tid, self.number, self.octets.hex() or "-")
        if self.kind in ("put", "looked", "revoked"):
            return front + "%s %s" % (self.station, self.answer)
        last = {"opened": "start", "closed": "part", "gave-up": "message"}.get(self.kind)
        if self.kind == "idle":
            return front + self.why
        return front + (self.station if self.kind == "secret" else self.peer) + (" " + getattr(self, last) if last else "")


class Journal:
    """A file of the command `journal`: the lines of its script and the entries."""

    def __init__(self, text):
        lines = text.split("\n")
        if lines[-1] == "":
            lines.pop()
        if lines[:1] != ["audit 1"]:
            raise Unreadable("line 1: not `audit 1`; this is no file that `kehtrop journal` writes")
        count = re.match(r"script (0|[1-9][0-9]*)$", lines[1]) if len(lines) > 1 else None
        if count is None or len(lines) < 2 + int(count.group(1)):
            raise Unreadable("line 2: no count of the lines of a script that stand after it")
        first = 2 + int(count.group(1))
        self.script = lines[2:first]
        self.entries = [Entry(first + place + 1, line) for place, line in enumerate(lines[first:])]
        self.network = Network(self.script)

    def of(self, *kinds):
        return [entry for entry in self.entries if entry.kind in kinds]

    def sent(self):
        return self.of("sent")

    def report(self, has_keys=False):
        """The lines of the report, but for the three that sum up; with keys, the first digits of each key that is installed stand after it."""
        told = [(entry, entry.told()) for entry in self.entries]
        return [line + (" " + entry.key.hex()[:DIGITS] if has_keys and entry.kind in ("installed", "resumed") else "") for entry, line in told if line]

    def keys(self):
        """A line for each key that was installed, with its first digits and whole."""
        found = {}
        for entry in self.of("installed"):
            short = entry.key.hex()[:DIGITS]
            if entry.sort == "ptk":
                pair = [self.network.names.get(address, address.hex()) for address in (entry.aa, entry.spa)]
                ptks = [one.ptk for one in self.of("derived") if one.ptk[32:] == entry.key]
                halves = " KCK %s KEK %s" % (ptks[0][:16].hex(), ptks[0][16:32].hex()) if ptks else ""
                found.setdefault(entry.key, "ptk %s of %s and %s: TK %s%s" % (short, *pair, entry.key.hex(), halves))
            else:
                owner = self.network.names.get(entry.bssid, entry.bssid.hex())
                found.setdefault(entry.key, "%s %d %s of %s: %s" % (entry.sort, entry.id, short, owner, entry.key.hex()))
        return list(found.values())


class Network:
    """What the header of a script says: its SSID, suite and mobility domain, and the address of each node."""

    def __init__(self, script):
        self.ssid, self.akm, self.mdid, self.addresses, self.r0kh_ids = b"", "", b"", {}, {}
        self.passphrase = None
        count = {"ap": 0, "sta": 0}
        for line in script:
            word, _, rest = line.rstrip("\r").partition(" ")
            if word == "ssid":
                self.ssid = rest.encode("latin-1")
            elif word == "akm":
                self.akm = rest
            elif word == "passphrase":
                self.passphrase = rest
            elif word == "mdid":
                self.mdid = bytes.fromhex(rest)
            elif word in count:
                count[word] += 1
                node = "%s%d" % (word[0], count[word])
                self.addresses[node] = bytes.fromhex(rest[:12])
                if word == "ap":
                    self.r0kh_ids[node] = rest[13:]
        self.names = {address: node for node, address in self.addresses.items()}

    def points(self):
        return [node for node in self.addresses if node.startswith("a")]

    def stations(self):
        return [node for node in self.addresses if node.startswith("s")]


def read(path):
    """The journal of a file. OSError where it cannot be opened, `Unreadable` where it is none."""
    with open(path, encoding="latin-1", newline="") as file:
        return Journal(file.read())
