#!/usr/bin/env python3
"""What the tools over the file of `kehtrop journal`, and over captures, show. `tools/seen.sh` calls it.

    tools/seen.py [PROGRAM]

`PROGRAM journal` writes a file for each of some examples. `tools/entries.py` has to read it, and the report that its entries tell has to be
the example's. Then `tools/octets.py` shows each frame of some runs: its fields have to be all of its octets, with the places and
names of docs/user/FRAMES.md, each MIC right and each key and payload in the clear that of the entries. `tools/from_pcap.py` makes a script
of the capture of a run, and each of its frames has to be taken under the seed of the run; under another one it has to say what is not judged.

Where tshark is there it reads captures of `tools/pcap.py`: with the passphrase, or the keys of `tools/keylog.py`, it has to name the messages
and to find the keys and payloads of the entries by itself. Where text2pcap is there it writes a capture of octets of the standard, which has
to be read. Where dumpcap or tcpdump may listen on the loopback interface it takes a live run, whose frames have to be those of the replay.
For what is not there a line says that it was left out. The last line has counts; the status is 0 where nothing failed.
"""
import os
import re
import shutil
import signal
import struct
import subprocess
import sys
import tempfile
import time
import xml.dom.minidom
import zlib

sys.dont_write_bytecode = True
import captures  # noqa: E402
import entries  # noqa: E402
import fields  # noqa: E402
import live  # noqa: E402
import octets as shown  # noqa: E402

PROGRAM = live.PROGRAM
SECONDS = 120
PASSPHRASE = ("--seed", live.SEED, "--passphrase", "password")
# IEEE Std 802.11-2020, annex J, CCMP-128: a frame, its temporal key and its payload.
ANNEX_J = bytes.fromhex("0848c32c0fd2e128a57c5030f1844408abaea5b8fcba80330ce70020769703b5f3d0a2fe9a3dbf2342a643e43246e80c3c04d0197845ce0b16f97623")
ANNEX_J_KEY, ANNEX_J_PLAIN = "c97c1f67ce371185514a8a19f2bdd52f", "f8ba1a55d02f85ae967bb62fb6cda8eb7e78a050"


class Checks:
    def __init__(self):
        self.passed = self.failed = 0

    def holds(self, what, is_so):
        if is_so:
            self.passed += 1
        else:
            self.failed += 1
            print("failed: " + what)

    def same(self, what, found, wanted):
        self.holds("%s: found %.300r, and wanted is %.300r" % (what, found, wanted), found == wanted)


def run(words, octets=b"", env=None):
    return subprocess.run(words, input=octets, capture_output=True, timeout=SECONDS, env=env)


def tool(name, *words):
    """What the tool writes. It may say nothing beside, and ends with 0."""
    done = run([sys.executable, os.path.join("tools", name), *words])
    if done.returncode != 0 or done.stderr:
        raise live.Wrong("tools/%s %s ends with %d: %s" % (name, " ".join(words), done.returncode, done.stderr.decode()))
    return done.stdout


def program(word, script):
    done = run([PROGRAM, word], script)
    if done.returncode != 0 or done.stderr:
        raise live.Wrong("%s ends with %d: %s" % (word, done.returncode, done.stderr.decode()))
    return done.stdout


def text_of(path):
    with open(path, encoding="utf-8", newline="") as file:
        return file.read()


class Work:
    """A folder for files of this test."""

    def __init__(self, folder):
        self.folder, self.journals = folder, {}

    def put(self, name, octets):
        path = os.path.join(self.folder, name)
        with open(path, "wb") as file:
            file.write(octets if isinstance(octets, bytes) else octets.encode())
        return path

    def journal(self, name):
        """The file of an example's journal, and what is read of it."""
        if name not in self.journals:
            path = self.put(name + ".journal", program("journal", text_of("examples/%s.txt" % name).encode()))
            self.journals[name] = path, entries.read(path)
        return self.journals[name]


# ---- the file, its frames and the chart

# Examples with entries of every kind, and frames that are refused in many ways.
EXAMPLES = ["announcement_and_roam", "arp_and_roam", "changed_keys_and_roaming", "data", "eapol_frames_refused", "elements_refused", "group_key_resumed", "handshake", "handshake_suite_6",
            "integrity_key_over_a_rekey", "message_3_given_up", "rekey", "renewed_key_by_number", "replayed_data", "revoked", "roam", "rounds", "transitions_refused"]


def examples_are_told(checks, work):
    kinds = set()
    for name in EXAMPLES:
        script, report = text_of("examples/%s.txt" % name), text_of("examples/%s.report" % name)
        try:
            journal = work.journal(name)[1]
        except (live.Wrong, entries.Unreadable) as why:
            checks.holds("examples/%s: %s" % (name, why), False)
            continue
        checks.same("the script in the file of examples/%s" % name, journal.script, script.rstrip("\n").split("\n"))
        checks.same("the report that the entries of examples/%s tell" % name, journal.report(), report.rstrip("\n").split("\n")[:-3])
        kinds.update(entry.kind for entry in journal.entries)
    checks.same("entries of every kind were read", kinds, set(entries.FORMS))


def rows_of_page():
    """The rows of the tables of docs/user/FRAMES.md that name a place by a number: heading, cells."""
    heading, rows = "", []
    for line in text_of("docs/user/FRAMES.md").split("\n"):
        if re.match("##+ ", line):
            heading = line.lstrip("# ")
        cells = [cell.strip() for cell in line.strip("|").split("|")]
        if line.startswith("| ") and len(cells) > 2 and re.match(r"\d+$", cells[0] or cells[1]):
            rows.append((heading, cells))
    return rows


# Which frames each section is of, and the column of the place.
SECTIONS = {
    "The header": (("assoc-req", 0), ("m1", 0), ("data", 0)), "Association request": (("assoc-req", 0),), "Association response": (("assoc-resp", 0),),
    "Messages 1 to 4, and the two of the group-key handshake": (("m1", 0), ("g1", 0), ("g2", 0), ("m4", 0)),
    "Authentication request and response of a fast transition": (("ft-req", 0),),
    "Reassociation request and response of a fast transition": (("re-req", 0), ("re-resp", 1)), "Protected data": (), "Announcement": (("action", 0),),
}


def fields_are_those_of_the_page(checks, frames):
    page, rows = text_of("docs/user/FRAMES.md"), rows_of_page()
    names = {part for found in frames.values() for field in found for part in field.name.split(": ")}
    for name in sorted(names):
        checks.holds("docs/user/FRAMES.md has no field `%s`" % name, name in page)
    tried = 0
    for heading, cells in rows:
        for kind, column in SECTIONS.get(heading, ()):
            size, name = (cells[2], cells[3]) if heading.startswith("Reass") else (cells[1], cells[2])
            if not cells[column].isdigit() or not size.isdigit() or "with suite 4 alone" in name and kind == "m1":
                continue
            place, end = int(cells[column]), int(cells[column]) + int(size)
            first = next((field for field in frames[kind] if field.place == place), None)
            ends = {field.place + len(field.octets) for field in frames[kind]}
            tried += 1
            word = re.split("[:;, ]", name)[0]
            checks.holds("FRAMES.md has `%s` of %s at %d to %d" % (name, kind, place, end),
                         first is not None and end in ends and re.split("[:;, ]", first.name)[0] == word)
    checks.holds("more than 80 rows of FRAMES.md were compared, and not %d" % tried, tried > 80)


def page_has(checks, what, lines):
    """docs/user/SEEING.md has these lines."""
    page = set(text_of("docs/user/SEEING.md").split("\n"))
    missing = [line for line in lines if "    " + line not in page]
    checks.holds("docs/user/SEEING.md has not all of %s: %s" % (what, missing), not missing)


def group_keys(journal, sort="gtk"):
    return [entry.value for entry in journal.of("drew") if entry.sort == sort]


def frames_are_shown(checks, work):
    by_kind = {}
    for name in ("handshake", "handshake_suite_6", "arp_and_roam", "rekey", "integrity_key_over_a_rekey", "announcement_and_roam"):
        path, journal = work.journal(name)
        used = [entry.octets for entry in journal.of("used")]
        for entry in journal.sent():
            one = shown.Shown(journal, entry)
            where = "frame %d of examples/%s" % (entry.number, name)
            if entry.sealed and entry.frame != "data":
                checks.same("what is sealed in " + where, entry.sealed[1:], shown.covered(entry.octets)[0])
            checks.same("the fields of " + where, b"".join(field.octets for field in one.fields), entry.octets)
            checks.holds("each octet of %s has a name" % where, all(field.name not in ("other octets", "octets after them") for field in one.fields))
            mics = [field.note for field in one.fields if "MIC" in field.name and "under" in field.note and "the MIC" not in field.note]
            checks.holds("each MIC of %s is right: %s" % (where, mics), all(note.startswith("right") for note in mics) and bool(mics) == bool(entry.sealed))
            hidden = b"".join(field.octets for _, found in one.hidden for field in found)
            if entry.frame == "data":
                checks.same("the payload of " + where, hidden, used.pop(0))
            elif entry.frame == "action":
                said = [field.octets for field in one.fields if field.name in ("category", "payload")]
                checks.same("what is announced by " + where, b"".join(said), used.pop(0))
                by_kind["action"] = one.fields
            elif entry.frame in ("m3", "g1", "re-resp"):
                checks.holds("the group key of %s is one that was drawn" % where, any(key in hidden for key in group_keys(journal)))
                if group_keys(journal, "igtk"):
                    checks.holds("and so is the integrity group key of " + where, any(key in hidden for key in group_keys(journal, "igtk")))
            if name == "arp_and_roam":
                by_kind.setdefault(entry.frame, one.fields)
                by_kind.setdefault(entry.frame + " in the clear", [field for _, found in one.hidden for field in found])
    fields_are_those_of_the_page(checks, by_kind)
    path, journal = work.journal("handshake")
    told = tool("octets.py", path, "5").decode().split("\n")
    checks.holds("octets.py tells frame 5 of examples/handshake", told[0] == "frame 5: a1 to s1, m3, 187 octets (round 5)")
    path, _ = work.journal("arp_and_roam")
    page_has(checks, "frame 15 of examples/arp_and_roam", tool("octets.py", path, "15").decode().rstrip("\n").split("\n"))
    page_has(checks, "the key log of examples/arp_and_roam", tool("keylog.py", path).decode().rstrip("\n").split("\n"))
    # A frame with an octet changed: its MIC is told wrong.
    m3 = next(entry for entry in journal.sent() if entry.frame == "m3")
    m3.octets = m3.octets[:120] + bytes([m3.octets[120] ^ 1]) + m3.octets[121:]
    wrong = [field.note for field in shown.Shown(journal, m3).fields if field.name == "MIC"]
    checks.holds("a MIC that is changed is told wrong: %s" % wrong, wrong[0].startswith("wrong, under KCK"))
    work.journals.pop("handshake")


def charts_have_keys(checks, work):
    path, journal = work.journal("handshake")
    ptk = next(entry for entry in journal.of("installed") if entry.sort == "ptk")
    drawn = tool("chart.py", "--keys", path)
    checks.holds("the chart with keys is XML", bool(xml.dom.minidom.parseString(drawn)))
    checks.same("docs/user/handshake_keys.svg", text_of("docs/user/handshake_keys.svg"), drawn.decode())
    told = tool("chart.py", "--keys", "--text", path).decode()
    checks.holds("the chart has the pairwise key at both ends", told.count("installs ptk " + ptk.key.hex()[:8]) == 2)
    checks.holds("the chart has the pairwise key whole", "TK " + ptk.key.hex() in told)


def faults_are_told(checks, work):
    """What is no file of a journal, and no frame of one, ends with 1 and one line."""
    path = work.journal("handshake")[0]
    whole = text_of(path)
    for what, text in (("no journal", "domain 1\n"), ("a line of no entry", whole + "7 a1 opend s1 connect\n"), ("a field too few", whole + "7 a1 opened s1\n"),
                       ("half an octet", whole + "7 a1 drew abc nonce\n"), ("a script cut short", "audit 1\nscript 9\ndomain 1\n")):
        wrong = work.put("wrong.journal", text)
        for name, words in (("pcap.py", [wrong]), ("keylog.py", [wrong]), ("octets.py", [wrong, "1"]), ("chart.py", ["--keys", wrong])):
            done = run([sys.executable, os.path.join("tools", name), *words])
            checks.holds("tools/%s says of %s: %r" % (name, what, done.stderr), done.returncode == 1 and done.stderr.count(b"\n") == 1 and not done.stdout)
    done = run([sys.executable, "tools/octets.py", path, "7"])
    checks.holds("octets.py says that there is no frame 7: %r" % done.stderr, done.returncode == 1 and b"no frame 7 was sent; there are 6" in done.stderr)
    for octets in (b"", b"domain 1\n", struct.pack("<IHHiIII", 0xa1b2c3d4, 2, 4, 0, 0, 65535, 105) + struct.pack("<4I", 0, 0, 99, 99)):
        done = run([sys.executable, "tools/from_pcap.py", work.put("wrong.pcap", octets)])
        checks.holds("from_pcap.py says of %r: %r" % (octets[:8], done.stderr), done.returncode == 1 and done.stderr.count(b"\n") == 1 and not done.stdout)


# ---- captures as scripts

# The frames of examples/arp_and_roam under another seed. The request of the transition has the name of a key without nonces in it.
WITH_OWN_FRAMES = ["accepted"] * 3 + ["refused mic"] * 3 + ["refused seal"] * 3 + ["refused mic"] * 2 + ["accepted"] + ["refused nonce"] * 3 + ["refused seal"] * 2


def told_of(work, name, capture, *words):
    """The script of a capture, its report, and what the table says of each frame."""
    script = work.put(name + ".txt", tool("from_pcap.py", *words, capture))
    report = work.put(name + ".report", program("replay", open(script, "rb").read()))
    return text_of(script), text_of(report), tool("from_pcap.py", "--told", script, report).decode().rstrip("\n").split("\n")


def outcomes(table):
    """The outcome in each line of the table: its last words, before why it is not judged."""
    return [re.search(r"(accepted|answered|ignored|refused .*)$", re.sub(" +not judged: .*", "", line)).group(1) for line in table]


def captures_are_judged(checks, work):
    for name in ("handshake", "handshake_suite_6", "arp_and_roam", "rekey"):
        path, journal = work.journal(name)
        capture = work.put(name + ".pcapng", tool("pcap.py", path))
        _, report, table = told_of(work, name + "_again", capture, *PASSPHRASE)
        sent = [entry.frame for entry in journal.sent()]
        checks.holds("each frame of examples/%s is in the table" % name, len(table) >= len(sent))
        checks.holds("each frame of examples/%s is taken in the nodes' own nonces: %s" % (name, table), all(line.endswith(" accepted") for line in table))
        checks.holds("keys are installed in that run too", report.count("\ninstall ") >= 3)
    # Under another seed the nodes have nonces of their own.
    capture = os.path.join(work.folder, "handshake.pcapng")
    script, _, table = told_of(work, "handshake_other", capture, "--seed", "ff" * 32, "--passphrase", "password")
    wanted = ["accepted"] * 3 + ["refused mic"] * 2 + ["refused unawaited"]
    checks.same("what is told of the capture under another seed", outcomes(table), wanted)
    checks.same("which frames are not judged", ["not judged" in line for line in table], [False] * 3 + [True] * 3)
    page_has(checks, "what --told says of examples/handshake", table)
    # There the nodes go on by frames of their own, so that later ones are awaited: each is refused for what hangs on nonces and keys alone.
    capture = os.path.join(work.folder, "arp_and_roam.pcapng")
    _, _, table = told_of(work, "nodes_go_on", capture, "--seed", "ff" * 32, "--passphrase", "password", "--with", os.path.abspath(PROGRAM))
    checks.same("what is told of it where the nodes go on", outcomes(table), WITH_OWN_FRAMES)
    # The same where a capture begins with message 1: the association is made.
    capture = os.path.join(work.folder, "handshake.pcapng")
    frames = [packet.octets for packet in captures.packets(open(capture, "rb").read())]
    late = work.put("late.pcap", classic(frames[2:]))
    script, _, table = told_of(work, "late", late, "--seed", "ff" * 32, "--passphrase", "password", "--ssid", "IEEE")
    checks.holds("the script says that the association is made", "made by tools/from_pcap.py" in script)
    checks.holds("then message 1 is taken, and message 2 awaited: %s" % table, any("m1" in line and line.endswith("accepted") for line in table)
                 and any("m2" in line and "refused mic" in line for line in table))


def classic(frames, link=105, order="<", magic=0xa1b2c3d4):
    head = struct.pack(order + "IHHiIII", magic, 2, 4, 0, 0, 65535, link)
    return head + b"".join(struct.pack(order + "4I", 1, 2, len(frame), len(frame)) + frame for frame in frames)


def all_forms_are_read(checks, work):
    """The frames of a run in other forms of a capture give the same script."""
    path, journal = work.journal("handshake")
    frames = [entry.octets for entry in journal.sent()]

    def lines(octets):
        return [line for line in tool("from_pcap.py", work.put("form.pcap", octets)).decode().split("\n") if line.startswith("inject")]

    wanted = lines(classic(frames))
    checks.same("the lines of the frames", [line.split(" ")[2] for line in wanted], [frame.hex() for frame in frames])
    checked = [frame + zlib.crc32(frame).to_bytes(4, "little") for frame in frames]
    # Radiotap with a time and flags: FCS at the end; the first field stands at the next 8 octets.
    radiotap = b"\0\0" + (25).to_bytes(2, "little") + (3).to_bytes(4, "little") + bytes(8) + b"\x10" + bytes(8)
    forms = {"big-endian": classic(frames, order=">"), "nanoseconds": classic(frames, magic=0xa1b23c4d), "FCS": classic(checked),
             "radiotap": classic([radiotap + frame for frame in checked], 127),
             "PPI": classic([b"\0\0\x08\0" + (105).to_bytes(4, "little") + frame for frame in frames], 192),
             "AVS": classic([(0x80211001).to_bytes(4, "big") + (64).to_bytes(4, "big") + bytes(56) + frame for frame in frames], 163),
             "pcapng": captures.pcapng("a test", "a comment", [(7, frame, "") for frame in frames])}
    for what, octets in forms.items():
        checks.same("the lines of a capture in the form " + what, lines(octets), wanted)
    times = [captures.packets(classic(frames[:1], magic=magic))[0].time for magic in (0xa1b2c3d4, 0xa1b23c4d)]
    checks.same("the times of packets, in microseconds", times, [1000002, 1000000])
    cut = classic(frames[:1])[:-10]
    cut = cut[:32] + (len(frames[0]) - 10).to_bytes(4, "little") + cut[36:]
    checks.holds("a frame that the capture cut is told", b"cut by the capture: 52 octets of 62" in tool("from_pcap.py", work.put("cut.pcap", cut)))


def annex_j_is_read(checks, work):
    if shutil.which("text2pcap") is None:
        print("skipped: no text2pcap, so no capture of another program was read")
        return
    dump = work.put("annex_j.hex", "".join("%04x %s\n" % (place, ANNEX_J[place:place + 16].hex(" ")) for place in range(0, len(ANNEX_J), 16)))
    for name, words in (("annex_j.pcap", ["-F", "pcap"]), ("annex_j.pcapng", [])):
        path = os.path.join(work.folder, name)
        run(["text2pcap", "-q", *words, "-l", "105", dump, path])
        script, report, table = told_of(work, name, path)
        checks.holds("the script of %s has the octets of annex J" % name, script.count("\ninject s2 %s\n" % ANNEX_J.hex()) == 1)
        checks.holds("the report says that it has no direction: %s" % table, "took s2 unread refused out-of-profile 8\n" in report and len(table) == 1)
    page_has(checks, "what --told says of annex J", table)


# ---- Wireshark

class Wireshark:
    """tshark with a profile of its own."""

    def __init__(self, work):
        self.folder = os.path.join(work.folder, "profile")
        os.mkdir(self.folder)
        self.env = dict(os.environ, WIRESHARK_CONFIG_DIR=self.folder, LC_ALL="C.UTF-8")

    def version(self):
        found = re.search(r"\b(\d+)\.(\d+)", run(["tshark", "--version"], env=self.env).stdout.decode())
        return (int(found.group(1)), int(found.group(2))) if found else (0, 0)

    def words(self, capture, keys):
        with open(os.path.join(self.folder, "80211_keys"), "w", encoding="utf-8") as file:
            file.write(keys)
        return ["tshark", "-n", "-r", capture, "-o", "wlan.enable_decryption:TRUE"]

    def fields(self, capture, keys, *names):
        """For each packet a list of these fields."""
        words = self.words(capture, keys) + ["-T", "fields"] + [word for name in names for word in ("-e", name)]
        done = run(words, env=self.env)
        if done.returncode != 0:
            raise live.Wrong("tshark ends with %d: %s" % (done.returncode, done.stderr.decode()))
        return [line.split("\t") for line in done.stdout.decode().rstrip("\n").split("\n")]

    def payloads(self, capture, keys):
        """What it decrypted of each packet that is protected data, in order; None where it could not."""
        done = run(self.words(capture, keys) + ["-Y", "wlan.fc.protected == 1", "-x"], env=self.env)
        found = []
        for block in done.stdout.decode().split("\n\n"):  # one for each packet
            if block.strip():
                title = block.find("Decrypted CCMP data")
                found.append(octets_of_dump(block[title:]) if title >= 0 else None)
        return found


def octets_of_dump(text):
    """The octets of a dump in lines of place, up to 16 octets, and characters."""
    return b"".join(bytes.fromhex(line[6:53].replace(" ", "")) for line in text.split("\n") if re.match(r"[0-9a-f]{4}  ", line))


MESSAGES = {"m1": "1", "m2": "2", "m3": "3", "m4": "4", "g1": "1", "g2": "2"}


def wireshark_reads(checks, work):
    if shutil.which("tshark") is None:
        print("skipped: no tshark, so no capture was read by Wireshark")
        return
    reader = Wireshark(work)
    if reader.version() < (4, 0):
        print("skipped: tshark is older than 4.0, so no capture was read by Wireshark")
        return
    for name in ("handshake", "rekey_suite_6", "arp_and_roam"):
        if name == "rekey_suite_6":  # the example of a rekey under another suite
            script = text_of("examples/rekey.txt").replace("\nakm psk\n", "\nakm psk-sha256\n")
            path = work.put(name + ".journal", program("journal", script.encode()))
            journal = entries.read(path)
        else:
            path, journal = work.journal(name)
        capture = work.put(name + ".pcapng", tool("pcap.py", path))
        wireshark_finds(checks, reader, name, journal, capture, '"wpa-pwd","password:IEEE"\n', "the passphrase")
    path, journal = work.journal("arp_and_roam")
    log = tool("keylog.py", path).decode()
    checks.holds("the first line of a key log says that it holds keys", log.startswith("# This file holds keys"))
    pmks = "".join(line + "\n" for line in log.split("\n") if '"tk"' not in line)
    wireshark_finds(checks, reader, "arp_and_roam", journal, capture, pmks, "the PMKs")
    # Data after a handshake that is not in the capture, under the TKs and group keys alone.
    checks.same("without keys it opens nothing", set(reader.payloads(capture, "")), {None})
    data = [entry for entry in journal.sent() if entry.frame == "data"]
    late = work.put("data.pcapng", captures.pcapng("a test", "data alone", [(7, entry.octets, "") for entry in data]))
    checks.same("what it opens under the TKs of the log", reader.payloads(late, log.replace('"wpa-psk"', '# "wpa-psk"')), [entry.octets for entry in journal.of("used")])
    beacons = tool("pcap.py", "--beacons", path)
    rows = reader.fields(work.put("beacons.pcapng", beacons), "", "wlan.fc.type_subtype", "wlan.bssid", "frame.comment")
    checks.same("beacons of both access points", [(int(row[0], 0), row[1]) for row in rows[:2]], [(8, "02:00:00:00:00:01"), (8, "02:00:00:00:00:02")])
    checks.holds("their comment says that no node sent them", all("no node sent it" in row[2] for row in rows[:2]) and len(rows) == len(journal.sent()) + 2)
    if shutil.which("text2pcap") is not None:
        annex = os.path.join(work.folder, "annex_j.pcapng")
        checks.same("it opens the frame of annex J", reader.payloads(annex, '"tk","%s"\n' % ANNEX_J_KEY), [bytes.fromhex(ANNEX_J_PLAIN)])


def wireshark_finds(checks, reader, name, journal, capture, keys, which):
    """What tshark makes of the capture under these keys is what the entries say."""
    where = "examples/%s, by %s" % (name, which)
    sent = journal.sent()
    rows = reader.fields(capture, keys, "frame.number", "frame.len", "frame.comment", "wlan_rsna_eapol.keydes.msgnr", "wlan.analysis.kck", "wlan.analysis.tk",
                         "wlan.analysis.gtk", "wlan.rsn.ie.gtk_kde.gtk", "wlan.fixed.auth.alg")
    checks.same("packets and lengths of " + where, [row[1] for row in rows], [str(len(entry.octets)) for entry in sent])
    checks.same("comments of " + where, [row[2] for row in rows],
                ["frame %d: %s to %s, %s (round %d)" % (entry.number, entry.node, entry.peer, entry.frame, entry.round) for entry in sent])
    checks.same("messages of " + where, [row[3] for row in rows], [MESSAGES.get(entry.frame, "") for entry in sent])
    checks.same("fast transitions of " + where, [row[8] == "2" for row in rows], [entry.frame.startswith("ft-") for entry in sent])
    for row, entry in zip(rows, sent):
        told = "frame %d of %s" % (entry.number, where)
        if entry.frame in ("m3", "g1"):
            checks.same("the KCK of " + told, row[4], entry.key.hex())
            checks.holds("the group key in %s was drawn: %s" % (told, row[7]), row[7] in [key.hex() for key in group_keys(journal)])
        elif entry.frame == "data":
            checks.same("the key of " + told, row[5] or row[6], entry.key.hex())
    if journal.of("used"):
        checks.same("the payloads of " + where, reader.payloads(capture, keys), [entry.octets for entry in journal.of("used")])


# ---- a live run

class Capture:
    """A program that captures the datagrams to the ports of a live run."""

    def __init__(self, name, path, first):
        what = "udp and dst portrange %d-%d" % (first, first + 79)
        words = ["dumpcap", "-q", "-i", "lo", "-f", what, "-w", "-"] if name == "dumpcap" else ["tcpdump", "-n", "-U", "-i", "lo", "-w", "-", what]
        self.path, self.file = path, open(path, "wb")
        self.process = subprocess.Popen(words, stdout=self.file, stderr=subprocess.PIPE)
        end = time.monotonic() + 10
        while os.path.getsize(path) == 0 and self.process.poll() is None and time.monotonic() < end:
            time.sleep(0.05)
        self.listens = self.process.poll() is None and os.path.getsize(path) > 0

    def end(self):
        if self.listens:
            time.sleep(1)
        if self.process.poll() is None:
            self.process.send_signal(signal.SIGINT)
        try:
            self.process.communicate(timeout=10)
        except subprocess.TimeoutExpired:
            self.process.kill()
            self.process.communicate()
        self.file.close()


def live_runs_are_captured(checks, work):
    name = next((name for name in ("dumpcap", "tcpdump") if shutil.which(name)), None)
    if name is None:
        print("skipped: neither dumpcap nor tcpdump, so no live run was captured")
        return
    one = live.Run("psk", 1, 2)
    capture = Capture(name, os.path.join(work.folder, "lo.pcap"), one.first)
    try:
        if not capture.listens:
            print("skipped: %s may not listen on the loopback interface, so no live run was captured" % name)
            return
        time.sleep(0.5)
        one.event("connect s1 a1")
        one.turn(3)
        one.event("connect s2 a1")
        one.turn(3)
        one.event("send s1 a1 5 68656c6c6f")
        one.event("send a1 all - 68656c6c6f")
        one.foreign("s1", live.DEAUTHENTICATION)
        one.turn()
        one.finish(["finish a1 s1", "finish a1 s2", "took s1 ignored ignored"])
    finally:
        one.close()
        capture.end()
    script = work.put("live.txt", "".join(line + "\n" for line in one.lines))
    report = work.put("live.report", program("replay", open(script, "rb").read()))
    journal = entries.Journal(program("journal", open(script, "rb").read()).decode("latin-1"))
    frames = captures.packets(tool("pcap.py", "--live", str(one.first), capture.path, script, report))
    wanted = [entry.octets for entry in journal.sent()]
    checks.same("the frames of a live run are those of its replay", [frame.octets for frame in frames if frame.octets != live.DEAUTHENTICATION], wanted)
    checks.same("and one of it is from outside", [frame.octets for frame in frames].count(live.DEAUTHENTICATION), 1)
    told = tool("pcap.py", "--live", str(one.first), capture.path, script, report)
    checks.holds("comments have the numbers of the report", b"frame 1: s1 to a1, assoc-req (port" in told and b"from outside, to s1 (port" in told)
    other = work.put("other.report", text_of(report).replace("sent 3 a1 s1 m1 131", "sent 3 a1 s1 m1 132"))
    done = run([sys.executable, "tools/pcap.py", "--live", str(one.first), capture.path, script, other])
    checks.holds("a report of another run is told: %r" % done.stderr, done.returncode == 1 and b"frame 3 is of 132 octets" in done.stderr and not done.stdout)


def main():
    checks = Checks()
    with tempfile.TemporaryDirectory() as folder:
        work = Work(folder)
        for part in (examples_are_told, frames_are_shown, charts_have_keys, faults_are_told, captures_are_judged, all_forms_are_read, annex_j_is_read,
                     wireshark_reads, live_runs_are_captured):
            try:
                part(checks, work)
            except (live.Wrong, entries.Unreadable, captures.Unreadable, OSError, ValueError, IndexError, KeyError, StopIteration, subprocess.SubprocessError) as why:
                checks.holds("%s: %s: %s" % (part.__name__, type(why).__name__, why), False)
    print("seen: %d passed, %d failed" % (checks.passed, checks.failed))
    return 1 if checks.failed else 0


if __name__ == "__main__":
    sys.exit(main())
