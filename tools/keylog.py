#!/usr/bin/env python3
"""The keys of a run in the form in which Wireshark reads them. What it prints holds keys.

    tools/keylog.py FILE > 80211_keys

FILE is what `kehtrop journal` writes. First come the PMKs of its pairwise keys, which are the pre-shared keys, as `wpa-psk`: with them
Wireshark derives all other keys itself, where a capture begins before a handshake. Then the keys that were installed, the TKs of pairs and
the group keys, as `tk`: they open what was captured later. Each key stands once, after a line that says whose it is. Wireshark uses the
first 64. Integrity group keys encrypt nothing: they stand in comments at the end.

The file is `80211_keys` in the folder of a profile of Wireshark (Help, About Wireshark, Folders), or in the one that WIRESHARK_CONFIG_DIR
names. It needs Python's library alone. It ends with 1 and one line where FILE cannot be read.
"""
import sys

sys.dont_write_bytecode = True
import entries  # noqa: E402


def pairwise(entry):
    return entry.kind in ("derived", "finished") or (entry.kind in ("installed", "resumed") and entry.sort == "ptk")


def pmks(journal):
    """Each PMK with the stations whose it is."""
    found = {}
    for entry in journal.entries:
        if pairwise(entry):
            stations = found.setdefault(entry.psk, [])
            name = journal.network.names.get(entry.spa, entry.spa.hex())
            if name not in stations:
                stations.append(name)
    return found


def installed(journal):
    """Each key that was installed, with what it is."""
    found = {}
    for entry in journal.of("installed"):
        if entry.sort == "ptk":
            pair = [journal.network.names.get(address, address.hex()) for address in (entry.aa, entry.spa)]
            found.setdefault(entry.key, "TK of %s and %s, installed in round %d" % (*pair, entry.round))
        elif entry.sort == "gtk":
            owner = journal.network.names.get(entry.bssid, entry.bssid.hex())
            found.setdefault(entry.key, "group key %d of %s, installed in round %d" % (entry.id, owner, entry.round))
    return found


def integrity(journal):
    """Each integrity group key that was installed, with what it is."""
    found = {}
    for entry in journal.of("installed"):
        if entry.sort == "igtk":
            owner = journal.network.names.get(entry.bssid, entry.bssid.hex())
            found.setdefault(entry.key, "integrity group key %d of %s, installed in round %d" % (entry.id, owner, entry.round))
    return found


def lines(journal):
    told = ["# This file holds keys: those of a run of kehtrop, for Wireshark (80211_keys)."]
    for psk, stations in pmks(journal).items():
        told += ["# PMK of %s" % ", ".join(stations), '"wpa-psk","%s"' % psk.hex()]
    for key, what in installed(journal).items():
        told += ["# " + what, '"tk","%s"' % key.hex()]
    return told + ["# %s: %s" % (what, key.hex()) for key, what in integrity(journal).items()]


def main(words):
    if len(words) != 1 or words[0].startswith("-"):
        print("usage: keylog.py FILE", file=sys.stderr)
        return 2
    try:
        told = lines(entries.read(words[0]))
    except (OSError, entries.Unreadable, ValueError) as why:
        print("%s: %s" % (words[0], getattr(why, "strerror", None) or why), file=sys.stderr)
        return 1
    print("\n".join(told))
    return 0


if __name__ == "__main__":
    sys.exit(main(sys.argv[1:]))
