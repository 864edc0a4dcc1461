#!/usr/bin/env python3
"""A frame of a run, field by field, with its keys: what is wrapped or encrypted in it stands in the clear too.

    tools/octets.py FILE N

FILE is what `kehtrop journal` writes, and N the number of a frame in the report. Each line has the place of a field, its octets and the name
that docs/user/FRAMES.md gives it, and what they say. A MIC is computed anew, by this tool and not by the program, and told `right` or
`wrong`, with its key. Below stand key data and payloads in the clear; their places count from their own first octet.

It needs Python's library alone. It ends with 1 and one line where FILE cannot be read or has no such frame.
"""
import hashlib
import hmac
import sys
import textwrap

sys.dont_write_bytecode = True
import ciphers  # noqa: E402
import entries  # noqa: E402
import fields  # noqa: E402

WIDE = 16  # octets on a line


def right(is_so, key):
    return "%s, under %s" % ("right" if is_so else "wrong", key)


def derived_with(journal, sent):
    """The last entry before a frame in which the pairwise key of its KCK was derived, or None."""
    found = [entry for entry in journal.of("derived") if entry.ptk[:16] == sent.key and entry.line <= sent.line]
    return found[-1] if found else None


def covered(frame):
    """What the MIC of an EAPOL-Key frame, of an FTE or of an MME covers, and that MIC (12.7.2; 13.8.4, 13.8.5; 12.5.4.5)."""
    if frame[0] == 0xd0:
        return bytes([frame[0], frame[1] & 0xc7]) + frame[4:22] + frame[24:-8] + bytes(8), frame[-8:]
    if frame[24:32] == fields.LLC:
        return frame[32:113] + bytes(16) + frame[129:], frame[113:129]
    found = fields.of_frame(frame, {})
    part = {name: b"".join(field.octets for field in found if field.name.startswith(name)) for name in ("RSNE", "MDE", "FTE")}
    ends = frame[10:16] + frame[4:10] + b"\5" if frame[0] == 0x20 else frame[4:10] + frame[10:16] + b"\6"
    return ends + part["RSNE"] + part["MDE"] + part["FTE"][:4] + bytes(16) + part["FTE"][20:], part["FTE"][4:20]


def mic_of(akm, kck, octets):
    return hmac.new(kck, octets, hashlib.sha1).digest()[:16] if akm == "psk" else ciphers.cmac(kck, octets)


def sealed_header(frame):
    """What CCMP's seal covers of the header of a data frame (12.5.3.3.3)."""
    is_qos = bool(frame[0] & 0x80)
    masked = bytes([frame[0] & 0x8f, frame[1] & 0xc7]) + frame[4:22] + bytes([frame[22] & 0x0f, 0])
    return masked + (bytes([frame[24] & 0x0f, 0]) if is_qos else b"")


def opened(key, frame):
    """The packet number and the payload of a protected data frame, and whether its seal holds."""
    body = frame[26:] if frame[0] & 0x80 else frame[24:]
    number = body[:2] + body[4:8]
    nonce = bytes([frame[24] & 0x0f if frame[0] & 0x80 else 0]) + frame[10:16] + number[::-1]
    plain = ciphers.xor(body[8:-8], ciphers.ccm(key, nonce, b"", bytes(len(body) - 16))[1])
    return int.from_bytes(number, "little"), plain, ciphers.ccm(key, nonce, sealed_header(frame), plain)[0] == body[-8:]


def told_as_text(octets):
    return fields.text(octets) if all(32 <= octet < 127 for octet in octets) else ""


class Shown:
    """A frame's fields, and what is hidden in it: each with a title and its own fields."""

    def __init__(self, journal, entry):
        self.journal, self.entry, self.hidden = journal, entry, []
        self.names = {"nodes": journal.network.names}
        frame, kind = entry.octets, entry.frame
        self.names["pmkid"] = {"ft-req": "PMKR0Name", "ft-resp": "PMKR0Name"}.get(kind, "PMKR1Name")
        self.names["nonce"] = {"m1": "ANonce", "m2": "SNonce", "m3": "ANonce"}.get(kind)
        keys = derived_with(journal, entry) if entry.key and kind != "data" else None
        if kind == "data":
            number, plain, holds = opened(entry.key, frame)
            self.names["number"] = "packet number %d" % number
            self.names["mic"] = right(holds, ("TK " if frame[-len(plain) - 13] >> 6 == 0 else "GTK ") + entry.key.hex())
            self.hidden.append(("the payload in the clear", [fields.Field(0, plain, "payload", told_as_text(plain))] if plain else []))
        elif kind == "action":
            octets, mic = covered(frame)
            self.names["mic"] = right(ciphers.cmac(entry.key, octets)[:8] == mic, "IGTK " + entry.key.hex())
        elif keys:
            akm, kck, kek = keys.akm, keys.ptk[:16], keys.ptk[16:32]
            octets, mic = covered(frame)
            told = right(mic_of(akm, kck, octets) == mic, "KCK " + kck.hex())
            self.names["mic" if frame[24:32] == fields.LLC else "fte_mic"] = told
            self.open_wrapped(frame, kind, kek)
        self.fields = fields.of_frame(frame, self.names)

    def open_wrapped(self, frame, kind, kek):
        told = "in the clear, unwrapped under KEK %s" % kek.hex()
        if kind in ("m3", "g1"):
            plain = ciphers.unwrapped(kek, frame[131:])
            reading = fields.Reading(plain or b"")
            fields.elements(reading, {"nodes": self.names["nodes"], "pmkid": "PMKR1Name"})
            self.hidden.append(("key data " + told, reading.fields))
        elif kind == "re-resp":
            for field in fields.of_frame(frame, {}):
                if field.name.endswith(", wrapped"):
                    name = field.name.split(": ")[-1].removesuffix(", wrapped")
                    self.hidden.append((name + " " + told, [fields.Field(0, ciphers.unwrapped(kek, field.octets) or b"", name)]))


def lines_of(found):
    """A line for each field, more where its octets take more."""
    told = []
    for field in found:
        parts = textwrap.wrap(field.octets.hex(), 2 * WIDE)
        name = field.name + (": " + field.note if field.note else "")
        told.append("%5d %4d  %-*s  %s" % (field.place, len(field.octets), 2 * WIDE, parts[0] if parts else "", name))
        told += ["%5s %4s  %s" % ("", "", part) for part in parts[1:]]
    return told


def show(journal, number):
    """The lines that tell frame `number`, or None where there is none."""
    entry = next((entry for entry in journal.sent() if entry.number == number), None)
    if entry is None:
        return None
    shown = Shown(journal, entry)
    told = ["frame %d: %s to %s, %s, %d octets (round %d)" % (number, entry.node, entry.peer, entry.frame, len(entry.octets), entry.round),
            "place size  octets"]
    told += lines_of(shown.fields)
    for title, found in shown.hidden:
        told += [title + ":"] + lines_of(found)
    return told


def main(words):
    if len(words) != 2 or words[0].startswith("-") or not words[1].isdigit():
        print("usage: octets.py FILE N", file=sys.stderr)
        return 2
    try:
        journal = entries.read(words[0])
    except (OSError, entries.Unreadable, ValueError) as why:
        print("%s: %s" % (words[0], getattr(why, "strerror", None) or why), file=sys.stderr)
        return 1
    told = show(journal, int(words[1]))
    if told is None:
        print("%s: no frame %s was sent; there are %d" % (words[0], words[1], len(journal.sent())), file=sys.stderr)
        return 1
    print("\n".join(told))
    return 0


if __name__ == "__main__":
    sys.exit(main(sys.argv[1:]))
