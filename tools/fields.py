"""The fields of 802.11 frames, with the names of docs/user/FRAMES.md, for other tools of this folder."""

LLC = bytes.fromhex("aaaa03000000888e")
MME = bytes.fromhex("4c10")
SUITES = {1: "802.1X", 2: "psk", 3: "FT with 802.1X", 4: "ft-psk", 5: "802.1X, SHA-256", 6: "psk-sha256", 8: "SAE", 9: "FT with SAE"}
CIPHERS = {0: "that of the group", 1: "WEP-40", 2: "TKIP", 4: "CCMP-128", 5: "WEP-104", 6: "BIP-CMAC-128", 8: "GCMP-128", 9: "GCMP-256", 10: "CCMP-256"}
MANAGEMENT = {0: "association request", 1: "association response", 2: "reassociation request", 3: "reassociation response", 4: "probe request",
              5: "probe response", 8: "beacon", 9: "ATIM", 10: "disassociation", 11: "authentication", 12: "deauthentication", 13: "action"}
MESSAGES = {0x0088: "M1", 0x0108: "M2 or M4", 0x03c8: "M3", 0x0380: "G1", 0x0300: "G2"}  # key information but for version, Secure and Encrypted


class Field:
    """A field: its place in the frame, its octets, its name, and what they say."""

    def __init__(self, place, octets, name, note=""):
        self.place, self.octets, self.name, self.note = place, octets, name, note


class Reading:
    """Takes fields from the front of octets, one after the other. What is cut is a field of fewer octets, and then there is no more."""

    def __init__(self, octets, place=0, end=None):
        self.octets, self.place, self.end, self.fields = octets, place, len(octets) if end is None else end, []

    def left(self):
        return self.end - self.place

    def take(self, count, name, note=None):
        """The next octets as a field; `note` says what they mean."""
        value = self.octets[self.place:min(self.place + count, self.end)]
        if count and value:
            told = note(value) if callable(note) and len(value) == count else note
            self.fields.append(Field(self.place, value, name, told if isinstance(told, str) else "cut" if len(value) < count else ""))
        self.place += len(value)
        return value


def capabilities(octets):
    """Of an RSNE, in words (9.4.2.24.4)."""
    flags = [(1, "preauthentication"), (0x40, "MFP required"), (0x80, "MFP capable")]
    return "%d replay counters" % (1, 2, 4, 16)[octets[0] >> 2 & 3] + "".join(", " + name for bit, name in flags if octets[0] & bit)


def little(octets):
    return int.from_bytes(octets, "little")


def big(octets):
    return int.from_bytes(octets, "big")


def suite(names):
    return lambda octets: names.get(octets[3], "suite %d" % octets[3]) if octets[:3] == b"\0\x0f\xac" else "of another organisation"


def bits(value, names):
    return ", ".join(name for bit, name in names if value & bit) or "none set"


def text(octets):
    return '"%s"' % "".join(chr(octet) if 32 <= octet < 127 else "." for octet in octets)


def control(octets):
    """Frame Control in words."""
    kind, subtype = octets[0] >> 2 & 3, octets[0] >> 4
    names = {0: MANAGEMENT.get(subtype, "management %d" % subtype), 1: "control %d" % subtype, 2: {0: "data", 8: "QoS data"}.get(subtype, "data %d" % subtype)}
    flags = [(0x01, "ToDS"), (0x02, "FromDS"), (0x04, "More Fragments"), (0x08, "Retry"), (0x10, "Power Management"), (0x20, "More Data"), (0x40, "Protected"),
             (0x80, "HT Control")]
    return ", ".join([names.get(kind, "extension")] + [name for bit, name in flags if octets[1] & bit])


def information(octets):
    """Key information in words."""
    names = [(0x0008, "Pairwise"), (0x0040, "Install"), (0x0080, "Ack"), (0x0100, "MIC"), (0x0200, "Secure"), (0x0400, "Error"), (0x0800, "Request"),
             (0x1000, "Encrypted")]
    value = big(octets)
    return "descriptor version %d, %s" % (value & 7, bits(value, names))


def kind_of(frame):
    """What the frame is, as a kind of a report, by its Frame Control and key information alone; `other` where a run has none such."""
    if len(frame) < 24 or frame[0] & 3:
        return "other"
    kind, subtype = frame[0] >> 2 & 3, frame[0] >> 4
    if kind == 0:
        if subtype == 11 and frame[24:26] == b"\2\0":
            return {1: "ft-req", 2: "ft-resp"}.get(little(frame[26:28]), "other")
        if subtype == 13 and frame[4] & 1 and frame[-18:-16] == MME:
            return "action"
        return {0: "assoc-req", 1: "assoc-resp", 2: "re-req", 3: "re-resp"}.get(subtype, "other")
    if kind != 2 or subtype not in (0, 8):
        return "other"
    start = 26 if subtype == 8 else 24
    if frame[1] & 0x40:
        return "data"
    if frame[start:start + 8] != LLC or len(frame) < start + 107 or frame[start + 9] != 3:
        return "other"
    info, data = big(frame[start + 13:start + 15]), big(frame[start + 105:start + 107])
    if info & 0x0c00:
        return "other"
    name = MESSAGES.get(info & ~0x1207 & 0xffff) or MESSAGES.get(info & ~0x1007 & 0xffff)
    if name == "M2 or M4" or info & 0x0fc8 == 0x0308:
        return "m4" if info & 0x0200 and not data else "m2" if data else "other"
    return (name or "other").lower()


def elements(reading, names, more=None):
    """Elements up to the end, or up to padding."""
    while reading.left() > 0:
        kind = reading.octets[reading.place]
        size = reading.octets[reading.place + 1] if reading.left() > 1 else 0
        if kind == 0xdd and size == 0:
            reading.take(reading.left(), "padding")
            return
        end = min(reading.place + 2 + size, reading.end)
        inner = Reading(reading.octets, reading.place, end)
        {0x00: of_ssid, 0x01: of_rates, 0x30: of_rsne, 0x36: of_mde, 0x37: of_fte, 0x38: of_timeout, 0xdd: of_kde}.get(kind, of_other)(inner, names)
        inner.take(inner.left(), "octets after them")
        reading.fields += inner.fields
        reading.place = end


def of_ssid(inner, names):
    inner.take(2, "SSID: id and length")
    inner.take(inner.left(), "SSID", text)


def of_rates(inner, names):
    inner.take(inner.left(), "rates")


def of_rsne(inner, names):
    inner.take(2, "RSNE: id and length")
    inner.take(2, "RSNE: version", lambda octets: str(little(octets)))
    inner.take(4, "RSNE: group cipher suite", suite(CIPHERS))
    for what, table in (("pairwise cipher", CIPHERS), ("AKM", SUITES)):
        count = inner.take(2, "RSNE: count of %s suites" % what, lambda octets: str(little(octets)))
        for _ in range(little(count)):
            if inner.left() > 0:
                inner.take(4, "RSNE: %s suite" % what, suite(table))
    inner.take(2, "RSNE: capabilities", capabilities)
    count = inner.take(2, "RSNE: count of PMKIDs", lambda octets: str(little(octets)))
    for _ in range(little(count)):
        if inner.left() > 0:
            inner.take(16, "RSNE: " + names.get("pmkid", "PMKID"))
    inner.take(4, "RSNE: group management cipher suite", suite(CIPHERS))


def of_mde(inner, names):
    inner.take(2, "MDE: id and length")
    inner.take(2, "MDE: mobility domain")
    inner.take(1, "MDE: capability")


def of_fte(inner, names):
    inner.take(2, "FTE: id and length")
    inner.take(2, "FTE: MIC control", lambda octets: "%d elements under the MIC" % octets[1])
    inner.take(16, "FTE: MIC", names.get("fte_mic"))
    inner.take(32, "FTE: ANonce")
    inner.take(32, "FTE: SNonce")
    while inner.left() > 0:
        kind, size = inner.octets[inner.place], inner.octets[inner.place + 1] if inner.left() > 1 else 0
        if kind == 1 and size == 6:
            inner.take(8, "FTE: R1KH-ID", lambda octets: named(octets[2:], names))
        elif kind == 3:
            inner.take(2, "FTE: R0KH-ID: id and length")
            inner.take(size, "FTE: R0KH-ID", text)
        elif kind == 2 and size >= 11:
            inner.take(2, "FTE: GTK: id and length")
            inner.take(2, "FTE: GTK: key id", lambda octets: str(octets[0] & 3))
            inner.take(1, "FTE: GTK: key length", lambda octets: str(octets[0]))
            inner.take(8, "FTE: GTK: RSC", lambda octets: str(little(octets)))
            inner.take(size - 11, "FTE: GTK: the group key, wrapped")
        elif kind == 4 and size >= 9:
            inner.take(2, "FTE: IGTK: id and length")
            inner.take(2, "FTE: IGTK: key id", lambda octets: str(little(octets)))
            inner.take(6, "FTE: IGTK: IPN", lambda octets: str(little(octets)))
            inner.take(1, "FTE: IGTK: key length", lambda octets: str(octets[0]))
            inner.take(size - 9, "FTE: IGTK: the integrity group key, wrapped")
        else:
            inner.take(2 + size, "FTE: another subelement")


def of_timeout(inner, names):
    inner.take(2, "timeout interval: id and length")
    inner.take(1, "timeout interval: type", lambda octets: {1: "reassociation deadline", 2: "key lifetime"}.get(octets[0], "another"))
    inner.take(4, "timeout interval: value", lambda octets: str(little(octets)))


def of_kde(inner, names):
    if inner.octets[inner.place + 2:inner.place + 6] == b"\0\x0f\xac\x09":
        inner.take(6, "IGTK KDE: id, length and type")
        inner.take(2, "IGTK KDE: key id", lambda octets: str(little(octets)))
        inner.take(6, "IGTK KDE: IPN", lambda octets: str(little(octets)))
        inner.take(inner.left(), "IGTK KDE: the integrity group key")
        return
    if inner.octets[inner.place + 2:inner.place + 6] != b"\0\x0f\xac\1":
        inner.take(inner.left(), "a KDE or element of another sort")
        return
    inner.take(6, "GTK KDE: id, length and type")
    inner.take(1, "GTK KDE: key id and Tx", lambda octets: "key id %d" % (octets[0] & 3))
    inner.take(1, "GTK KDE: reserved")
    inner.take(inner.left(), "GTK KDE: the group key")


def of_other(inner, names):
    inner.take(inner.left(), "element %d" % inner.octets[inner.place])


def named(address, names):
    """Whose address that is."""
    if address == b"\xff" * 6:
        return "all"
    return names.get("nodes", {}).get(address, "a group" if address[:1] and address[0] & 1 else "no node of the script" if names.get("nodes") else "")


def of_frame(frame, names):
    """The fields of a frame. `names` says whose an address is (`nodes`) and what is known of its MIC and keys."""
    reading = Reading(frame)
    reading.take(2, "Frame Control", control)
    reading.take(2, "duration")
    for name in ("A1, the receiver", "A2, the transmitter", "A3, the BSSID"):
        reading.take(6, name, lambda octets: named(octets, names))
    reading.take(2, "sequence control", lambda octets: "" if octets == b"\0\0" else "fragment %d, number %d" % (octets[0] & 15, little(octets) >> 4))
    if len(frame) < 24:
        return reading.fields
    kind, subtype = frame[0] >> 2 & 3, frame[0] >> 4
    if kind == 0:
        of_management(reading, subtype, names)
    elif kind == 2 and subtype in (0, 8):
        if subtype == 8:
            reading.take(2, "QoS Control", lambda octets: "TID %d" % (octets[0] & 15) + (", A-MSDU" if octets[0] & 0x80 else ""))
        if frame[1] & 0x40:
            of_protected(reading, names)
        elif frame[reading.place:reading.place + 8] == LLC:
            of_eapol(reading, names)
    reading.take(reading.left(), "other octets")
    return reading.fields


def of_management(reading, subtype, names):
    def number(octets):
        return str(little(octets))

    if subtype in (0, 2):
        reading.take(2, "capability information")
        reading.take(2, "listen interval", number)
        if subtype == 2:
            reading.take(6, "current AP", lambda octets: named(octets, names))
    elif subtype in (1, 3):
        reading.take(2, "capability information")
        reading.take(2, "status", number)
        reading.take(2, "AID", lambda octets: str(little(octets) & 0x3fff))
    elif subtype == 11:
        reading.take(2, "algorithm", number)
        reading.take(2, "transaction sequence number", number)
        reading.take(2, "status", number)
    elif subtype in (5, 8):
        reading.take(8, "timestamp")
        reading.take(2, "beacon interval", number)
        reading.take(2, "capability information")
    elif subtype == 13 and reading.octets[-18:-16] == MME:
        of_announcement(reading, names)
        return
    elif subtype != 4:
        return
    elements(reading, names)


def of_announcement(reading, names):
    reading.take(1, "category", lambda octets: "vendor-specific protected" if octets == b"\x7e" else "")
    reading.take(max(reading.left() - 18, 0), "payload")
    reading.take(2, "MME: id and length")
    reading.take(2, "MME: key id", lambda octets: str(little(octets)))
    reading.take(6, "MME: IPN", lambda octets: str(little(octets)))
    reading.take(8, "MME: MIC", names.get("mic"))


def of_protected(reading, names):
    reading.take(2, "CCMP header: PN0, PN1", lambda octets: names.get("number"))
    reading.take(1, "reserved, not looked at")
    reading.take(1, "key id in c0, ExtIV 20", lambda octets: "key id %d%s" % (octets[0] >> 6, "" if octets[0] & 0x20 else ", no ExtIV"))
    reading.take(4, "PN2 to PN5, the highest last")
    reading.take(max(reading.left() - 8, 0), "the payload, encrypted", names.get("payload"))
    reading.take(8, "MIC of CCM, the last octets", names.get("mic"))


def of_eapol(reading, names):
    def number(octets):
        return str(big(octets))

    reading.take(8, "LLC")
    reading.take(1, "EAPOL version", number)
    reading.take(1, "packet type", lambda octets: "EAPOL-Key" if octets == b"\3" else "")
    reading.take(2, "body length", number)
    reading.take(1, "descriptor type")
    info = reading.take(2, "key information", information)
    reading.take(2, "key length", number)
    reading.take(8, "replay counter", number)
    reading.take(32, "nonce", names.get("nonce"))
    reading.take(16, "IV")
    reading.take(8, "RSC, lowest octet first", lambda octets: str(little(octets)))
    reading.take(8, "reserved")
    reading.take(16, "MIC", names.get("mic"))
    size = big(reading.take(2, "key data length", number))
    if big(info) & 0x1000:
        reading.take(size, "key data", "wrapped")
    else:
        inner = Reading(reading.octets, reading.place, min(reading.place + size, reading.end))
        elements(inner, names)
        reading.fields += inner.fields
        reading.place = inner.place
