#!/usr/bin/env python3
"""A station that is not of this project, against the program's access point over UDP sockets. `tools/station.sh` calls it.

    tools/station.py [PROGRAM]

It is written from the standard alone: it associates with `a1` of a live run by its own frames, answers message 1, checks message 3, sends
message 4, and then protected data. In a script of version 2 it also answers as `a1` renews the key of its session. The station `s1` is listed in the script, so that `a1` knows its address, and is given no event. The
program has the socket at s1's port, so what `a1` sends is taken from the loopback interface as it goes there. Suites 00-0F-AC:2 and :6 are
played, and each also with a passphrase that is not the network's. docs/user/LIVE.md, "Your own implementation against it", says how it goes.

The report has to be that of a replay with the same frames injected (`tools/live.py`). The last line has counts; the status is 0 where
nothing failed. AES is `tools/ciphers.py`, in Python. Where this process may not listen on the loopback interface, one line says so and
nothing is tried.
"""
import hashlib
import hmac
import subprocess
import sys

sys.dont_write_bytecode = True
import live  # noqa: E402  how a live run is started, told its lines, and compared with its replay
from ciphers import AES, ccm, cmac, unwrapped, xor  # noqa: E402

SSID, PASSPHRASE = b"IEEE", b"password"
SNONCE = bytes(range(32))
SNONCE_2 = bytes(range(32, 64))  # that of a renewal
AP, STATION, ALL = bytes.fromhex("020000000001"), bytes.fromhex("020000000011"), b"\xff" * 6
LLC = bytes.fromhex("aaaa03000000888e")
PREMISES = "premises fresh yes no-collision yes unforged no"  # the station knows the key, and is no node of the run


# ---- frames and keys (IEEE Std 802.11-2020)

def header(control, receiver, transmitter):
    """The MAC header of a frame between the station and the access point (9.2.3)."""
    return bytes.fromhex(control) + bytes(2) + receiver + transmitter + AP + bytes(2)


def sealed_header(frame):
    """What CCMP's seal covers of the header of a data frame without QoS (12.5.3.3.3)."""
    return bytes([frame[0] & 0x8f, frame[1] & 0xc7]) + frame[4:22] + bytes([frame[22] & 0x0f, 0])


def protected(key, frame_header, number, payload):
    """A protected data frame under the key with key id 0 and that packet number (12.5.3.2)."""
    pn = number.to_bytes(6, "little")
    mic, stream = ccm(key, b"\0" + frame_header[10:16] + pn[::-1], sealed_header(frame_header), payload)
    return frame_header + pn[:2] + b"\0\x20" + pn[2:] + xor(payload, stream) + mic


def opened(key, frame):
    """The key id and the payload of a protected data frame, or None where its seal does not hold."""
    pn = frame[24:26] + frame[28:32]
    nonce = b"\0" + frame[10:16] + pn[::-1]
    body, mic = frame[32:-8], frame[-8:]
    payload = xor(body, ccm(key, nonce, sealed_header(frame), bytes(len(body)))[1])
    if ccm(key, nonce, sealed_header(frame), payload)[0] != mic:
        return None
    return frame[27] >> 6, payload


class Message:
    """An EAPOL-Key frame (12.7.2) as it stands in a data frame."""

    def __init__(self, frame):
        self.eapol = frame[32:]
        self.information = self.eapol[5:7].hex()
        self.counter, self.nonce, self.mic = self.eapol[9:17], self.eapol[17:49], self.eapol[81:97]
        self.data = self.eapol[99:99 + int.from_bytes(self.eapol[97:99], "big")]

    def is_message(self, information):
        return self.eapol[:2] + self.eapol[4:5] == b"\x02\x03\x02" and self.information == information


class Station:
    def __init__(self, suite, passphrase):
        self.is_sha256 = suite == "psk-sha256"
        self.version = 3 if self.is_sha256 else 2
        akm = "06" if self.is_sha256 else "02"
        self.rsne = bytes.fromhex("30140100000fac040100000fac040100000fac" + akm + "0c00")
        self.psk = hashlib.pbkdf2_hmac("sha1", passphrase, SSID, 4096, 32)
        self.kck = self.kek = self.tk = None

    def information(self, message):
        """The key information of that message with the descriptor version of the suite (12.7.2)."""
        return {1: "008", 2: "010", 3: "13c", 4: "030"}[message] + "%x" % (8 + self.version)

    def association_request(self):
        elements = b"\x00" + bytes([len(SSID)]) + SSID + bytes.fromhex("010482848b96") + self.rsne
        return header("0000", AP, STATION) + bytes.fromhex("11000a00") + elements

    def derive(self, anonce, snonce=SNONCE):
        """The PTK as KCK, KEK and TK (12.7.1.3)."""
        label, inputs = b"Pairwise key expansion", AP + STATION + min(anonce, snonce) + max(anonce, snonce)
        if self.is_sha256:
            ptk = b"".join(hmac.digest(self.psk, place.to_bytes(2, "little") + label + inputs + (384).to_bytes(2, "little"), "sha256") for place in (1, 2))
        else:
            ptk = b"".join(hmac.digest(self.psk, label + b"\0" + inputs + bytes([place]), "sha1") for place in range(3))
        self.kck, self.kek, self.tk = ptk[:16], ptk[16:32], ptk[32:48]

    def mic(self, eapol):
        return cmac(self.kck, eapol) if self.is_sha256 else hmac.digest(self.kck, eapol, "sha1")[:16]

    def message(self, number, counter, nonce, data, secure=False):
        """A data frame with message 2 or 4. In a renewal message 2 has the key information of message 4: Secure is set."""
        body = b"\x02" + bytes.fromhex(self.information(4 if secure else number)) + bytes(2) + counter + nonce + bytes(32)
        after = len(data).to_bytes(2, "big") + data
        start = b"\x02\x03" + (len(body) + 16 + len(after)).to_bytes(2, "big") + body
        return header("0801", AP, STATION) + LLC + start + self.mic(start + bytes(16) + after) + after

    def verifies(self, message):
        return self.mic(message.eapol[:81] + bytes(16) + message.eapol[97:]) == message.mic


def group_key(plain):
    """The key id and the GTK of key data in the clear, or None (12.7.2, table 12-7)."""
    while plain and len(plain) >= 2 and plain[1] + 2 <= len(plain) and plain[:2] != b"\xdd\0":
        element, plain = plain[:plain[1] + 2], plain[plain[1] + 2:]
        if element[:6] == bytes.fromhex("dd16000fac01"):
            return element[6] & 3, element[8:]
    return None


# ---- the runs

class Checks:
    def __init__(self):
        self.passed = self.failed = 0

    def holds(self, what, is_so):
        if is_so:
            self.passed += 1
        else:
            self.failed += 1
            print("failed: " + what)


class Meeting:
    """A live run, and what the access point sends to the station in it."""

    def __init__(self, suite, version):
        self.run, self.seen = live.Run(suite, 1, 1, version=version), 0

    def answers(self, frame):
        """Sends the frame to a1's port, lets the nodes take a turn, and gives the frames that a1 sent to s1's port."""
        self.run.foreign("a1", frame)
        self.run.turn()
        return self.came()

    def came(self):
        frames = self.run.listener.seen[self.seen:]
        self.seen += len(frames)
        return [octets for _, to, octets in frames if to == self.run.ports["s1"]]


def to_message_4(suite, meeting, checks):
    """From association to message 4, and data afterwards; the lines that the report has to have."""
    station, run = Station(suite, PASSPHRASE), meeting.run
    response, frame_1 = meeting.answers(station.association_request())
    checks.holds("the association response has status 0", response[:1] == b"\x10" and response[26:28] == b"\0\0")
    m1 = Message(frame_1)
    checks.holds("message 1 is one", m1.is_message(station.information(1)) and m1.data == b"")
    station.derive(m1.nonce)
    frame_3, = meeting.answers(station.message(2, m1.counter, SNONCE, station.rsne))
    m3 = Message(frame_3)
    checks.holds("message 3 is one, of a higher replay counter", m3.is_message(station.information(3)) and m3.counter > m1.counter)
    checks.holds("the MIC of message 3 verifies", station.verifies(m3))
    checks.holds("the nonce of message 3 is that of message 1", m3.nonce == m1.nonce)
    plain = unwrapped(station.kek, m3.data)
    checks.holds("the key data of message 3 has the RSNE of the access point", plain is not None and plain.startswith(station.rsne))
    key_id, gtk = group_key(plain or b"") or (0, b"")
    checks.holds("message 3 has a group key of 16 octets", len(gtk) == 16 and key_id != 0)
    checks.holds("message 4 has no answer", meeting.answers(station.message(4, m3.counter, bytes(32), b"")) == [])
    # Data to the access point, from it, and from it to all: the keys are those that it has.
    meeting.answers(protected(station.tk, header("0841", AP, STATION), 1, b"\x01\x02"))
    run.event("send a1 s1 - 0304")
    frame, = meeting.came()
    checks.holds("data of the access point opens under the TK", opened(station.tk, frame) == (0, b"\x03\x04"))
    run.event("send a1 all - 0506")
    frame, = meeting.came()
    checks.holds("data to all opens under the GTK", frame[4:10] == ALL and opened(gtk, frame) == (key_id, b"\x05\x06"))
    run.turn()
    return ["took a1 assoc-req accepted", "open a1 s1 connect", "took s1 assoc-resp refused unawaited", "took s1 m1 refused unawaited",
            "took a1 m2 accepted", "took s1 m3 refused unawaited", "took a1 m4 accepted", "install a1 s1 ptk", "finish a1 s1",
            "up a1 s1 0 0 1 0102", "took s1 data refused no-key"]


def renewed_key(suite, meeting, checks):
    """From association to message 4, and then the four messages again, inside the session, as the access point begins to renew its key."""
    station, run = Station(suite, PASSPHRASE), meeting.run
    m1 = Message(meeting.answers(station.association_request())[1])
    station.derive(m1.nonce)
    m3 = Message(meeting.answers(station.message(2, m1.counter, SNONCE, station.rsne))[0])
    meeting.answers(station.message(4, m3.counter, bytes(32), b""))
    former, gtk = station.tk, group_key(unwrapped(station.kek, m3.data) or b"")
    run.event("renew a1 s1")
    frame, = meeting.came()
    again = Message(frame)
    checks.holds("message 1 of the renewal is one, of a higher replay counter and another nonce",
                 again.is_message(station.information(1)) and again.counter > m3.counter and again.nonce != m3.nonce)
    meeting.answers(protected(former, header("0841", AP, STATION), 1, b"\x01\x02"))  # the session goes on
    station.derive(again.nonce, SNONCE_2)
    checks.holds("message 2 without Secure has no answer", meeting.answers(station.message(2, again.counter, SNONCE_2, station.rsne)) == [])
    frame_3, = meeting.answers(station.message(2, again.counter, SNONCE_2, station.rsne, secure=True))
    m3 = Message(frame_3)
    checks.holds("message 3 of the renewal is one, of a higher replay counter, and has the nonce of its message 1",
                 m3.is_message(station.information(3)) and m3.counter > again.counter and m3.nonce == again.nonce)
    checks.holds("its MIC verifies under the new key", station.verifies(m3))
    checks.holds("its group key is the one that the station has", gtk is not None and group_key(unwrapped(station.kek, m3.data) or b"") == gtk)
    checks.holds("message 4 has no answer", meeting.answers(station.message(4, m3.counter, bytes(32), b"")) == [])
    meeting.answers(protected(station.tk, header("0841", AP, STATION), 1, b"\x03\x04"))
    run.event("send a1 s1 - 0506")
    frame, = meeting.came()
    checks.holds("data of the access point opens under the new TK alone", opened(station.tk, frame) == (0, b"\x05\x06") and opened(former, frame) is None)
    run.turn()
    return ["finish a1 s1", "open a1 s1 renew", "up a1 s1 0 0 1 0102", "took s1 m1 refused unawaited", "took a1 m2 refused unawaited",
            "took a1 m2 accepted", "took s1 m3 refused unawaited", "took a1 m4 accepted", "close a1 s1 session", "install a1 s1 ptk",
            "finish a1 s1", "up a1 s1 0 0 1 0304", "took s1 data refused no-key"]


def another_passphrase(suite, meeting, checks):
    """With another passphrase message 2 is refused, and brings nothing."""
    station = Station(suite, b"passwore")
    m1 = Message(meeting.answers(station.association_request())[1])
    station.derive(m1.nonce)
    checks.holds("message 2 under another key has no answer", meeting.answers(station.message(2, m1.counter, SNONCE, station.rsne)) == [])
    return ["took a1 assoc-req accepted", "took a1 m2 refused mic"]


def play(case, suite, premises, checks, version=1):
    meeting = None
    try:
        meeting = Meeting(suite, version)
        wanted = case(suite, meeting, checks)
        meeting.run.finish(wanted, premises)
        checks.holds("the report", True)
    except (live.Wrong, OSError, ValueError, IndexError, subprocess.SubprocessError) as error:
        checks.holds("%s, %s: %s" % (case.__name__, suite, error), False)
        if meeting is not None:
            print("  its replay:\n    " + "\n    ".join(meeting.run.lines))
    finally:
        if meeting is not None:
            meeting.run.close()


def main():
    listener = live.Listener(set())
    if not listener.socket:
        print("skipped: this process may not listen on the loopback interface, so no foreign station was played")
        return 0
    listener.close()
    checks = Checks()
    key, block = bytes(range(16)), bytes.fromhex("00112233445566778899aabbccddeeff")
    checks.holds("AES is that of FIPS 197, C.1", AES(key, block).hex() == "69c4e0d86a7b0430d8cdb78070b4c55a")
    for suite in ("psk", "psk-sha256"):
        play(to_message_4, suite, PREMISES, checks)
        play(another_passphrase, suite, live.HOLDS, checks)
        play(renewed_key, suite, PREMISES, checks, version=2)
    print("foreign station: %d passed, %d failed" % (checks.passed, checks.failed))
    return 1 if checks.failed else 0


if __name__ == "__main__":
    sys.exit(main())
