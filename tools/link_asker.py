#!/usr/bin/env python3
"""An asker that is not of this project: it asks the holder of a link for one key, once, and prints what it is told.

    tools/link_asker.py PORT HEADER STATION R1KH

HEADER is a file whose first lines are the header of a link (`docs/user/LINK.md`), with a seed in digits: up to its line `holder`. The
holder is a process that runs `kehtrop link PORT holder`, and takes the question in its next turn; this asker has the port after PORT.
It prints `found` and the PMK-R1 in 64 digits, `no-holder` or `absent`, and ends with 0; where no answer comes within ten seconds, with 1.
Datagrams that are no answer to its question under the link key are passed over. A PMK-R1 that is none of the row, which the asker can
make itself in this laboratory, is told, with 1: a holder of your own is tried so.
"""
import hashlib
import hmac
import socket
import sys
import time

sys.dont_write_bytecode = True
from ciphers import cmac, unwrapped  # noqa: E402  AES in plain Python

SECONDS = 10
ANSWERS = {0: "found", 1: "no-holder", 2: "absent"}


def kdf(key, label, context, bits):
    """KDF-Hash-Length with SHA-256 (IEEE Std 802.11-2020, 12.7.1.6.2)."""
    octets, place = b"", 1
    while len(octets) * 8 < bits:
        octets += hmac.new(key, place.to_bytes(2, "little") + label + context + bits.to_bytes(2, "little"), hashlib.sha256).digest()
        place += 1
    return octets[:bits // 8]


class Header:
    """The header of a link, by its lines."""

    def __init__(self, lines):
        said = dict(line.split(" ", 1) for line in lines if line and line[0] != "#")
        key = bytes.fromhex(said["key"])
        self.kck, self.kek = key[:16], key[16:]
        self.seed, self.psk, self.mdid = (bytes.fromhex(said[word]) for word in ("seed", "psk", "mdid"))
        self.ssid, self.holder = said["ssid"].encode(), said["holder"].encode()

    def pmk_r0(self, station):
        """PMK-R0 of a station, and its name (12.7.1.6.3)."""
        context = bytes([len(self.ssid)]) + self.ssid + self.mdid + bytes([len(self.holder)]) + self.holder + station
        octets = kdf(self.psk, b"FT-R0", context, 384)
        return octets[:32], hashlib.sha256(b"FT-R0N" + octets[32:]).digest()[:16]

    def pmk_r1(self, station, r1kh):
        """PMK-R1 for an R1 key holder (12.7.1.6.4)."""
        return kdf(self.pmk_r0(station)[0], b"FT-R1", r1kh + station, 256)

    def nonce(self, r1kh, number):
        """Of the question of that number, from 0."""
        return kdf(self.seed, b"Init Counter", r1kh + number.to_bytes(8, "big"), 256)[:16]

    def sealed(self, octets):
        return octets + cmac(self.kck, octets)

    def question(self, station, r1kh, number):
        """The datagram that asks for the PMK-R1 of a station."""
        name = self.pmk_r0(station)[1]
        return self.sealed(b"\x01" + self.nonce(r1kh, number) + bytes([len(self.holder)]) + self.holder + name + r1kh + station)

    def answered(self, datagram, nonce):
        """What a datagram answers to the question of that nonce, with the key that it has; None where it is no answer to it."""
        front = datagram[:-16]
        if front[:17] != b"\x02" + nonce or len(front) < 18 or self.sealed(front) != datagram:
            return None
        answer = ANSWERS.get(front[17])
        if answer != "found":
            return (answer, None) if len(front) == 18 and answer else None
        key = unwrapped(self.kek, front[18:]) if len(front) == 58 else None
        return (answer, key) if key else None


def header_of(text):
    """The lines of a script up to the end of its header."""
    lines = text.splitlines()[1:]
    for place, line in enumerate(lines):
        if line.startswith("holder "):
            return Header(lines[:place + 1])
    raise SystemExit("it has no header of a link")


def told(header, port, station, r1kh, meanwhile=lambda: None):
    """What the holder at that port answers, with a key or None; None where no answer comes. That is done once it was asked."""
    nonce, end = header.nonce(r1kh, 0), time.monotonic() + SECONDS
    with socket.socket(socket.AF_INET, socket.SOCK_DGRAM) as one:
        one.bind(("127.0.0.1", port + 1))
        one.sendto(header.question(station, r1kh, 0), ("127.0.0.1", port))
        meanwhile()
        while time.monotonic() < end:
            one.settimeout(max(0.01, end - time.monotonic()))
            try:
                answer = header.answered(one.recv(4096), nonce)
            except socket.timeout:
                continue
            if answer:
                return answer
    return None


def main():
    if len(sys.argv) != 5:
        raise SystemExit(__doc__)
    with open(sys.argv[2]) as one:
        header = header_of(one.read())
    station, r1kh = bytes.fromhex(sys.argv[3]), bytes.fromhex(sys.argv[4])
    answer = told(header, int(sys.argv[1]), station, r1kh)
    if answer is None:
        raise SystemExit("no answer came")
    word, key = answer
    print(word if key is None else "found " + key.hex())
    if key is not None and key != header.pmk_r1(station, r1kh):
        raise SystemExit("this is not the key of its row")


if __name__ == "__main__":
    main()
