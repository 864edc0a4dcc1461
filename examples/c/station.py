#!/usr/bin/env python3
"""A station of the library in Python: it starts, finds an access point, and sends it an association request.    station.py libkehtrop.so"""
import ctypes, os, struct, sys

lib = ctypes.CDLL(sys.argv[1])
for name in ("psk", "station", "list_ap", "event", "next"):
    getattr(lib, f"kehtrop_{name}").restype = ctypes.c_uint8
lib.kehtrop_octets.restype = size = ctypes.c_size_t
OK, SEND, CONNECT, BSSID, OWN = 0, 1, 2, bytes.fromhex("020000000001"), bytes.fromhex("020000000011")
node, psk, item, frame = ctypes.byref(ctypes.c_void_p()), *map(ctypes.create_string_buffer, (32, 48, 2400))
config = os.urandom(32) + b"example".ljust(32, b"\0") + bytes([7, 6, 0, 0]) + OWN + bytes(6)
assert lib.kehtrop_psk(b"correct horse", size(13), b"example", size(7), psk) == OK
assert lib.kehtrop_station(node, config, psk, ctypes.c_uint64(0)) == OK
assert lib.kehtrop_list_ap(node, BSSID, b"ap1.example", size(11)) == OK
assert lib.kehtrop_event(node, CONNECT, BSSID, 255, b"", size(0)) == OK
sent = []
while lib.kehtrop_next(node, item) == OK:
    what, peer, length = struct.unpack("<B3x6s30xQ", item.raw)
    if what == SEND:
        lib.kehtrop_octets(node, frame, size(len(frame)))
        sent.append((peer, frame.raw[:length]))
        print("to", peer.hex(":"), sent[-1][1].hex())
lib.kehtrop_free(node)
sys.exit(not (len(sent) == 1 and sent[0][0] == BSSID and sent[0][1][:16] == bytes(4) + BSSID + OWN))
