"""AES-128 in plain Python, and what IEEE Std 802.11-2020 builds on it, for other tools of this folder. It is slow, and for looking alone."""


def products():
    """Of each octet the double in the field of FIPS 197, 4.2, and by it logarithms to the base 3."""
    logs, powers, value = [0] * 256, [0] * 255, 1
    for place in range(255):
        powers[place], logs[value] = value, place
        value ^= value << 1 ^ (0x11b if value & 0x80 else 0)
    return logs, powers


LOGS, POWERS = products()


def times(factor):
    return [0 if octet == 0 else POWERS[(LOGS[octet] + LOGS[factor]) % 255] for octet in range(256)]


def sbox():
    found = []
    for octet in range(256):
        inverse = 0 if octet == 0 else POWERS[-LOGS[octet] % 255]
        bits = inverse | inverse << 8
        found.append(0x63 ^ inverse ^ (bits >> 7 ^ bits >> 6 ^ bits >> 5 ^ bits >> 4) & 0xff)
    return found


SBOX = sbox()
UNDONE = [SBOX.index(octet) for octet in range(256)]
BY = {factor: times(factor) for factor in (1, 2, 3, 9, 11, 13, 14)}
SHIFTED = [(place + 4 * (place % 4)) % 16 for place in range(16)]  # ShiftRows: what comes to each place
BACK = [SHIFTED.index(place) for place in range(16)]


def xor(one, other):
    return bytes(a ^ b for a, b in zip(one, other))


def round_keys(key):
    """FIPS 197, 5.2."""
    words, constant = [key[place:place + 4] for place in range(0, 16, 4)], 1
    for place in range(4, 44):
        word = words[place - 1]
        if place % 4 == 0:
            word = bytes([SBOX[word[1]] ^ constant, SBOX[word[2]], SBOX[word[3]], SBOX[word[0]]])
            constant = BY[2][constant]
        words.append(xor(words[place - 4], word))
    return [b"".join(words[place:place + 4]) for place in range(0, 44, 4)]


def mixed(state, factors):
    """MixColumns with these factors of the first row."""
    found = []
    for column in range(0, 16, 4):
        for row in range(4):
            value = 0
            for place in range(4):
                value ^= BY[factors[(place - row) % 4]][state[column + place]]
            found.append(value)
    return bytes(found)


def forth(keys, block):
    state = xor(block, keys[0])
    for place in range(1, 11):
        state = bytes(SBOX[state[at]] for at in SHIFTED)
        state = xor(mixed(state, (2, 3, 1, 1)) if place < 10 else state, keys[place])
    return state


def back(keys, block):
    state = xor(block, keys[10])
    for place in range(9, -1, -1):
        state = xor(bytes(UNDONE[state[at]] for at in BACK), keys[place])
        state = mixed(state, (14, 11, 13, 9)) if place else state
    return state


def AES(key, octets, is_back=False):
    """AES-128 over whole blocks, each by itself, forth or back."""
    keys, one = round_keys(key), back if is_back else forth
    return b"".join(one(keys, octets[place:place + 16]) for place in range(0, len(octets), 16))


def unwrapped(key, octets):
    """AES key wrap undone (RFC 3394), or None where these octets are no wrapped key data."""
    count = len(octets) // 8 - 1
    check, rest = octets[:8], [octets[8 * place:8 * place + 8] for place in range(1, count + 1)]
    for step in range(6 * count, 0, -1):
        place = (step - 1) % count
        block = AES(key, xor(check, step.to_bytes(8, "big")) + rest[place], True)
        check, rest[place] = block[:8], block[8:]
    return b"".join(rest) if check == b"\xa6" * 8 else None


def cbc_mac(key, octets):
    keys, state = round_keys(key), bytes(16)
    for place in range(0, len(octets), 16):
        state = forth(keys, xor(state, octets[place:place + 16]))
    return state


def cmac(key, octets):
    """AES-CMAC (RFC 4493)."""
    def doubled(block):
        number = int.from_bytes(block, "big") << 1
        return (number & (1 << 128) - 1 ^ (0x87 if number >> 128 else 0)).to_bytes(16, "big")

    last = len(octets) - (len(octets) % 16 or 16) if octets else 0
    subkey = doubled(AES(key, bytes(16)))
    tail = octets[last:]
    if len(tail) < 16:
        subkey, tail = doubled(subkey), (tail + b"\x80").ljust(16, b"\0")
    return cbc_mac(key, octets[:last] + xor(tail, subkey))


def filled(octets):
    return octets + bytes(-len(octets) % 16)


def ccm(key, nonce, header, plain):
    """The MIC and the keystream of CCM with M = 8 and L = 2 (RFC 3610)."""
    first = b"\x59" + nonce + len(plain).to_bytes(2, "big")
    mic = cbc_mac(key, first + filled(len(header).to_bytes(2, "big") + header) + filled(plain))
    counters = b"".join(b"\x01" + nonce + count.to_bytes(2, "big") for count in range(len(plain) // 16 + 2))
    stream = AES(key, counters)
    return xor(mic[:8], stream), stream[16:]
