/* AES-128 by tables, CMAC and CCM over it, as C programs without instructions of their own for AES do them: what bench/crypto.sh times
 * beside the program of this repository, compiled by the machine's compiler. Four tables of 256 words, one for each row, are made at the
 * start. Two words: a work and how often it is done; `protect` also takes the size of a payload. The keys, the blocks and the texts are
 * those of crates/micro_bench, and so is the octet of the result that it prints. */
#include <stdint.h>
#include <stdio.h>
#include <stdlib.h>
#include <string.h>

static uint32_t row0[256], row1[256], row2[256], row3[256];
static uint8_t sbox[256];

static uint8_t times_x(uint8_t a)
{
    return (uint8_t)(a << 1) ^ (uint8_t)((a >> 7) * 0x1b);
}

static void make_tables(void)
{
    uint8_t p = 1, q = 1;
    do { /* q is the inverse of p */
        p ^= times_x(p);
        q ^= (uint8_t)(q << 1);
        q ^= (uint8_t)(q << 2);
        q ^= (uint8_t)(q << 4);
        if (q & 0x80)
            q ^= 0x09;
        sbox[p] = 0x63 ^ q ^ (uint8_t)(q << 1 | q >> 7) ^ (uint8_t)(q << 2 | q >> 6) ^ (uint8_t)(q << 3 | q >> 5) ^ (uint8_t)(q << 4 | q >> 4);
    } while (p != 1);
    sbox[0] = 0x63;
    for (int i = 0; i < 256; i++) {
        uint8_t s = sbox[i], d = times_x(s);
        uint32_t w = (uint32_t)d << 24 | (uint32_t)s << 16 | (uint32_t)s << 8 | (uint8_t)(d ^ s);
        row0[i] = w;
        row1[i] = w >> 8 | w << 24;
        row2[i] = w >> 16 | w << 16;
        row3[i] = w >> 24 | w << 8;
    }
}

static uint32_t get(const uint8_t *p)
{
    return (uint32_t)p[0] << 24 | (uint32_t)p[1] << 16 | (uint32_t)p[2] << 8 | p[3];
}

static void put(uint8_t *p, uint32_t w)
{
    p[0] = (uint8_t)(w >> 24);
    p[1] = (uint8_t)(w >> 16);
    p[2] = (uint8_t)(w >> 8);
    p[3] = (uint8_t)w;
}

static void expand(uint32_t *k, const uint8_t *key)
{
    uint8_t x = 1;
    for (int i = 0; i < 4; i++)
        k[i] = get(key + 4 * i);
    for (int i = 4; i < 44; i++) {
        uint32_t t = k[i - 1];
        if (i % 4 == 0) {
            t = (uint32_t)sbox[t >> 16 & 255] << 24 | (uint32_t)sbox[t >> 8 & 255] << 16 | (uint32_t)sbox[t & 255] << 8 | sbox[t >> 24];
            t ^= (uint32_t)x << 24;
            x = times_x(x);
        }
        k[i] = k[i - 4] ^ t;
    }
}

#define MIXED(a, b, c, d, k) (row0[(a) >> 24] ^ row1[(b) >> 16 & 255] ^ row2[(c) >> 8 & 255] ^ row3[(d) & 255] ^ (k))
#define LAST(a, b, c, d, k) \
    (((uint32_t)sbox[(a) >> 24] << 24 | (uint32_t)sbox[(b) >> 16 & 255] << 16 | (uint32_t)sbox[(c) >> 8 & 255] << 8 | sbox[(d) & 255]) ^ (k))

/* Not inlined: in the programs that this stands for it is in a file of its own. */
__attribute__((noinline)) static void encrypt(const uint32_t *k, const uint8_t *in, uint8_t *out)
{
    uint32_t a = get(in) ^ k[0], b = get(in + 4) ^ k[1], c = get(in + 8) ^ k[2], d = get(in + 12) ^ k[3], e, f, g, h;
    for (int r = 0;;) {
        k += 4;
        e = MIXED(a, b, c, d, k[0]);
        f = MIXED(b, c, d, a, k[1]);
        g = MIXED(c, d, a, b, k[2]);
        h = MIXED(d, a, b, c, k[3]);
        k += 4;
        if (++r == 5)
            break;
        a = MIXED(e, f, g, h, k[0]);
        b = MIXED(f, g, h, e, k[1]);
        c = MIXED(g, h, e, f, k[2]);
        d = MIXED(h, e, f, g, k[3]);
    }
    put(out, LAST(e, f, g, h, k[0]));
    put(out + 4, LAST(f, g, h, e, k[1]));
    put(out + 8, LAST(g, h, e, f, k[2]));
    put(out + 12, LAST(h, e, f, g, k[3]));
}

static void add(uint8_t *sum, const uint8_t *octets, size_t len)
{
    for (size_t i = 0; i < len; i++)
        sum[i] ^= octets[i];
}

/* X after the blocks of octets, the last one filled up with zeros. */
static void absorb(const uint32_t *k, uint8_t *x, const uint8_t *octets, size_t len)
{
    for (size_t at = 0; at < len; at += 16) {
        add(x, octets + at, len - at < 16 ? len - at : 16);
        encrypt(k, x, x);
    }
}

static void doubled(uint8_t *block)
{
    uint8_t lost = block[0] >> 7;
    for (int i = 0; i < 15; i++)
        block[i] = (uint8_t)(block[i] << 1) | block[i + 1] >> 7;
    block[15] = (uint8_t)(block[15] << 1) ^ (uint8_t)(lost * 0x87);
}

/* The CMAC of a text of at least one octet (RFC 4493), with the expansion of its key. */
static void cmac(const uint8_t *key, const uint8_t *text, size_t len, uint8_t *code)
{
    uint32_t k[44];
    uint8_t subkey[16] = {0};
    size_t before = (len - 1) / 16 * 16;
    expand(k, key);
    encrypt(k, subkey, subkey);
    doubled(subkey);
    memset(code, 0, 16);
    absorb(k, code, text, before);
    add(code, text + before, len - before);
    if (len - before < 16) {
        doubled(subkey);
        code[len - before] ^= 0x80;
    }
    add(code, subkey, 16);
    encrypt(k, code, code);
}

/* A payload under CCM with M = 8 and L = 2 (RFC 3610): the payload encrypted, and the 8 octets of the authentication field after it. */
static void seal(const uint32_t *k, const uint8_t *nonce, const uint8_t *aad, size_t aad_len, const uint8_t *plain, size_t len, uint8_t *out)
{
    uint8_t x[16], block[16], stream[16], front[32] = {0};
    x[0] = 0x59;
    memcpy(x + 1, nonce, 13);
    x[14] = (uint8_t)(len >> 8);
    x[15] = (uint8_t)len;
    encrypt(k, x, x);
    front[1] = (uint8_t)aad_len;
    memcpy(front + 2, aad, aad_len);
    absorb(k, x, front, aad_len + 2);
    absorb(k, x, plain, len);
    block[0] = 1;
    memcpy(block + 1, nonce, 13);
    for (size_t at = 0, n = 1; at < len; at += 16, n++) {
        size_t count = len - at < 16 ? len - at : 16;
        block[14] = (uint8_t)(n >> 8);
        block[15] = (uint8_t)n;
        encrypt(k, block, stream);
        memcpy(out + at, plain + at, count);
        add(out + at, stream, count);
    }
    block[14] = block[15] = 0;
    encrypt(k, block, stream);
    add(x, stream, 8);
    memcpy(out + len, x, 8);
}

int main(int count, char **words)
{
    const uint8_t *key = (const uint8_t *)"key of 16 octets";
    uint8_t block[17] = "one of 16 octets", text[1500], code[16], plain[2304], body[2312], nonce[13] = {0}, aad[22] = {0};
    uint32_t k[44];
    long times = count > 2 ? atol(words[2]) : 0;
    size_t size = count > 3 ? (size_t)atol(words[3]) : 0;
    if (count < 3 || size > 2304)
        return 1;
    make_tables();
    expand(k, key);
    memset(text, 7, sizeof text);
    memset(plain, 7, sizeof plain);
    memset(body, 0, sizeof body);
    if (!strcmp(words[1], "encrypt")) {
        for (long i = 0; i < times; i++)
            encrypt(k, block, block);
        printf("%d\n", block[0]);
    } else if (!strcmp(words[1], "cmac")) {
        for (long i = 0; i < times; i++) {
            cmac(key, text, sizeof text, code);
            text[0] = code[0];
        }
        printf("%d\n", text[0]);
    } else if (!strcmp(words[1], "protect")) {
        for (long i = 0; i < times; i++) {
            nonce[12]++;
            seal(k, nonce, aad, sizeof aad, plain, size, body);
        }
        printf("%d\n", body[0]);
    } else {
        return 1;
    }
    return 0;
}
