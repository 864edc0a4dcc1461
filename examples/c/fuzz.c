/* Random calls with random octets at three handles, whose frames also go, whole or altered, to one another, while memory is refused now and
 * then:
 *
 *     fuzz [CALLS [SEED]]
 *
 * Every answer has to be one that the header allows, and no octet may be written but those that it says. Crashes and leaks are for a
 * sanitizer or valgrind to find. It is linked with --wrap=malloc and --wrap=realloc. It ends with 0 where all is as it should be. */
#include "kehtrop.h"

#include <stdio.h>
#include <stdlib.h>
#include <string.h>

enum { HANDLES = 3, MOST = 2600, FRAMES = 16, SPARE = 8 };

static uint64_t state;
static unsigned long failures, refusals, sessions, payloads, announcements, frames_heard;
static int refuses;

/* xorshift64* */
static uint32_t draw(void) {
    state ^= state >> 12, state ^= state << 25, state ^= state >> 27;
    return (uint32_t)((state * 0x2545f4914f6cdd1dull) >> 32);
}

static uint32_t below(uint32_t n) { return draw() % n; }

static void fill(uint8_t *octets, size_t len) {
    for (size_t i = 0; i < len; i++) octets[i] = (uint8_t)draw();
}

/* The memory of the library: in some calls every eighth is refused. */
void *__real_malloc(size_t len);
void *__real_realloc(void *at, size_t len);

static int is_refused(void) { return refuses && !below(8) && ++refusals; }

void *__wrap_malloc(size_t len) { return is_refused() ? NULL : __real_malloc(len); }

void *__wrap_realloc(void *at, size_t len) { return is_refused() ? NULL : __real_realloc(at, len); }

static void want(int is, const char *what, unsigned long call) {
    if (is) return;
    if (failures++ < 10) printf("FAILED %s at call %lu\n", what, call);
}

static struct {
    uint8_t octets[MOST];
    size_t len;
} frames[FRAMES];
static size_t last;

/* Mostly the first handle is an access point and the others are stations, each with an address of its number, so that they find one
 * another. Which suite they have changes, and whether they renew pairwise keys and protect announcements. */
static uint8_t suite = 2, renewals, mfp;

static void address(uint8_t octets[6], uint32_t number) {
    memset(octets, 0, 6);
    octets[0] = 2, octets[5] = (uint8_t)(1 + number);
    if (!below(32)) octets[0] = (uint8_t)draw(), octets[5] = (uint8_t)below(5);
    if (!below(32)) memset(octets, 255, 6);
}

static uint8_t start(kehtrop *node, uint32_t number) {
    kehtrop_config config;
    kehtrop_psk_octets psk;
    uint8_t id[64];
    fill((uint8_t *)&config, sizeof config), fill(id, sizeof id);
    memset(&psk, 7, sizeof psk), memset(config.ssid, 'n', sizeof config.ssid);
    address(config.address, number);
    config.ssid_len = below(8) ? 4 : (uint8_t)draw();
    config.akm = below(16) ? suite : (uint8_t)draw();
    config.renewals = below(16) ? renewals : (uint8_t)draw();
    config.renew_at = below(2) ? 0 : below(8);
    config.mfp = below(16) ? mfp : (uint8_t)draw();
    memset(config.mdid, 1, 2), memset(id, 'i', 5);
    uint64_t first = below(8) ? below(100) : (1ull << 60) - below(9);
    return (number != 0) ^ !below(8) ? kehtrop_station(node, &config, &psk, first)
                                     : kehtrop_access_point(node, &config, id, below(8) ? 5 : below(sizeof id), first);
}

static uint8_t list(kehtrop *node, uint32_t number) {
    kehtrop_address other;
    kehtrop_psk_octets psk;
    uint8_t id[64];
    address(other.octets, number ? 0 : 1 + below(2)), memset(&psk, 7, sizeof psk), fill(id, sizeof id);
    if (below(8)) memset(id, number ? 'i' : 'o', 5);
    return (number != 0) ^ !below(8) ? kehtrop_list_ap(node, &other, id, below(8) ? 5 : below(sizeof id))
                                     : kehtrop_list_station(node, &other, &psk);
}

/* A key that another access point gave, or none. */
static uint8_t push(kehtrop *node) {
    kehtrop_r1_key key;
    uint8_t id[64];
    fill((uint8_t *)&key, sizeof key), fill(id, sizeof id), address(key.station, 1 + below(2));
    if (below(8)) memset(id, 'o', 5);
    return kehtrop_push_r1(node, id, below(8) ? 5 : below(sizeof id), &key);
}

/* A frame that was sent, whole or altered, or octets that never were one: often the one sent last. */
static uint8_t hear(kehtrop *node) {
    static uint8_t octets[MOST];
    size_t at = below(2) ? last : below(FRAMES), len = frames[at].len;
    memcpy(octets, frames[at].octets, len);
    if (!below(8) && len) octets[below((uint32_t)len)] ^= (uint8_t)(1 << below(8));
    if (!below(16)) len = below((uint32_t)len + 1);
    if (!below(16)) fill(octets, len = below(200));
    frames_heard++;
    return kehtrop_take(node, octets, len);
}

static uint8_t event(kehtrop *node, uint32_t number) {
    static uint8_t payload[MOST];
    kehtrop_address peer;
    address(peer.octets, number ? 0 : 1 + below(2));
    uint8_t what = below(2) ? KEHTROP_PASS : below(16) ? (uint8_t)(1 + below(12)) : (uint8_t)draw();
    if (what == KEHTROP_LEAVE || (what >= KEHTROP_EXPIRE && what != KEHTROP_RENEW && what != KEHTROP_ANNOUNCE)) what = below(4) ? KEHTROP_CONNECT : what;
    size_t len = below(16) ? below(60) : below(MOST);
    if (what == KEHTROP_SECRET && below(8)) len = 32, memset(payload, 7, 32);
    return kehtrop_event(node, what, &peer, (uint8_t)below(20), payload, len);
}

/* Items, as a program would read them, to its end or not. */
static void tell(kehtrop *node, unsigned long call) {
    static uint8_t octets[MOST + SPARE];
    kehtrop_item item;
    uint8_t status = KEHTROP_OK;
    for (uint32_t most = below(8); most && (status = kehtrop_next(node, &item)) == KEHTROP_OK; most--) {
        size_t room = below(8) ? MOST : below(40);
        memset(octets + room, 0x5a, SPARE);
        size_t len = kehtrop_octets(node, octets, room);
        want(item.what <= KEHTROP_ANNOUNCED && item.has_peer < 2 && !item.spare && item.len <= MOST, "an item", call);
        want(len == (item.len < room ? item.len : room), "as many octets as there is room for", call);
        for (size_t i = 0; i < SPARE; i++) want(octets[room + i] == 0x5a, "the octets after the room stay", call);
        sessions += item.what == KEHTROP_BEGUN, payloads += item.what == KEHTROP_PAYLOAD;
        announcements += item.what == KEHTROP_ANNOUNCED;
        if (item.what != KEHTROP_SEND) continue;
        last = below(FRAMES);
        memcpy(frames[last].octets, octets, frames[last].len = len);
    }
    want(status == KEHTROP_OK || status == KEHTROP_NOTHING || (!node->node && status == KEHTROP_NO_NODE), "the next item", call);
}

int main(int argc, char **argv) {
    kehtrop nodes[HANDLES] = {KEHTROP_NONE};
    unsigned long calls = argc > 1 ? strtoul(argv[1], NULL, 10) : 100000;
    state = argc > 2 ? strtoull(argv[2], NULL, 10) : 1;
    if (!state) state = 1;
    for (unsigned long i = 0; i < calls; i++) {
        uint32_t number = below(HANDLES), which = below(2048);
        kehtrop *node = &nodes[number];
        uint8_t status = KEHTROP_OK;
        int had = node->node != NULL;
        refuses = !below(16);
        if (!(i % 8192)) suite = (uint8_t[]){2, 6, 4}[below(3)], renewals = (uint8_t)below(2), mfp = suite != 2 && below(2);
        if (which < 1) kehtrop_free(node), want(!node->node, "a freed handle", i);
        else if (which < 8) status = start(node, number);
        else if (which < 90) status = list(node, number);
        else if (which < 100) status = push(node);
        else if (which < 400) status = event(node, number);
        else if (which < 1200) status = hear(node);
        else tell(node, i);
        want(status < KEHTROP_NOTHING, "a status", i);
        want(had || which < 8 || status == KEHTROP_NO_NODE || which >= 1200, "a handle without a node", i);
        want(!refuses || status != KEHTROP_NO_MEMORY || (node->node != NULL) == had, "a node that stays where memory ran out", i);
        want(refuses || status != KEHTROP_NO_MEMORY, "memory that was there", i);
    }
    for (int k = 0; k < HANDLES; k++) kehtrop_free(&nodes[k]);
    printf("calls %lu frames heard %lu sessions %lu payloads %lu", calls, frames_heard, sessions, payloads);
    printf(" announcements %lu", announcements);
    printf(" refusals of memory %lu failed %lu\n", refusals, failures);
    return failures != 0;
}
