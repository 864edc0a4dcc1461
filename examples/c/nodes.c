/* A station and two access points of the library, at the ends of socket pairs: association and four-way handshake, data both ways and to
 * all, a frame twice, a frame that is altered, a new group key, leaving and coming again, another pre-shared key, with suites 2 and 6 a
 * renewed pairwise key, and with suite 4 fast transitions, there with a key that the first access point gives the second, and back; with
 * suites 6 and 4 announcements too. It ends with 0 where all is as it should be. */
#include "kehtrop.h"

#include <stdio.h>
#include <string.h>
#include <sys/socket.h>
#include <unistd.h>

enum { MOST = 2400 };

static const uint8_t AP[2][6] = {{2, 0, 0, 0, 0, 1}, {2, 0, 0, 0, 0, 2}}, STA[6] = {2, 0, 0, 0, 0, 0x11};
static const uint8_t ALL[6] = {255, 255, 255, 255, 255, 255};
static const uint8_t ID[2][11] = {"ap1.example", "ap2.example"};
static const uint8_t UP[] = {0xaa, 0xaa, 3, 0, 0, 0, 8, 0, 'u', 'p'}, DOWN[] = {0xaa, 0xaa, 3, 0, 0, 0, 8, 0, 'd', 'o', 'w', 'n'};

/* One end: the node, the sockets that are its radio (a station's: one to each access point), and what it told. */
struct end {
    const char *name;
    kehtrop node;
    int radio[2];
    uint8_t pairwise[16], group[16], integrity[16];
    uint64_t counter, ipn; /* of the group key and the IGTK: what a radio of its own sets its replay counters to */
    unsigned installed, resumed, begun, ended, refused, payloads, announcements;
    uint8_t payload[MOST], last[MOST];
    size_t payload_len, last_len;
};

static unsigned failures;

static void want(int is, const char *what) {
    printf("%s %s\n", is ? "ok" : "FAILED", what);
    failures += !is;
}

/* Does what the node tells. */
static void act(struct end *end) {
    kehtrop_item item;
    while (kehtrop_next(&end->node, &item) == KEHTROP_OK) {
        uint8_t octets[MOST];
        size_t len = kehtrop_octets(&end->node, octets, sizeof octets);
        switch (item.what) {
        case KEHTROP_SEND:
            memcpy(end->last, octets, end->last_len = len);
            if (write(end->radio[!memcmp(item.peer, AP[1], 6)], octets, len) < 0) failures++;
            break;
        case KEHTROP_INSTALL:
            printf("   %s installs key %u\n", end->name, item.key_id);
            if (item.key_id > 3) { /* an IGTK, which comes with the group key */
                memcpy(end->integrity, item.key, 16), end->ipn = item.number;
                break;
            }
            memcpy(item.key_id ? end->group : end->pairwise, item.key, 16);
            if (item.key_id) end->counter = item.number;
            end->installed++;
            break;
        case KEHTROP_RESUME: {
            uint64_t *counter = item.key_id > 3 ? &end->ipn : &end->counter;
            if (*counter < item.number) *counter = item.number;
            end->resumed += item.key_id < 4;
            break;
        }
        case KEHTROP_BEGUN: end->begun++; break;
        case KEHTROP_ENDED: end->ended++; break;
        case KEHTROP_PAYLOAD:
            memcpy(end->payload, octets, end->payload_len = len);
            end->payloads++;
            break;
        case KEHTROP_ANNOUNCED:
            memcpy(end->payload, octets, end->payload_len = len);
            end->announcements++;
            break;
        case KEHTROP_WAS_REFUSED:
            end->refused++;
            printf("   %s refuses: %s %llu\n", end->name, kehtrop_reason(item.reason), (unsigned long long)item.number);
            break;
        case KEHTROP_DID_NOTHING: printf("   %s: %s\n", end->name, kehtrop_why(item.reason)); break;
        default: break;
        }
    }
}

/* Takes what is on the air, and does what it leads to. Answers whether anything came. */
static int hear(struct end *end) {
    int came = 0;
    for (int k = 0; k < 2; k++) {
        uint8_t octets[MOST];
        ssize_t len = recv(end->radio[k], octets, sizeof octets, MSG_DONTWAIT);
        if (len < 0) continue;
        kehtrop_take(&end->node, octets, (size_t)len);
        act(end);
        came = 1;
    }
    return came;
}

/* Until the air is quiet. */
static void settle(struct end ends[3]) {
    int came = 1;
    for (int k = 0; k < 3; k++) act(&ends[k]);
    while (came) {
        came = 0;
        for (int k = 0; k < 3; k++) came |= hear(&ends[k]);
    }
}

static int got(const struct end *end, const uint8_t *payload, size_t len) {
    return end->payload_len == len && !memcmp(end->payload, payload, len);
}

/* Each listed at the others, with a socket pair between the station and each access point. A real program takes each seed from the random
 * source of the machine. */
static int start(struct end *sta, struct end aps[2], uint8_t akm, uint8_t mfp, const kehtrop_psk_octets *psk) {
    kehtrop_config config = {.ssid = "example", .ssid_len = 7, .akm = akm, .mdid = {0x12, 0x34}, .renewals = akm != 4, .mfp = mfp};
    kehtrop_address address;
    memset(config.seed, 0x5a, 32), memcpy(config.address, STA, 6);
    if (kehtrop_station(&sta->node, &config, psk, 0)) return 0;
    for (int k = 0; k < 2; k++) {
        int pair[2];
        if (socketpair(AF_UNIX, SOCK_DGRAM, 0, pair)) return 0;
        sta->radio[k] = pair[0], aps[k].radio[0] = pair[1], aps[k].radio[1] = -1;
        memset(config.seed, 0xa5 + k, 32), memcpy(config.address, AP[k], 6);
        if (kehtrop_access_point(&aps[k].node, &config, ID[k], sizeof ID[k], 0)) return 0;
        memcpy(address.octets, STA, 6);
        if (kehtrop_list_station(&aps[k].node, &address, psk)) return 0;
        memcpy(address.octets, AP[!k], 6);
        if (kehtrop_list_ap(&aps[k].node, &address, ID[!k], sizeof ID[!k])) return 0;
        memcpy(address.octets, AP[k], 6);
        if (kehtrop_list_ap(&sta->node, &address, ID[k], sizeof ID[k])) return 0;
    }
    return 1;
}

static void pass_data(struct end ends[3]) {
    struct end *sta = &ends[0], *ap = &ends[1];
    want(kehtrop_pass(&sta->node, AP[0], 255, UP, sizeof UP) == KEHTROP_OK, "the station sends");
    settle(ends);
    want(got(ap, UP, sizeof UP), "it came");
    want(kehtrop_pass(&ap->node, STA, 5, DOWN, sizeof DOWN) == KEHTROP_OK, "the access point sends, with a TID");
    settle(ends);
    want(got(sta, DOWN, sizeof DOWN), "it came");
    want(kehtrop_pass(&ap->node, ALL, 255, UP, sizeof UP) == KEHTROP_OK, "the access point sends to all");
    settle(ends);
    want(got(sta, UP, sizeof UP) && sta->payloads == 2, "it came");
    want(kehtrop_take(&sta->node, ap->last, ap->last_len) == KEHTROP_REFUSED, "a frame that comes twice is refused");
    ap->last[ap->last_len - 1] ^= 1;
    want(kehtrop_take(&sta->node, ap->last, ap->last_len) == KEHTROP_REFUSED, "an altered frame is refused");
    settle(ends);
    want(sta->refused == 2 && sta->payloads == 2, "nothing came of them");
}

/* Whether an announcement with that payload came: the category of its Action frame is the octet before it. */
static int heard(const struct end *end, const uint8_t *payload, size_t len) {
    return end->payload_len == len + 1 && end->payload[0] == 0x7e && !memcmp(end->payload + 1, payload, len);
}

static void announce(struct end ends[3]) {
    struct end *sta = &ends[0], *ap = &ends[1];
    unsigned refused = sta->refused;
    want(!memcmp(sta->integrity, ap->integrity, 16) && memcmp(ap->integrity, ap->group, 16), "an IGTK came with the group key");
    want(kehtrop_announce(&ap->node, UP, sizeof UP) == KEHTROP_OK, "the access point announces");
    settle(ends);
    want(heard(sta, UP, sizeof UP) && sta->announcements == 1, "it came");
    want(kehtrop_take(&sta->node, ap->last, ap->last_len) == KEHTROP_REFUSED, "an announcement that comes twice is refused");
    ap->last[ap->last_len - 14]++; /* its packet number */
    want(kehtrop_take(&sta->node, ap->last, ap->last_len) == KEHTROP_REFUSED, "so is an altered one");
    settle(ends);
    want(sta->refused == refused + 2 && sta->announcements == 1, "nothing came of them");
    want(kehtrop_announce(&sta->node, UP, sizeof UP) == KEHTROP_UNFIT, "a station announces nothing");
}

/* What the first access point gives the second: the key of the station for it, which goes from the one to the other as the program sees
 * fit (here both are in one). */
static void give(struct end *other, const kehtrop_psk_octets *psk) {
    const kehtrop_config config = {.ssid = "example", .ssid_len = 7, .akm = 4, .mdid = {0x12, 0x34}};
    kehtrop_address station, access_point;
    kehtrop_r1_key key;
    memcpy(station.octets, STA, 6), memcpy(access_point.octets, AP[1], 6);
    want(kehtrop_r1(&config, psk, ID[0], sizeof ID[0], &station, &access_point, &key) == KEHTROP_OK, "a PMK-R1 of the station for the second");
    want(kehtrop_push_r1(&other->node, ID[0], sizeof ID[0], &key) == KEHTROP_OK, "which takes it");
}

/* A fast transition to an access point that has no key of the station is refused, and the session goes on. With the key it is granted. */
static void roam(struct end ends[3], uint8_t mfp, const kehtrop_psk_octets *psk) {
    struct end *sta = &ends[0], *ap = &ends[1], *other = &ends[2];
    unsigned begun = sta->begun, ended = sta->ended, refused;
    want(kehtrop_with(&sta->node, KEHTROP_ROAM, AP[0]) == KEHTROP_IDLE, "it is there already");
    want(kehtrop_with(&sta->node, KEHTROP_ROAM, AP[1]) == KEHTROP_OK, "the station asks another access point for a fast transition");
    settle(ends);
    want(other->refused == 1 && sta->begun == begun && sta->ended == ended, "which has no key for it, and refuses");
    kehtrop_pass(&ap->node, STA, 255, DOWN, sizeof DOWN);
    settle(ends);
    want(got(sta, DOWN, sizeof DOWN), "the session goes on");

    give(other, psk);
    for (int k = 0; k < 3; k++) kehtrop_pass(&other->node, ALL, 255, DOWN, sizeof DOWN);
    if (mfp) kehtrop_announce(&other->node, DOWN, sizeof DOWN);
    settle(ends);
    want(kehtrop_with(&sta->node, KEHTROP_ROAM, AP[1]) == KEHTROP_OK, "the station asks again");
    settle(ends);
    want(sta->begun == begun + 1 && sta->ended == ended + 1 && other->begun == 1, "a session with it, and none with the first");
    want(!memcmp(sta->pairwise, other->pairwise, 16) && !memcmp(sta->group, other->group, 16), "the keys agree");
    want(sta->counter == 3, "the group key counts on from what was sent under it");
    if (mfp) {
        want(!memcmp(sta->integrity, other->integrity, 16) && sta->ipn == 1, "so does the IGTK");
        kehtrop_announce(&other->node, UP, sizeof UP);
        settle(ends);
        want(heard(sta, UP, sizeof UP), "an announcement comes from there");
    }
    kehtrop_pass(&sta->node, AP[1], 255, UP, sizeof UP);
    settle(ends);
    want(got(other, UP, sizeof UP), "data goes there");

    want(kehtrop_with(&sta->node, KEHTROP_ROAM, AP[0]) == KEHTROP_OK, "and back, where the own key holder has the key");
    settle(ends);
    want(sta->begun == begun + 2 && !memcmp(sta->pairwise, ap->pairwise, 16), "a session with the first");
    kehtrop_with(&other->node, KEHTROP_REVOKE, STA);
    refused = other->refused;
    kehtrop_with(&sta->node, KEHTROP_ROAM, AP[1]);
    settle(ends);
    want(other->refused == refused + 1 && sta->begun == begun + 2, "what was given of a station that is revoked is forgotten");
    want(kehtrop_with(&sta->node, KEHTROP_CONNECT, AP[1]) == KEHTROP_OK, "the station associates with the second");
    settle(ends);
    want(sta->begun == begun + 3, "a session with it");
}

/* The pairwise key is renewed inside the session. */
static void renew(struct end ends[3]) {
    struct end *sta = &ends[0], *ap = &ends[1];
    unsigned begun = sta->begun, ended = ap->ended;
    uint8_t former[16];
    memcpy(former, sta->pairwise, 16);
    want(kehtrop_with(&ap->node, KEHTROP_RENEW, STA) == KEHTROP_OK, "the access point renews the pairwise key");
    settle(ends);
    want(sta->begun == begun + 1 && ap->ended == ended + 1, "a session ends, and another begins");
    want(!memcmp(sta->pairwise, ap->pairwise, 16) && memcmp(sta->pairwise, former, 16), "under another key, the same at both");
    kehtrop_pass(&sta->node, AP[0], 255, UP, sizeof UP);
    settle(ends);
    want(got(ap, UP, sizeof UP), "data goes on under it");
    want(kehtrop_with(&sta->node, KEHTROP_RENEW, AP[0]) == KEHTROP_UNFIT, "a station renews none");
}

static void run(uint8_t akm, uint8_t mfp) {
    struct end ends[3] = {{.name = "sta"}, {.name = "ap1"}, {.name = "ap2"}}, *sta = &ends[0], *ap = &ends[1];
    kehtrop_psk_octets psk, other;
    printf("suite %u%s\n", akm, mfp ? " with mfp" : "");
    want(kehtrop_psk((const uint8_t *)"correct horse", 13, (const uint8_t *)"example", 7, &psk) == KEHTROP_OK, "a passphrase");
    want(start(sta, &ends[1], akm, mfp, &psk), "a station and two access points start, and list one another");

    want(kehtrop_with(&sta->node, KEHTROP_CONNECT, AP[0]) == KEHTROP_OK, "the station associates");
    settle(ends);
    want(sta->begun == 1 && ap->begun == 1, "both have the session");
    want(sta->installed == 2 && ap->installed == 2, "each installed a pairwise and a group key");
    want(!memcmp(sta->pairwise, ap->pairwise, 16) && !memcmp(sta->group, ap->group, 16), "the keys agree");
    pass_data(ends);
    if (mfp) announce(ends);
    else want(kehtrop_announce(&ap->node, UP, sizeof UP) == KEHTROP_UNFIT, "nothing is announced");

    want(kehtrop_with(&ap->node, KEHTROP_REKEY, AP[0]) == KEHTROP_OK, "a new group key");
    settle(ends);
    want(sta->installed == 3 && ap->installed == 3 && !memcmp(sta->group, ap->group, 16), "both installed it");
    want(sta->counter == 0, "nothing was sent under it");
    want(!memcmp(sta->integrity, ap->integrity, 16) && sta->ipn == 0, "nor under the IGTK that came with it, if one did");
    kehtrop_pass(&ap->node, ALL, 255, UP, sizeof UP);
    settle(ends);

    want(kehtrop_with(&sta->node, KEHTROP_LEAVE, AP[0]) == KEHTROP_OK, "the station leaves");
    want(kehtrop_pass(&sta->node, AP[0], 255, UP, sizeof UP) == KEHTROP_IDLE, "it has no key");
    settle(ends);
    want(sta->ended == 1, "its session ended");
    kehtrop_with(&sta->node, KEHTROP_CONNECT, AP[0]);
    settle(ends);
    want(sta->begun == 2 && ap->begun == 2, "it comes again");
    want(sta->resumed == 1 && sta->installed == 4, "the group key that it had goes on");
    want(sta->counter == 1, "with what came under it");

    memset(other.octets, 7, 32);
    want(kehtrop_secret(&ap->node, STA, &other) == KEHTROP_OK, "another pre-shared key of the station, at the access point");
    want(kehtrop_secret(&ends[2].node, ALL, &other) == KEHTROP_OK, "of all stations, at the other");
    want(kehtrop_secret(&sta->node, ALL, &other) == KEHTROP_OK, "and its own");
    settle(ends);
    want(sta->ended == 2 && ap->ended == 2, "no session goes on under the old one");
    kehtrop_with(&sta->node, KEHTROP_CONNECT, AP[0]);
    settle(ends);
    want(sta->begun == 3 && ap->begun == 3 && !memcmp(sta->pairwise, ap->pairwise, 16), "a session under the new one");
    if (akm == 4) roam(ends, mfp, &other);
    else renew(ends);

    for (int k = 0; k < 3; k++) kehtrop_free(&ends[k].node);
    kehtrop_free(&sta->node);
    want(!sta->node.node && kehtrop_take(&sta->node, UP, 1) == KEHTROP_NO_NODE, "freed");
    for (int k = 0; k < 2; k++) close(sta->radio[k]), close(ends[1 + k].radio[0]);
}

int main(void) {
    run(2, 0);
    run(6, 0);
    run(6, 1);
    run(4, 0);
    run(4, 1);
    printf("failed %u\n", failures);
    return failures != 0;
}
