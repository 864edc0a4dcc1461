/* Associations between a station and an access point of the library, and payloads under their key: library SUITE ASSOCIATIONS PAYLOADS. The
 * names are those of the script of bench/handshake.sh, since elements are as long as the names in them. */
#include "kehtrop.h"

#include <stdio.h>
#include <stdlib.h>
#include <string.h>

static const uint8_t AP[6] = {2, 0, 0, 0, 0, 1}, STA[6] = {2, 0, 0, 0, 0, 0x11}, ID[] = "r0kh-1";
static unsigned begun, payloads;

static struct {
    uint8_t octets[2400];
    size_t len;
} air[2][8];
static unsigned waiting[2];

/* Does what a node tells: its frames wait for the other. */
static void act(kehtrop *node, unsigned other) {
    kehtrop_item item;
    while (kehtrop_next(node, &item) == KEHTROP_OK) {
        if (item.what == KEHTROP_SEND && waiting[other] < 8) {
            unsigned at = waiting[other]++;
            air[other][at].len = kehtrop_octets(node, air[other][at].octets, sizeof air[other][at].octets);
        }
        begun += item.what == KEHTROP_BEGUN, payloads += item.what == KEHTROP_PAYLOAD;
    }
}

static void settle(kehtrop nodes[2]) {
    for (unsigned k = 0; k < 2; k++) act(&nodes[k], 1 - k);
    while (waiting[0] + waiting[1]) {
        for (unsigned k = 0; k < 2; k++) {
            unsigned came = waiting[k];
            waiting[k] = 0;
            for (unsigned i = 0; i < came; i++) kehtrop_take(&nodes[k], air[k][i].octets, air[k][i].len);
            act(&nodes[k], 1 - k);
        }
    }
}

int main(int argc, char **argv) {
    kehtrop nodes[2] = {KEHTROP_NONE, KEHTROP_NONE};
    kehtrop_config config = {.ssid = "bench", .ssid_len = 5, .mdid = {1, 2}};
    kehtrop_psk_octets psk = {{7}};
    kehtrop_address address;
    static const uint8_t payload[1500] = {0xaa, 0xaa, 3};
    if (argc < 4) return 2;
    config.akm = (uint8_t)atoi(argv[1]);
    unsigned associations = (unsigned)atoi(argv[2]), passed = (unsigned)atoi(argv[3]);
    memcpy(config.address, AP, 6), config.seed[0] = 1;
    if (kehtrop_access_point(&nodes[0], &config, ID, 6, 0)) return 1;
    memcpy(config.address, STA, 6), config.seed[0] = 2;
    if (kehtrop_station(&nodes[1], &config, &psk, 0)) return 1;
    memcpy(address.octets, AP, 6), kehtrop_list_ap(&nodes[1], &address, ID, 6);
    memcpy(address.octets, STA, 6), kehtrop_list_station(&nodes[0], &address, &psk);
    for (unsigned i = 0; i < associations; i++) {
        kehtrop_with(&nodes[1], KEHTROP_CONNECT, AP);
        settle(nodes);
    }
    for (unsigned i = 0; i < passed; i++) {
        kehtrop_pass(&nodes[1], AP, 255, payload, sizeof payload);
        settle(nodes);
    }
    kehtrop_free(&nodes[0]), kehtrop_free(&nodes[1]);
    return begun != 2 * associations || payloads != passed;
}
