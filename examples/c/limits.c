/* What calls do not take. It ends with 0 where each is answered as it should be. */
#include "kehtrop.h"

#include <stdio.h>
#include <string.h>

static const uint8_t AP[6] = {2, 0, 0, 0, 0, 1}, STA[6] = {2, 0, 0, 0, 0, 0x11}, ALL[6] = {255, 255, 255, 255, 255, 255};
static const uint8_t ID[] = "ap1.example", OTHER[] = {'x', 1};
static unsigned failures;

static void want(uint8_t status, uint8_t wanted, const char *what) {
    printf("%s %s\n", status == wanted ? "ok" : "FAILED", what);
    failures += status != wanted;
}

int main(void) {
    kehtrop node = KEHTROP_NONE, sta = KEHTROP_NONE;
    kehtrop_config config = {0};
    kehtrop_psk_octets psk;
    kehtrop_address address = {{2, 0, 0, 0, 2, 0}}, other = {{2, 0, 0, 0, 3, 0}};
    kehtrop_r1_key key;
    static uint8_t octets[KEHTROP_MOST_PAYLOAD + 1];

    want(kehtrop_psk((const uint8_t *)"short", 5, ID, 7, &psk), KEHTROP_UNFIT, "a passphrase that is too short");
    want(kehtrop_psk((const uint8_t *)"eight\n..", 8, ID, 7, &psk), KEHTROP_UNFIT, "a passphrase with another character");
    want(kehtrop_psk(ID, 8, ID, 33, &psk), KEHTROP_UNFIT, "the name of a network that is too long");
    want(kehtrop_psk(ID, 8, ID, 7, &psk), KEHTROP_OK, "a passphrase of eight characters");

    want(kehtrop_take(&node, ID, 11), KEHTROP_NO_NODE, "an empty handle");
    memcpy(config.address, AP, 6);
    want(kehtrop_access_point(&node, &config, ID, 11, 0), KEHTROP_UNFIT, "no name and no suite");
    config.akm = 6, config.ssid_len = 33;
    want(kehtrop_access_point(&node, &config, ID, 11, 0), KEHTROP_UNFIT, "the name of a network that is too long");
    config.ssid_len = 32;
    want(kehtrop_access_point(&node, &config, ID, 0, 0), KEHTROP_UNFIT, "no R0KH-ID");
    want(kehtrop_access_point(&node, &config, octets, 49, 0), KEHTROP_UNFIT, "an R0KH-ID that is too long");
    want(kehtrop_access_point(&node, &config, ID, 11, 1ull << 60), KEHTROP_UNFIT, "no number is left to draw");
    config.address[0] = 1;
    want(kehtrop_access_point(&node, &config, ID, 11, 0), KEHTROP_UNFIT, "the address of a group");
    config.address[0] = 2;
    want(kehtrop_access_point(&node, &config, ID, 11, 0), KEHTROP_OK, "an access point starts");
    want(kehtrop_access_point(&node, &config, ID, 11, (1ull << 60) - 1), KEHTROP_OK, "another starts in its place");
    want(kehtrop_with(&node, KEHTROP_REKEY, AP), KEHTROP_IDLE, "it has no number left to draw");
    want(kehtrop_announce(&node, octets, 1), KEHTROP_UNFIT, "it announces nothing without mfp");
    config.mfp = 1, config.akm = 2;
    want(kehtrop_access_point(&node, &config, ID, 11, 0), KEHTROP_UNFIT, "mfp with suite 2");
    config.akm = 6;
    want(kehtrop_access_point(&node, &config, ID, 11, (1ull << 60) - 1), KEHTROP_UNFIT, "no two numbers are left to draw");
    want(kehtrop_access_point(&node, &config, ID, 11, (1ull << 60) - 2), KEHTROP_OK, "one with mfp starts in its place");
    want(kehtrop_with(&node, KEHTROP_REKEY, AP), KEHTROP_IDLE, "it has no number left to draw");
    want(kehtrop_announce(&node, octets, KEHTROP_MOST_PAYLOAD), KEHTROP_OK, "an announcement of the most octets");
    want(kehtrop_announce(&node, octets, KEHTROP_MOST_PAYLOAD + 1), KEHTROP_UNFIT, "one more is too many");
    config.mfp = 0;
    want(kehtrop_access_point(&node, &config, ID, 11, 0), KEHTROP_OK, "one without mfp again");

    for (int i = 0; i < KEHTROP_MOST_STAS; i++) {
        address.octets[3] = (uint8_t)(i >> 8), address.octets[5] = (uint8_t)i;
        want(kehtrop_list_station(&node, &address, &psk), KEHTROP_OK, "a station is listed");
    }
    want(kehtrop_list_station(&node, &address, &psk), KEHTROP_FULL, "the most stations are listed, and no more");
    want(kehtrop_list_ap(&node, &other, ID, 11), KEHTROP_UNFIT, "another access point with its R0KH-ID");
    want(kehtrop_list_ap(&node, &address, OTHER, 2), KEHTROP_UNFIT, "one with the address of a station");
    want(kehtrop_r1(&config, &psk, OTHER, 2, &address, &other, &key), KEHTROP_UNFIT, "a PMK-R1 with suite 6");
    config.akm = 4;
    want(kehtrop_r1(&config, &psk, OTHER, 0, &address, &other, &key), KEHTROP_UNFIT, "one of no R0KH-ID");
    want(kehtrop_r1(&config, &psk, OTHER, 2, &address, &other, &key), KEHTROP_OK, "one with suite 4");
    want(kehtrop_push_r1(&node, OTHER, 2, &key), KEHTROP_UNFIT, "one of an access point that is not listed");
    for (int i = 1; i < KEHTROP_MOST_APS; i++) {
        const uint8_t id[2] = {'x', (uint8_t)i};
        other.octets[5] = (uint8_t)i;
        want(kehtrop_list_ap(&node, &other, id, 2), KEHTROP_OK, "another access point is listed");
    }
    want(kehtrop_list_ap(&node, &other, OTHER, 2), KEHTROP_FULL, "the most access points are listed, and no more");
    want(kehtrop_push_r1(&node, OTHER, 2, &key), KEHTROP_OK, "a PMK-R1 of one that is listed");
    want(kehtrop_push_r1(&node, OTHER, 2, &key), KEHTROP_OK, "the same again");
    want(kehtrop_push_r1(&node, ID, 11, &key), KEHTROP_UNFIT, "one of its own R0KH-ID");
    memcpy(key.station, STA, 6);
    want(kehtrop_push_r1(&node, OTHER, 2, &key), KEHTROP_UNFIT, "one of a station that is not listed");
    config.akm = 6;
    want(kehtrop_pass(&node, ALL, 255, octets, KEHTROP_MOST_PAYLOAD), KEHTROP_OK, "a payload of the most octets");
    want(kehtrop_pass(&node, ALL, 255, octets, KEHTROP_MOST_PAYLOAD + 1), KEHTROP_UNFIT, "one more is too many");
    want(kehtrop_pass(&node, STA, 255, octets, 1), KEHTROP_UNFIT, "a payload to a station that is not listed");
    want(kehtrop_with(&node, KEHTROP_ROAM, AP), KEHTROP_UNFIT, "an access point does not roam");
    want(kehtrop_with(&node, 0, AP), KEHTROP_UNFIT, "no such event");
    want(kehtrop_with(&node, 11, AP), KEHTROP_UNFIT, "nor this one");
    want(kehtrop_event(&node, KEHTROP_SECRET, &address, 255, octets, 31), KEHTROP_UNFIT, "a pre-shared key of 31 octets");
    want(kehtrop_secret(&node, STA, &psk), KEHTROP_UNFIT, "one of a station that is not listed");
    want(kehtrop_secret(&node, ALL, &psk), KEHTROP_OK, "one of all stations");

    memcpy(config.address, STA, 6);
    want(kehtrop_station(&sta, &config, &psk, 0), KEHTROP_OK, "a station starts");
    want(kehtrop_with(&sta, KEHTROP_CONNECT, AP), KEHTROP_UNFIT, "an access point that is not listed");
    memcpy(address.octets, AP, 6);
    want(kehtrop_list_ap(&sta, &address, ID, 11), KEHTROP_OK, "it is listed");
    want(kehtrop_list_ap(&sta, &address, ID, 11), KEHTROP_UNFIT, "it is listed once");
    address.octets[5] = 2;
    want(kehtrop_list_ap(&sta, &address, ID, 11), KEHTROP_UNFIT, "its R0KH-ID is another's");
    want(kehtrop_list_station(&sta, &address, &psk), KEHTROP_UNFIT, "a station lists no station");
    want(kehtrop_push_r1(&sta, ID, 11, &key), KEHTROP_UNFIT, "a station takes no PMK-R1");
    want(kehtrop_with(&sta, KEHTROP_REKEY, AP), KEHTROP_UNFIT, "a station draws no group key");
    want(kehtrop_with(&sta, KEHTROP_ROAM, AP), KEHTROP_UNFIT, "with suite 6 a station does not roam");

    for (size_t n = 0; n <= sizeof octets; n++) kehtrop_take(&node, octets, n);
    kehtrop_free(&node);
    kehtrop_free(&sta);
    printf("failed %u\n", failures);
    return failures != 0;
}
