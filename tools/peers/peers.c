/* The library's access point with the station of a widely used supplicant, and its station with that program's authenticator: suites 2, 6
 * and 4, with suite 4 a fast transition of the library's station too, in one process. `tools/peers.sh` builds it with that program's sources,
 * of which it uses the state machines of RSN alone: what drivers and other protocols would do stands here. It ends with 0 where all is as
 * it should be. */
#include "kehtrop.h"

#include "utils/includes.h"
#include "utils/common.h"
#include "utils/eloop.h"
#include "common/defs.h"
#include "common/ieee802_11_defs.h"
#include "common/wpa_common.h"
#include "crypto/aes_wrap.h"
#include "rsn_supp/wpa.h"
#include "ap/wpa_auth.h"
#include "ap/vlan.h"

enum { MOST = 2400, HEAD = 24, LLC = 8 };

static const u8 AP[2][6] = {{2, 0, 0, 0, 0, 1}, {2, 0, 0, 0, 0, 2}}, STA[6] = {2, 0, 0, 0, 0, 0x11}, ALL[6] = {255, 255, 255, 255, 255, 255};
static const u8 SSID[] = "example", MD[2] = {0x12, 0x34}, R0KH[2][6] = {"r0kh-1", "r0kh-2"};
static const u8 SNAP[LLC] = {0xaa, 0xaa, 3, 0, 0, 0, 0x88, 0x8e}, RATES[6] = {1, 4, 0x82, 0x84, 0x8b, 0x96};
static const u8 PAYLOAD[] = {0xaa, 0xaa, 3, 0, 0, 0, 0x88, 0xb5, 'h', 'i'};

static kehtrop node;
static kehtrop_psk_octets psk;
static u8 suite;
static unsigned failures, begun, ended, installs, payloads, refused;
static u8 pairwise[16], group[16];                                        /* of the library */
static u8 peer_pairwise[16], peer_group[4][16], peer_sent[6];             /* of the other program; the packet numbers that it sent */
static unsigned peer_installs, peer_payloads, peer_group_id;
static struct wpa_sm *station;
static struct {
    struct wpa_authenticator *authenticator;
    struct wpa_state_machine *machine;
} aps[2];
static unsigned at_ap; /* where the library's station is, or goes */

static void want(int is, const char *what) {
    printf("%s %s\n", is ? "ok" : "FAILED", what);
    failures += !is;
}

static int is_of_peer_group(void) { return !memcmp(peer_group[peer_group_id], group, 16); }

/* ---- frames that go to the library, and come from it */

static struct {
    u8 octets[MOST];
    size_t len;
} air[16];
static unsigned on_air;

/* A frame to the library's node, which takes it once it has told all that it did. */
static void goes(const u8 *frame, size_t len) {
    if (on_air == 16 || len > MOST) {
        want(0, "room for a frame");
        return;
    }
    memcpy(air[on_air].octets, frame, air[on_air].len = len);
    on_air++;
}

static void settle(void);

static size_t head(u8 *frame, const char *control, const u8 *to, const u8 *from) {
    memset(frame, 0, HEAD);
    hexstr2bin(control, frame, 2);
    memcpy(frame + 4, to, 6), memcpy(frame + 10, from, 6), memcpy(frame + 16, AP[at_ap], 6);
    return HEAD;
}

/* What CCMP seals of a data frame, and its nonce (IEEE Std 802.11-2020, 12.5.3.3). The length of the header. */
static size_t sealed(const u8 *frame, const u8 *number, u8 *covered, size_t *len, u8 nonce[13]) {
    int qos = (frame[0] & 0x80) != 0;
    covered[0] = frame[0] & 0x8f, covered[1] = (frame[1] & 0xc7) | 0x40;
    memcpy(covered + 2, frame + 4, 18);
    covered[20] = frame[22] & 0x0f, covered[21] = 0;
    covered[22] = qos ? frame[24] & 0x0f : 0, covered[23] = 0;
    *len = qos ? 24 : 22;
    nonce[0] = qos ? frame[24] & 0x0f : 0;
    memcpy(nonce + 1, frame + 10, 6);
    for (int i = 0; i < 6; i++) nonce[7 + i] = number[5 - i];
    return qos ? 26 : 24;
}

static void peer_passes(const u8 *to, const u8 *payload, size_t len, const u8 *key, u8 id) {
    u8 frame[MOST], covered[24], nonce[13];
    const u8 *from = station ? STA : AP[at_ap];
    size_t aad, at = head(frame, station ? "0841" : "0842", to, from);
    for (int i = 0; i < 6 && !++peer_sent[i]; i++) {}
    sealed(frame, peer_sent, covered, &aad, nonce);
    frame[at] = peer_sent[0], frame[at + 1] = peer_sent[1], frame[at + 2] = 0, frame[at + 3] = (u8)(0x20 | id << 6);
    memcpy(frame + at + 4, peer_sent + 2, 4);
    if (aes_ccm_ae(key, 16, nonce, 8, payload, len, covered, aad, frame + at + 8, frame + at + 8 + len)) failures++;
    goes(frame, at + 16 + len);
    settle();
}

/* A payload that the library protected. */
static void peer_hears(const u8 *frame, size_t len) {
    u8 covered[24], nonce[13], plain[MOST];
    size_t aad, at = (frame[0] & 0x80) ? 26 : 24;
    if (len < at + 16) return;
    u8 number[6] = {frame[at], frame[at + 1], frame[at + 4], frame[at + 5], frame[at + 6], frame[at + 7]};
    const u8 *key = (frame[4] & 1) ? peer_group[frame[at + 3] >> 6] : peer_pairwise;
    sealed(frame, number, covered, &aad, nonce);
    if (aes_ccm_ad(key, 16, nonce, 8, frame + at + 8, len - at - 16, covered, aad, frame + len - 8, plain)) {
        want(0, "a payload opens");
    } else if (len - at - 16 > LLC && !memcmp(plain, SNAP, LLC)) {
        if (station) wpa_sm_rx_eapol(station, AP[0], plain + LLC, len - at - 16 - LLC);
        else wpa_receive(aps[at_ap].authenticator, aps[at_ap].machine, plain + LLC, len - at - 16 - LLC);
    } else {
        peer_payloads += len - at - 16 == sizeof PAYLOAD && !memcmp(plain, PAYLOAD, sizeof PAYLOAD);
    }
}

static void associated(const u8 *frame, size_t len);
static void asked(const u8 *frame, size_t len);
static void asked_to_roam(const u8 *frame, size_t len);
static void asked_again(const u8 *frame, size_t len);

static void peer_takes(const u8 *frame, size_t len) {
    if (frame[0] == 0x10) associated(frame, len);
    else if (frame[0] == 0x00) asked(frame, len);
    else if (frame[0] == 0xb0) asked_to_roam(frame, len);
    else if (frame[0] == 0x20) asked_again(frame, len);
    else if ((frame[0] & 0x0f) != 0x08) want(0, "a frame that is awaited");
    else if (frame[1] & 0x40) peer_hears(frame, len);
    else if (station) wpa_sm_rx_eapol(station, AP[0], frame + HEAD + LLC, len - HEAD - LLC);
    else wpa_receive(aps[at_ap].authenticator, aps[at_ap].machine, (u8 *)frame + HEAD + LLC, len - HEAD - LLC);
}

/* Does what the library's node tells. */
static void act(void) {
    kehtrop_item item;
    while (kehtrop_next(&node, &item) == KEHTROP_OK) {
        u8 octets[MOST];
        size_t len = kehtrop_octets(&node, octets, sizeof octets);
        switch (item.what) {
        case KEHTROP_SEND: peer_takes(octets, len); break;
        case KEHTROP_INSTALL: memcpy(item.key_id ? group : pairwise, item.key, 16), installs++; break;
        case KEHTROP_BEGUN: begun++; break;
        case KEHTROP_ENDED: ended++; break;
        case KEHTROP_PAYLOAD: payloads += len == sizeof PAYLOAD && !memcmp(octets, PAYLOAD, len); break;
        case KEHTROP_WAS_REFUSED:
            refused++, printf("   the library refuses: %s %llu\n", kehtrop_reason(item.reason), (unsigned long long)item.number);
            break;
        default: break;
        }
    }
}

static void stop(void *loop, void *user) { eloop_terminate(); }

/* Until the air is quiet. */
static void settle(void) {
    for (act(); on_air; act()) {
        u8 frame[MOST];
        size_t len = air[0].len;
        memcpy(frame, air[0].octets, len);
        memmove(air, air + 1, --on_air * sizeof *air);
        kehtrop_take(&node, frame, len);
    }
}

/* The same, and what the other program put off is done too. */
static void wait_a_little(void) {
    for (int i = 0; i < 3; i++) {
        settle();
        eloop_register_timeout(0, 20000, stop, NULL, NULL);
        eloop_run();
    }
    settle();
}

static void gives(const char *control, const u8 *to, const u8 *from, const u8 *body, size_t len) {
    u8 frame[MOST];
    size_t at = head(frame, control, to, from);
    memcpy(frame + at, SNAP, LLC), memcpy(frame + at + LLC, body, len);
    goes(frame, at + LLC + len);
}

static void installed(const u8 *key, size_t len, int id, int is_group) {
    if (len != 16) return;
    if (is_group) memcpy(peer_group[id & 3], key, 16), peer_group_id = (unsigned)id & 3;
    else memcpy(peer_pairwise, key, 16), memset(peer_sent, 0, 6);
    peer_installs++;
}

static const u8 *element(const u8 *octets, size_t len, u8 id) {
    for (size_t at = 0; at + 2 <= len && at + 2 + octets[at + 1] <= len; at += 2u + octets[at + 1])
        if (octets[at] == id) return octets + at;
    return NULL;
}

static size_t rsne(u8 *out) {
    static const u8 start[] = {0x30, 0x14, 1, 0, 0, 0x0f, 0xac, 4, 1, 0, 0, 0x0f, 0xac, 4, 1, 0, 0, 0x0f, 0xac};
    memcpy(out, start, sizeof start);
    out[19] = suite, out[20] = 0x0c, out[21] = 0;
    return 22;
}

static size_t mde(u8 *out) {
    const u8 element_[5] = {0x36, 3, MD[0], MD[1], 0};
    if (suite != 4) return 0;
    memcpy(out, element_, 5);
    return 5;
}

static int key_management(void) { return suite == 2 ? WPA_KEY_MGMT_PSK : suite == 6 ? WPA_KEY_MGMT_PSK_SHA256 : WPA_KEY_MGMT_FT_PSK; }

/* ---- the other program's station */

static enum wpa_states state;
static void set_state(void *ctx, enum wpa_states to) { state = to; }
static enum wpa_states get_state(void *ctx) { return state; }
static void gone(void *ctx, u16 reason) { want(0, "the other program stays"); }
static int set_key(void *ctx, enum wpa_alg alg, const u8 *addr, int id, int tx, const u8 *seq, size_t seq_len, const u8 *key, size_t len, enum key_flag flag) {
    installed(key, len, id, (flag & KEY_FLAG_GROUP) != 0);
    return 0;
}
static void *network(void *ctx) { return &suite; }
static int bssid(void *ctx, u8 *out) { memcpy(out, AP[0], 6); return 0; }
static int ether_send(void *ctx, const u8 *to, u16 proto, const u8 *octets, size_t len) {
    gives("0801", AP[0], STA, octets, len);
    return 0;
}
static int nothing(void *ctx) { return 0; }
static void quiet(void *ctx) {}
static u8 *alloc_eapol(void *ctx, u8 type, const void *data, u16 len, size_t *all, void **at) {
    struct ieee802_1x_hdr *start;
    *all = sizeof *start + len;
    start = os_zalloc(*all);
    if (!start) return NULL;
    start->version = 2, start->type = type, start->length = host_to_be16(len);
    if (data) memcpy(start + 1, data, len);
    if (at) *at = start + 1;
    return (u8 *)start;
}
static int protection(void *ctx, const u8 *addr, int type, int key) { return 0; }
static int ft_ies(void *ctx, const u8 *md, const u8 *ies, size_t len) { return 0; }
static int no_pmkid(void *ctx, void *net, const u8 *b, const u8 *id, const u8 *fils, const u8 *pmk, size_t len, u32 life, u8 more, int akm) { return 0; }
static int no_pmkid_less(void *ctx, void *net, const u8 *b, const u8 *id, const u8 *fils) { return 0; }

static int station_starts(void) {
    struct wpa_sm_ctx *ctx = os_zalloc(sizeof *ctx);
    u8 own[64], listed[64];
    size_t len = sizeof own;
    if (!ctx) return 0;
    ctx->set_state = set_state, ctx->get_state = get_state, ctx->deauthenticate = gone, ctx->set_key = set_key, ctx->get_network_ctx = network;
    ctx->get_bssid = bssid, ctx->ether_send = ether_send, ctx->get_beacon_ie = nothing, ctx->cancel_auth_timeout = quiet, ctx->reconnect = quiet;
    ctx->alloc_eapol = alloc_eapol, ctx->mlme_setprotection = protection, ctx->update_ft_ies = ft_ies;
    ctx->add_pmkid = no_pmkid, ctx->remove_pmkid = no_pmkid_less;
    if (!(station = wpa_sm_init(ctx))) return 0;
    wpa_sm_set_own_addr(station, STA);
    wpa_sm_set_param(station, WPA_PARAM_PROTO, WPA_PROTO_RSN);
    wpa_sm_set_param(station, WPA_PARAM_PAIRWISE, WPA_CIPHER_CCMP);
    wpa_sm_set_param(station, WPA_PARAM_GROUP, WPA_CIPHER_CCMP);
    wpa_sm_set_param(station, WPA_PARAM_KEY_MGMT, (unsigned)key_management());
    wpa_sm_set_param(station, WPA_PARAM_RSN_ENABLED, 1);
    wpa_sm_set_param(station, WPA_PARAM_MFP, NO_MGMT_FRAME_PROTECTION);
    struct rsn_supp_config config = {.ssid = SSID, .ssid_len = 7, .allowed_pairwise_cipher = WPA_CIPHER_CCMP};
    wpa_sm_set_config(station, &config);
    wpa_sm_set_ap_rsn_ie(station, listed, rsne(listed));
    wpa_sm_set_pmk(station, psk.octets, 32, NULL, NULL);
    len = mde(listed);
    if (len && wpa_sm_set_ft_params(station, listed, len)) return 0;
    len = sizeof own;
    return wpa_sm_set_assoc_wpa_ie_default(station, own, &len) == 0;
}

/* It asks to be associated. */
static void station_asks(void) {
    u8 frame[MOST];
    size_t at = head(frame, "0000", AP[0], STA), len = 64;
    memcpy(frame + at, "\x11\x00\x0a\x00\x00\x07", 6), memcpy(frame + at + 6, SSID, 7), memcpy(frame + at + 13, RATES, 6), at += 19;
    if (wpa_sm_set_assoc_wpa_ie_default(station, frame + at, &len)) failures++;
    at += len, at += mde(frame + at);
    goes(frame, at);
}

static void associated(const u8 *frame, size_t len) {
    want(station && len >= 30 && !frame[26] && !frame[27], "it may associate");
    if (!station || len < 30) return;
    if (suite == 4) want(wpa_sm_set_ft_params(station, frame + 30, len - 30) == 0, "the elements of fast transition are taken");
    wpa_sm_notify_assoc(station, AP[0]);
}

/* ---- its authenticator */

static const u8 *get_psk(void *ctx, const u8 *addr, const u8 *p2p, const u8 *last, size_t *len, int *vlan) {
    if (len) *len = 32;
    if (vlan) *vlan = 0;
    return last ? NULL : psk.octets;
}
static int auth_set_key(void *ctx, int vlan, enum wpa_alg alg, const u8 *addr, int id, u8 *key, size_t len, enum key_flag flag) {
    installed(key, len, id, (flag & KEY_FLAG_GROUP) != 0);
    return 0;
}
static int seqnum(void *ctx, const u8 *addr, int id, u8 *out) {
    memset(out, 0, 8), memcpy(out, peer_sent, 6);
    return 0;
}
static int send_eapol(void *ctx, const u8 *addr, const u8 *octets, size_t len, int encrypt) {
    gives("0802", STA, AP[at_ap], octets, len);
    return 0;
}
static int each_sta(void *ctx, int (*cb)(struct wpa_state_machine *, void *), void *with) {
    struct wpa_state_machine *machine = aps[*(const unsigned *)ctx].machine;
    return machine ? cb(machine, with) : 0;
}
static int each_auth(void *ctx, int (*cb)(struct wpa_authenticator *, void *), void *with) {
    return cb(aps[*(const unsigned *)ctx].authenticator, with);
}
static int no_vlan(void *ctx, const u8 *addr, struct vlan_description *vlan) { memset(vlan, 0, sizeof *vlan); return 0; }
static int any_vlan(void *ctx, const u8 *addr, struct vlan_description *vlan) { return 0; }
static int any_identity(void *ctx, const u8 *addr, const u8 *identity, size_t len) { return 0; }
static int any_station(void *ctx, const u8 *addr) { return 0; }
static void dropped(void *ctx, const u8 *addr, u16 reason) { want(0, "the other program keeps the station"); }

/* The access point of that number. What the PSK gives for fast transition it derives itself, whoever holds the PMK-R0. */
static int authenticator_starts(unsigned k) {
    static const struct wpa_auth_callbacks calls = {
        .get_psk = get_psk, .set_key = auth_set_key, .get_seqnum = seqnum, .send_eapol = send_eapol, .for_each_sta = each_sta,
        .for_each_auth = each_auth, .disconnect = dropped, .get_vlan = no_vlan, .set_vlan = any_vlan, .set_identity = any_identity,
        .set_radius_cui = any_identity, .add_sta_ft = any_station};
    static unsigned numbers[2] = {0, 1};
    struct wpa_auth_config config = {
        .wpa = WPA_PROTO_RSN, .wpa_key_mgmt = key_management(), .wpa_group = WPA_CIPHER_CCMP, .rsn_pairwise = WPA_CIPHER_CCMP,
        .eapol_version = 2, .wpa_group_update_count = 4, .wpa_pairwise_update_count = 4, .ssid_len = 7, .r0_key_holder_len = 6,
        .r0_key_lifetime = 10000, .ft_psk_generate_local = 1, .wmm_enabled = 1};
    memcpy(config.ssid, SSID, 7), memcpy(config.mobility_domain, MD, 2);
    memcpy(config.r0_key_holder, R0KH[k], 6), memcpy(config.r1_key_holder, AP[k], 6);
    if (!(aps[k].authenticator = wpa_init(AP[k], &config, &calls, &numbers[k]))) return 0;
    return wpa_init_keys(aps[k].authenticator) == 0;
}

static void authenticator_ends(unsigned k) {
    if (aps[k].machine) wpa_auth_sta_deinit(aps[k].machine);
    if (aps[k].authenticator) wpa_deinit(aps[k].authenticator);
    memset(&aps[k], 0, sizeof aps[k]);
}

/* A response to a request to be associated, first or again: what stands in front of the elements of fast transition. */
static size_t granted(u8 *frame, const char *control) {
    size_t at = head(frame, control, STA, AP[at_ap]);
    memcpy(frame + at, "\x11\x00\x00\x00\x01\xc0", 6), memcpy(frame + at + 6, RATES, 6);
    return at + 12;
}

static void asked(const u8 *frame, size_t len) {
    const u8 *elements = frame + 28, *rsn = element(elements, len - 28, 0x30), *domain = element(elements, len - 28, 0x36);
    u8 reply[MOST];
    want(rsn != NULL, "the station asks to be associated");
    if (!rsn) return;
    if (aps[at_ap].machine) wpa_auth_sta_deinit(aps[at_ap].machine);
    struct wpa_state_machine *machine = aps[at_ap].machine = wpa_auth_sta_init(aps[at_ap].authenticator, STA, NULL);
    wpa_auth_sm_event(machine, WPA_ASSOC);
    want(wpa_validate_wpa_ie(aps[at_ap].authenticator, machine, 0, rsn, rsn[1] + 2u, NULL, 0, domain ? domain + 2 : NULL, domain ? domain[1] : 0, NULL, 0) == WPA_IE_OK, "its elements are taken");
    size_t at = granted(reply, "1000");
    if (suite == 4) at = (size_t)(wpa_sm_write_assoc_resp_ies(machine, reply + at, sizeof reply - at, WLAN_AUTH_OPEN, elements, len - 28, 1) - reply);
    goes(reply, at);
    wpa_auth_sta_associated(aps[at_ap].authenticator, machine);
}

/* The first two frames of a fast transition, and the last two (IEEE Std 802.11-2020, 13.5). */
static void answers(void *ctx, const u8 *to, const u8 *from, u16 transaction, u16 status, const u8 *elements, size_t len) {
    u8 frame[MOST];
    size_t at = head(frame, "b000", to, from);
    want(status == 0, "the access point would take it");
    frame[at] = WLAN_AUTH_FT, frame[at + 1] = 0, WPA_PUT_LE16(frame + at + 2, transaction), WPA_PUT_LE16(frame + at + 4, status);
    if (len) memcpy(frame + at + 6, elements, len);
    goes(frame, at + 6 + len);
}

static void asked_to_roam(const u8 *frame, size_t len) {
    want(len > 30 && !memcmp(frame + 4, AP[at_ap], 6) && frame[24] == WLAN_AUTH_FT, "the station asks for a fast transition");
    if (len <= 30) return;
    if (!aps[at_ap].machine) aps[at_ap].machine = wpa_auth_sta_init(aps[at_ap].authenticator, STA, NULL);
    wpa_ft_process_auth(aps[at_ap].machine, AP[at_ap], WPA_GET_LE16(frame + 26), frame + 30, len - 30, answers, NULL);
}

static void asked_again(const u8 *frame, size_t len) {
    struct wpa_state_machine *machine = aps[at_ap].machine;
    const u8 *elements = frame + 34;
    u8 reply[MOST];
    want(len > 34 && !memcmp(frame + 28, AP[1 - at_ap], 6), "it asks to be associated, and says where it was");
    if (len <= 34) return;
    want(wpa_ft_validate_reassoc(machine, elements, len - 34) == 0, "its elements are taken");
    size_t at = granted(reply, "3000");
    at = (size_t)(wpa_sm_write_assoc_resp_ies(machine, reply + at, sizeof reply - at, WLAN_AUTH_FT, elements, len - 34, 1) - reply);
    goes(reply, at);
    wpa_auth_sm_event(machine, WPA_ASSOC_FT);
    wpa_auth_sta_associated(aps[at_ap].authenticator, machine);
}

/* ---- the runs */

static void begin(kehtrop_config *config, const u8 *address) {
    begun = ended = installs = payloads = refused = peer_installs = peer_payloads = at_ap = 0;
    memset(config, 0, sizeof *config);
    memcpy(config->ssid, SSID, 7), config->ssid_len = 7, config->akm = suite, memcpy(config->mdid, MD, 2), memcpy(config->address, address, 6);
    want(os_get_random(config->seed, 32) == 0 && kehtrop_psk((const u8 *)"correct horse", 13, SSID, 7, &psk) == KEHTROP_OK, "a seed and a passphrase");
}

static void with_supplicant(void) {
    kehtrop_config config;
    kehtrop_address address;
    printf("suite %u: the library's access point, the other program's station\n", suite);
    begin(&config, AP[0]);
    memcpy(address.octets, STA, 6);
    want(kehtrop_access_point(&node, &config, R0KH[0], 6, 0) == KEHTROP_OK && kehtrop_list_station(&node, &address, &psk) == KEHTROP_OK, "the access point starts");
    want(station_starts(), "the station starts");
    station_asks();
    wait_a_little();
    want(begun == 1 && installs == 2, "a session, and both keys");
    want(!memcmp(pairwise, peer_pairwise, 16) && is_of_peer_group(), "the station installed the same");
    peer_passes(AP[0], PAYLOAD, sizeof PAYLOAD, peer_pairwise, 0);
    want(payloads == 1, "a payload comes up");
    kehtrop_pass(&node, STA, 255, PAYLOAD, sizeof PAYLOAD), kehtrop_pass(&node, ALL, 255, PAYLOAD, sizeof PAYLOAD);
    wait_a_little();
    want(peer_payloads == 2, "payloads go down, alone and to all");
    kehtrop_with(&node, KEHTROP_REKEY, STA);
    wait_a_little();
    want(installs == 3 && is_of_peer_group(), "a new group key");
    kehtrop_pass(&node, ALL, 255, PAYLOAD, sizeof PAYLOAD);
    wait_a_little();
    want(peer_payloads == 3 && !refused, "a payload to all under it");
    kehtrop_free(&node);
    wpa_sm_deinit(station), station = NULL;
}

/* From one access point of the other program to the other of it. */
static void roams(void) {
    kehtrop_address address;
    u8 before[16];
    memcpy(before, pairwise, 16), memcpy(address.octets, AP[1], 6);
    want(authenticator_starts(1) && kehtrop_list_ap(&node, &address, R0KH[1], 6) == KEHTROP_OK, "a second access point starts");
    at_ap = 1, peer_payloads = payloads = 0;
    want(kehtrop_with(&node, KEHTROP_ROAM, AP[1]) == KEHTROP_OK, "the station roams to it");
    wait_a_little();
    want(begun == 2 && ended == 1 && installs == 5, "a session with it, none with the first, and both keys");
    want(memcmp(before, pairwise, 16) && !memcmp(pairwise, peer_pairwise, 16) && is_of_peer_group(), "the access point installed the same");
    kehtrop_pass(&node, AP[1], 255, PAYLOAD, sizeof PAYLOAD);
    wait_a_little();
    peer_passes(STA, PAYLOAD, sizeof PAYLOAD, peer_pairwise, 0);
    peer_passes(ALL, PAYLOAD, sizeof PAYLOAD, peer_group[peer_group_id], (u8)peer_group_id);
    want(peer_payloads == 1 && payloads == 2 && !refused, "a payload goes up, and two come down, alone and to all");
}

static void with_authenticator(void) {
    kehtrop_config config;
    kehtrop_address address;
    printf("suite %u: the library's station, the other program's access point\n", suite);
    begin(&config, STA);
    memcpy(address.octets, AP[0], 6);
    want(authenticator_starts(0), "the access point starts");
    want(kehtrop_station(&node, &config, &psk, 0) == KEHTROP_OK && kehtrop_list_ap(&node, &address, R0KH[0], 6) == KEHTROP_OK, "the station starts");
    want(kehtrop_with(&node, KEHTROP_CONNECT, AP[0]) == KEHTROP_OK, "it associates");
    wait_a_little();
    want(begun == 1 && installs == 2, "a session, and both keys");
    want(!memcmp(pairwise, peer_pairwise, 16) && is_of_peer_group(), "the access point installed the same");
    kehtrop_pass(&node, AP[0], 255, PAYLOAD, sizeof PAYLOAD);
    wait_a_little();
    want(peer_payloads == 1, "a payload goes up");
    peer_passes(STA, PAYLOAD, sizeof PAYLOAD, peer_pairwise, 0);
    want(payloads == 1, "a payload comes down");
    wpa_auth_rekey_gtk(aps[0].authenticator);
    wait_a_little();
    want(installs == 3 && is_of_peer_group(), "a new group key");
    peer_passes(ALL, PAYLOAD, sizeof PAYLOAD, peer_group[peer_group_id], (u8)peer_group_id);
    want(payloads == 2 && !refused, "a payload to all under it");
    if (suite == 4) roams();
    kehtrop_free(&node);
    for (unsigned k = 0; k < 2; k++) authenticator_ends(k);
}

int main(void) {
    static const u8 suites[] = {2, 6, 4};
    wpa_debug_level = MSG_ERROR;
    if (os_program_init() || eloop_init()) return 2;
    for (unsigned i = 0; i < 3; i++) {
        suite = suites[i];
        with_supplicant();
        with_authenticator();
    }
    eloop_destroy();
    printf("failed %u\n", failures);
    return failures != 0;
}
