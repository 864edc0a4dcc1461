/*
 * kehtrop.h: the key management of WPA2-Personal (AKM suites 00-0F-AC:2, :6 and :4, CCMP, BIP), for a program that has the radio.
 *
 * A handle is one node: a station, or an access point. It is told what comes (the octets of a frame) and what is wanted
 * (connect, roam, rekey, pass a payload, announce one ..), and then answers, item by item, what to do: frames to send, keys that are in
 * use, payloads and announcements that came, sessions that began and ended, frames that were refused, with the reason. It has no clock, no
 * thread, no random source and no callback, and calls nothing but malloc, realloc and free.
 *
 * WHAT THE CALLER KEEPS TO. The library tests every argument that it can test, and answers with a status where it does not
 * take one. These it cannot test:
 *
 *   1. Pointers are valid for the call, and what one points to overlaps nothing else that is passed in that call.
 *   2. A handle is KEHTROP_NONE before its first use; then the library alone writes it, and it is not copied.
 *   3. A handle is in one call at a time, and stays on the thread that made it. Different handles may be on different threads.
 *   4. No call is made from a signal handler, or in the forked child of a process with threads.
 *   5. seed is 32 octets that nobody can guess, from the random source of the machine.
 *   6. With one seed and one address no number is drawn twice: a node that starts again has a new seed, or a first_draw above
 *      every number that it drew before. It drew first_draw, and one more for each KEHTROP_DREW.
 *   7. Frames that KEHTROP_SEND gives go out as they are: header and body, no FCS. They are protected already where they are
 *      to be, so the radio encrypts none of them. What comes is handed in in the same form.
 *   8. Items are told in their order, and all of them, before the next event.
 *   9. malloc and realloc align as the C standard says, and malloc, realloc and free belong together.
 *
 * WHAT IS PROVED. Every call is safe for all arguments that these allow: no access out of bounds, no overflow, no use after
 * free, and it ends. What an event adds to the history of the node is what the definitions of the project give for that
 * event; the items are that history, told once and in order. Where memory runs out a call answers KEHTROP_NO_MEMORY, and
 * the node is as it was before the call.
 *
 * WHAT DEPENDS ON THE PEER. Whom it shares the key with, a node believes: an access point that gives an old group key again
 * after two others makes a station install it again, with the counter that it gives. docs/user/LIBRARY.md says what holds
 * whatever the peer is.
 */
#ifndef KEHTROP_H
#define KEHTROP_H

#include <stddef.h>
#include <stdint.h>

#ifdef __cplusplus
extern "C" {
#endif

/* A node. */
typedef struct kehtrop {
    void *node;
} kehtrop;

#define KEHTROP_NONE {0}

/* ---- made by tools/header.py from src/ ---- */

/* What a network has at most. */
enum kehtrop_most {
    KEHTROP_MOST_APS = 64,      /* A network has at most so many access points. */
    KEHTROP_MOST_STAS = 1024,   /* A network has at most so many stations. */
    KEHTROP_MOST_PAYLOAD = 2304 /* A payload has at most so many octets (IEEE Std 802.11-2020, 9.2.4.8.1). */
};

/* How a call ended. */
enum kehtrop_status {
    KEHTROP_OK = 0,        /* Done; of a frame: accepted, answered again, or passed over. */
    KEHTROP_NO_NODE = 1,   /* The handle has no node. */
    KEHTROP_UNFIT = 2,     /* An argument is not one that the call takes; nothing was done. */
    KEHTROP_NO_MEMORY = 3, /* Out of memory; nothing was done. */
    KEHTROP_FULL = 4,      /* The most access points or stations are listed; nothing was done. */
    KEHTROP_REFUSED = 5,   /* The frame was refused, and the node is as before; the reason is told. */
    KEHTROP_IDLE = 6,      /* The event did nothing; why is told. */
    KEHTROP_NOTHING = 7    /* Nothing more is to be told. */
};

/* What a node tells, one by one. */
enum kehtrop_what {
    KEHTROP_NOTE = 0,         /* Nothing that the caller has to do. */
    KEHTROP_SEND = 1,         /* len octets: a whole frame to be sent to peer (ff:ff:ff:ff:ff:ff: to all). */
    KEHTROP_INSTALL = 2,      /* key is in use from now on: with key_id 0 between the node and peer, else a group key of
                                 peer (of an access point its own, with peer ff:ff:ff:ff:ff:ff), with key_id 4 or 5 an
                                 IGTK. number is its receive counter, to which a radio with CCMP or BIP of its own sets
                                 its replay counter: 0 but for a group key that a station installs. */
    KEHTROP_RESUME = 3,       /* A group key of peer that a station had goes on: its counters stay. Install nothing. A
                                 radio with CCMP or BIP of its own raises its replay counter to number, where that is
                                 greater. */
    KEHTROP_PAYLOAD = 4,      /* len octets came from peer, with tid, under the key with key_id and the packet number in
                                 number. */
    KEHTROP_BEGUN = 5,        /* The session with peer began. */
    KEHTROP_ENDED = 6,        /* The session with peer ended. As its key is renewed, KEHTROP_BEGUN follows among the
                                 items of the same event. */
    KEHTROP_TRYING = 7,       /* An attempt with peer began. */
    KEHTROP_DROPPED = 8,      /* An attempt with peer ended. */
    KEHTROP_TOOK = 9,         /* A frame was accepted, answered again, or passed over. */
    KEHTROP_WAS_REFUSED = 10, /* A frame was refused: reason, and number with what belongs to it. */
    KEHTROP_DID_NOTHING = 11, /* An event did nothing: reason says why. */
    KEHTROP_GAVE_UP = 12,     /* Four sends to peer brought no answer. */
    KEHTROP_DREW = 13,        /* One more number was drawn. */
    KEHTROP_ANNOUNCED = 14    /* len octets came from peer to all in a protected Action frame: its body before the MME,
                                 under the IGTK with key_id and the packet number in number. */
};

/* What happens at a node. */
enum kehtrop_event_number {
    KEHTROP_TAKE = 1,     /* The octets came. */
    KEHTROP_CONNECT = 2,  /* Station: associate with the peer. */
    KEHTROP_ROAM = 3,     /* Station, suite 4: fast transition to the peer. */
    KEHTROP_RETRY = 4,    /* Access point: send the peer again what it has to answer. */
    KEHTROP_REKEY = 5,    /* Access point: a new group key. */
    KEHTROP_PASS = 6,     /* Send the octets, a payload, to the peer, or of an access point to ff:ff:ff:ff:ff:ff. */
    KEHTROP_EXPIRE = 7,   /* Access point: drop what there is with the peer. */
    KEHTROP_REVOKE = 8,   /* Access point: hold the key of the peer no longer. */
    KEHTROP_LEAVE = 9,    /* Station: drop what there is. */
    KEHTROP_SECRET = 10,  /* Another pre-shared key, the 32 octets: of an access point with the peer, or with all
                             stations by ff:ff:ff:ff:ff:ff; of a station, its own, by that address too. What there is
                             under the old one ends. */
    KEHTROP_RENEW = 11,   /* Access point, where pairwise keys are renewed: renew the key with the peer. */
    KEHTROP_ANNOUNCE = 12 /* Access point, where Action frames to all are protected: send the octets, a payload, to all
                             in one. */
};

/* What a node is told of its network as it starts. */
typedef struct kehtrop_config {
    uint8_t seed[32];   /* What all its draws are made from. */
    uint8_t ssid[32];   /* The name of the network, in front. */
    uint8_t ssid_len;   /* How many octets the name has: 1 to 32. */
    uint8_t akm;        /* The type of the AKM suite of 00-0F-AC: 2, 6 or 4 (fast transition). */
    uint8_t mdid[2];    /* The mobility domain, with suite 4; else it is not looked at. */
    uint8_t address[6]; /* The node's own address; of an access point its BSSID. */
    uint8_t renewals;   /* Not 0 where pairwise keys are renewed inside their sessions, with suites 2 and 6: all nodes
                           of a network say the same. */
    uint8_t mfp;        /* Not 0 where Action frames to all are protected, with suites 6 and 4: all nodes of a network
                           say the same. */
    uint32_t renew_at;  /* Access point, where pairwise keys are renewed: the packet number under one at which it begins
                           to renew the key by itself; 0 where it never does. */
} kehtrop_config;

/* An address. */
typedef struct kehtrop_address {
    uint8_t octets[6]; /* In the order of transmission. */
} kehtrop_address;

/* A pre-shared key. */
typedef struct kehtrop_psk_octets {
    uint8_t octets[32]; /* As a script writes it, the first octet first. */
} kehtrop_psk_octets;

/* A PMK-R1 that an R0 key holder made for an access point and a station. Of each field the first octet comes first. */
typedef struct kehtrop_r1_key {
    uint8_t key[32];     /* PMK-R1. */
    uint8_t r0_name[16]; /* PMKR0Name of the PMK-R0 that it is made from. */
    uint8_t station[6];  /* The station's address. */
} kehtrop_r1_key;

/* One thing that a node tells. */
typedef struct kehtrop_item {
    uint8_t what;     /* What it is. */
    uint8_t reason;   /* The reason of a refusal, or why an event did nothing. */
    uint8_t key_id;   /* The id of a key: 0 of a pairwise one. */
    uint8_t tid;      /* The traffic identifier of a payload. */
    uint8_t peer[6];  /* With whom; all by ff:ff:ff:ff:ff:ff. */
    uint8_t has_peer; /* 1 where there is a peer, else 0. */
    uint8_t spare;    /* Always 0. */
    uint8_t key[16];  /* A key. */
    uint64_t number;  /* A packet number, the receive counter of a key, or what belongs to a reason: a replay counter, a
                         status code, or the number of what was wrong. */
    uint64_t len;     /* How many octets there are to be had. */
} kehtrop_item;

/* The word of a refusal, as in reports (docs/user/STATES.md). */
static inline const char *kehtrop_reason(uint8_t reason) {
    static const char *const words[] = {"none", "malformed", "out-of-profile", "not-for-me", "unknown-peer",
                                        "unawaited", "counter", "nonce", "mic", "wrap", "key-data", "status",
                                        "no-holder", "name", "no-key", "replayed", "seal", "spent"};
    return reason < sizeof words / sizeof *words ? words[reason] : "?";
}

/* The word for why an event did nothing. */
static inline const char *kehtrop_why(uint8_t reason) {
    static const char *const words[] = {"none", "no-session", "same-peer", "nothing", "rekey-pending", "no-key",
                                        "spent"};
    return reason < sizeof words / sizeof *words ? words[reason] : "?";
}

/* The pre-shared key of a passphrase of 8 to 63 characters with codes from 32 to 126, and the name of a network. */
uint8_t kehtrop_psk(const uint8_t *passphrase, size_t passphrase_len, const uint8_t *ssid, size_t ssid_len,
                    kehtrop_psk_octets *psk);

/* A station starts, with the key that it shares with the network. What the handle was before is freed. */
uint8_t kehtrop_station(kehtrop *node, const kehtrop_config *config, const kehtrop_psk_octets *psk,
                        uint64_t first_draw);

/* An access point starts, with its R0KH-ID of 1 to 48 octets. What the handle was before is freed. */
uint8_t kehtrop_access_point(kehtrop *node, const kehtrop_config *config, const uint8_t *r0kh_id, size_t r0kh_id_len,
                             uint64_t first_draw);

/* A station lists an access point that it found, and an access point another one of its mobility domain, with its
 * R0KH-ID of 1 to 48 octets (which suite 4 alone looks at). */
uint8_t kehtrop_list_ap(kehtrop *node, const kehtrop_address *address, const uint8_t *r0kh_id, size_t r0kh_id_len);

/* The PMK-R1 that the R0 key holder of an R0KH-ID makes for a station and an access point, its R1 key holder, from the
 * key that the station shares with the network. config is of a node of that network, of suite 4; its seed and address
 * are not looked at. */
uint8_t kehtrop_r1(const kehtrop_config *config, const kehtrop_psk_octets *psk, const uint8_t *r0kh_id,
                   size_t r0kh_id_len, const kehtrop_address *station, const kehtrop_address *access_point,
                   kehtrop_r1_key *key);

/* An access point takes a PMK-R1 that the R0 key holder of a listed other one made for it and a listed station
 * (kehtrop_r1 there), for a fast transition from it. It is believed. The one that the same holder gave for the station
 * before is forgotten, and each is as the station is revoked (KEHTROP_REVOKE) or has another pre-shared key
 * (KEHTROP_SECRET). */
uint8_t kehtrop_push_r1(kehtrop *node, const uint8_t *r0kh_id, size_t r0kh_id_len, const kehtrop_r1_key *key);

/* An access point lists a station, with the key that it shares with the network. */
uint8_t kehtrop_list_station(kehtrop *node, const kehtrop_address *address, const kehtrop_psk_octets *psk);

/* One event. peer and octets are never null; an event that has none passes over them. tid is 0 to 15, else the payload
 * goes without one. */
uint8_t kehtrop_event(kehtrop *node, uint8_t what, const kehtrop_address *peer, uint8_t tid, const uint8_t *octets,
                      size_t octets_len);

/* The next item, while the answer is KEHTROP_OK. */
uint8_t kehtrop_next(kehtrop *node, kehtrop_item *item);

/* The octets of the item told last: copies as many as there is room for, and answers how many. */
size_t kehtrop_octets(kehtrop *node, uint8_t *out, size_t out_len);

/* Frees the node. The handle is KEHTROP_NONE again, so a second call does nothing. */
void kehtrop_free(kehtrop *node);

/* ---- by hand again ---- */

/* Shorter forms of kehtrop_event. */

static inline uint8_t kehtrop_take(kehtrop *node, const uint8_t *octets, size_t octets_len) {
    const kehtrop_address nobody = {{0}};
    const uint8_t none = 0;
    return kehtrop_event(node, KEHTROP_TAKE, &nobody, 255, octets_len ? octets : &none, octets_len);
}

static inline uint8_t kehtrop_with(kehtrop *node, uint8_t what, const uint8_t peer[6]) {
    kehtrop_address to;
    const uint8_t none = 0;
    for (int i = 0; i < 6; i++) to.octets[i] = peer[i];
    return kehtrop_event(node, what, &to, 255, &none, 0);
}

static inline uint8_t kehtrop_pass(kehtrop *node, const uint8_t peer[6], uint8_t tid, const uint8_t *octets, size_t octets_len) {
    kehtrop_address to;
    const uint8_t none = 0;
    for (int i = 0; i < 6; i++) to.octets[i] = peer[i];
    return kehtrop_event(node, KEHTROP_PASS, &to, tid, octets_len ? octets : &none, octets_len);
}

static inline uint8_t kehtrop_announce(kehtrop *node, const uint8_t *octets, size_t octets_len) {
    const kehtrop_address nobody = {{0}};
    const uint8_t none = 0;
    return kehtrop_event(node, KEHTROP_ANNOUNCE, &nobody, 255, octets_len ? octets : &none, octets_len);
}

static inline uint8_t kehtrop_secret(kehtrop *node, const uint8_t peer[6], const kehtrop_psk_octets *psk) {
    kehtrop_address to;
    for (int i = 0; i < 6; i++) to.octets[i] = peer[i];
    return kehtrop_event(node, KEHTROP_SECRET, &to, 255, psk->octets, sizeof psk->octets);
}

#ifdef __cplusplus
}
#endif

#endif
