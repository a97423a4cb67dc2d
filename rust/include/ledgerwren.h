/*
 * E1.31 (streaming ACN) packets, read and written by proved code: what C calls.
 * Link libledgerwren.a, x86-64 code for Linux, which `./staticlib` makes.
 *
 * The number in the names of the calls is the version of this layout. It moves whenever a struct or a
 * call changes, so that code compiled against another layout does not link.
 *
 * A pointer and the length behind it are one array: the length counts elements, and the pointer is
 * aligned and not null, also where the length is 0. What a call writes to overlaps nothing else that
 * it is given. A call returns on every input and keeps no pointer.
 *
 * The layout of packets, and for each refusal its number, place and value and when it comes:
 * docs/FORMAT.md in the repository.
 */
#ifndef LEDGERWREN_H
#define LEDGERWREN_H

#include <stdbool.h>
#include <stddef.h>
#include <stdint.h>

#ifdef __cplusplus
extern "C" {
#endif

/* What a datagram is read as. */
#define LEDGERWREN_KIND_REFUSED 0
#define LEDGERWREN_KIND_DATA 1
#define LEDGERWREN_KIND_SYNCHRONIZATION 2
#define LEDGERWREN_KIND_DISCOVERY 3

/* Why something is refused; 0 where nothing is. A refusal's value is 0 unless it says here what it is;
 * good bytes are those at the name's front that make whole characters of UTF-8. */
#define LEDGERWREN_REFUSAL_PART_TOO_SHORT 1
#define LEDGERWREN_REFUSAL_INVALID_DATA 2
#define LEDGERWREN_REFUSAL_INVALID_FLAGS 3 /* value: the flags */
#define LEDGERWREN_REFUSAL_INVALID_VECTOR 4 /* value: the vector */
#define LEDGERWREN_REFUSAL_INVALID_LENGTH 5 /* value: the length */
#define LEDGERWREN_REFUSAL_NAME_NOT_TERMINATED 6
#define LEDGERWREN_REFUSAL_NAME_NOT_UTF8 7 /* value: how many bytes are good */
#define LEDGERWREN_REFUSAL_INVALID_PRIORITY 8 /* value: the priority */
#define LEDGERWREN_REFUSAL_INVALID_SYNC_ADDRESS 9 /* value: the address */
#define LEDGERWREN_REFUSAL_INVALID_UNIVERSE 10 /* value: the universe */
#define LEDGERWREN_REFUSAL_INVALID_PAGE 11
#define LEDGERWREN_REFUSAL_INVALID_UNIVERSE_ORDER 12 /* value: the first out of order */
#define LEDGERWREN_REFUSAL_MISSING_FIELD 13
#define LEDGERWREN_REFUSAL_LENGTH_BEYOND_PART 14 /* value: the length */
#define LEDGERWREN_REFUSAL_COUNT_DIFFERS_FROM_LENGTH 15 /* value: the count */
#define LEDGERWREN_REFUSAL_LENGTH_DIFFERS_FROM_PART 16 /* value: the length */
#define LEDGERWREN_REFUSAL_NO_START_CODE 17
#define LEDGERWREN_REFUSAL_BUFFER_TOO_SMALL 20
#define LEDGERWREN_REFUSAL_NAME_TOO_LONG 21
#define LEDGERWREN_REFUSAL_NAME_HAS_ZERO 22
#define LEDGERWREN_REFUSAL_WRITTEN_NAME_NOT_UTF8 23 /* value: how many bytes are good */
#define LEDGERWREN_REFUSAL_TOO_MANY 24
#define LEDGERWREN_REFUSAL_EQUAL_UNIVERSES 25
#define LEDGERWREN_REFUSAL_FALLING_UNIVERSES 26
#define LEDGERWREN_REFUSAL_NO_VALUES 27
#define LEDGERWREN_REFUSAL_NO_MULTICAST_ADDRESS 30 /* value: the universe */
#define LEDGERWREN_REFUSAL_NO_UNIVERSES_COPIED 31

/* The layer that refused; nowhere for the numbers from 20 on. */
#define LEDGERWREN_PLACE_NOWHERE 0
#define LEDGERWREN_PLACE_PREAMBLE 1
#define LEDGERWREN_PLACE_ROOT 2
#define LEDGERWREN_PLACE_FRAMING 3
#define LEDGERWREN_PLACE_DMP 4
#define LEDGERWREN_PLACE_DISCOVERY 5
#define LEDGERWREN_PLACE_UNIVERSE_LIST 6

typedef struct {
    uint8_t number;
    uint8_t place;
    uint32_t value;
} LedgerwrenRefusal;

/* Where something stands in a datagram, in bytes. */
typedef struct {
    size_t start;
    size_t len;
} LedgerwrenSpan;

typedef struct {
    uint8_t priority;
    uint16_t synchronization_address;
    uint8_t sequence_number;
    bool preview_data;
    bool stream_terminated;
    bool force_synchronization;
    uint16_t universe;
} LedgerwrenDataFields;

typedef struct {
    uint8_t sequence_number;
    uint16_t synchronization_address;
} LedgerwrenSynchronizationFields;

typedef struct {
    uint8_t page;
    uint8_t last_page;
} LedgerwrenDiscoveryFields;

typedef struct {
    uint8_t priority;
    uint8_t sequence_number;
    bool preview_data;
    bool stream_terminated;
    uint16_t universe;
} LedgerwrenDataFields2009;

typedef struct {
    uint8_t highest;
    uint8_t second;
    uint8_t third;
    uint8_t lowest;
    uint16_t port;
} LedgerwrenIpv4Address;

/* What was read. What the kind does not have is zero. The name ends before its zero; universes are
 * two bytes each, the higher first. */
typedef struct {
    uint8_t kind;
    uint8_t cid[16];
    LedgerwrenRefusal refusal;
    LedgerwrenDataFields data_fields;
    LedgerwrenSynchronizationFields synchronization_fields;
    LedgerwrenDiscoveryFields discovery_fields;
    LedgerwrenSpan name;
    LedgerwrenSpan values;
    LedgerwrenSpan universes;
} LedgerwrenFound;

typedef struct {
    uint8_t kind;
    uint8_t cid[16];
    LedgerwrenRefusal refusal;
    LedgerwrenDataFields2009 data_fields;
    LedgerwrenSpan name;
    LedgerwrenSpan values;
} LedgerwrenFound2009;

/* The plain part of a packet that is to be written. */
typedef struct {
    uint8_t cid[16];
    LedgerwrenDataFields fields;
} LedgerwrenDataHeader;

typedef struct {
    uint8_t cid[16];
    LedgerwrenSynchronizationFields fields;
} LedgerwrenSynchronizationHeader;

typedef struct {
    uint8_t cid[16];
    LedgerwrenDiscoveryFields fields;
} LedgerwrenDiscoveryHeader;

/* How many bytes or universes were written, 0 at a refusal. */
typedef struct {
    LedgerwrenRefusal refusal;
    size_t count;
} LedgerwrenOutcome;

typedef struct {
    LedgerwrenRefusal refusal;
    LedgerwrenIpv4Address address;
} LedgerwrenAddress;

/* Reads a datagram; the second by the standard's edition of 2009, which has data packets only. */
LedgerwrenFound ledgerwren1_parse(const uint8_t *datagram, size_t datagram_len);
LedgerwrenFound2009 ledgerwren1_parse_2009(const uint8_t *datagram, size_t datagram_len);

/* Copies the universes that a datagram lists to the front of out. At a refusal out is as found. */
LedgerwrenOutcome ledgerwren1_copy_universes(const uint8_t *datagram, size_t datagram_len,
                                             uint16_t *out, size_t out_len);

/* Write a packet to the front of buf, and leave the rest as found. At a refusal all is as found. */
LedgerwrenOutcome ledgerwren1_pack_data(uint8_t *buf, size_t buf_len, LedgerwrenDataHeader header,
                                        const uint8_t *name, size_t name_len,
                                        const uint8_t *values, size_t values_len);
LedgerwrenOutcome ledgerwren1_pack_synchronization(uint8_t *buf, size_t buf_len,
                                                   LedgerwrenSynchronizationHeader header);
LedgerwrenOutcome ledgerwren1_pack_discovery(uint8_t *buf, size_t buf_len,
                                             LedgerwrenDiscoveryHeader header,
                                             const uint8_t *name, size_t name_len,
                                             const uint16_t *universes, size_t universes_len);

/* Say whether a universe may be sent on, and to which IPv4 address and port. */
LedgerwrenRefusal ledgerwren1_is_universe_in_range(uint16_t universe);
LedgerwrenAddress ledgerwren1_universe_to_ipv4_multicast_addr(uint16_t universe);

#ifdef __cplusplus
}
#endif

#endif
