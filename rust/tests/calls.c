/* Calls each function of the library from C and checks the answers, with another value in every
 * field. No header of the C library is needed. */
#include "ledgerwren.h"

int printf(const char *format, ...);
int memcmp(const void *a, const void *b, size_t length);
void *memset(void *to, int byte, size_t length);

#define FILL 0xee
#define COUNT(array) (sizeof(array) / sizeof((array)[0]))
#define CHECK(claim) check((claim), __LINE__, #claim)

static int failures;

static void check(bool holds, int line, const char *claim)
{
    if (!holds) {
        printf("calls.c:%d: %s\n", line, claim);
        failures++;
    }
}

static const uint8_t CID[16] = {1, 2, 3, 4, 5, 6, 7, 8, 9, 10, 11, 12, 13, 14, 15, 16};
static const uint8_t NAME[] = {'D', 'e', 's', 'k', ' ', 0xc3, 0xa9};
static const uint8_t VALUES[] = {0, 255, 128, 7};
static const uint16_t UNIVERSES[] = {1, 0x0203, 0xfffe};

/* Document 01's packet S. */
static const uint8_t S[49] = {
    0x00, 0x10, 0x00, 0x00, 0x41, 0x53, 0x43, 0x2d, 0x45, 0x31, 0x2e, 0x31, 0x37, 0x00, 0x00, 0x00, 0x70,
    0x21, 0x00, 0x00, 0x00, 0x08, 0x11, 0x11, 0x11, 0x11, 0x11, 0x11, 0x11, 0x11, 0x11, 0x11, 0x11, 0x11,
    0x11, 0x11, 0x11, 0x11, 0x70, 0x0b, 0x00, 0x00, 0x00, 0x01, 0x07, 0x1f, 0x40, 0x00, 0x00};

static bool is(LedgerwrenRefusal r, uint8_t number, uint8_t place, uint32_t value)
{
    return r.number == number && r.place == place && r.value == value;
}

static bool none(LedgerwrenRefusal r)
{
    return is(r, 0, LEDGERWREN_PLACE_NOWHERE, 0);
}

static bool at(LedgerwrenSpan span, size_t start, size_t len)
{
    return span.start == start && span.len == len;
}

static bool filled(const uint8_t *bytes, size_t length, uint8_t with)
{
    while (length > 0 && bytes[length - 1] == with)
        length--;
    return length == 0;
}

static LedgerwrenDataHeader data_header(unsigned option)
{
    LedgerwrenDataHeader header = {
        .fields = {.priority = 100,
                   .synchronization_address = 0x1f1a,
                   .sequence_number = 154,
                   .preview_data = option == 0,
                   .stream_terminated = option == 1,
                   .force_synchronization = option == 2,
                   .universe = 0x0304}};
    for (size_t i = 0; i < sizeof CID; i++)
        header.cid[i] = CID[i];
    return header;
}

static void data_bytes(const uint8_t *buf, unsigned option)
{
    CHECK(memcmp(buf, S, 16) == 0);
    CHECK(memcmp(buf + 22, CID, sizeof CID) == 0);
    CHECK(memcmp(buf + 44, NAME, sizeof NAME) == 0);
    CHECK(buf[108] == 100 && buf[109] == 0x1f && buf[110] == 0x1a && buf[111] == 154);
    CHECK(buf[112] == 0x80 >> option);
    CHECK(buf[113] == 3 && buf[114] == 4);
    CHECK(memcmp(buf + 125, VALUES, sizeof VALUES) == 0);
    CHECK(buf[129] == FILL);
}

static void data_2009(const uint8_t *datagram, size_t length, unsigned option)
{
    LedgerwrenFound2009 found = ledgerwren1_parse_2009(datagram, length);
    CHECK(found.kind == LEDGERWREN_KIND_DATA && none(found.refusal));
    CHECK(memcmp(found.cid, CID, sizeof CID) == 0);
    CHECK(found.data_fields.priority == 100 && found.data_fields.sequence_number == 154);
    CHECK(found.data_fields.preview_data == (option == 0));
    CHECK(found.data_fields.stream_terminated == (option == 1));
    CHECK(found.data_fields.universe == 0x0304);
    CHECK(at(found.name, 44, sizeof NAME) && at(found.values, 125, sizeof VALUES));
}

static void data(unsigned option)
{
    uint8_t buf[140];
    memset(buf, FILL, sizeof buf);
    LedgerwrenOutcome written = ledgerwren1_pack_data(buf, sizeof buf, data_header(option), NAME,
                                                      sizeof NAME, VALUES, sizeof VALUES);
    CHECK(none(written.refusal) && written.count == 129);
    data_bytes(buf, option);

    LedgerwrenFound found = ledgerwren1_parse(buf, written.count);
    CHECK(found.kind == LEDGERWREN_KIND_DATA && none(found.refusal));
    CHECK(memcmp(found.cid, CID, sizeof CID) == 0);
    CHECK(found.data_fields.priority == 100);
    CHECK(found.data_fields.synchronization_address == 0x1f1a);
    CHECK(found.data_fields.sequence_number == 154);
    CHECK(found.data_fields.preview_data == (option == 0));
    CHECK(found.data_fields.stream_terminated == (option == 1));
    CHECK(found.data_fields.force_synchronization == (option == 2));
    CHECK(found.data_fields.universe == 0x0304);
    CHECK(at(found.name, 44, sizeof NAME) && at(found.values, 125, sizeof VALUES));
    CHECK(at(found.universes, 0, 0));
    data_2009(buf, written.count, option);
}

static void synchronization(void)
{
    LedgerwrenFound found = ledgerwren1_parse(S, sizeof S);
    CHECK(found.kind == LEDGERWREN_KIND_SYNCHRONIZATION && none(found.refusal));
    CHECK(found.cid[0] == 0x11 && found.cid[15] == 0x11);
    CHECK(found.synchronization_fields.sequence_number == 7);
    CHECK(found.synchronization_fields.synchronization_address == 8000);
    CHECK(at(found.name, 0, 0) && at(found.values, 0, 0) && at(found.universes, 0, 0));
    CHECK(is(ledgerwren1_parse_2009(S, sizeof S).refusal, LEDGERWREN_REFUSAL_INVALID_VECTOR,
             LEDGERWREN_PLACE_ROOT, 8));

    uint8_t buf[50];
    memset(buf, FILL, sizeof buf);
    LedgerwrenSynchronizationHeader header = {.fields = found.synchronization_fields};
    memset(header.cid, 0x11, sizeof header.cid);
    LedgerwrenOutcome refused = ledgerwren1_pack_synchronization(buf, 48, header);
    CHECK(is(refused.refusal, LEDGERWREN_REFUSAL_BUFFER_TOO_SMALL, LEDGERWREN_PLACE_NOWHERE, 0));
    CHECK(refused.count == 0 && filled(buf, sizeof buf, FILL));
    LedgerwrenOutcome written = ledgerwren1_pack_synchronization(buf, sizeof buf, header);
    CHECK(none(written.refusal) && written.count == sizeof S);
    CHECK(memcmp(buf, S, sizeof S) == 0 && buf[49] == FILL);
}

static void copied(const uint8_t *datagram, size_t length)
{
    uint16_t out[4] = {9, 9, 9, 9};
    LedgerwrenOutcome refused = ledgerwren1_copy_universes(datagram, length, out, 2);
    CHECK(is(refused.refusal, LEDGERWREN_REFUSAL_NO_UNIVERSES_COPIED, LEDGERWREN_PLACE_NOWHERE, 0));
    CHECK(refused.count == 0 && out[0] == 9 && out[1] == 9);
    LedgerwrenOutcome written = ledgerwren1_copy_universes(datagram, length, out, COUNT(out));
    CHECK(none(written.refusal) && written.count == COUNT(UNIVERSES));
    CHECK(memcmp(out, UNIVERSES, sizeof UNIVERSES) == 0 && out[3] == 9);
}

static void discovery(void)
{
    uint8_t buf[130];
    memset(buf, FILL, sizeof buf);
    LedgerwrenDiscoveryHeader header = {.fields = {.page = 3, .last_page = 5}};
    for (size_t i = 0; i < sizeof CID; i++)
        header.cid[i] = CID[i];
    LedgerwrenOutcome written = ledgerwren1_pack_discovery(buf, sizeof buf, header, NAME, sizeof NAME,
                                                           UNIVERSES, COUNT(UNIVERSES));
    CHECK(none(written.refusal) && written.count == 126 && buf[126] == FILL);
    static const uint8_t list[] = {3, 5, 0, 1, 2, 3, 0xff, 0xfe};
    CHECK(memcmp(buf + 118, list, sizeof list) == 0);

    LedgerwrenFound found = ledgerwren1_parse(buf, written.count);
    CHECK(found.kind == LEDGERWREN_KIND_DISCOVERY && none(found.refusal));
    CHECK(memcmp(found.cid, CID, sizeof CID) == 0);
    CHECK(found.discovery_fields.page == 3 && found.discovery_fields.last_page == 5);
    CHECK(at(found.name, 44, sizeof NAME) && at(found.universes, 120, 6));
    CHECK(at(found.values, 0, 0));
    CHECK(found.data_fields.universe == 0 && found.synchronization_fields.sequence_number == 0);
    copied(buf, written.count);
}

static void refusals(void)
{
    LedgerwrenFound empty = ledgerwren1_parse(S, 0);
    CHECK(empty.kind == LEDGERWREN_KIND_REFUSED && filled(empty.cid, sizeof empty.cid, 0));
    CHECK(is(empty.refusal, LEDGERWREN_REFUSAL_PART_TOO_SHORT, LEDGERWREN_PLACE_PREAMBLE, 0));

    /* A value of all 32 bits. */
    uint8_t strange[sizeof S];
    for (size_t i = 0; i < sizeof S; i++)
        strange[i] = S[i];
    strange[18] = 0xde, strange[19] = 0xad, strange[20] = 0xbe, strange[21] = 0xef;
    LedgerwrenFound vector = ledgerwren1_parse(strange, sizeof strange);
    CHECK(is(vector.refusal, LEDGERWREN_REFUSAL_INVALID_VECTOR, LEDGERWREN_PLACE_ROOT, 0xdeadbeef));

    uint8_t buf[140], long_name[64];
    memset(buf, FILL, sizeof buf);
    memset(long_name, 'n', sizeof long_name);
    LedgerwrenOutcome named = ledgerwren1_pack_data(buf, sizeof buf, data_header(0), long_name,
                                                    sizeof long_name, VALUES, sizeof VALUES);
    CHECK(is(named.refusal, LEDGERWREN_REFUSAL_NAME_TOO_LONG, LEDGERWREN_PLACE_NOWHERE, 0));
    CHECK(named.count == 0 && filled(buf, sizeof buf, FILL));
}

/* Cut, miscounted, and with a layer's length that is not its part's. */
static void false_lengths(void)
{
    CHECK(is(ledgerwren1_parse(S, sizeof S - 1).refusal, LEDGERWREN_REFUSAL_LENGTH_BEYOND_PART,
             LEDGERWREN_PLACE_ROOT, 33));

    uint8_t buf[140];
    LedgerwrenOutcome written =
        ledgerwren1_pack_data(buf, sizeof buf, data_header(0), NAME, sizeof NAME, VALUES, sizeof VALUES);
    buf[124] += 1;
    CHECK(is(ledgerwren1_parse(buf, written.count).refusal, LEDGERWREN_REFUSAL_COUNT_DIFFERS_FROM_LENGTH,
             LEDGERWREN_PLACE_DMP, sizeof VALUES + 1));
    CHECK(is(ledgerwren1_parse_2009(buf, written.count).refusal,
             LEDGERWREN_REFUSAL_COUNT_DIFFERS_FROM_LENGTH, LEDGERWREN_PLACE_DMP, sizeof VALUES + 1));

    LedgerwrenDiscoveryHeader header = {.fields = {.page = 3, .last_page = 5}};
    written = ledgerwren1_pack_discovery(buf, sizeof buf, header, NAME, sizeof NAME, UNIVERSES,
                                         COUNT(UNIVERSES));
    buf[113] -= 1;
    CHECK(is(ledgerwren1_parse(buf, written.count).refusal, LEDGERWREN_REFUSAL_LENGTH_DIFFERS_FROM_PART,
             LEDGERWREN_PLACE_DISCOVERY, 8 + 2 * COUNT(UNIVERSES) - 1));
}

/* No start code: a packet without values is not written, and not read. */
static void no_values(void)
{
    uint8_t buf[126];
    memset(buf, FILL, sizeof buf);
    LedgerwrenOutcome written =
        ledgerwren1_pack_data(buf, sizeof buf, data_header(0), NAME, sizeof NAME, VALUES, 0);
    CHECK(is(written.refusal, LEDGERWREN_REFUSAL_NO_VALUES, LEDGERWREN_PLACE_NOWHERE, 0));
    CHECK(written.count == 0 && filled(buf, sizeof buf, FILL));

    written = ledgerwren1_pack_data(buf, sizeof buf, data_header(0), NAME, sizeof NAME, VALUES, 1);
    CHECK(none(written.refusal) && written.count == sizeof buf);
    static const size_t lengths_and_count[] = {17, 39, 116, 124};
    for (size_t i = 0; i < COUNT(lengths_and_count); i++)
        buf[lengths_and_count[i]] -= 1;
    CHECK(is(ledgerwren1_parse(buf, 125).refusal, LEDGERWREN_REFUSAL_NO_START_CODE, LEDGERWREN_PLACE_DMP, 0));
    CHECK(is(ledgerwren1_parse_2009(buf, 125).refusal, LEDGERWREN_REFUSAL_NO_START_CODE,
             LEDGERWREN_PLACE_DMP, 0));
}

/* A name that is no UTF-8, which only C can offer, and how many of its bytes are good. */
static void malformed(const uint8_t *name, size_t len, uint32_t good)
{
    uint8_t buf[140];
    memset(buf, FILL, sizeof buf);
    LedgerwrenOutcome written =
        ledgerwren1_pack_data(buf, sizeof buf, data_header(0), name, len, VALUES, sizeof VALUES);
    CHECK(is(written.refusal, LEDGERWREN_REFUSAL_WRITTEN_NAME_NOT_UTF8, LEDGERWREN_PLACE_NOWHERE, good));
    CHECK(written.count == 0 && filled(buf, sizeof buf, FILL));
    LedgerwrenDiscoveryHeader header = {.fields = {.page = 3, .last_page = 5}};
    written = ledgerwren1_pack_discovery(buf, sizeof buf, header, name, len, UNIVERSES, COUNT(UNIVERSES));
    CHECK(is(written.refusal, LEDGERWREN_REFUSAL_WRITTEN_NAME_NOT_UTF8, LEDGERWREN_PLACE_NOWHERE, good));
    CHECK(written.count == 0 && filled(buf, sizeof buf, FILL));

    /* The same name in a packet that is read, with rubbish behind its zero. */
    written = ledgerwren1_pack_data(buf, sizeof buf, data_header(0), NAME, sizeof NAME, VALUES, 1);
    memset(buf + 44, 0xff, 64);
    for (size_t i = 0; i < len; i++)
        buf[44 + i] = name[i];
    buf[44 + len] = 0;
    CHECK(is(ledgerwren1_parse(buf, written.count).refusal, LEDGERWREN_REFUSAL_NAME_NOT_UTF8,
             LEDGERWREN_PLACE_FRAMING, good));
    CHECK(is(ledgerwren1_parse_2009(buf, written.count).refusal, LEDGERWREN_REFUSAL_NAME_NOT_UTF8,
             LEDGERWREN_PLACE_FRAMING, good));
}

static void malformed_names(void)
{
    static const uint8_t second[] = {0xc3, 0x28}, cut[] = {0x61, 0xc3}, lead[] = {0xf0, 0x9f, 0x92};
    static const uint8_t surrogate[] = {0x61, 0x62, 0xed, 0xa0, 0x80}, after[] = {0xe2, 0x82, 0xac, 0xc0};
    uint8_t last[63];
    memset(last, 'n', sizeof last);
    last[62] = 0xff;
    malformed(second, sizeof second, 0);
    malformed(cut, sizeof cut, 1);
    malformed(surrogate, sizeof surrogate, 2);
    malformed(after, sizeof after, 3);
    malformed(lead, sizeof lead, 0);
    malformed(last, sizeof last, 62);
}

static void universes(void)
{
    CHECK(none(ledgerwren1_is_universe_in_range(63999)));
    CHECK(is(ledgerwren1_is_universe_in_range(64000), LEDGERWREN_REFUSAL_NO_MULTICAST_ADDRESS,
             LEDGERWREN_PLACE_NOWHERE, 64000));
    LedgerwrenAddress found = ledgerwren1_universe_to_ipv4_multicast_addr(64214);
    CHECK(none(found.refusal));
    CHECK(found.address.highest == 239 && found.address.second == 255);
    CHECK(found.address.third == 250 && found.address.lowest == 214);
    CHECK(found.address.port == 5568);
    found = ledgerwren1_universe_to_ipv4_multicast_addr(0);
    CHECK(is(found.refusal, LEDGERWREN_REFUSAL_NO_MULTICAST_ADDRESS, LEDGERWREN_PLACE_NOWHERE, 0));
    CHECK(found.address.highest == 0 && found.address.port == 0);
}

int main(void)
{
    for (unsigned option = 0; option < 3; option++)
        data(option);
    synchronization();
    discovery();
    refusals();
    false_lengths();
    no_values();
    malformed_names();
    universes();
    return failures != 0;
}
