/* Reads datagrams that differ in the field of their name, each between two stores to `mark`, so that a trace of the memory
 * shows what the reading loads. Prints where the mark and the field are, and then a line for each reading: what was
 * called, the name's pattern, and how many bytes of it stand before the zero; 64 where there is none. */
#include "ledgerwren.h"
#include <stdio.h>
#include <string.h>

enum { FIELD = 44, FIELD_LENGTH = 64, LARGEST_DATA = 638 };

/* A character of each length, text among which one stands, and a byte that is none. Where a name ends within a pattern, its
 * last character is cut. */
static const struct {
    const char *label;
    const char *bytes;
} PATTERNS[] = {{"plain", "n"},
                {"mixed", "nnnnnnnnnn\xc3\xa9"},
                {"twos", "\xc3\xa9"},
                {"threes", "\xe6\x97\xa5"},
                {"fours", "\xf0\x9f\x92\xa1"},
                {"malformed", "\xff"}};

static uint8_t datagram[LARGEST_DATA];
static size_t length;
static volatile uint32_t mark;

static void write_data(void)
{
    LedgerwrenDataHeader header = {.fields = {.universe = 1}};
    const uint8_t value = 0;
    length = ledgerwren1_pack_data(datagram, sizeof datagram, header, &value, 0, &value, 1).count;
}

static void write_discovery(void)
{
    LedgerwrenDiscoveryHeader header = {.fields = {.page = 0}};
    const uint8_t nothing = 0;
    const uint16_t universe = 1;
    length = ledgerwren1_pack_discovery(datagram, sizeof datagram, header, &nothing, 0, &universe, 1).count;
}

static void read_present(void)
{
    mark = 1;
    ledgerwren1_parse(datagram, length);
    mark = 0;
}

static void read_2009(void)
{
    mark = 1;
    ledgerwren1_parse_2009(datagram, length);
    mark = 0;
}

/* What stands behind the zero: what a writer puts there, and bytes that no name has. */
static const uint8_t FILLINGS[] = {0, 0xff};

/* The first `count` bytes of a pattern that is repeated, a zero, and a filling up to the field's end. */
static void put_name(const char *pattern, size_t count, uint8_t filling)
{
    size_t i;
    for (i = 0; i < FIELD_LENGTH; i++)
        datagram[FIELD + i] = i < count ? (uint8_t)pattern[i % strlen(pattern)] : filling;
    if (count < FIELD_LENGTH)
        datagram[FIELD + count] = 0;
}

static void read_names(const char *call, void (*read)(void))
{
    size_t pattern, count, filling;
    for (pattern = 0; pattern < sizeof PATTERNS / sizeof PATTERNS[0]; pattern++)
        for (count = 0; count <= FIELD_LENGTH; count++)
            for (filling = 0; filling < sizeof FILLINGS; filling++) {
                put_name(PATTERNS[pattern].bytes, count, FILLINGS[filling]);
                read();
                printf("%s %s %zu\n", call, PATTERNS[pattern].label, count);
            }
}

int main(void)
{
    printf("%p %p\n", (void *)&mark, (void *)(datagram + FIELD));
    write_data();
    read_names("parse-data", read_present);
    read_names("parse_2009-data", read_2009);
    write_discovery();
    read_names("parse-discovery", read_present);
    return length == 0;
}
