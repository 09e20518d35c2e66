/*
 * A host in C. It hands a list with one order to a fresh desk, takes the table's five telegrams for a recording, and prints the
 * recording's listing: document 01's example. It tells a buffer that fits exactly from one that is too short. Then it asks for single
 * packets, hears telegrams of any length, reads a telegram from the train and a miss, knows a word of a listing, and hands over nothing.
 */
#include <stdio.h>
#include <string.h>

#include "bravolith.h"

/* Each list stands after its length in two bytes: one order, number 1, type 3, from 1,200 m to 1,500 m. */
static const uint8_t lists[] = {0, 10, 0, 0, 0, 1, 3, 0, 0x04, 0xB0, 0x05, 0xDC};

/* A call with a telegram that document 01 reckons by hand (P7), after its length, and a call with none. */
static const uint8_t calls[] = {0, 26, 1, 2, 3, 0x80, 1, 0x7F, 0xFE, 0, 0, 0, 6, 0, 0, 0, 0, 0, 0, 0, 0, 0, 0, 0, 0, 0, 0, 0, 0xFF, 0xFF};

/* A telegram that is too short, and the example's five, each after its length. */
static size_t frame(const uint8_t *tables, uint8_t *telegrams)
{
    size_t at = 0;
    for (int packet = -1; packet < 5; packet++) {
        size_t length = packet < 0 ? 25 : 26;
        telegrams[at++] = 0;
        telegrams[at++] = (uint8_t)length;
        memcpy(telegrams + at, tables + 26 * (packet < 0 ? 0 : packet), length);
        at += length;
    }
    return at;
}

/* Lends a buffer of so many bytes for the listing of a recording, and says whether all of it is there. */
static void lend(const uint8_t *recording, size_t recording_length, uint8_t *out, size_t out_length)
{
    size_t put = bravolith_list(recording, recording_length, out, out_length);
    size_t needed = bravolith_list_length(recording, recording_length);
    printf("lent %u bytes: %u of %u put, %s\n", (unsigned)out_length, (unsigned)put, (unsigned)needed, put == needed ? "whole" : "cut");
}

/* Nothing at all, by null pointers: an empty recording, no list, no telegram, no call, no text and no buffer. */
static int nothing(uint8_t *out, size_t out_length)
{
    size_t said = bravolith_list(NULL, 0, out, out_length);
    if (fwrite(out, 1, said, stdout) != said || said != bravolith_list_length(NULL, 0))
        return 0;
    return bravolith_list(NULL, 0, NULL, 0) == 0 && bravolith_hear(NULL, 0, NULL, 0) == 0 && bravolith_run(NULL, 0, NULL, 0) == 0 &&
           bravolith_run_lines(NULL, 0, NULL, 0) == 0 && bravolith_signals(NULL, 0, NULL, 0) == 0 &&
           bravolith_write(NULL, 0, 3, out, 26) == 0 && bravolith_write(NULL, 0, 3, NULL, 0) == 10 &&
           bravolith_word(NULL, 0) == BRAVOLITH_OTHER;
}

int main(void)
{
    uint8_t tables[130 + 1];
    uint8_t listing[4096];
    size_t put = bravolith_run(lists, sizeof lists, tables, sizeof tables);
    size_t said = bravolith_run_lines(lists, sizeof lists, listing, sizeof listing);
    if (put != 130 || said != 0)
        return 1; /* the list was refused */
    said = bravolith_list(tables, put, listing, sizeof listing);
    if (fwrite(listing, 1, said, stdout) != said)
        return 1;

    uint8_t room[BRAVOLITH_LIST_ROOM(130)];
    for (size_t length = said - 1; length <= said; length++)
        lend(tables, put, room, length);
    lend(tables, put, room, sizeof room);

    uint8_t packet[26];
    for (unsigned asked = 2; asked <= 3; asked++)
        for (size_t length = 25; length <= 26; length++)
            printf("packet %u into %u bytes: %u\n", asked, (unsigned)length,
                   bravolith_write(lists, sizeof lists, (uint8_t)asked, packet, length));
    if (memcmp(packet, tables, sizeof packet) != 0)
        return 1; /* the last of them was written: the same bytes as in the whole table */

    uint8_t telegrams[6 * 28];
    said = bravolith_hear(telegrams, frame(tables, telegrams), listing, sizeof listing);
    if (fwrite(listing, 1, said, stdout) != said)
        return 1;

    said = bravolith_signals(calls, sizeof calls, listing, sizeof listing);
    if (fwrite(listing, 1, said, stdout) != said)
        return 1;

    return bravolith_word((const uint8_t *)"carried", 7) == BRAVOLITH_CARRIED && nothing(listing, sizeof listing) ? 0 : 1;
}
