// Which announcements and lists of codes open a tender, and what a refused opening leaves.
#include <string.h>

#include "cases.h"
#include "check.h"
#include "worked.h"

// Where the fields of an announcement begin: the index of each tag, which two bytes of length follow.
static const size_t heads[] = {0, 6, 14, 22, 36, 47, 56, 70, 91, 194, 205, 216};

// What a test alters, and the refusal that it leads to.
struct change {
    size_t at;
    const char *text;
    uint64_t refusal;
};

static const struct change changes[] = {
    {A_TYPE, "6G1", 2}, {A_TYPE, "6g0", 2}, {A_SENDER, "01001", 2}, {A_SENDER, "0100X", 2},
    {A_RECIPIENT, "9000X", 3}, {A_CRO, "          1", 3}, {A_DATE, "30022012", 3}, {A_DATE, "1203201X", 3},
    {A_TIME, "240000", 3}, {A_TIME, "09300 ", 3}, {A_IDENTIFIER, "t/2012/0001", 3},
    {A_IDENTIFIER, "T/2012/000X", 3}, {A_EXECUTION, "29022011", 3}, {A_EXECUTION, "12032012-", 3},
    {A_MOST, " 3", 3}, {A_OFFERED, "X", 3}, {A_MINIMUM, "X", 3}, {A_INCREMENT, "X", 3}, {A_MAXIMUM, "X", 3},
    {A_ALLOCATION, "X", 3}, {A_LIMIT, "X", 3}, {A_SPOT, "00032012", 3}, {A_FORWARD, "12132012", 3},
    {A_CUT_OFF, "110060", 3}, {A_OPERATION, "NC/FD/LX/R/Y/VR/MR", 4}, {A_OPERATION, "NC/FD/LP/R/X/VR/MR", 4},
    {A_OPERATION, "nc/FD/LP/R/Y/VR/MR", 4}, {A_MOST, "00", 5}, {A_MOST, "11", 5},
    {A_OFFERED, "000000000000000", 5}, {A_MINIMUM, "000000000000000", 5},
    {A_INCREMENT, "000000000000000", 5}, {A_MAXIMUM, "000000000009999", 5}, {A_DATE, "13032012", 6},
    {A_SPOT, "11032012", 6}, {A_FORWARD, "14032012", 6}, {A_FORWARD, "13032012", 6},
    {A_OPERATION, "NC/FD/LA/R/N/VR/MR", 0}, {A_MAXIMUM, "000000000010000", 0}, {A_MOST, "10", 0},
    {A_SPOT, "12032012", 0}, {A_LIMIT, "00000000", 0}, {A_CUT_OFF, "235959", 0},
};

// Words that no call left, to open over.
static struct optes_book any_words(uint64_t seed)
{
    struct optes_book b;
    for (size_t k = 0; k < OPTES_BOOK_WORDS; k++)
        b.words[k] = (k + 1) * seed;
    return b;
}

// Every change alone, over words that hold a tender.
static void each_change(const struct desk *d)
{
    const struct optes_book before = filled(d);
    for (size_t i = 0; i < sizeof changes / sizeof *changes; i++) {
        struct optes_book b = before;
        uint8_t m[ANNOUNCEMENT_BYTES];
        announcement_with(m, changes[i].at, changes[i].text);
        CHECK(call_open(d, &b, m, sizeof m, codes, CODES) == changes[i].refusal);
        CHECK(call_state(d, &b) == 0);
        const uint64_t held = changes[i].refusal == 0 ? 0 : 102900;
        CHECK(call_held(d, &b, 90002) == 0 && desk_told(d)[2] == held);
    }
}

// Every length but 225, and each byte of a head altered: 1.
static void unreadable(const struct desk *d)
{
    struct optes_book b = any_words(3);
    uint8_t m[300] = {0};
    memcpy(m, announcement, ANNOUNCEMENT_BYTES);
    for (size_t n = 0; n <= sizeof m; n++)
        if (n != ANNOUNCEMENT_BYTES)
            CHECK(call_open(d, &b, m, n, codes, CODES) == 1);
    for (size_t k = 0; k < sizeof heads / sizeof *heads; k++) {
        for (size_t at = heads[k]; at < heads[k] + 3; at++) {
            m[at]++;
            CHECK(call_open(d, &b, m, ANNOUNCEMENT_BYTES, codes, CODES) == 1);
            m[at]--;
        }
    }
    CHECK(call_open(d, &b, m, ANNOUNCEMENT_BYTES, codes, CODES) == 0);
}

static uint64_t with_codes(const struct desk *d, const uint32_t *list, size_t count)
{
    struct optes_book b = any_words(5);
    return call_open(d, &b, announcement, ANNOUNCEMENT_BYTES, list, count);
}

// Lists of codes that are refused with 7, and lists at the edge of that.
static void lists(const struct desk *d)
{
    uint32_t many[100];
    for (uint32_t k = 0; k < 100; k++)
        many[k] = 99900 + k;
    CHECK(with_codes(d, many, 0) == 7);
    for (size_t n = 1; n <= 100; n++)
        CHECK(with_codes(d, many, n) == (n <= 64 ? 0 : 7));
    for (size_t k = 1; k < 64; k++) {
        many[k] = many[k - 1];
        CHECK(with_codes(d, many, 64) == 7);
        many[k] = many[k - 1] - 1;
        CHECK(with_codes(d, many, 64) == 7);
        many[k] = many[k - 1] + 1;
    }
    CHECK(with_codes(d, (uint32_t[]){0}, 1) == 0);
    CHECK(with_codes(d, (uint32_t[]){99999}, 1) == 0);
    CHECK(with_codes(d, (uint32_t[]){100000}, 1) == 7);
    CHECK(with_codes(d, (uint32_t[]){1, UINT32_MAX}, 2) == 7);
}

// An announcement with every fault but the first is refused with the least number of those left. After them come
// the codes, and then the limits: how many they are, and how wide.
static void first_refusal(const struct desk *d)
{
    const struct change faults[] = {
        {0, "\x02", 1}, {A_TYPE, "6G9", 2}, {A_TIME, "999999", 3}, {A_OPERATION, "XX", 4},
        {A_MOST, "99", 5}, {A_SPOT, "01032012", 6},
    };
    const size_t count = sizeof faults / sizeof *faults;
    const uint64_t wide[] = {UINT64_MAX, UINT64_MAX, UINT64_MAX, UINT64_MAX};
    struct optes_book sound = any_words(7);
    for (size_t from = 0; from <= count; from++) {
        struct optes_book b = any_words(7);
        uint8_t m[ANNOUNCEMENT_BYTES];
        memcpy(m, announcement, sizeof m);
        for (size_t k = from; k < count; k++)
            put_text(m, faults[k].at, faults[k].text);
        CHECK(call_open_limits(d, &b, m, sizeof m, codes, 0, wide, CODES) == from + 1);
    }
    CHECK(call_open_limits(d, &sound, announcement, ANNOUNCEMENT_BYTES, codes, CODES, wide, CODES + 1) == 19);
    CHECK(call_open_limits(d, &sound, announcement, ANNOUNCEMENT_BYTES, codes, CODES, wide, CODES) == 20);
}

// An opening sets every word, whatever stood there, and leaves those past the tender.
static void every_word(const struct desk *d)
{
    struct desk more = *d;
    struct optes_book first = any_words(11), second = any_words(13), third = announced(d);
    more.count = OPTES_BOOK_WORDS + 4;
    CHECK(call_open(d, &first, announcement, ANNOUNCEMENT_BYTES, codes, CODES) == 0);
    CHECK(call_open(&more, &second, announcement, ANNOUNCEMENT_BYTES, codes, CODES) == 0);
    CHECK(call_open(d, &third, announcement, ANNOUNCEMENT_BYTES, codes, CODES) == 0);
    CHECK(memcmp(&first, &second, sizeof first) == 0);
    CHECK(memcmp(&first, &third, sizeof first) == 0);
}

// Every number of words below a tender's: 100, which comes before every other refusal.
static void too_few_words(const struct desk *d)
{
    struct desk less = *d;
    struct optes_book b = any_words(17);
    const uint64_t none = 0;
    for (less.count = 0; less.count < OPTES_BOOK_WORDS; less.count++) {
        CHECK(call_open(&less, &b, announcement, ANNOUNCEMENT_BYTES, codes, CODES) == 100);
        CHECK(call_open(&less, &b, announcement, 0, codes, 0) == 100);
        CHECK(call_open_limits(&less, &b, announcement, ANNOUNCEMENT_BYTES, codes, CODES, &none, 1) == 100);
    }
}

void opening_cases(const struct desk *d)
{
    each_change(d);
    unreadable(d);
    lists(d);
    first_refusal(d);
    every_word(d);
    too_few_words(d);
}
