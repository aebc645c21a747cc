// Senders and recipients of the long form: which are right, who is the sender, and the replies to them.
#include <string.h>

#include "cases.h"
#include "check.h"
#include "worked.h"

#define SENDER ADDRESS("90002/12345/AB")
#define RECIPIENT ADDRESS("01000/00070/\x00\xff")
#define SHORT_RECIPIENT ADDRESS("01000")

// A message that was an application with short addresses.
struct sent {
    uint8_t before[APPLICATION_BYTES];
    struct address sender;
    uint8_t bytes[APPLICATION_MOST];
    size_t length;
};

// The message with these addresses, at this reference time and with one bid.
static struct sent sent_at(uint64_t time, struct address sender, struct address recipient)
{
    struct sent s = {.sender = sender};
    application_of(s.before, 90002, time, &one_bid, 1);
    s.length = with_addresses(s.bytes, s.before, APPLICATION_BYTES, sender, recipient);
    return s;
}

// The four mixtures of short and long addresses; the first has no long one and the last two.
#define MIXTURES 4
static struct sent mixture(size_t index)
{
    return sent_at(102900, index & 1 ? SENDER : ADDRESS("90002"), index & 2 ? RECIPIENT : SHORT_RECIPIENT);
}

// The message is confirmed to its sender as it stands there.
static void is_confirmed(const struct desk *d, struct optes_book *b, const struct sent *s)
{
    uint8_t reply[REPLY_MOST];
    CHECK(call_receive(d, b, s->bytes, s->length, in_time) == 0);
    expect_reply(d, reply, confirmation_to(reply, s->before, in_time.time, s->sender), NULL, 0);
}

// The message is returned with this error alone, and the tender stays.
static void is_returned(const struct desk *d, struct optes_book *b, const struct sent *s, const char *shown,
    uint64_t error)
{
    const struct optes_book before = *b;
    uint8_t reply[REPLY_MOST];
    CHECK(call_receive(d, b, s->bytes, s->length, in_time) == 0);
    expect_reply(d, reply, returned_of(reply, s->bytes, s->length, shown), &error, 1);
    CHECK(memcmp(b, &before, sizeof before) == 0);
}

// A confirmation has 59 bytes, or 68 where the sender is long, whatever the recipient is.
static void confirmations(const struct desk *d)
{
    const size_t lengths[MIXTURES] = {339, 348, 348, 357};
    const uint64_t time = 102900;
    for (size_t k = 0; k < MIXTURES; k++) {
        struct optes_book b = opened(d);
        const struct sent s = mixture(k);
        CHECK(s.length == lengths[k]);
        is_confirmed(d, &b, &s);
        CHECK(desk_told(d)[0] == (k & 1 ? 68 : 59));
        expect_held(d, &b, 90002, &time, &one_bid, 1);
        expect_held(d, &b, 90001, NULL, NULL, 0);
    }
}

// All branches of a code are one counterparty, and the code alone is it too: the latest time counts.
static void one_counterparty(const struct desk *d)
{
    const struct address others[] = {ADDRESS("90002"), SENDER, ADDRESS("90002/99999/ZZ"), ADDRESS("90002/12345/\0/")};
    const size_t count = sizeof others / sizeof *others;
    struct optes_book b = opened(d);
    for (uint64_t time = 102900; time < 102900 + count; time++) {
        const struct sent s = sent_at(time, others[time - 102900], SHORT_RECIPIENT);
        is_confirmed(d, &b, &s);
        expect_held(d, &b, 90002, &time, &one_bid, 1);
        for (size_t k = 0; k < count; k++) {
            const struct sent equal = sent_at(time, others[k], RECIPIENT);
            const struct sent earlier = sent_at(0, others[k], SHORT_RECIPIENT);
            is_returned(d, &b, &equal, "601 - 302", 302);
            is_returned(d, &b, &earlier, "601 - 302", 302);
        }
    }
    expect_held(d, &b, 90001, NULL, NULL, 0);
    expect_held(d, &b, 90003, NULL, NULL, 0);
}

// Ten zero places of one branch cancel what another one sent.
static void cancels(const struct desk *d)
{
    const uint64_t time = 103000;
    struct optes_book b = opened(d);
    struct sent first = sent_at(102900, SENDER, RECIPIENT), zeros = {.sender = ADDRESS("90002/54321/CD")};
    application_of(zeros.before, 90002, time, NULL, 0);
    zeros.length = with_addresses(zeros.bytes, zeros.before, APPLICATION_BYTES, zeros.sender, SHORT_RECIPIENT);
    is_confirmed(d, &b, &first);
    is_confirmed(d, &b, &zeros);
    expect_held(d, &b, 90002, &time, NULL, 0);
    is_returned(d, &b, &first, "601 - 302", 302);
}

// A recipient is right when its first five are 01000, whatever follows.
static void recipients(const struct desk *d)
{
    const struct address right[] = {ADDRESS("01000xxxxxxxxx"), ADDRESS("01000\0\0\0\0\0\0\0\0\0"),
        ADDRESS("01000/0000x/AB"), ADDRESS("01000000000000"), ADDRESS("01000/99999//\0")};
    const struct address wrong[] = {ADDRESS("01001/00000/AB"), ADDRESS("1000/000000/AB"), ADDRESS("0100x/00000/AB"),
        ADDRESS("\x00" "1000/00000/AB"), ADDRESS("90002/01000/AB"), ADDRESS("         01000"), ADDRESS("01001")};
    for (size_t k = 0; k < sizeof right / sizeof *right; k++) {
        struct optes_book b = opened(d);
        const struct sent s = sent_at(102900, ADDRESS("90002"), right[k]), longer = sent_at(102901, SENDER, right[k]);
        is_confirmed(d, &b, &s);
        is_confirmed(d, &b, &longer);
    }
    for (size_t k = 0; k < sizeof wrong / sizeof *wrong; k++) {
        struct optes_book b = opened(d);
        const struct sent s = sent_at(102900, ADDRESS("90002"), wrong[k]), longer = sent_at(102900, SENDER, wrong[k]);
        is_returned(d, &b, &s, "050 - 599", 599);
        is_returned(d, &b, &longer, "050 - 599", 599);
    }
}

// A tender that has received nothing confirms the message, or else returns it with this error alone.
static void is_answered(const struct desk *d, const struct sent *s, int is_right, const char *shown, uint64_t error)
{
    struct optes_book b = opened(d);
    if (is_right)
        is_confirmed(d, &b, s);
    else
        is_returned(d, &b, s, shown, error);
}

// Each byte of a long recipient with these others: 599 for its first five, and any byte is right after them.
static void bytes_of_recipients(const struct desk *d)
{
    const char others[] = {' ', '0' | (char)0x80, '\0', ':', 'x', '/', '7'};
    for (size_t at = 0; at < 14; at++) {
        for (size_t k = 0; k < sizeof others; k++) {
            char bytes[] = "01000/12345/AB";
            bytes[at] = others[k];
            const struct address recipient = {bytes, 14};
            const struct sent s = sent_at(102900, ADDRESS("90002"), recipient);
            const struct sent longer = sent_at(102900, SENDER, recipient);
            is_answered(d, &s, at >= 5, "050 - 599", 599);
            is_answered(d, &longer, at >= 5, "050 - 599", 599);
        }
    }
}

// Each byte of a long sender with these others: 309 up to its second slash, and any byte is right in its text.
static void bytes_of_senders(const struct desk *d)
{
    const char others[] = {' ', '2' | (char)0x80, '\0', ':', 'x', '/'};
    for (size_t at = 0; at < 14; at++) {
        for (size_t k = 0; k < sizeof others; k++) {
            char bytes[] = "90002/12345/AB";
            if (bytes[at] == others[k])
                continue;
            bytes[at] = others[k];
            const struct sent s = sent_at(102900, (struct address){bytes, 14}, SHORT_RECIPIENT);
            is_answered(d, &s, at >= 12, "040 - 309", 309);
        }
    }
}

// A digit for a slash is 309; a code that is not admitted is 300, unless 309 hides it; the branch is not looked up.
static void codes_of_senders(const struct desk *d)
{
    const struct address malformed[] = {ADDRESS("90002012345/AB"), ADDRESS("90002/123450AB"),
        ADDRESS("90004/1234x/AB"), ADDRESS("90004012345/AB"), ADDRESS("9000/212345/AB"), ADDRESS("90002/1234/5AB")};
    struct optes_book b = opened(d);
    for (size_t k = 0; k < sizeof malformed / sizeof *malformed; k++) {
        const struct sent s = sent_at(102900, malformed[k], RECIPIENT);
        is_returned(d, &b, &s, "040 - 309", 309);
    }
    const struct sent other = sent_at(102900, ADDRESS("90004/90002/AB"), SHORT_RECIPIENT);
    const struct sent admitted = sent_at(102900, ADDRESS("90002/90004/AB"), SHORT_RECIPIENT);
    is_returned(d, &b, &other, "040 - 300", 300);
    is_confirmed(d, &b, &admitted);
}

// Each mixture into every room: 11 below 436 bytes. With more, the bytes past the reply stay.
static void rooms(const struct desk *d)
{
    const struct optes_book before = opened(d);
    struct desk other = *d;
    for (size_t k = 0; k < MIXTURES; k++) {
        const struct sent s = mixture(k);
        for (other.room = 0; other.room <= 460; other.room++) {
            struct optes_book b = before;
            if (other.room < 436)
                CHECK(call_receive(&other, &b, s.bytes, s.length, in_time) == 11);
            else
                is_confirmed(&other, &b, &s);
        }
    }
}

// One to five errors and six, each mixture: 378 to 418, 387 to 427 and 396 to 436 bytes.
static void returned_lengths(const struct desk *d)
{
    static const struct {
        size_t at;
        const char *text;
        const char *shown;
    } errors[] = {
        {P_TYPE, "6G2", "001 - 900"}, {P_CRO, "x", "001 - 900/020 - 521"},
        {P_DATE, "13032012", "001 - 900/020 - 521/D31 - 522"},
        {P_CHECK, "x", "001 - 900/020 - 521/D31 - 522/010 - 908"},
        {P_IDENTIFIER, "t", "001 - 900/020 - 521/D31 - 522/010 - 908/6G0 - 303"},
        {P_BIDS, "x", "001 - 900/020 - 521/D31 - 522/010 - 908/999 - 999"},
    };
    const uint64_t codes[] = {900, 521, 522, 908, 303, 901};
    for (size_t k = 0; k < MIXTURES; k++) {
        struct optes_book b = opened(d);
        struct sent s = mixture(k);
        const size_t more = s.length - APPLICATION_BYTES;
        for (size_t i = 0; i < 6; i++) {
            uint8_t reply[REPLY_MOST];
            put_text(s.bytes, errors[i].at + (errors[i].at > P_SENDER ? more : 0), errors[i].text);
            CHECK(call_receive(d, &b, s.bytes, s.length, in_time) == 0);
            expect_reply(d, reply, returned_of(reply, s.bytes, s.length, errors[i].shown), codes, i + 1);
            CHECK(desk_told(d)[0] == 378 + more + 10 * (i < 5 ? i : 4));
        }
        CHECK(k != MIXTURES - 1 || desk_told(d)[0] == 436);
        expect_held(d, &b, 90002, NULL, NULL, 0);
    }
}

// Every length but its own, and each byte of a head altered, in each mixture: 12.
static void unreadable(const struct desk *d)
{
    for (size_t k = 0; k < MIXTURES; k++) {
        const size_t sender = k & 1 ? 9 : 0, both = sender + (k & 2 ? 9 : 0);
        const size_t heads[] = {0, 6, 14 + sender, 22 + both, 36 + both, 47 + both, 56 + both, 64 + both,
            78 + both, 321 + both};
        struct optes_book b = opened(d);
        const struct sent s = mixture(k);
        uint8_t m[400] = {0};
        memcpy(m, s.bytes, s.length);
        for (size_t n = 0; n <= sizeof m; n++)
            if (n != s.length)
                CHECK(call_receive(d, &b, m, n, in_time) == 12);
        for (size_t i = 0; i < 30; i++) {
            m[heads[i / 3] + i % 3]++;
            CHECK(call_receive(d, &b, m, s.length, in_time) == 12);
            m[heads[i / 3] + i % 3]--;
        }
        CHECK(call_receive(d, &b, m, s.length, in_time) == 0);
    }
}

// Every two lengths in the heads of a message of another mixture: 12.
static void other_heads(const struct desk *d)
{
    struct optes_book b = opened(d);
    for (size_t k = 0; k < MIXTURES; k++) {
        const struct sent s = mixture(k);
        for (size_t said = 0; said < MIXTURES; said++) {
            uint8_t m[APPLICATION_MOST];
            memcpy(m, s.bytes, s.length);
            m[8] = said & 1 ? 14 : 5;
            m[16 + (k & 1 ? 9 : 0)] = said & 2 ? 14 : 5;
            CHECK(call_receive(d, &b, m, s.length, in_time) == (said == k ? 0 : 12));
        }
    }
}

// Addresses of every length from 0 to 20, which the heads say and the message adds up to: 12 for all but 5 and 14.
static void other_lengths(const struct desk *d)
{
    const struct optes_book before = opened(d);
    uint8_t brief[APPLICATION_BYTES], m[400];
    application_of(brief, 90002, 102900, &one_bid, 1);
    for (size_t k = 0; k < 21 * 21; k++) {
        const struct address sender = {"90002/12345/AB000000", k / 21}, recipient = {"01000/00070/AB000000", k % 21};
        const int is_right = (sender.length == 5 || sender.length == 14)
            && (recipient.length == 5 || recipient.length == 14);
        struct optes_book b = before;
        size_t n = with_addresses(m, brief, sizeof brief, sender, recipient);
        CHECK(call_receive(d, &b, m, n, in_time) == (is_right ? 0 : 12));
    }
}

// An announcement's addresses are short: a long one is 1, whatever else is wrong.
static void announcements(const struct desk *d)
{
    const struct address senders[] = {ADDRESS("01000"), ADDRESS("01000/12345/AB"), ADDRESS("01001/1234x/AB")};
    const struct address recipients[] = {ADDRESS("90001"), ADDRESS("90001/12345/AB"), ADDRESS("9000100000000x")};
    for (size_t k = 0; k < 9; k++) {
        struct optes_book b = filled(d);
        uint8_t m[ANNOUNCEMENT_MOST];
        size_t n = with_addresses(m, announcement, ANNOUNCEMENT_BYTES, senders[k / 3], recipients[k % 3]);
        CHECK(call_open(d, &b, m, n, codes, CODES) == (k == 0 ? 0 : 1));
        CHECK(call_open(d, &b, m, n, codes, 0) == (k == 0 ? 7 : 1));
    }
}

void branch_cases(const struct desk *d)
{
    confirmations(d);
    one_counterparty(d);
    cancels(d);
    recipients(d);
    bytes_of_recipients(d);
    bytes_of_senders(d);
    codes_of_senders(d);
    rooms(d);
    returned_lengths(d);
    unreadable(d);
    other_heads(d);
    other_lengths(d);
    announcements(d);
}
