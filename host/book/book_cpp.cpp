// A host in C++: a tender opened, filled, copied, previewed, closed and allotted, with both headers in one file.
#include "optes.h"
#include "optes_book.h"

#include <array>
#include <cstdio>
#include <cstring>

namespace {

using Message = std::array<uint8_t, OPTES_6G1_BYTES>;
using LongMessage = std::array<uint8_t, OPTES_6G1_ONE_LONG_BYTES>;
using Reply = std::array<uint8_t, OPTES_REPLY_BYTES>;

constexpr std::array<uint32_t, 3> codes{90001, 90002, 90003};

// Each field is a tag, two bytes of length and what it holds.
constexpr char announcement[] =
    "\x01\x00\x03" "6G0" "\x04\x00\x05" "01000" "\x05\x00\x05" "90001" "\x02\x00\x0b" "00000000001"
    "\x31\x00\x08" "12032012" "\x60\x00\x06" "093000" "\x70\x00\x0b" "T/2012/0001"
    "\x71\x00\x12" "NC/FD/LP/R/Y/VR/MR"
    "\x72\x00\x64" "12032012/03/000000000100000/000000000010000/000000000010000"
                   "/000000000000000/000000000000000/00100000"
    "\x73\x00\x08" "14032012" "\x74\x00\x08" "15032012" "\x75\x00\x06" "110000";

bool open(optes_book &book)
{
    return optes_book_open(&book, reinterpret_cast<const uint8_t *>(announcement), sizeof announcement - 1,
               codes.data(), codes.size()) == OPTES_OK;
}

optes_application filled_in(uint64_t code, uint64_t time, uint64_t rate, uint64_t amount)
{
    optes_application a{};
    a.sender = code;
    a.recipient = 1000;
    a.date = 12032012;
    a.time = time;
    a.places[0].rate = rate;
    a.places[0].amount = amount;
    std::memcpy(a.type, "6G1", sizeof a.type);
    std::memcpy(a.identifier, "T/2012/0001", sizeof a.identifier);
    std::memcpy(a.name, "Contact name   ", sizeof a.name);
    return a;
}

template <typename Bytes> Bytes written(const optes_application &a)
{
    Bytes m{};
    if (optes_application_length(&a) != m.size() || optes_application_write(&a, m.data(), m.size()) != OPTES_OK)
        std::fputs("book_cpp: an application is not written\n", stderr);
    return m;
}

Message application(uint64_t code, uint64_t time, uint64_t rate, uint64_t amount)
{
    return written<Message>(filled_in(code, time, rate, amount));
}

// The same of a branch of the code.
LongMessage application_of(uint64_t branch, uint64_t code, uint64_t time, uint64_t rate, uint64_t amount)
{
    optes_application a = filled_in(code, time, rate, amount);
    a.sender_address.is_long = 1;
    a.sender_address.branch = branch;
    std::memcpy(a.sender_address.text, "AB", sizeof a.sender_address.text);
    return written<LongMessage>(a);
}

// Whether the message is received and answered by so many bytes and errors.
template <typename Bytes> bool answered(optes_book &book, const Bytes &m, uint64_t length, uint64_t errors)
{
    Reply reply{};
    optes_answer answer{};
    return optes_book_receive(&book, m.data(), m.size(), 12032012, 104000, reply.data(), reply.size(),
               &answer) == OPTES_OK
        && answer.length == length && answer.errors == errors;
}

bool fill(optes_book &book)
{
    return answered(book, application(90002, 102900, 150000, 60000), 59, 0)
        && answered(book, application(90001, 103100, 120000, 50000), 59, 0)
        && answered(book, application(90003, 103400, 120000, 40000), 59, 0)
        && answered(book, application(90002, 102000, 150000, 60000), 378, 1);
}

// Whether a preview gives the awards and the marginal rate of this allotment.
bool previews(const optes_book &book, const optes_allotment &given)
{
    optes_allotment a{};
    return optes_book_preview(&book, &a) == OPTES_OK && std::memcmp(&a, &given, sizeof a) == 0;
}

// Whether the tender closes and gives these awards at a marginal rate of 1.2 %, and previews gave them before.
bool ends(optes_book &book, uint64_t first, uint64_t second, uint64_t third)
{
    const optes_book open = book;
    optes_allotment a{};
    if (optes_book_close(&book, 12032012, 110001) != OPTES_OK)
        return false;
    const optes_book closed = book;
    return optes_book_allot(&book, &a) == OPTES_OK && previews(open, a) && previews(closed, a)
        && a.has_marginal == 1 && a.marginal == 120000 && a.awards[0] == first && a.awards[10] == second
        && a.awards[20] == third && optes_book_state(&book) == OPTES_STATE_ANNOUNCED
        && optes_book_preview(&book, &a) == OPTES_ALREADY_ANNOUNCED && a.awards[0] == first;
}

// A copy takes a cancellation of 90002, and the first tender does not see it.
bool copies()
{
    optes_book book{};
    if (!open(book) || !fill(book))
        return false;
    optes_book copy = book;
    return answered(copy, application(90002, 103000, 0, 0), 59, 0)
        && answered(copy, application(90002, 103001, 120000, 30000), 59, 0)
        && ends(copy, 41667, 25000, 33333) && ends(book, 22223, 60000, 17777);
}

// Two branches of 90002 and 90002 itself are one counterparty, so that the latest of their messages counts.
bool branches()
{
    optes_book book{};
    return open(book) && answered(book, application_of(12345, 90002, 102800, 150000, 50000), 68, 0)
        && answered(book, application_of(99999, 90002, 102800, 150000, 60000), 387, 1)
        && answered(book, application_of(99999, 90002, 102801, 150000, 40000), 68, 0) && fill(book)
        && answered(book, application_of(12345, 90002, 102900, 150000, 60000), 387, 1)
        && ends(book, 22223, 60000, 17777);
}

// 90001 is capped at 200 euro, and what its bid of 500 euro would get of the rest goes to 90003.
bool caps()
{
    constexpr std::array<uint64_t, 3> caps{20000, 0, OPTES_BOOK_LIMIT_MOST};
    optes_book book{};
    optes_limits limits{};
    const auto *message = reinterpret_cast<const uint8_t *>(announcement);
    return optes_book_open_limits(&book, message, sizeof announcement - 1, codes.data(), codes.size(),
               caps.data(), 2) == OPTES_LIMITS_MISCOUNTED
        && optes_book_open_limits(&book, message, sizeof announcement - 1, codes.data(), codes.size(),
               caps.data(), caps.size()) == OPTES_OK
        && optes_book_limits(&book, &limits) == OPTES_OK && limits.count == 3 && limits.limits[0] == 20000
        && limits.limits[2] == OPTES_BOOK_LIMIT_MOST && fill(book) && ends(book, 13334, 60000, 26666);
}

// What the tender tells, and the refusals where it has none.
bool tells()
{
    optes_book book{};
    optes_terms terms{};
    optes_codes admitted{};
    optes_held held{};
    if (optes_book_state(&book) != OPTES_NO_TENDER || !open(book) || !fill(book))
        return false;
    return optes_book_terms(&book, &terms) == OPTES_OK && terms.side == OPTES_SIDE_LP
        && terms.offered == 100000 && std::memcmp(terms.identifier, "T/2012/0001", 11) == 0
        && optes_book_codes(&book, &admitted) == OPTES_OK && admitted.count == 3
        && optes_book_held(&book, 90001, &held) == OPTES_OK && held.time == 103100
        && held.amounts[0] == 50000 && optes_book_revoke(&book) == OPTES_OK
        && optes_book_revoke(&book) == OPTES_ALREADY_REVOKED;
}

} // namespace

int main()
{
    if (!copies() || !branches() || !caps() || !tells()) {
        std::fputs("book_cpp: a tender is not as it was in C\n", stderr);
        return 1;
    }
    std::puts("book_cpp: four tenders are announced");
    return 0;
}
