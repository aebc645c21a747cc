// A host in C++: an application with addresses of either form written, read back and written again.
#include "optes.h"

#include <array>
#include <cstdio>
#include <cstring>
#include <set>
#include <string>

namespace {

using Message = std::array<uint8_t, OPTES_6G1_BYTES>;
using LongMessage = std::array<uint8_t, OPTES_6G1_BOTH_LONG_BYTES>;

optes_application application()
{
    optes_application a{};
    a.sender = 90002;
    a.recipient = 1000;
    a.cro = 17;
    a.date = 12032012;
    a.time = 102900;
    a.check = 12345;
    a.places[0].rate = 150000;
    a.places[0].amount = 60000;
    std::memcpy(a.type, "6G1", sizeof a.type);
    std::memcpy(a.identifier, "T/2012/0001", sizeof a.identifier);
    std::memcpy(a.name, "Contact name   ", sizeof a.name);
    return a;
}

// Whether the six numbers and the ten places were read, and are those of the application.
bool same_numbers(const optes_application &a)
{
    bool same = a.has_sender == 1 && a.sender == 90002 && a.has_recipient == 1 && a.recipient == 1000
        && a.has_cro == 1 && a.cro == 17 && a.has_date == 1 && a.date == 12032012
        && a.has_time == 1 && a.time == 102900 && a.has_check == 1 && a.check == 12345;
    for (int k = 0; k < OPTES_6G1_PLACES; k++)
        same = same && a.places[k].well_formed == 1 && a.places[k].rate == (k == 0 ? 150000u : 0u)
            && a.places[k].amount == (k == 0 ? 60000u : 0u);
    return same;
}

bool same_texts(const optes_application &a)
{
    return std::memcmp(a.type, "6G1", sizeof a.type) == 0
        && std::memcmp(a.identifier, "T/2012/0001", sizeof a.identifier) == 0
        && std::memcmp(a.name, "Contact name   ", sizeof a.name) == 0;
}

bool return_trip()
{
    const optes_application sent = application();
    optes_application received{};
    Message first{}, second{};
    return optes_application_write(&sent, first.data(), first.size()) == OPTES_OK
        && optes_application_read(&received, first.data(), first.size()) == OPTES_OK
        && same_numbers(received) && same_texts(received)
        && optes_application_write(&received, second.data(), second.size()) == OPTES_OK
        && first == second;
}

// The long form of an address with this branch and text.
optes_address branch(uint64_t number, const char *text)
{
    optes_address address{};
    address.is_long = 1;
    address.branch = number;
    std::memcpy(address.text, text, sizeof address.text);
    return address;
}

bool same(const optes_address &a, const optes_address &b)
{
    return a.is_long == b.is_long && a.branch == b.branch && std::memcmp(a.text, b.text, sizeof a.text) == 0;
}

// The same with these addresses, which make a message of so many bytes.
bool long_return_trip(const optes_address &sender, const optes_address &recipient, size_t length)
{
    optes_application sent = application(), received{};
    LongMessage first{}, second{};
    sent.sender_address = sender;
    sent.recipient_address = recipient;
    return optes_application_length(&sent) == length
        && optes_application_write(&sent, first.data(), length - 1) == OPTES_NO_ROOM && first == LongMessage{}
        && optes_application_write(&sent, first.data(), first.size()) == OPTES_OK
        && optes_application_read(&received, first.data(), length) == OPTES_OK
        && same_numbers(received) && same_texts(received) && received.unread == 0
        && same(received.sender_address, sender) && same(received.recipient_address, recipient)
        && optes_application_write(&received, second.data(), length) == OPTES_OK && first == second;
}

bool long_return_trips()
{
    const optes_address none{}, sender = branch(12345, "AB"), recipient = branch(99999, "/\xff");
    return long_return_trip(none, none, 339) && long_return_trip(sender, none, 348)
        && long_return_trip(none, recipient, 348) && long_return_trip(sender, recipient, 357);
}

// A sender whose second slash is missing is not read, not even its code.
bool misplaced()
{
    optes_application a = application();
    LongMessage m{};
    a.sender_address = branch(12345, "AB");
    bool written = optes_application_write(&a, m.data(), m.size()) == OPTES_OK;
    m[optes_6g1_start(m.data(), OPTES_6G1_ONE_LONG_BYTES, OPTES_6G1_SENDER) + 11] = ' ';
    return written && optes_application_read(&a, m.data(), OPTES_6G1_ONE_LONG_BYTES) == OPTES_OK
        && a.has_sender == 0 && a.sender == 0 && same(a.sender_address, optes_address{}) && a.unread == 1
        && optes_application_write(&a, m.data(), m.size()) == OPTES_UNFIT;
}

// A short message, a rate of more than 32 bits and a short space.
bool refusals()
{
    optes_application a = application();
    Message m{};
    bool refused = optes_application_write(&a, m.data(), m.size() - 1) == OPTES_NO_ROOM
        && optes_application_read(&a, m.data(), m.size() - 1) == OPTES_UNREADABLE;
    a.places[0].rate = UINT64_C(4294967296) + 150000;
    return refused && optes_application_write(&a, m.data(), m.size()) == OPTES_UNFIT && m == Message{};
}

// A message without digits for its sender and its first place is not written again before unread is 0.
bool unread()
{
    optes_application a = application();
    Message m{}, again{};
    bool written = optes_application_write(&a, m.data(), m.size()) == OPTES_OK;
    m[optes_6g1_start(m.data(), m.size(), OPTES_6G1_SENDER)] = ' ';
    m[optes_6g1_start(m.data(), m.size(), OPTES_6G1_BIDS)] = ' ';
    bool refused = written && optes_application_read(&a, m.data(), m.size()) == OPTES_OK && a.unread == 2
        && optes_application_write(&a, again.data(), again.size()) == OPTES_UNFIT && again == Message{};
    a.sender = 90003;
    a.unread = 0;
    return refused && optes_application_write(&a, again.data(), again.size()) == OPTES_OK
        && optes_application_read(&a, again.data(), again.size()) == OPTES_OK && a.unread == 0
        && a.sender == 90003;
}

// The numbers below 1,000 have as many different texts as there are refusals and errors, and one for the others.
bool texts()
{
    std::set<std::string> refusals, errors;
    for (uint64_t n = 0; n < 1000; n++) {
        refusals.insert(optes_refusal_text(n));
        errors.insert(optes_error_text(n));
    }
    const int number = OPTES_VERSION_NUMBER;
    const std::string version = std::to_string(number / 10000) + '.' + std::to_string(number / 100 % 100) + '.'
        + std::to_string(number % 100);
    return refusals.size() == 23 && errors.size() == 20 && version == OPTES_VERSION;
}

} // namespace

int main()
{
    if (!return_trip() || !long_return_trips() || !misplaced() || !refusals() || !unread() || !texts()) {
        std::fputs("host_cpp: the application does not read back, or a refusal or a text is missing\n", stderr);
        return 1;
    }
    std::puts("host_cpp: the application reads back");
    return 0;
}
