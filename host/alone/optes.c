// A host that includes both headers and links the archive of the 6G1 alone.
#include "check.h"
#include "optes.h"
#include "optes_book.h"

unsigned long checks = 0;

int main(void)
{
    struct optes_application a = {.recipient_address = {.is_long = 1}};
    uint8_t space[OPTES_REPLY_BYTES];
    memcpy(a.identifier, "T/2012/0001", sizeof a.identifier);
    CHECK(optes_application_write(&a, space, sizeof space) == OPTES_OK);
    CHECK(optes_6g1_read(space, optes_application_length(&a)) == OPTES_OK);
    printf("optes alone: %lu checks passed\n", checks);
    return 0;
}
