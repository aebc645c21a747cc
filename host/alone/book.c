// A host that includes both headers and links the archive of the book alone.
#include "check.h"
#include "optes.h"
#include "optes_book.h"

unsigned long checks = 0;

int main(void)
{
    static const uint8_t message[OPTES_6G1_BOTH_LONG_BYTES];
    const uint32_t code = 90001;
    struct optes_book b = {{0}};
    struct optes_allotment a;
    CHECK(optes_book_state(&b) == OPTES_NO_TENDER);
    CHECK(optes_book_preview(&b, &a) == OPTES_NO_TENDER);
    CHECK(optes_book_open(&b, message, sizeof message, &code, 1) == OPTES_NOT_ANNOUNCEMENT);
    printf("book alone: %lu checks passed\n", checks);
    return 0;
}
