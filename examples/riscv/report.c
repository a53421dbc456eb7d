#include "report.h"

#include <inttypes.h>

static const char *const sentences[15] = {
    "done",
    "a buffer, header or entry is not valid",
    "unknown kind or wrong length",
    "upper 16 bits set",
    "no such segment, account or program",
    "misaligned",
    "crosses a 4,096 boundary",
    "not permitted",
    "too few free frames",
    "call at 16 invocations, return at 1",
    "region above 4,096 pages",
    "output too short",
    "bad change list",
    "a byte absent",
    "a returned value's discriminant",
};

enum { ABSENT = 13 };

const char *sentence(uint8_t number) {
    return sentences[number];
}

void print_refusal(const struct machine *m) {
    printf("  refused with %u, %s", (unsigned)m->number, sentence(m->number));
    if (m->number == ABSENT) printf(": byte %u of %" PRIu64, (unsigned)m->distance, m->access.size);
    putchar('\n');
    printf("  %s of %" PRIu64 " bytes at 0x%012" PRIx64 ", pc 0x%012" PRIx64 "\n", kind_names[m->access.kind], m->access.size,
           m->access.address, m->pc);
    puts("  the refused call has changed no byte lent to it"); /* else the run has a fault */
}

int print_changes(struct buffers *b, uint8_t *list) {
    uint8_t number = hekthumar_change_list(LENT(b), list, CHANGES_MAX);
    if (number != 0) {
        printf("  change list refused with %u, %s\n", (unsigned)number, sentence(number));
        return -1;
    }
    int pages = (int)get_number(list, 4);
    printf("  change list: %d page%s\n", pages, pages == 1 ? "" : "s");
    for (int i = 0; i < pages; i++) {
        const uint8_t *entry = list + HEKTHUMAR_LIST_HEADER + HEKTHUMAR_LIST_ENTRY * i;
        printf("    account %u, page %u, %u live bytes, first stored to at depth %u\n", (unsigned)get_number(entry, 2),
               (unsigned)get_number(entry + 2, 2), (unsigned)get_number(entry + 4, 4), (unsigned)get_number(entry + 8, 2));
    }
    return pages;
}
