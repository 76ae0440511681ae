/* A recorder's first steps: an empty container is opened, and a region created, grown, published and located.
 * Each answer is a line of its own. */
#include "fundravai.h"

#include <inttypes.h>
#include <stdio.h>

/* The sizes that the library goes by: an error of the compiler where this one lays them out otherwise. */
#define IS(name, test) typedef char name[(test) ? 1 : -1]
IS(reply_size, sizeof(struct fundravai_reply) == 16 && offsetof(struct fundravai_reply, value) == 8);
IS(record_size, sizeof(struct fundravai_record) == 120 && offsetof(struct fundravai_record, header_a) == 48);
IS(record_header, offsetof(struct fundravai_record, hnumber) == 104 && offsetof(struct fundravai_record, hcount) == 116);
IS(region_size, sizeof(struct fundravai_plan_region) == 136 && offsetof(struct fundravai_plan_region, header_a) == 40);
IS(row_size, sizeof(struct fundravai_row) == 40 && offsetof(struct fundravai_row, logical) == 8);
IS(plan_size, sizeof(struct fundravai_plan) == 12600 && offsetof(struct fundravai_plan, accounts) == 8744);
IS(container_size, sizeof(struct fundravai_container) == 135480);
IS(container_lists, offsetof(struct fundravai_container, extents) == 12600 && offsetof(struct fundravai_container, starts) == 74040
                        && offsetof(struct fundravai_container, files) == 104760);

static struct fundravai_container container;

static void tell(const char *call, struct fundravai_reply reply) {
    switch (reply.kind) {
    case FUNDRAVAI_DONE:
        printf("%s: done\n", call);
        break;
    case FUNDRAVAI_AT:
        printf("%s: byte %" PRIu64 "\n", call, reply.value);
        break;
    default:
        printf("%s: refused, %" PRIu64 "\n", call, reply.value);
    }
}

int main(void) {
    /* An empty container has no records and no extents, and open needs no room for them: lists of no numbers. */
    struct fundravai_record record = {0};
    uint64_t none[1] = {0};
    uint64_t extents[2 * FUNDRAVAI_EXTENTS] = {0};

    tell("open", fundravai_open(&container, 12, 8192, 106496, &record, 0, none, 0, none, 0));
    tell("create 1 mainA", fundravai_create(&container, 1, 7, (const uint8_t *)"mainA", 5));
    tell("grow 1", fundravai_grow(&container, 1));
    tell("publish 1 65536", fundravai_publish(&container, 1, 65536));
    tell("locate 1 65535 1", fundravai_locate(&container, 1, 65535, 1));
    tell("locate 1 65535 2", fundravai_locate(&container, 1, 65535, 2));
    printf("held %" PRIu64 ", free %" PRIu64 "\n", fundravai_held(&container), fundravai_free(&container));
    printf("tag 7: published %" PRIu64 " of %" PRIu64 "\n", fundravai_logical(&container, 7), fundravai_physical(&container, 7));

    tell("region 0", fundravai_region(&container, 0, &record, extents, 2 * FUNDRAVAI_EXTENTS));
    printf("%.*s: number %" PRIu64 " of %zu, the last %" PRIu64 ", %u extent of %" PRIu64 " bytes at byte %" PRIu64 "\n", record.name_len,
           (const char *)record.name, record.number, fundravai_region_count(&container), fundravai_last_number(&container),
           record.extent_count, extents[1], extents[0]);

    tell("cap 7 73728", fundravai_cap(&container, 7, true, 73728));
    tell("grow 1", fundravai_grow(&container, 1));
    tell("drop 1", fundravai_drop(&container, 1));
    printf("held %" PRIu64 ", free %" PRIu64 "\n", fundravai_held(&container), fundravai_free(&container));
    return 0;
}
