/* A disc of three sectors: two takes are committed, the second is undone and had back. `bindings/test` builds and runs this. */
#include <inttypes.h>
#include <stdio.h>

#include "aaru.h"

static uint8_t buffer[4096]; /* the image is its first `used` bytes */

/* Prints every sector of the disc as it reads now. */
static void show(const char *when, uint64_t used)
{
    uint64_t sectors = 0, place;
    int64_t lowest = 0;
    uint32_t number = aaru_sector_count(buffer, used, &sectors, &lowest, &place);

    printf("%s: %" PRIu64 " bytes\n", when, used);
    if (number != 0) {
        printf("  refused with %" PRIu32 " at byte %" PRIu64 "\n", number, place);
        return;
    }
    for (uint64_t entry = 0; entry < sectors; entry++) {
        int64_t address = lowest + (int64_t)entry;
        uint64_t start, size;

        number = aaru_locate(buffer, used, address, &start, &size, &place);
        if (number == 0)
            printf("  %" PRId64 " \"%.*s\" at %" PRIu64 "\n", address, (int)size, (const char *)buffer + start, start);
        else
            printf("  %" PRId64 " refused with %" PRIu32 "\n", address, number);
    }
}

int main(void)
{
    const uint8_t application[64] = "t\0a\0k\0e\0s"; /* in UTF-16 */
    const int64_t first[] = {0, 2}, second[] = {1}, falling[] = {2, 1};
    const uint8_t a_and_b[] = {'A', 'A', 'A', 'A', 'B', 'B', 'B', 'B'};
    uint64_t used, empty, take1, take2, index, start, size, place;
    uint32_t number;

    /* three sectors, none of them written */
    if (aaru_create(buffer, sizeof buffer, 3, application, sizeof application, 1, 0, 3, 1000, 1000, &used, &empty, &place) != 0)
        return 1;
    show("created", used);

    /* the first take: two sectors of four bytes, at addresses 0 and 2 */
    if (aaru_commit(buffer, sizeof buffer, used, first, 2, 4, a_and_b, sizeof a_and_b, 1001, &used, &take1, &place) != 0)
        return 1;
    show("first take", used);

    /* the second: one sector, at address 1. Its bytes are on the disc already and are not stored again */
    if (aaru_commit(buffer, sizeof buffer, used, second, 1, 4, a_and_b, 4, 1002, &used, &take2, &place) != 0)
        return 1;
    show("second take", used);

    /* back to the first take: nothing is cut off, so that the second can be had back */
    if (aaru_rollback(buffer, sizeof buffer, used, take1, 1003, &used, &index, &place) != 0)
        return 1;
    show("rolled back to the first take", used);
    if (aaru_rollback(buffer, sizeof buffer, used, take2, 1004, &used, &index, &place) != 0)
        return 1;
    show("rolled back to the second take", used);

    /* a refused call says where, and changes nothing else, neither the buffer nor `used` and `index` */
    number = aaru_commit(buffer, sizeof buffer, used, falling, 2, 4, a_and_b, sizeof a_and_b, 1005, &used, &index, &place);
    printf("addresses that fall: refused with %" PRIu32 " at byte %" PRIu64 "\n", number, place);
    number = aaru_rollback(buffer, sizeof buffer, used, take2 + 1, 1006, &used, &index, &place);
    printf("an offset that is no index: refused with %" PRIu32 " at byte %" PRIu64 "\n", number, place);
    show("as before", used);

    /* a byte of the block at 213, in which all three sectors lie, is damaged */
    buffer[249] = 'X';
    number = aaru_locate(buffer, used, 1, &start, &size, &place);
    printf("a damaged block: refused with %" PRIu32 " at byte %" PRIu64 "\n", number, place);
    return 0;
}
