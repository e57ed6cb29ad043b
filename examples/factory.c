/* A factory disc of drums, a small disc of changes over it, and one new disc of both. `bindings/test` builds and runs
 * this. */
#include <inttypes.h>
#include <stdio.h>

#include "aaru.h"

/* Each image is the first bytes of its buffer. The factory disc is only read once it is made. */
static uint8_t factory[1024], changes[1024], whole[1024];
static uint64_t factory_used, changes_used;

static const uint8_t application[64] = "d\0r\0u\0m\0s"; /* in UTF-16 */

/* A disc of five sectors, none of them written. */
static uint32_t create(uint8_t *buffer, size_t length, uint64_t *used)
{
    uint64_t index, place;

    return aaru_create(buffer, length, 5, application, sizeof application, 1, 0, 3, 1000, 1000, used, &index, &place);
}

/* Commits sectors of four letters each. */
static uint32_t commit(uint8_t *buffer, size_t length, uint64_t *used, const int64_t *at, size_t count,
                       const char *text)
{
    uint64_t index, place;

    return aaru_commit(buffer, length, *used, at, count, 4, (const uint8_t *)text, 4 * count, 1001, used, &index,
                       &place);
}

/* Prints every sector of the changes over the factory disc, and which of the two has it. */
static void show(const char *when)
{
    const uint8_t *const images[] = {changes, factory};
    const char *const names[] = {"changes", "factory disc"};

    printf("%s: changes of %" PRIu64 " bytes\n", when, changes_used);
    for (int64_t address = 0; address < 6; address++) {
        uint64_t which, start, size, place;
        uint32_t number = aaru_locate_over(changes, changes_used, factory, factory_used, address, &which, &start, &size,
                                           &place);

        if (number == 0)
            printf("  %" PRId64 " \"%.*s\" from the %s at %" PRIu64 "\n", address, (int)size,
                   (const char *)images[which] + start, names[which], start);
        else if (number > 100) /* the factory disc's own number, and a place in it */
            printf("  %" PRId64 " refused by the factory disc with %" PRIu32 " at byte %" PRIu64 "\n", address,
                   number - 100, place);
        else
            printf("  %" PRId64 " refused with %" PRIu32 "\n", address, number);
    }
}

static uint32_t flatten(size_t length, uint64_t *used)
{
    uint64_t index, place;

    return aaru_flatten(whole, length, changes, changes_used, factory, factory_used, application, sizeof application, 1,
                        0, 3, 1000, 1002, used, &index, &place);
}

int main(void)
{
    const int64_t four[] = {0, 1, 2, 3}, one[] = {1}, last[] = {4};
    uint64_t used, start, size, place;

    /* four sectors come from the factory; the fifth is not written */
    if (create(factory, sizeof factory, &factory_used) != 0 ||
        commit(factory, sizeof factory, &factory_used, four, 4, "kickclaptomshats") != 0)
        return 1;
    printf("made at the factory: %" PRIu64 " bytes\n", factory_used);

    /* nothing is changed yet: all comes from the factory disc */
    if (create(changes, sizeof changes, &changes_used) != 0)
        return 1;
    show("nothing changed");

    /* address 1 is then the changes' own. A commit never searches the factory disc: "kick" is stored once more */
    if (commit(changes, sizeof changes, &changes_used, one, 1, "rims") != 0 ||
        commit(changes, sizeof changes, &changes_used, last, 1, "kick") != 0)
        return 1;
    show("two sectors changed");

    /* both on one new disc, on which equal sectors are stored once. It needs no parent, and reads the same */
    if (flatten(sizeof whole, &used) != 0)
        return 1;
    printf("flattened: %" PRIu64 " bytes\n", used);
    for (int64_t address = 0; address < 6; address++) {
        uint32_t number = aaru_locate(whole, used, address, &start, &size, &place);

        if (number == 0)
            printf("  %" PRId64 " \"%.*s\" at %" PRIu64 "\n", address, (int)size, (const char *)whole + start, start);
        else
            printf("  %" PRId64 " refused with %" PRIu32 "\n", address, number);
    }
    printf("into a byte less: refused with %" PRIu32 "\n", flatten(used - 1, &used));

    /* a byte of the factory disc's block, which stands at 229, is damaged: what the changes have still reads */
    factory[265] = 'X';
    show("a damaged factory disc");
    printf("flattened: refused with %" PRIu32 "\n", flatten(sizeof whole, &used));
    return 0;
}
