/*
 * Calls the library with every slice that it is lent next to memory that faults. That a call reads and writes only what
 * it was lent is proved of the language's machine; this sees it of the machine code.
 *
 * Each slice has pages of its own between two unmapped ones, and each call is made with all its slices on each of the
 * three sides below. Images are lent at every length, buffers with every room. Beside that no call faults, it is
 * checked that what is refused changes nothing, and that a call is accepted exactly from the length on that aaru.h
 * says.
 *
 * A new call gets a function like `sector_count`, which lends its slices, makes the call and says what has to hold, and
 * a line in `every_length` or in `main`. `bindings/test` runs this at the repository's root.
 */
#define _DEFAULT_SOURCE /* for MAP_ANONYMOUS */
#include <inttypes.h>
#include <signal.h>
#include <stdio.h>
#include <stdlib.h>
#include <string.h>
#include <sys/mman.h>
#include <unistd.h>

#include "aaru.h"

enum {
    MOST = 16384, /* bytes between two unmapped pages, a multiple of the page */
    HEADER = 104,
    INDEX = 20,
    INDEX_ENTRY = 16,
    BLOCK = 36,
    NAME = 64,
    SIZE = 5, /* of the sectors of built images */
    CREATED = 189, /* a created image, but for its table's entries of 8 bytes */
    TIME = 7
};

#define LENGTH(array) (sizeof(array) / sizeof *(array))

/* Where a slice lies: up to the unmapped page behind it, from the one before it on, or one byte later than that, at an
 * odd address (numbers: not at a multiple of 16). */
static enum side { ENDS, STARTS, ODD, SIDES } side;

/* What is tried, for messages. */
static const char *call, *image_name;
static size_t lent_length;
static unsigned long calls;

static void say(const char *verdict, const char *what)
{
    static const char *const sides[] = {"ending before", "starting after", "one on from"};

    printf("guard: %s on %s, %zu bytes %s an unmapped page: %s%s\n", call, image_name, lent_length, sides[side],
           verdict, what);
    fflush(stdout);
}

static void expect(int holds, const char *what)
{
    if (holds)
        return;
    say("not ", what);
    exit(1);
}

/* Says in which call, and lets the fault kill. */
static void on_fault(int number)
{
    signal(number, SIG_DFL);
    say("a fault", "");
}

/* Lending */

/* What lies between two unmapped pages. */
struct pages {
    uint8_t *low, *high;
};

static struct pages image_pages, parent_pages, name_pages, address_pages, sector_pages, first_pages, second_pages,
    third_pages, place_pages;

static void map_pages(struct pages *pages)
{
    size_t page = (size_t)sysconf(_SC_PAGESIZE);
    uint8_t *unmapped = mmap(NULL, MOST + 2 * page, PROT_NONE, MAP_PRIVATE | MAP_ANONYMOUS, -1, 0);

    if (unmapped == MAP_FAILED || mprotect(unmapped + page, MOST, PROT_READ | PROT_WRITE) != 0) {
        perror("guard: no pages");
        exit(2);
    }
    pages->low = unmapped + page;
    pages->high = pages->low + MOST;
}

/* The bytes at the present side of their pages. `width` is that of an element, to which it stays aligned. */
static void *lend(const struct pages *pages, const void *bytes, size_t length, size_t width)
{
    uint8_t *at = side == ENDS ? pages->high - length : side == STARTS ? pages->low : pages->low + width;

    memcpy(at, bytes, length);
    return at;
}

/* The numbers behind a call's last pointers. A call that answers one number has no second, and few have a third. */
struct numbers {
    uint64_t *first, *second, *third, *place;
};

static const uint64_t MARK = 0x0123456789ABCDEF;

static struct numbers lend_numbers(void)
{
    struct numbers numbers;

    numbers.first = lend(&first_pages, &MARK, sizeof MARK, sizeof MARK);
    numbers.second = lend(&second_pages, &MARK, sizeof MARK, sizeof MARK);
    numbers.third = NULL;
    numbers.place = lend(&place_pages, &MARK, sizeof MARK, sizeof MARK);
    return numbers;
}

/* Of every call: refused, it sets its place and no other number; accepted, all others. */
static uint32_t answered(uint32_t number, struct numbers numbers)
{
    calls++;
    expect((*numbers.first == MARK) == (number != 0), "a first number set exactly if accepted");
    expect(numbers.second == NULL || (*numbers.second == MARK) == (number != 0),
           "a second number set exactly if accepted");
    expect(numbers.third == NULL || (*numbers.third == MARK) == (number != 0),
           "a third number set exactly if accepted");
    expect((*numbers.place == MARK) == (number == 0), "a place set exactly if refused");
    return number;
}

static int same(const uint8_t *bytes, const uint8_t *others, size_t from, size_t to)
{
    return memcmp(bytes + from, others + from, to - from) == 0;
}

/* Images */

/* An index, and the least length of the image that opens there. */
struct point {
    uint64_t index;
    size_t opens;
};

/* What an export does about a sector that is not written: it writes zeros, or is refused. */
enum rule { PLAIN, EXACT, RULES };

struct image {
    const char *name;
    uint64_t sectors;
    int64_t lowest;
    size_t blocks;          /* how many its index names */
    uint32_t commit;        /* how a commit is answered that has room enough */
    uint32_t export[RULES]; /* how an export is, by each rule */
    uint64_t gaps;          /* of a built image, how many sectors are not written */
    struct point points[3]; /* the one that the header names, then earlier ones */
    size_t length;
    uint8_t bytes[MOST];
};

/* The first two are read, the next two made by the library. These all end with their index, so that a cut image never
 * gets far; in the others, which are built, the index stands first and a table or a block ends the image. Payloads from
 * 128 bytes on are summed in another way than shorter ones. */
static struct image images[] = {
    {.name = "samples/takes.aaruf", .sectors = 16, .blocks = 4, .commit = 27, .export = {27, 21}},
    {.name = "samples/second-table.aaruf", .sectors = 12, .lowest = -3, .blocks = 3, .commit = 74, .export = {73, 21}},
    {.name = "a created disc", .sectors = 16, .export = {21, 21}},
    {.name = "a disc of two takes", .sectors = 16, .blocks = 2, .export = {40, 21}},
    {.name = "'DDT*', a table last", .sectors = 6, .blocks = 1},
    {.name = "'DDT*', a block last", .sectors = 6, .blocks = 1},
    {.name = "'DDT*', a long table last", .sectors = 33, .blocks = 1},
    {.name = "'DDT*', a long block last", .sectors = 33, .blocks = 1},
    {.name = "'DDT2', a table last", .sectors = 8, .lowest = -2, .blocks = 1, .commit = 74},
    {.name = "'DDT2', a block last", .sectors = 8, .lowest = -2, .blocks = 1, .commit = 74},
    {.name = "'DDT2', a long table last", .sectors = 33, .lowest = -2, .blocks = 1, .commit = 74},
    {.name = "'DDT2', a long block last", .sectors = 33, .lowest = -2, .blocks = 1, .commit = 74},
    {.name = "'DDT*', gaps, a table last", .sectors = 6, .blocks = 1, .export = {0, 21}, .gaps = 2},
    {.name = "'DDT*', gaps, a long block last", .sectors = 33, .blocks = 1, .export = {0, 21}, .gaps = 9},
    {.name = "'DDT2', gaps, a long table last", .sectors = 33, .lowest = -2, .blocks = 1, .commit = 74,
     .export = {0, 21}, .gaps = 9},
    {.name = "'DDT2', gaps, a block last", .sectors = 8, .lowest = -2, .blocks = 1, .commit = 74, .export = {0, 21},
     .gaps = 2},
};

static const uint8_t application[NAME] = "g\0u\0a\0r\0d";

static void must(int holds, const char *what)
{
    if (!holds) {
        printf("guard: %s\n", what);
        exit(2);
    }
}

static void read_sample(struct image *image)
{
    FILE *file = fopen(image->name, "rb");

    must(file != NULL, "a sample is missing");
    image->length = fread(image->bytes, 1, sizeof image->bytes, file);
    image->points[0].opens = image->length;
    memcpy(&image->points[0].index, image->bytes + 80, 8);
    fclose(file);
}

/* A disc as the library makes it; its takes are of two sectors each, 5 and 7 bytes long. */
static void make_disc(struct image *image)
{
    static const int64_t takes[2][2] = {{0, 5}, {3, 15}};
    const uint8_t *sectors = (const uint8_t *)"AAAAAAABBBBBBB";
    struct point *point = image->points + image->blocks;
    uint64_t used, place;
    uint32_t number = aaru_create(image->bytes, MOST, image->sectors, application, NAME, 1, 0, 3, TIME, TIME, &used,
                                  &point->index, &place);

    must(number == 0, "no disc made");
    point->opens = used;
    for (size_t take = 0; take < image->blocks; take++) {
        size_t size = 5 + 2 * take;

        point--;
        number = aaru_commit(image->bytes, MOST, used, takes[take], 2, size, sectors, 2 * size, TIME, &used,
                             &point->index, &place);
        must(number == 0, "no take committed");
        point->opens = used;
    }
    image->length = used;
}

/* CRC-64/XZ. */
static uint64_t checksum(const uint8_t *bytes, size_t length)
{
    uint64_t sum = UINT64_MAX;

    for (size_t at = 0; at < length; at++) {
        sum ^= bytes[at];
        for (int bit = 0; bit < 8; bit++)
            sum = sum & 1 ? sum >> 1 ^ 0xC96C5795D7870F42 : sum >> 1;
    }
    return ~sum;
}

/* The machine is little-endian, as the format is. */
static void put(uint8_t *at, size_t width, uint64_t value)
{
    memcpy(at, &value, width);
}

/* Both checksums of a record, which end its header. */
static void put_sums(uint8_t *payload, size_t length)
{
    put(payload - 16, 8, checksum(payload, length));
    put(payload - 8, 8, checksum(payload, length));
}

static size_t block_length(const struct image *image)
{
    return BLOCK + SIZE * image->sectors;
}

/* A block of as many sectors as the image has. */
static void put_block(uint8_t *at, const struct image *image)
{
    size_t length = SIZE * image->sectors;

    memcpy(at, "DBLK", 4);
    put(at + 4, 2, 1);
    put(at + 8, 4, SIZE);
    put(at + 12, 4, length);
    put(at + 16, 4, length);
    for (size_t i = 0; i < length; i++)
        at[BLOCK + i] = (uint8_t)i;
    put_sums(at + BLOCK, length);
}

static size_t table_length(const struct image *image)
{
    return image->lowest == 0 ? 49 + 8 * image->sectors : 82 + 4 * image->sectors;
}

/* Whether a built image's sector is not written: if it has gaps, every fourth from the lowest on. */
static int is_gap(const struct image *image, uint64_t entry)
{
    return image->gaps > 0 && entry % 4 == 0;
}

/* The entry with a pointer, or one of a gap. 'DDT2' has a status beside the pointer, of which 0 makes a gap. */
static uint64_t entry_of(const struct image *image, uint64_t entry, uint64_t pointer)
{
    if (image->lowest == 0)
        return is_gap(image, entry) ? 0 : pointer;
    return is_gap(image, entry) ? pointer : pointer + (1u << 28);
}

/* A table, of the second kind if the image has negative addresses, each entry of which names its item of a block, but
 * for gaps. */
static void put_table(uint8_t *at, const struct image *image, size_t block)
{
    int second = image->lowest != 0;
    size_t header = second ? 82 : 49, width = second ? 4 : 8, shift = 6;
    uint64_t length = width * image->sectors;

    memcpy(at, second ? "DDT2" : "DDT*", 4);
    put(at + 4, 2, 1);
    if (second) {
        put(at + 8, 1, 1); /* levels */
        put(at + 18, 2, (uint64_t)-image->lowest);
        put(at + 20, 8, image->sectors);
    }
    put(at + (second ? 39 : 8), 1, shift);
    put(at + header - 40, 8, image->sectors);
    put(at + header - 32, 8, length);
    put(at + header - 24, 8, length);
    for (uint64_t entry = 0; entry < image->sectors; entry++)
        put(at + header + width * entry, width, entry_of(image, entry, (block << shift) + entry));
    put_sums(at + header, length);
}

/* An index of a table and a block, right behind the header. */
static void put_index(uint8_t *image, size_t table, size_t block)
{
    const size_t offsets[] = {table, block};
    uint8_t *index = image + HEADER, *entries = index + INDEX;

    memcpy(index, "IDX2", 4);
    put(index + 4, 8, LENGTH(offsets));
    for (size_t i = 0; i < LENGTH(offsets); i++) {
        memcpy(entries + INDEX_ENTRY * i, image + offsets[i], 4);
        put(entries + INDEX_ENTRY * i + 4, 4, 1);
        put(entries + INDEX_ENTRY * i + 8, 8, offsets[i]);
    }
    put(index + 12, 8, checksum(entries, INDEX_ENTRY * LENGTH(offsets)));
}

static void build(struct image *image, int table_last)
{
    size_t first = HEADER + INDEX + 2 * INDEX_ENTRY;
    size_t table = table_last ? first + block_length(image) : first;
    size_t block = table_last ? first : first + table_length(image);

    memcpy(image->bytes, "AARUFRMT", 8);
    put(image->bytes + 72, 1, 2); /* the major version */
    put(image->bytes + 80, 8, HEADER);
    put_table(image->bytes + table, image, block);
    put_block(image->bytes + block, image);
    put_index(image->bytes, table, block);
    image->length = first + table_length(image) + block_length(image);
    image->points[0].index = HEADER;
    image->points[0].opens = table_last ? image->length : block + 4; /* of a block opening looks at the letters alone */
}

/* Calls on an image's first bytes. What they lend has the image's length, unless they say otherwise. */

static void sector_count(const struct image *image, size_t length)
{
    const uint8_t *lent = lend(&image_pages, image->bytes, length, 1);
    struct numbers numbers = lend_numbers();
    uint32_t number;

    call = "aaru_sector_count";
    number = aaru_sector_count(lent, length, numbers.first, (int64_t *)numbers.second, numbers.place);
    answered(number, numbers);
    expect((number == 0) == (length >= image->points[0].opens), "accepted exactly if it opens");
    expect((number == 1) == (length < HEADER), "refused with 1 exactly if it has no header");
    if (number == 0) {
        expect(*numbers.first == image->sectors, "its number of sectors");
        expect(*(int64_t *)numbers.second == image->lowest, "its lowest address");
    }
    expect(same(lent, image->bytes, 0, length), "an image left as it was");
}

/* Address 5 can be read on every image but a created one, which has no block. */
static void locate(const struct image *image, size_t length)
{
    static const int64_t addresses[] = {INT64_MIN, -4, -3, -1, 0, 4, 5, 12, 15, 16, INT64_MAX};

    call = "aaru_locate";
    for (size_t i = 0; i < LENGTH(addresses); i++) {
        const uint8_t *lent = lend(&image_pages, image->bytes, length, 1);
        struct numbers numbers = lend_numbers();
        uint32_t number = aaru_locate(lent, length, addresses[i], numbers.first, numbers.second, numbers.place);

        answered(number, numbers);
        expect(number != 0 || length == image->length, "refused if it is cut");
        if (addresses[i] == 5)
            expect((number == 0) == (length == image->length && image->blocks > 0), "accepted exactly if it is whole");
        if (number == 0)
            expect(*numbers.first < length && *numbers.second <= length - *numbers.first, "a sector inside the image");
        expect(same(lent, image->bytes, 0, length), "an image left as it was");
    }
}

/* The flat file of a built image is its block's payload, with zeros in gaps: every other entry names its item. */
static size_t flat_length(const struct image *image)
{
    return SIZE * image->sectors;
}

static uint8_t flat_byte(const struct image *image, size_t at)
{
    return is_gap(image, at / SIZE) ? 0 : (uint8_t)at;
}

/* The exact one answers one number. */
static uint32_t call_export(enum rule rule, const uint8_t *image, size_t used, uint8_t *out, size_t room,
                            struct numbers numbers)
{
    if (rule == EXACT) {
        call = "aaru_export_exact";
        return aaru_export_exact(image, used, out, room, numbers.first, numbers.place);
    }
    call = "aaru_export";
    return aaru_export(image, used, out, room, numbers.first, numbers.second, numbers.place);
}

/* An export of the image's first bytes to so many others. */
static void export_by(enum rule rule, const struct image *image, size_t length, size_t room)
{
    static uint8_t before[MOST];
    const uint8_t *lent = lend(&image_pages, image->bytes, length, 1);
    struct numbers numbers = lend_numbers();
    size_t file = flat_length(image);
    uint8_t *out;
    uint32_t number, whole = image->export[rule] != 0 ? image->export[rule] : room < file ? 41 : 0;

    memset(before, 0xA5, room);
    out = lend(&sector_pages, before, room, 1);
    if (rule == EXACT)
        numbers.second = NULL;
    number = call_export(rule, lent, length, out, room, numbers);
    answered(number, numbers);
    if (length == image->length)
        expect(number == whole, "as the image and the room are");
    else
        expect(number != 0 && number != 41, "refused for the image if it is cut");
    if (number == 0) {
        expect(*numbers.first == file, "the file's length");
        expect(rule == EXACT || *numbers.second == image->gaps, "as many filled as there are gaps");
        for (size_t i = 0; i < file; i++)
            expect(out[i] == flat_byte(image, i), "the sectors one after another, with zeros in gaps");
    }
    expect(same(out, before, number == 0 ? file : 0, room), "bytes behind the file, or all, left as they were");
    expect(same(lent, image->bytes, 0, length), "an image left as it was");
}

static void export_to(const struct image *image, size_t length, size_t room)
{
    export_by(PLAIN, image, length, room);
    export_by(EXACT, image, length, room);
}

static void export(const struct image *image, size_t length)
{
    export_to(image, length, 0);
    export_to(image, length, flat_length(image));
}

/* The whole image, to every number of bytes. */
static void exports(const struct image *image)
{
    for (size_t room = 0; room <= flat_length(image) + 9; room++)
        export_to(image, image->length, room);
}

/* Pairs of a child and its parent, each cut to a length. Where they are one image, it is lent once, as both. */

struct pair {
    const struct image *child, *parent;
    size_t child_length, parent_length;
};

static void lend_pair(struct pair pair, const uint8_t **child, const uint8_t **parent)
{
    int one = pair.child == pair.parent && pair.child_length == pair.parent_length;

    *child = lend(&image_pages, pair.child->bytes, pair.child_length, 1);
    *parent = one ? *child : lend(&parent_pages, pair.parent->bytes, pair.parent_length, 1);
}

static void expect_pair_kept(struct pair pair, const uint8_t *child, const uint8_t *parent)
{
    expect(same(child, pair.child->bytes, 0, pair.child_length), "a child left as it was");
    expect(same(parent, pair.parent->bytes, 0, pair.parent_length), "a parent left as it was");
}

/* What aaru_locate answers for each of the two says what the pair answers. */
struct place_over {
    uint64_t which, start, size, place;
};

static uint32_t locate_each(struct pair pair, int64_t address, struct place_over *over)
{
    uint32_t number = aaru_locate(pair.child->bytes, pair.child_length, address, &over->start, &over->size,
                                  &over->place);

    over->which = 0;
    if (number != 21)
        return number;
    over->which = 1;
    number = aaru_locate(pair.parent->bytes, pair.parent_length, address, &over->start, &over->size, &over->place);
    return number == 0 ? 0 : number == 20 || number == 21 ? 21 : number + 100;
}

static void locate_over(struct pair pair)
{
    static const int64_t addresses[] = {INT64_MIN, -1, 0, 5, 15};
    const uint8_t *child, *parent;

    call = "aaru_locate_over";
    for (size_t i = 0; i < LENGTH(addresses); i++) {
        struct numbers numbers = lend_numbers();
        struct place_over over;
        uint32_t number;

        lend_pair(pair, &child, &parent);
        numbers.third = lend(&third_pages, &MARK, sizeof MARK, sizeof MARK);
        number = aaru_locate_over(child, pair.child_length, parent, pair.parent_length, addresses[i], numbers.first,
                                  numbers.second, numbers.third, numbers.place);
        answered(number, numbers);
        expect(number == locate_each(pair, addresses[i], &over), "as the two answer");
        if (number != 0) {
            expect(*numbers.place == over.place, "the place that one of the two answers");
        } else {
            expect(*numbers.first == over.which, "the image that has it");
            expect(*numbers.second == over.start && *numbers.third == over.size, "where that image has it");
        }
        expect_pair_kept(pair, child, parent);
    }
}

/* What creating and then one commit of what the pair has leave in a buffer, and their answers; or how it is refused,
 * whatever the buffer. */
static uint32_t make_flattened(struct pair pair, uint8_t *buffer, uint64_t *used, uint64_t *index, uint64_t *place)
{
    static uint8_t bytes[MOST];
    static int64_t addresses[64];
    uint64_t sectors, size = 0;
    int64_t lowest;
    size_t count = 0;
    int mixed = 0;
    uint32_t number = aaru_sector_count(pair.child->bytes, pair.child_length, &sectors, &lowest, place);

    if (number != 0)
        return number;
    *place = 0;
    if (pair.child->commit == 74)
        return 74;
    for (int64_t address = 0; address < (int64_t)sectors; address++) {
        struct place_over over;

        number = locate_each(pair, address, &over);
        if (number == 21)
            continue;
        *place = over.place;
        if (number != 0)
            return number;
        mixed |= count > 0 && over.size != size;
        size = over.size;
        if (!mixed)
            memcpy(bytes + count * size, (over.which ? pair.parent : pair.child)->bytes + over.start, size);
        addresses[count++] = address;
    }
    *place = 0;
    if (mixed)
        return 40;
    number = aaru_create(buffer, MOST, sectors, application, NAME, 1, 0, 3, TIME, TIME + 1, used, index, place);
    if (number == 0 && count > 0)
        number = aaru_commit(buffer, MOST, *used, addresses, count, size, bytes, count * size, TIME + 1, used, index,
                             place);
    must(number == 0, "no disc made of a pair");
    return 0;
}

/* Answers how many bytes are needed, or 0 for a pair that is refused in every buffer. */
static size_t flatten(struct pair pair, size_t length, size_t name_length)
{
    static uint8_t before[MOST], made[MOST], name[2 * NAME];
    uint64_t used = 0, index = 0, place = 0;
    const uint8_t *child, *parent, *lent_name;
    uint8_t *buffer;
    struct numbers numbers = lend_numbers();
    uint32_t number, expected = make_flattened(pair, made, &used, &index, &place);
    size_t needed = expected == 0 ? used : 0;

    if (name_length != NAME || length < needed) {
        expected = name_length != NAME ? 33 : 35;
        place = 0;
    }
    memset(before, 0xA5, length);
    memcpy(name, application, NAME);
    lend_pair(pair, &child, &parent);
    buffer = lend(&sector_pages, before, length, 1);
    lent_name = lend(&name_pages, name, name_length, 1);
    call = "aaru_flatten";
    number = aaru_flatten(buffer, length, child, pair.child_length, parent, pair.parent_length, lent_name, name_length,
                          1, 0, 3, TIME, TIME + 1, numbers.first, numbers.second, numbers.place);
    answered(number, numbers);
    expect(number == expected, "as the pair, the length and the name are");
    if (number != 0) {
        expect(*numbers.place == place, "the place of its refusal");
        expect(same(buffer, before, 0, length), "a buffer left as it was");
    } else {
        expect(*numbers.first == used && *numbers.second == index, "the length and index that it has to have");
        expect(same(buffer, made, 0, used), "as creating and one commit leave the buffer");
        expect(same(buffer, before, used, length), "bytes behind the image left as they were");
    }
    expect_pair_kept(pair, child, parent);
    expect(memcmp(lent_name, name, name_length) == 0, "a name left as it was");
    return needed;
}

/* The image's first bytes as the child and the parent in one, as a child, and as the parent of a disc that has nothing
 * written. */
static void over(const struct image *image, size_t length)
{
    const struct image *full = &images[7], *empty = &images[2];
    const struct pair pairs[] = {
        {image, image, length, length}, {image, full, length, full->length}, {empty, image, empty->length, length}};

    for (size_t i = 0; i < LENGTH(pairs); i++) {
        locate_over(pairs[i]);
        flatten(pairs[i], 1000, NAME);
    }
}

/* The image over every other: into just what is needed and into a byte less; over itself and one more into every
 * number of bytes, and with names of every length. */
static void flattenings(const struct image *image)
{
    for (size_t i = 0; i < LENGTH(images); i++) {
        const struct pair pair = {image, &images[i], image->length, images[i].length};
        size_t needed = flatten(pair, MOST / 2, NAME);

        if (needed == 0)
            continue;
        flatten(pair, needed, NAME);
        flatten(pair, needed - 1, NAME);
        if (image != &images[i] && i != 12)
            continue;
        for (size_t length = 0; length <= needed + 9; length++)
            flatten(pair, length, NAME);
        for (size_t length = 0; length <= 2 * NAME; length++)
            flatten(pair, needed, length);
    }
}

/* What stands below the end may change in two fields of the header alone. */
static void expect_kept(const uint8_t *buffer, const uint8_t *before, size_t used)
{
    expect(same(buffer, before, 0, 80) && same(buffer, before, 88, 96), "a header kept but for two fields");
    expect(same(buffer, before, HEADER, used), "an image kept behind its header");
}

static int opens_at(const struct image *image, size_t length, uint64_t offset)
{
    for (size_t i = 0; i < LENGTH(image->points); i++)
        if (offset != 0 && offset == image->points[i].index)
            return length >= image->points[i].opens;
    return 0;
}

static void rollback_to(const struct image *image, size_t length, uint64_t used, uint64_t offset)
{
    uint8_t *lent = lend(&image_pages, image->bytes, length, 1);
    struct numbers numbers = lend_numbers();
    uint32_t number = aaru_rollback(lent, length, used, offset, TIME, numbers.first, numbers.second, numbers.place);
    int accepted = used == length && opens_at(image, length, offset) && image->commit != 74;

    answered(number, numbers);
    expect((number == 0) == accepted, "accepted exactly if the image opens at the offset");
    expect((number == 32) == (used > length), "refused with 32 exactly if `used` exceeds the buffer");
    if (number != 0) {
        expect(same(lent, image->bytes, 0, length), "a buffer left as it was");
        return;
    }
    expect(*numbers.first == used && *numbers.second == offset, "the same length, at the offset");
    expect_kept(lent, image->bytes, length);
}

static void rollback(const struct image *image, size_t length)
{
    const struct point *points = image->points;
    const uint64_t offsets[] = {0, HEADER, length / 2, length - INDEX, length, UINT64_MAX};

    call = "aaru_rollback";
    for (size_t i = 0; i < LENGTH(offsets); i++)
        rollback_to(image, length, length, offsets[i]);
    for (size_t i = 0; i < LENGTH(image->points); i++)
        rollback_to(image, length, length, points[i].index);
    rollback_to(image, length, (uint64_t)length + 1, points[0].index);
    rollback_to(image, length, UINT64_MAX, points[0].index);
}

/* Commits */

/* `count` sectors of `size` bytes, for the first addresses. */
struct take {
    size_t count, size;
};

static const struct take takes[] = {{0, 1}, {1, 1}, {2, 3}, {3, 16}, {6, 3}, {2, 512}, {1, 1023}};

/* How many bytes a commit appends, where no sector is on the disc already: a block, a table and an index. */
static size_t needed(const struct image *image, struct take take)
{
    size_t block = take.count > 0 ? BLOCK + take.count * take.size + INDEX_ENTRY : 0;

    return block + 49 + 8 * image->sectors + INDEX + INDEX_ENTRY * (image->blocks + 1);
}

/* What is handed in: the first addresses, and sectors that all differ; those on the discs are of other sizes. For
 * imports, also sectors that are all equal. */
static int64_t addresses_handed[32];
static uint8_t sectors_handed[2048], equal_handed[2048];

static void expect_committed(const uint8_t *buffer, const uint8_t *before, size_t used, size_t whole, size_t new_used,
                             struct take take)
{
    expect_kept(buffer, before, used);
    expect(same(buffer, before, new_used, whole), "bytes behind the new end kept");
    for (size_t i = 0; i < take.count; i++) {
        uint64_t start, size, place;
        uint32_t number = aaru_locate(buffer, new_used, addresses_handed[i], &start, &size, &place);

        expect(number == 0 && size == take.size, "a sector to read");
        expect(memcmp(buffer + start, sectors_handed + i * size, size) == 0, "a sector as handed in");
    }
}

/* A commit to the image's first bytes, with room behind them; `handed` is how many bytes of sectors. */
static uint32_t commit_with(const struct image *image, size_t length, size_t room, struct take take, size_t handed)
{
    static uint8_t before[MOST];
    size_t whole = length + room;
    uint8_t *buffer;
    size_t list = take.count * sizeof *addresses_handed;
    const int64_t *addresses = lend(&address_pages, addresses_handed, list, sizeof *addresses_handed);
    const uint8_t *sectors = lend(&sector_pages, sectors_handed, handed, 1);
    struct numbers numbers = lend_numbers();
    uint32_t number;

    memcpy(before, image->bytes, length);
    memset(before + length, 0xA5, room);
    buffer = lend(&image_pages, before, whole, 1);
    call = "aaru_commit";
    lent_length = whole;
    number = aaru_commit(buffer, whole, length, addresses, take.count, take.size, sectors, handed, TIME, numbers.first,
                         numbers.second, numbers.place);
    answered(number, numbers);
    if (number != 0) {
        expect(same(buffer, before, 0, whole), "a buffer left as it was");
    } else {
        expect(*numbers.first == length + needed(image, take), "the length that is needed");
        expect(*numbers.second < *numbers.first, "an index inside the image");
        expect_committed(buffer, before, length, whole, *numbers.first, take);
    }
    expect(memcmp(addresses, addresses_handed, list) == 0, "addresses left as they were");
    expect(memcmp(sectors, sectors_handed, handed) == 0, "sectors left as they were");
    return number;
}

/* Without room nothing can be committed. */
static void commit(const struct image *image, size_t length)
{
    const struct take take = {2, 3};

    expect(commit_with(image, length, 0, take, 6) != 0, "refused without room");
}

/* Every room, to a little more than what is needed. */
static void rooms(const struct image *image)
{
    for (size_t i = 0; i < LENGTH(takes); i++) {
        size_t bytes = takes[i].count * takes[i].size, most = needed(image, takes[i]);

        for (size_t room = 0; room <= most + 9; room++) {
            uint32_t expected = image->commit != 0 ? image->commit : room < most ? 35 : 0;

            expect(commit_with(image, image->length, room, takes[i], bytes) == expected, "as the room is");
        }
    }
}

/* Every number of addresses, with every number of bytes and just enough room. */
static void lists(const struct image *image)
{
    for (size_t count = 0; count <= 6; count++)
        for (size_t bytes = 0; bytes <= 6 * 3 + 2; bytes++) {
            const struct take take = {count, 3};
            size_t room = needed(image, take);
            uint32_t expected = bytes != 3 * count ? 33 : image->commit;

            expect(commit_with(image, image->length, room, take, bytes) == expected, "as the bytes' number is");
        }
}

/* Creations */

static void create(size_t length, uint64_t sectors, size_t name_length, uint32_t expected)
{
    static uint8_t before[MOST], name[2 * NAME];
    uint8_t *buffer;
    const uint8_t *lent_name;
    struct numbers numbers = lend_numbers();
    size_t used = CREATED + 8 * sectors;
    uint32_t number;

    memset(before, 0xA5, length);
    memcpy(name, application, NAME);
    buffer = lend(&image_pages, before, length, 1);
    lent_name = lend(&name_pages, name, name_length, 1);
    call = "aaru_create";
    lent_length = length;
    number = aaru_create(buffer, length, sectors, lent_name, name_length, 1, 0, 3, TIME, TIME, numbers.first,
                         numbers.second, numbers.place);
    expect(answered(number, numbers) == expected, "as length, sectors and name are");
    expect(same(buffer, before, number == 0 ? used : 0, length), "bytes behind the image, or all, left as they were");
    expect(memcmp(lent_name, name, name_length) == 0, "a name left as it was");
    if (number == 0) {
        expect(*numbers.first == used && *numbers.second < used, "its length and index");
        expect(memcmp(buffer + 8, name, NAME) == 0, "its name stored");
    }
}

static void creations(void)
{
    static const uint64_t counts[] = {1, 2, 3, 16, 65};

    image_name = "no image";
    for (size_t i = 0; i < LENGTH(counts); i++) {
        size_t most = CREATED + 8 * counts[i];

        for (size_t length = 0; length <= most + 9; length++) {
            create(length, counts[i], NAME, length < most ? 35 : 0);
            create(length, 0, NAME, 30);
            create(length, 1048577, NAME, 30);
        }
    }
    for (size_t length = 0; length <= 2 * NAME; length++)
        create(300, 3, length, length == NAME ? 0 : 33);
}

/* Imports */

/* What an import is handed: a flat file of sectors of a size, and a name. */
struct file {
    const uint8_t *bytes;
    size_t length, size, name_length;
};

/* What creating and then one commit of all sectors leave in a buffer, and the commit's answers. */
static size_t make_imported(uint8_t *buffer, size_t length, struct file file, uint64_t *index)
{
    size_t count = file.length / file.size;
    uint64_t used, place;
    uint32_t number = aaru_create(buffer, length, count, application, NAME, 1, 0, 3, TIME, TIME + 1, &used, index,
                                  &place);

    if (number == 0)
        number = aaru_commit(buffer, length, used, addresses_handed, count, file.size, file.bytes, file.length,
                             TIME + 1, &used, index, &place);
    must(number == 0, "no disc made of a file");
    return used;
}

static void import(size_t length, struct file file, uint32_t expected)
{
    static uint8_t before[MOST], made[MOST], name[2 * NAME];
    uint8_t *buffer;
    const uint8_t *flat = lend(&sector_pages, file.bytes, file.length, 1), *lent_name;
    struct numbers numbers = lend_numbers();
    uint32_t number;

    memset(before, 0xA5, length);
    memcpy(made, before, length);
    memcpy(name, application, NAME);
    buffer = lend(&image_pages, before, length, 1);
    lent_name = lend(&name_pages, name, file.name_length, 1);
    call = "aaru_import";
    lent_length = length;
    number = aaru_import(buffer, length, flat, file.length, file.size, lent_name, file.name_length, 1, 0, 3, TIME,
                         TIME + 1, numbers.first, numbers.second, numbers.place);
    expect(answered(number, numbers) == expected, "as length, file and name are");
    if (number == 0) {
        uint64_t index;
        size_t used = make_imported(made, length, file, &index);

        expect(*numbers.first == used && *numbers.second == index, "the commit's length and index");
    }
    expect(same(buffer, made, 0, length), "as creating and one commit leave the buffer, or as it was");
    expect(memcmp(flat, file.bytes, file.length) == 0, "a file left as it was");
    expect(memcmp(lent_name, name, file.name_length) == 0, "a name left as it was");
}

static void imports(void)
{
    static const uint8_t *const contents[] = {sectors_handed, equal_handed};
    static uint8_t scratch[MOST];

    image_name = "a flat file";
    for (size_t i = 0; i < 2 * LENGTH(takes); i++) {
        struct take take = takes[i / 2];
        struct file file = {contents[i % 2], take.count * take.size, take.size, NAME};
        uint64_t index;
        size_t most = take.count > 0 ? make_imported(scratch, MOST, file, &index) : 300;

        for (size_t length = 0; length <= most + 9; length++)
            import(length, file, take.count == 0 ? 30 : length < most ? 35 : 0);
    }
    for (size_t bytes = 0; bytes <= 6 * 3 + 2; bytes++) {
        struct file file = {sectors_handed, bytes, 3, NAME};

        import(700, file, bytes == 0 ? 30 : bytes % 3 != 0 ? 42 : 0);
        file.size = 0;
        import(700, file, 30);
        file.size = 65537;
        import(700, file, 30);
    }
    for (size_t length = 0; length <= 2 * NAME; length++) {
        struct file file = {sectors_handed, 6, 3, length};

        import(700, file, length == NAME ? 0 : 33);
    }
}

static void every_length(const struct image *image)
{
    for (size_t length = 0; length <= image->length; length++) {
        lent_length = length;
        sector_count(image, length);
        locate(image, length);
        rollback(image, length);
        commit(image, length);
        export(image, length);
        over(image, length);
    }
}

static void prepare(void)
{
    struct pages *const all[] = {&image_pages, &parent_pages, &name_pages,  &address_pages, &sector_pages,
                                 &first_pages, &second_pages, &third_pages, &place_pages};

    for (size_t i = 0; i < LENGTH(all); i++)
        map_pages(all[i]);
    for (size_t i = 0; i < LENGTH(addresses_handed); i++)
        addresses_handed[i] = (int64_t)i;
    for (size_t i = 0; i < sizeof sectors_handed; i++)
        sectors_handed[i] = (uint8_t)(i * 7 + i / 256 + 100);
    memset(equal_handed, 'E', sizeof equal_handed);
    read_sample(&images[0]);
    read_sample(&images[1]);
    make_disc(&images[2]);
    make_disc(&images[3]);
    for (size_t i = 4; i < LENGTH(images); i++)
        build(&images[i], i % 2 == 0);
}

int main(void)
{
    prepare();
    signal(SIGSEGV, on_fault);
    for (side = ENDS; side < SIDES; side++) {
        creations();
        imports();
        for (size_t i = 0; i < LENGTH(images); i++) {
            image_name = images[i].name;
            every_length(&images[i]);
            rooms(&images[i]);
            lists(&images[i]);
            lent_length = images[i].length;
            exports(&images[i]);
            flattenings(&images[i]);
        }
    }
    printf("guard: %lu calls, no fault\n", calls);
    return 0;
}
