/*
 * AaruFormat disc images, read and written by a proved library.
 *
 *     (cd crates/aaru_c && rt lib --cpu=x86-64)
 *     cc program.c -Ibindings/c -Lcrates/aaru_c/out -laaru_c
 *
 * An image is the first `used` bytes of a buffer that the caller lends. A call returns 0 if it is accepted, else the
 * number of the check that refuses it: of all that apply, the first in the order that is said below for each call. No
 * check has the number 0. A refused call sets `*place`, a byte offset in the image that is said below for each number,
 * and changes no other byte behind any pointer. An accepted call leaves `*place` as it is. Numbers in an image may be
 * hostile: every input is answered, and no sum of places wraps.
 *
 * What is proved holds for callers that pass what C's types can't say:
 *   - a pointer beside a length points to so many bytes (in `addresses`: numbers) that may be read and, where it is not
 *     const, written. Where the length is 0 the pointer is not followed and may be null;
 *   - every other pointer points to a number of its own;
 *   - pointers to numbers, and `addresses`, are aligned as their type asks;
 *   - what a call may write, the buffer, an export's `out` and the numbers behind its last pointers, overlaps nothing
 *     else that it is handed, and nobody else reads or writes it during the call. What it only reads may overlap, as a
 *     child that is its own parent, but nobody may write it during the call.
 * The library has no heap and no state of its own; calls on different buffers may run at the same time. Compiled for
 * x86-64, no call takes more than 20 KiB of stack.
 *
 * Checks of the image, made by each call that opens one, in this order. The place is 0 for 1, 2 and 3; for 4, 5, 6, 9
 * and 10 the index's offset as it was read, or handed to aaru_rollback, even past the end; for 7 and 8 that of the
 * index entry; for 11 to 14 the table's offset; for 70 to 72 it is 0. A table is of one of two kinds, by its
 * identifier: 'DDT*', with entries of 8 bytes, or 'DDT2', with entries of 4 bytes.
 *    1  `used` is below 104
 *    2  the header's identifier is neither 'AARUFRMT' nor 'DICMFRMT'
 *    3  the image's major version is not 2
 *    4  the index's offset is below 104, or its header (20 bytes) runs past the end
 *    5  there is no 'IDX2' at the index's offset
 *    4  the index's entries (16 bytes each) run past the end
 *    6  the checksum of the index's entries is wrong
 *    7  an entry's offset is below 104, or offset + 4 lies past the end } for each entry
 *    8  the four bytes there differ from the entry's blockType          } in turn
 *    9  no entry is for a table, of either kind, of data type 1
 *   10  more than one is
 *   11  the table's header (49 bytes; 82 of 'DDT2') runs past the end
 *   13  the table is compressed
 *   70  'DDT2': levels is not 1
 *   71  'DDT2': sizeType is not 0
 *   72  'DDT2': negative and overflow together exceed blocks
 *   12  the table's type is not 1, its shift or alignment is over 32, its length is not 8 x entries (4 x entries of
 *       'DDT2'), or cmpLength is not length
 *   11  the table's payload runs past the end
 *   14  either checksum of the table is wrong
 *
 * Addresses are signed. The lowest is 0 for 'DDT*' and minus the table's `negative` for 'DDT2'; the others follow it.
 * Checks of a sector, in this order. The place is that of the table entry for 22, the block's offset for 23 to 27, and
 * 0 for 20, 21 and 73.
 *   20  the address is below the lowest one, or not below the lowest one + the number of sectors
 *   21  the sector is not written: its entry is 0, or for 'DDT2' has status 0 (not dumped)
 *   73  'DDT2': the entry's status is neither 0 nor 1 (dumped)
 *   22  no index entry for a 'DBLK' block of data type 1 has the byte offset that the table entry names
 *   23  the block's header (36 bytes) runs past the end
 *   24  the block is compressed
 *   25  the block's type is not 1, its sector size is 0, cmpLength is not length, or length is no multiple of the
 *       sector size
 *   23  the block's payload runs past the end
 *   26  the item number is not below length / sector size
 *   27  either checksum of the block is wrong
 *
 * The other checks, 30 to 35, 41 and 42, are of what the caller hands in, not of the image: their place is 0. That of
 * 40 is 0 too, and so is that of
 *   74  the image's table, for aaru_rollback the one that the index at its offset names and for aaru_flatten the
 *       child's, is a 'DDT2': only 'DDT*' is written
 *
 * A disc of changes, the child, may lie over a parent, an image whose sectors stand where the child's are not written.
 * The caller lends both; each may have either kind of table. What refuses the parent has 100 added to its number: 101
 * to 114 and 170 to 172 are its opening's, 122 to 127 and 173 its sector's. Their place is the same as without the 100,
 * and is one in the parent.
 *
 * A flat file is the sectors of a disc by rising address, all of one size, one after another and nothing else.
 */
#ifndef AARU_H
#define AARU_H

#include <stddef.h>
#include <stdint.h>

#ifdef __cplusplus
extern "C" {
#endif

/*
 * How many sectors the image has, `*sectors`, and its lowest address, `*lowest`: its addresses are `*lowest` and those
 * that follow it.
 * Refused with: 1 to 14 and 70 to 72, as above.
 */
uint32_t aaru_sector_count(const uint8_t *image, size_t used, uint64_t *sectors, int64_t *lowest, uint64_t *place);

/*
 * Where the sector at an address lies: it is the `*size` bytes of the image from `*start` on, which lie inside it.
 * Sectors of one disc may differ in size.
 * Refused with: 1 to 14 and 70 to 72, then 20 to 27 and 73, as above.
 */
uint32_t aaru_locate(const uint8_t *image, size_t used, int64_t address, uint64_t *start, uint64_t *size,
                     uint64_t *place);

/*
 * Where the sector at an address of a child over its parent lies: it is the `*size` bytes from `*start` on of the child
 * if `*which` is 0, and of the parent if it is 1, which lie inside that image. The answer is aaru_locate's of the child
 * unless that is 21. Only then is the parent looked at, at the same address. Child and parent may be the same bytes, or
 * overlap.
 * Refused with, in this order:
 *    1 to 14, 70 to 72, 20, 22 to 27 and 73, as above, of the child
 *  101 to 114, 170 to 172, 122 to 127 and 173, as above, of the parent
 *   21  the sector is not written on the child, and on the parent it is not written either or the address is none of
 *       its own
 */
uint32_t aaru_locate_over(const uint8_t *child, size_t child_used, const uint8_t *parent, size_t parent_used,
                          int64_t address, uint64_t *which, uint64_t *start, uint64_t *size, uint64_t *place);

/*
 * Makes a new image at the start of the buffer, of `sectors` sectors that are not written: 189 + 8 x sectors bytes.
 * Later bytes of the buffer stay as they are. `application` is a name of 64 bytes, in AaruFormat 32 units of UTF-16,
 * which are not looked at; major and minor are its version. The name and the two times, `created` and `written`, are
 * stored as they are. `*used` is the image's length, `*index` the offset of its index.
 * Refused with, in this order:
 *   31  the buffer is longer than 4,294,967,296 bytes
 *   30  `sectors` is 0 or over 1,048,576
 *   33  `application_length` is not 64
 *   35  the image would not fit into the buffer
 */
uint32_t aaru_create(uint8_t *buffer, size_t length, uint64_t sectors, const uint8_t *application,
                     size_t application_length, uint8_t major, uint8_t minor, uint32_t media_type, uint64_t created,
                     uint64_t written, uint64_t *used, uint64_t *index, uint64_t *place);

/*
 * Commits one sector to each address of the list: these read as handed in from then on, every other address as before.
 * The sectors are of `sector_size` bytes each and stand one after another in `sectors`, in the order of the addresses.
 * An empty list is allowed. Equal sectors are stored once. What is new is appended at `used`: a data block if any
 * sector is stored, a table, an index. Below `used` only the header's indexOffset and lastWrittenTime (the time handed
 * in) change, and nothing from the new end on. `*new_used` is the image's new length, `*index` the offset of its new
 * index.
 * Refused with, in this order:
 *   31  the buffer is longer than 4,294,967,296 bytes
 *   32  `used` exceeds the buffer's length
 *   30  `sector_size` is 0 or over 65,536, or there are over 65,536 addresses
 *   33  `sectors_length` is not address_count x sector_size
 *   34  the addresses do not rise strictly
 *    1 to 14 and 70 to 72, as above
 *   74  as above
 *   20  an address is negative or not below the number of sectors
 *   22 to 27, as above: every sector of the disc is checked, by rising address, and the first that is refused other
 *      than with 21 gives its number and place
 *   35  the new image would not fit into the buffer
 */
uint32_t aaru_commit(uint8_t *buffer, size_t length, uint64_t used, const int64_t *addresses, size_t address_count,
                     uint64_t sector_size, const uint8_t *sectors, size_t sectors_length, uint64_t time,
                     uint64_t *new_used, uint64_t *index, uint64_t *place);

/*
 * Makes the index at `offset` the disc's. Where a creation, an import or a commit answered that offset as its index,
 * the disc then reads as right after that call, as long as every call was handed the `used` that the last accepted one
 * answered. Only the header's indexOffset and lastWrittenTime change, and nothing is lost: a rollback to a later index
 * brings back what was committed later. `*new_used` is `used`, `*index` is `offset`.
 * Refused with, in this order:
 *   31  the buffer is longer than 4,294,967,296 bytes
 *   32  `used` exceeds the buffer's length
 *    1 to 14 and 70 to 72, as above, with `offset` in place of the header's indexOffset
 *   74  as above
 */
uint32_t aaru_rollback(uint8_t *buffer, size_t length, uint64_t used, uint64_t offset, uint64_t time,
                       uint64_t *new_used, uint64_t *index, uint64_t *place);

/*
 * Writes the image's flat file to the start of `out`: all its sectors, from the lowest address on, and for each that is
 * not written zeros, as many as the lowest written one has bytes. Later bytes of `out` stay as they are. `*written` is
 * the file's length, the size of a sector x the number of sectors. `*filled` is for how many sectors zeros stand: the
 * number of addresses that aaru_locate refuses with 21. Both are 0 for an image of no sectors.
 * Refused with, in this order:
 *    1 to 14 and 70 to 72, as above
 *   22 to 27 and 73, as above: every sector of the disc is checked, by rising address, and the first that is refused
 *      other than with 21 gives its number and place
 *   21  the image has sectors, and none of them is written
 *   40  the written sectors differ in size
 *   41  the flat file is longer than `length`
 */
uint32_t aaru_export(const uint8_t *image, size_t used, uint8_t *out, size_t length, uint64_t *written,
                     uint64_t *filled, uint64_t *place);

/*
 * The same where no sector may be missing: one that is not written refuses. What is accepted here, aaru_export accepts
 * too, with the same bytes and none filled.
 * Refused with, in this order:
 *    1 to 14 and 70 to 72, as above
 *   21 to 27 and 73, as above: every sector of the disc is checked, by rising address, and the first that is refused,
 *      also with 21, gives its number and place
 *   40  the sectors differ in size
 *   41  the flat file is longer than `length`
 */
uint32_t aaru_export_exact(const uint8_t *image, size_t used, uint8_t *out, size_t length, uint64_t *written,
                           uint64_t *place);

/*
 * Makes a new image of a flat file at the start of the buffer: its sectors, of `sector_size` bytes each, at the
 * addresses 0, 1 and so on. What it leaves and answers is what aaru_create would, with as many sectors and the same
 * name, version, media type and times, and then one aaru_commit of all of them at the time `written`: so equal sectors
 * are stored once, and `*used` and `*index` are the commit's. Later bytes of the buffer stay as they are.
 * Refused with, in this order:
 *   31  the buffer is longer than 4,294,967,296 bytes
 *   30  `sector_size` is 0 or over 65,536, or `flat_length` is 0 or over 65,536 x sector_size
 *   42  `flat_length` is no multiple of `sector_size`
 *   33  `application_length` is not 64
 *   35  the image would not fit into the buffer
 */
uint32_t aaru_import(uint8_t *buffer, size_t length, const uint8_t *flat, size_t flat_length, uint64_t sector_size,
                     const uint8_t *application, size_t application_length, uint8_t major, uint8_t minor,
                     uint32_t media_type, uint64_t created, uint64_t written, uint64_t *used, uint64_t *index,
                     uint64_t *place);

/*
 * Makes one new image of a child over its parent at the start of the buffer, which reads at every address as the two
 * do. What it leaves and answers is what aaru_create would, with as many sectors as the child has and the same name,
 * version, media type and times, and then one aaru_commit, at the time `written`, of all sectors that aaru_locate_over
 * finds: so equal sectors are stored once, and `*used` and `*index` are the commit's. Where it finds none they are the
 * creation's, and nothing is committed. Later bytes of the buffer stay as they are. Child and parent may be the same
 * bytes, or overlap, but the buffer overlaps neither.
 * Refused with, in this order:
 *   31  the buffer is longer than 4,294,967,296 bytes
 *   33  `application_length` is not 64
 *    1 to 14 and 70 to 72, as above, of the child
 *   74  as above, of the child
 *   22 to 27, 101 to 114, 170 to 172, 122 to 127 and 173, as for aaru_locate_over: every address of the child is looked
 *      at, by rising address, and the first that is refused other than with 21 gives its number and place
 *   40  the sectors that it finds differ in size
 *   30  the child has no sectors or over 1,048,576, or those that it finds are over 65,536 or longer than 65,536 bytes
 *   35  the image would not fit into the buffer
 */
uint32_t aaru_flatten(uint8_t *buffer, size_t length, const uint8_t *child, size_t child_used, const uint8_t *parent,
                      size_t parent_used, const uint8_t *application, size_t application_length, uint8_t major,
                      uint8_t minor, uint32_t media_type, uint64_t created, uint64_t written, uint64_t *used,
                      uint64_t *index, uint64_t *place);

#ifdef __cplusplus
}
#endif

#endif
