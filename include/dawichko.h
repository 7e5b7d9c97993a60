/* Dawichko: the object graph of a V8 code-cache payload. Link with libdawichko.a (rt lib in
 * crates/dawichko). */
#ifndef DAWICHKO_H
#define DAWICHKO_H

#include <stddef.h>
#include <stdint.h>

#ifdef __cplusplus
extern "C" {
#endif

/*
 * Reads a payload and fills the tables lent. Returns 0, or the number of the refusal, 1 to 16.
 * docs/FORMAT.md says what is read and listed, and when each number comes.
 *
 * Lent to be read:
 *   sheet         the version sheet: 58 numbers (docs/SHEET.md). Another length is refused with 1.
 *   payload       at most 16,777,216 bytes, else refused with 2
 *   reservations  at most 65,536 numbers, else refused with 2; none where the format has none
 *   trusted       a byte for each root index; may be empty
 *
 * Lent to be written, and may hold anything before; lengths count numbers of 64 bits, and the room
 * of a table is its length divided by the numbers of a record:
 *   objects       4: byte size, tag offset, raw_len, slot count
 *   slots         6: object, index, kind, a, b, waits
 *   values        3: kind, a, b
 *   addresses     5: space, chunk, offset, object, placed (legacy sheets only)
 *   scratch       working memory of any length, which may hold anything afterwards too. The graph
 *                 does not depend on it, the time does. It has two parts: as many numbers as the
 *                 payload has bytes, for forward references that are open; then, for legacy sheets,
 *                 nine numbers and eight for each address record. A forward reference without a
 *                 place is searched for in the slots; and all back-references in the addresses,
 *                 once there are more of these than there is room for. The ninth number of the
 *                 second part, scratch[payload_length + 8], is a seed: where it is random, no
 *                 payload can be made whose back-references are slow to resolve on average. Its
 *                 place depends on the payload's length. Zero does for payloads that V8 wrote.
 *
 * outcome gets the counts of objects, slots, values and addresses, the cursor at the finish, the
 * refusal's place, and the number of long integers: how many integers of the payload were read
 * whole and have more bytes than their values need (docs/FORMAT.md, "Integers"). After a refusal
 * all but the place are 0, and so is every entry of the tables; else the place is 0, and so is
 * every entry past the counts.
 *
 * Long integers change nothing of the graph, and are no sign that a payload is damaged or was made
 * by another program than V8; nor is 0 a sign that it was not. Where a legacy closing section is
 * read otherwise than V8 reads it (docs/DIFFERENCES.md, D23 and D24), other bytes are taken for
 * integers, and a payload that V8 wrote can have some.
 *
 * The call takes up to 141 kB of stack, where objects lie inside each other as deep as is read
 * (docs/BENCHMARKS.md).
 *
 * The caller sees to it that each pointer leads to as many elements as its length says, aligned for
 * its type, that nothing else reads or writes a table during the call, and that no table overlaps
 * another argument. A pointer may be anything where its length is 0.
 */
uint64_t dawichko_graph(const uint16_t *sheet, size_t sheet_length,
                        const uint8_t *payload, size_t payload_length,
                        const uint32_t *reservations, size_t reservations_length,
                        const uint8_t *trusted, size_t trusted_length,
                        uint64_t *objects, size_t objects_length,
                        uint64_t *slots, size_t slots_length,
                        uint64_t *values, size_t values_length,
                        uint64_t *addresses, size_t addresses_length,
                        uint64_t *scratch, size_t scratch_length,
                        uint64_t outcome[7]);

/*
 * The calls below look at tables that dawichko_graph filled, or at others of their shape: any
 * numbers may stand in them. docs/FORMAT.md, "Filled tables", has their rules.
 *
 * Lent to be read are the four tables, at their full lengths, and four numbers each, of objects,
 * slots, values and addresses: counts, how many records are listed, and starts, the record with
 * which the part begins that is looked at; four zeros for a whole graph. Each call returns 0, or
 * 17 where a count is above its table's room or a start above its count; further numbers stand at
 * the call. What is lent to be written overlaps nothing else that is lent. None of the calls reads
 * what it is lent to write before it has written it.
 */

/* Stands for no slot in the answer of dawichko_range_at; no listed slot has this number. */
#define DAWICHKO_NO_SLOT UINT64_MAX

/*
 * Which raw slot's range covers the payload byte at an offset: of the part's slots of kind 5 or 6,
 * the lowest whose range contains it. Else the one that ends nearest at or before it, and the one
 * that begins nearest after it, the lower number among equally near ones. Ranges may be any, also
 * past the payload's end. One pass over the slots; there is no scratch.
 *
 * Returns 18, after 17, where the offset is not below the payload's length. The part's slots are
 * those of one payload, and the length is its own.
 *
 * answer gets the covering slot, the slot before and the slot after; DAWICHKO_NO_SLOT for none. It
 * is zero after 17 and 18.
 */
uint64_t dawichko_range_at(const uint64_t *objects, size_t objects_length,
                           const uint64_t *slots, size_t slots_length,
                           const uint64_t *values, size_t values_length,
                           const uint64_t *addresses, size_t addresses_length,
                           const uint64_t starts[4], const uint64_t counts[4],
                           uint64_t payload_length, uint64_t offset,
                           uint64_t answer[3]);

/*
 * What the part's first object keeps: itself, and each object of the part that it reaches through
 * any reference in a slot, within repeats and weak values too.
 *
 * marks has a byte for each object, which gets 1 if it is kept, else 0. Those of objects before the
 * part, and those past the object count, get 0.
 *
 * scratch may hold anything, before and after, and may be of any length. With as many numbers as
 * the part has value records, slots and twice its objects the call is linear in them; with fewer it
 * goes over the slots again and again, with the same answer.
 *
 * Returns 19, after 17, where there are fewer marks than the object count, or all byte sizes of the
 * part add up past 2^64 - 1. Marks and scratch stay as they were after 17 and 19.
 *
 * sums gets the byte sizes of the kept objects, added up, and of those among them that are reached
 * through references under no weak value. It is zero after 17 and 19.
 */
uint64_t dawichko_kept(const uint64_t *objects, size_t objects_length,
                       const uint64_t *slots, size_t slots_length,
                       const uint64_t *values, size_t values_length,
                       const uint64_t *addresses, size_t addresses_length,
                       const uint64_t starts[4], const uint64_t counts[4],
                       uint8_t *marks, size_t marks_length,
                       uint64_t *scratch, size_t scratch_length,
                       uint64_t sums[2]);

/*
 * The number at a byte of a raw slot, counted from the first byte of its range. wish is 0 for a
 * double, which has eight bytes; else it asks for a small integer (Smi) in a word of so many bytes.
 *
 * The payload is the one with which the slot was filled: with another one of several whose records
 * stand in the same tables the number is one of other bytes, and nothing can tell.
 *
 * Returns 17 also where the slot is not listed, is not of kind 5 or 6, or has a range that does not
 * lie in the payload.
 *
 * answer gets a kind and bits: 0 and 0 where there is no number, since too few bytes are left in
 * the range, or since the word is no small integer, as none of another size than 4 or 8 is; 1 and a
 * small integer in two's complement, as int64_t; 2 and the bits of a double, those of a NaN too. It
 * is zero after 17.
 */
uint64_t dawichko_number(const uint64_t *objects, size_t objects_length,
                         const uint64_t *slots, size_t slots_length,
                         const uint64_t *values, size_t values_length,
                         const uint64_t *addresses, size_t addresses_length,
                         const uint64_t counts[4],
                         const uint8_t *payload, size_t payload_length,
                         uint64_t slot, uint64_t at, uint64_t wish,
                         uint64_t answer[2]);

/*
 * Where the bytes of a raw slot lie in the payload, which is the one with which the slot was
 * filled, as for dawichko_number. Returns 17 where that does.
 *
 * range gets offset and length. It is zero after 17.
 */
uint64_t dawichko_view(const uint64_t *objects, size_t objects_length,
                       const uint64_t *slots, size_t slots_length,
                       const uint64_t *values, size_t values_length,
                       const uint64_t *addresses, size_t addresses_length,
                       const uint64_t counts[4],
                       const uint8_t *payload, size_t payload_length,
                       uint64_t slot,
                       uint64_t range[2]);

/*
 * The small integer in the bytes of a word. Returns 1 where they are one, and answer gets it in
 * two's complement, as int64_t; else 0, and answer is zero. It is no refusal.
 */
uint64_t dawichko_smi(const uint8_t *bytes, size_t bytes_length, uint64_t answer[1]);

/*
 * Which name of a version sheet each of the 256 head bytes obeys where a reference is read.
 *
 * names gets the name's place in docs/SHEET.md, 65535 where the byte has no meaning there; shared
 * gets 1 where another present name lays hold of the byte too, else 0. Returns 1 where the sheet is
 * not usable; both are zero then.
 */
uint64_t dawichko_inspect(const uint16_t *sheet, size_t sheet_length,
                          uint16_t names[256], uint8_t shared[256]);

#ifdef __cplusplus
}
#endif

#endif
