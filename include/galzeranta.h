/*
 * Galzeranta: exchange diskettes of GOST 28081-89 as files. The library's C side.
 *
 * Link libgalzeranta.a (x86-64, System V calls). This header includes nothing and asks for no C library, so that a kernel module takes it as it is: galz_u8,
 * galz_u32 and galz_u64 are the types that kernels know as u8, u32 and u64. All that the archive wants is memset and memcpy. There are two of it, from the
 * same proved code: a program links that of '.ci/library-archive', which uses SSE registers, the red zone and a stack aligned to 16; a kernel that of
 * '.ci/kernel-archive', which uses none of them. docs/CALLING.md says what a caller in a kernel owes and gets.
 *
 * A slice is a pointer and the count of its elements. Every call takes any bytes, of any length, and any numbers: nothing has to be tested first, and
 * nothing is kept after the call. A pointer of a slice is never NULL, not even where the count is 0, and one of galz_u32 stands at a multiple of 4. No call
 * here changes a byte that it is lent, but for 'out' of galz_read and galz_salvage and the image of galz_write, galz_create and galz_delete, which no other
 * slice of the call may overlap. Nobody else writes to lent bytes during a call, or reads those that it may change.
 *
 * Every call returns one number. Its top byte is the code: 0 if it was done, 1 to 127 the number of the refusal; reading and salvage have 128 for a gap
 * and 129 for the file's end, which are no refusals. What stands in the 56 bits below depends on the code and the call; the functions at the end take it
 * apart, and above each group of them stands where its bits are.
 */
#ifndef GALZERANTA_H
#define GALZERANTA_H

#ifdef __cplusplus
extern "C" {
#endif

typedef unsigned char galz_u8;
typedef unsigned int galz_u32;
typedef unsigned long long galz_u64;

/* a compiler whose types are of other sizes stops here */
typedef char galz_u32_has_4_bytes[sizeof(galz_u32) == 4 ? 1 : -1];
typedef char galz_u64_has_8_bytes[sizeof(galz_u64) == 8 ? 1 : -1];

/* sizes that the rules fix: a name, a label, the fields that a new label is made from, the shortest and the longest image that can be accepted */
enum { GALZ_NAME = 17, GALZ_LABEL = 128, GALZ_FIELDS = 29, GALZ_SHORTEST = 1548, GALZ_LONGEST = 5283408 };

/* codes that are neither 'done' nor a refusal */
enum { GALZ_GAP = 128, GALZ_END = 129 };

/* the most bytes of stack that a call uses, its return address included and the use of memset and memcpy not (.ci/archive holds it) */
enum { GALZ_STACK = 4096 };

/*
 * The judgement of a volume. Done: its numbers, which galz_cylinders and the functions beside it give. Refused: 1 to 12.
 */
galz_u64 galz_judge(const galz_u8 *image, galz_u64 image_length);

/*
 * The file of a name, of GALZ_NAME bytes, among labels of level space, 1 and 2. Done: its slot and where its label begins in the image (galz_slot, galz_offset);
 * the label is the GALZ_LABEL bytes from there. Refused: 1 to 13; a name of another length is the name of no file.
 */
galz_u64 galz_find(const galz_u8 *image, galz_u64 image_length, const galz_u8 *name, galz_u64 name_length);

/*
 * The number of blocks of the file in a slot. Done: the number (galz_number). Refused: 1 to 14, 17, 18.
 */
galz_u64 galz_count(const galz_u8 *image, galz_u64 image_length, galz_u64 slot);

/*
 * The number of free physical records: those that no label's extent has. Done: the number (galz_number). Refused: 1 to 12.
 */
galz_u64 galz_free(const galz_u8 *image, galz_u64 image_length);

/*
 * Reading a file in a slot, record by record. A place is a block, an offset in its content and a mark, which is set if it is not 0. A file begins at block
 * 0, offset 0, mark 0. The answer has the place to ask next; so a whole file is read by
 *
 *	galz_u64 block = 0, offset = 0, mark = 0, answer;
 *	while (galz_done(answer = galz_read(image, image_length, slot, block, offset, mark, out, out_length))) {
 *		use(out, galz_length(answer));
 *		block = galz_next_block(answer), offset = galz_next_offset(answer), mark = galz_next_mark(answer);
 *	}
 *
 * after which galz_is_end(answer), or it is a refusal. Places are plain numbers: any may be asked, in any order and again, and those that are not in the
 * file are refused (19). No body is longer than the R of the label, but where R is 0000; an 'out' as long as the image is always enough.
 *
 * Done (galz_done): a record. Its body stands in the first galz_length bytes of 'out', the bytes behind it are as they were. The next place is right
 * behind the record.
 * End (galz_is_end): no record is left. The next place is the end itself, where the answer is End again.
 * Refused: 1 to 23. 23 says how long 'out' has to be (galz_first); the same place with a longer one gives the record.
 * With every answer but a record all of 'out' stays as it was.
 *
 * A lost block, one with a physical record whose check failed, is refused (20). The mark plays no part in galz_read.
 */
galz_u64 galz_read(const galz_u8 *image, galz_u64 image_length, galz_u64 slot, galz_u64 block, galz_u64 offset, galz_u64 mark, galz_u8 *out,
		   galz_u64 out_length);

/*
 * The same of a file with lost blocks: what can be had of it. It never answers 20, but has one answer more.
 *
 * Gap (galz_is_gap): a lost block was met, perhaps midway in a spanned record, which is then given up. The next place is the start of the block behind it,
 * with the mark set. It has to be asked with that mark: only then the rest of a spanned record that began before the gap is dropped in silence, instead of
 * being refused (21) as a record without its beginning. Each lost block gives one gap.
 *
 * The loop of a whole file goes on as long as galz_done(answer) or galz_is_gap(answer).
 */
galz_u64 galz_salvage(const galz_u8 *image, galz_u64 image_length, galz_u64 slot, galz_u64 block, galz_u64 offset, galz_u64 mark, galz_u8 *out,
		      galz_u64 out_length);

/*
 * Writing a file in a slot: all of its records, in place of those that it has. 'bodies' is every body, one right behind the other; 'lengths' says how long
 * each is, in the same order, so it has as many elements as there are records. A list without records is written too and leaves a file without blocks.
 *
 * Done: the number of blocks written (galz_number). The records fill the blocks from the first on, packed by the format of the label. Of the image only this
 * changes: the physical records of those blocks, each as a whole, its kind now that of the valid data mark (a record whose check had failed is thereby
 * good again) and its body data with 00 behind; and two fields of the label, the unused count U (positions 58-62, spaces for 0) and the data end (75-79).
 * Defective records are passed over, and records of the extent behind the last block written stay as they were.
 *
 * Refused: 1 to 17 and 24 to 27, in the order 1 to 16, 24, 17, 25, 26, 27. A refusal has changed no byte. A file that reading refuses (18) may be written.
 */
galz_u64 galz_write(galz_u8 *image, galz_u64 image_length, galz_u64 slot, const galz_u8 *bodies, galz_u64 bodies_length, const galz_u32 *lengths,
		    galz_u64 count);

/*
 * Making a file without records, of n physical records in a row. 'fields' is GALZ_FIELDS bytes, characters as they will stand in the label, one field right
 * behind the other; nothing is padded, trimmed or turned into capitals:
 *
 *	bytes    positions   field
 *	 0-16     6-22       the name, spaces behind it
 *	17-21    23-27       the block length B, five digits
 *	22       40          the record format: space or F, V, S
 *	23       44          the level: space, 1 or 2
 *	24-27    54-57       the record length R, four digits, or spaces for R = B
 *	28       63          the blocking: space, or B
 *
 * Done: the slot and the start of the extent (galz_slot, galz_start). The slot is the lowest deleted one. The extent is the lowest run of n data addresses,
 * each the step from the one before it, that no label's extent has; what marks their sectors have is not asked, so that n may count defective records, and a
 * file over a sector with an incorrect mark, not F, answers 17 to galz_count, galz_read and galz_write. Of the image only the slot's sector changes, its 129
 * bytes from galz_slot_offset(slot) - 1 on: the kind is now 0, and the label has HDR1, the fields given, start and end, the start as its data end too, and
 * spaces in all other positions.
 *
 * Refused, in this order: 1 to 12 of the volume; 10 of the label to be made, whose first place is 0, no slot's number, and whose second is the lowest position
 * at fault: 6 (for fields of another length too), 23, 35 (n is 0), 40, 44 (any level but space, 1 and 2), 54 or 63; 12, a file has that name, with its slot;
 * 28; 29. A 12 of the name is told from one of the volume by galz_judge, which then is done. A refusal has changed no byte.
 */
galz_u64 galz_create(galz_u8 *image, galz_u64 image_length, const galz_u8 *fields, galz_u64 fields_length, galz_u64 n);

/*
 * Dropping the file in a slot, whatever its content, access, dates and damage. Done: how many physical records are free again (galz_number). Of the image two
 * bytes change, in the slot's sector, which begins at galz_slot_offset(slot) - 1: its kind is now 16, the incorrect mark, and its label's first byte D. The
 * label's other bytes stay, and so does every record of the extent.
 *
 * Refused, in this order: 1 to 14, 24. A refusal has changed no byte.
 */
galz_u64 galz_delete(galz_u8 *image, galz_u64 image_length, galz_u64 slot);

/*
 * The refusals, with what galz_first gives (and galz_second, for 10 and 21). A place that is not named is 0.
 *
 *    1  the image is below 903 bytes
 *    2  sector 05, then 07, has a kind that is not 0                the sector
 *    3  a rule of VOL1 is broken                                    the position: 1, 5, 11, 38, 72, 76, 77, 80, 81, 83, 85 or 89
 *    4  VOL1 11 is not space                                        11
 *    5  the image's length is wrong
 *    6  a sector's kind is not one of its three                     the sector's ordinal, from 0
 *    7  a rule of ERMAP is broken                                   the position
 *    8  a slot check-failed, or an incorrect mark with F            the slot
 *    9  a slot is neither label nor deleted                         the slot
 *   10  a rule of HDR1 is broken                                    the slot (galz_create: 0, the label to be made); second, the position
 *   11  an extent shares a record with a lower slot's               the lowest such slot
 *   12  a name of a lower slot                                      the lowest such slot (galz_create: the slot that has the name given)
 *   13  no label in that slot or of that name
 *   14  another level than space, 1, 2                              the slot
 *   15  HDR1 42 is not space                                        the slot
 *   16  HDR1 45 is not space                                        the slot
 *   17  an incorrect mark, not F, in the extent                     the sector's ordinal
 *   18  the data end splits a block, or U > 0 with 0 blocks         the slot
 *   19  the place is not in the file
 *   20  reading meets a lost block                                  the block
 *   21  a rule of the content is broken                             the block; second, the offset where record, segment or rest begins
 *   22  the file ends within a spanned record
 *   23  'out' is too small                                          the length needed
 *   24  HDR1 43 is P                                                the slot
 *   25  the lengths do not sum to the bytes of 'bodies'
 *   26  a length that the label does not allow                      the first such record, from 0
 *   27  more blocks needed than the extent holds                    the blocks needed; 2^32-1 if they are more than that
 *   28  no slot is deleted
 *   29  no n free records in a row
 *
 * 26: in F a length that is not R; in V one that is over R once 4 is added to it; in S one over R, unless R is 0000, and any but 0 where B is 5.
 */

/* so many bits of a number, from a bit on; bit 0 is the lowest */
static inline galz_u64 galz_bits(galz_u64 answer, unsigned int from, unsigned int count)
{
	return (answer >> from) & ((1ULL << count) - 1);
}

/*
 * Any answer. The code, bits 56-63; whether the call was done, in reading with a record; whether it was refused. Of an answer of galz_read or galz_salvage exactly
 * one of galz_done, galz_refused, galz_is_gap and galz_is_end holds.
 */
static inline unsigned int galz_code(galz_u64 answer) { return (unsigned int)galz_bits(answer, 56, 8); }
static inline int galz_done(galz_u64 answer) { return galz_code(answer) == 0; }
static inline int galz_refused(galz_u64 answer) { return galz_code(answer) >= 1 && galz_code(answer) <= 127; }

/*
 * A refusal: its places, as the table above names them. The first in bits 24-55, the second in bits 4-23, the third in bits 0-3; 0 where it has none. No
 * refusal in the table has a third.
 */
static inline galz_u64 galz_first(galz_u64 answer) { return galz_bits(answer, 24, 32); }
static inline galz_u64 galz_second(galz_u64 answer) { return galz_bits(answer, 4, 20); }
static inline galz_u64 galz_third(galz_u64 answer) { return galz_bits(answer, 0, 4); }

/*
 * galz_judge, done. Bits 0-7 the data cylinders L (1 to 96), 8-15 the sectors of an index side I (8 to 26), 16-23 the sectors of a data side D (1 to 26), 24-27
 * the size code k (0 to 3) of a physical record's bytes P = 128 << k, 28-31 the sides S (1, 2), 32-39 and 40-47 the first and the second defective cylinder,
 * 0 where there is none. The image has S*I*129 + (L+3)*S*D*(P+1) bytes; its slots are 1 to S*I-7.
 */
static inline unsigned int galz_cylinders(galz_u64 answer) { return (unsigned int)galz_bits(answer, 0, 8); }
static inline unsigned int galz_index_sectors(galz_u64 answer) { return (unsigned int)galz_bits(answer, 8, 8); }
static inline unsigned int galz_sectors(galz_u64 answer) { return (unsigned int)galz_bits(answer, 16, 8); }
static inline unsigned int galz_size_code(galz_u64 answer) { return (unsigned int)galz_bits(answer, 24, 4); }
static inline unsigned int galz_record_bytes(galz_u64 answer) { return 128u << galz_size_code(answer); }
static inline unsigned int galz_sides(galz_u64 answer) { return (unsigned int)galz_bits(answer, 28, 4); }
static inline unsigned int galz_defect_1(galz_u64 answer) { return (unsigned int)galz_bits(answer, 32, 8); }
static inline unsigned int galz_defect_2(galz_u64 answer) { return (unsigned int)galz_bits(answer, 40, 8); }

/*
 * galz_judge too: how many label slots the volume has; their numbers begin with 1. And where the body of a slot's sector begins in an accepted image: the byte
 * before it is the sector's kind, 0 for a label, whose GALZ_LABEL bytes follow; any other kind is a deleted slot's.
 */
static inline unsigned int galz_slots(galz_u64 answer) { return galz_index_sectors(answer) * galz_sides(answer) - 7; }
static inline galz_u64 galz_slot_offset(galz_u64 slot) { return (slot + 6) * 129 + 1; }

/*
 * galz_judge too: the physical cylinder on which a data cylinder c stands; 0 for a c that is not 1 to galz_cylinders, and where the volume is refused. These are
 * the two comparisons of the rules, over the defective cylinders d1 and d2: "q is c, or c+1 if d1 is present and d1 <= c; the physical cylinder is q, or q+1 if
 * d2 is present and d2 <= q." galz_skip is one of them.
 */
static inline galz_u64 galz_skip(unsigned int d, galz_u64 c) { return d != 0 && d <= c ? c + 1 : c; }
static inline unsigned int galz_physical(galz_u64 answer, galz_u64 c)
{
	const galz_u64 q = galz_skip(galz_defect_1(answer), c);
	return galz_done(answer) && c >= 1 && c <= galz_cylinders(answer) ? (unsigned int)galz_skip(galz_defect_2(answer), q) : 0;
}

/*
 * galz_find and galz_create, done. Bits 24-55 the slot, from 1. Bits 0-23, of galz_find: where the label begins in the image, in bytes from 0; of galz_create:
 * the start of the extent as the number of its five digits, cylinder*1000 + side*100 + sector. The end stands in the label, positions 35-39.
 */
static inline galz_u64 galz_slot(galz_u64 answer) { return galz_bits(answer, 24, 32); }
static inline galz_u64 galz_offset(galz_u64 answer) { return galz_bits(answer, 0, 24); }
static inline galz_u64 galz_start(galz_u64 answer) { return galz_bits(answer, 0, 24); }

/* galz_count, galz_free, galz_write, galz_delete, done. Bits 0-55 the number */
static inline galz_u64 galz_number(galz_u64 answer) { return galz_bits(answer, 0, 56); }

/* galz_read, galz_salvage: whether the answer is a gap (of galz_salvage alone), or End */
static inline int galz_is_gap(galz_u64 answer) { return galz_code(answer) == GALZ_GAP; }
static inline int galz_is_end(galz_u64 answer) { return galz_code(answer) == GALZ_END; }

/*
 * A record, gap or End. Bits 32-55 the record's length, 0 for gap and End; the next place: bits 16-31 its block, bits 1-15 its offset, bit 0 its mark. Every
 * place of a file fits: a file has at most 4,992 blocks, and a block at most 26,624 bytes.
 */
static inline galz_u64 galz_length(galz_u64 answer) { return galz_bits(answer, 32, 24); }
static inline galz_u64 galz_next_block(galz_u64 answer) { return galz_bits(answer, 16, 16); }
static inline galz_u64 galz_next_offset(galz_u64 answer) { return galz_bits(answer, 1, 15); }
static inline galz_u64 galz_next_mark(galz_u64 answer) { return galz_bits(answer, 0, 1); }

#ifdef __cplusplus
}
#endif

#endif
