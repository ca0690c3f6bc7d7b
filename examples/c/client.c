/*
 * A first client of the library: it lists a volume, reads a file record by record, writes one and salvages one; then it makes one and drops it again.
 *
 *	client samples/demo.img LOG
 *
 * The file is one of format V, blocked, whose R is at least 94, on a volume without defective cylinders that has a deleted slot and 8 free records in a row.
 * The image stays as it is on disk: all happens in memory. Each step says a line of what it did, and the program ends with 1 where an answer is not the one
 * that it expects.
 *
 * .ci/library-archive && cc -std=c11 -O2 examples/c/client.c target/libgalzeranta.a (x86-64).
 */
#include "../../include/galzeranta.h"

#include <stdio.h>
#include <stdlib.h>
#include <string.h>

enum { RECORDS = 6, RECORD = 90, MOST = 4096, ROOM = 8 };

struct image {
	galz_u8 *bytes;
	galz_u64 length;
};

/* Goes on only where something holds. */
#define EXPECT(held) ((held) ? (void)0 : (fprintf(stderr, "client: line %d: not so: %s\n", __LINE__, #held), exit(1)))

static struct image load(const char *path)
{
	static galz_u8 bytes[GALZ_LONGEST];
	struct image image = { bytes, 0 };
	FILE *file = fopen(path, "rb");
	EXPECT(file);
	image.length = fread(bytes, 1, GALZ_LONGEST, file);
	EXPECT(!ferror(file) && fclose(file) == 0);
	return image;
}

/* Every call is given the whole image and judges it itself: what it answers of a damaged image is a refusal, a number and its places. */
static galz_u64 list(struct image image)
{
	galz_u64 volume = galz_judge(image.bytes, image.length);
	if (galz_refused(volume)) {
		printf("refused: %u at %llu, %llu\n", galz_code(volume), galz_first(volume), galz_second(volume));
		exit(1);
	}
	printf("volume: %u cylinders, %llu free records\n", galz_cylinders(volume), galz_number(galz_free(image.bytes, image.length)));
	for (galz_u64 slot = 1; slot <= galz_slots(volume); slot++) {
		const galz_u8 *label = image.bytes + galz_slot_offset(slot);
		galz_u64 blocks = galz_count(image.bytes, image.length, slot);
		if (galz_done(blocks))
			printf("slot %llu: %.17s, %llu blocks\n", slot, (const char *)label + 5, galz_number(blocks));
	}
	return volume;
}

static galz_u64 find(struct image image, const char *file)
{
	char name[GALZ_NAME + 1];
	snprintf(name, sizeof name, "%-17s", file);
	galz_u64 found = galz_find(image.bytes, image.length, (const galz_u8 *)name, GALZ_NAME);
	EXPECT(galz_done(found));
	EXPECT(memcmp(image.bytes + galz_offset(found), "HDR1", 4) == 0);
	return galz_slot(found);
}

static void show(const char *what, unsigned number, const galz_u8 *body, galz_u64 length)
{
	printf("%s %u: %llu bytes, %.*s\n", what, number, length, length < 10 ? (int)length : 10, (const char *)body);
}

/* Reads a file from its start to its end, one record behind the other into the room. Places are plain numbers, and the answer has the one to ask next. */
static unsigned read_all(struct image image, galz_u64 slot, galz_u8 *room, galz_u64 most)
{
	galz_u64 block = 0, offset = 0, mark = 0, used = 0, answer;
	unsigned records = 0;
	while (galz_done(answer = galz_read(image.bytes, image.length, slot, block, offset, mark, room + used, most - used))) {
		show("record", records++, room + used, galz_length(answer));
		used += galz_length(answer);
		block = galz_next_block(answer), offset = galz_next_offset(answer), mark = galz_next_mark(answer);
	}
	EXPECT(galz_is_end(answer));
	return records;
}

static void make_records(galz_u8 *bodies, galz_u32 *lengths)
{
	for (int i = 0; i < RECORDS; i++) {
		memset(bodies + i * RECORD, 'A' + i, RECORD);
		lengths[i] = RECORD;
	}
}

/* All records at once: their bodies joined, and the length of each. */
static void write_all(struct image image, galz_u64 slot)
{
	galz_u8 bodies[RECORDS * RECORD], room[MOST];
	galz_u32 lengths[RECORDS];
	make_records(bodies, lengths);
	galz_u64 written = galz_write(image.bytes, image.length, slot, bodies, sizeof bodies, lengths, RECORDS);
	EXPECT(galz_done(written));
	printf("written: %d records in %llu blocks\n", RECORDS, galz_number(written));

	/* a list that its lengths do not sum to is refused, and nothing has changed */
	galz_u64 refused = galz_write(image.bytes, image.length, slot, bodies, sizeof bodies - 1, lengths, RECORDS);
	EXPECT(galz_code(refused) == 25);
	EXPECT(read_all(image, slot, room, MOST) == RECORDS);
	EXPECT(memcmp(room, bodies, sizeof bodies) == 0);
}

/* Fails the check of the file's third physical record, the first of its block 1: a kind of 32 and more. */
static void damage(struct image image, galz_u64 volume, galz_u64 slot)
{
	const char *start = (const char *)image.bytes + galz_slot_offset(slot) + 28;
	galz_u64 cylinder = 10 * (galz_u64)(start[0] - '0') + (galz_u64)(start[1] - '0');
	galz_u64 index = galz_index_sectors(volume) * galz_sides(volume) * 129;
	galz_u64 track = galz_sectors(volume) * galz_sides(volume) * (galz_record_bytes(volume) + 1);
	EXPECT(galz_defect_1(volume) == 0 && memcmp(start + 2, "001", 3) == 0);
	image.bytes[index + (cylinder - 1) * track + 2 * (galz_record_bytes(volume) + 1)] |= 32;
}

/* What can be had of a file with lost blocks. The mark of a gap's next place has to be handed on. */
static void salvage_all(struct image image, galz_u64 slot)
{
	galz_u8 room[MOST];
	galz_u64 block = 0, offset = 0, mark = 0, answer;
	unsigned records = 0, gaps = 0;
	for (;;) {
		answer = galz_salvage(image.bytes, image.length, slot, block, offset, mark, room, MOST);
		if (!galz_done(answer) && !galz_is_gap(answer))
			break;
		block = galz_next_block(answer), offset = galz_next_offset(answer), mark = galz_next_mark(answer);
		if (galz_is_gap(answer))
			printf("gap %u: block %llu is lost\n", gaps++, block - 1);
		else
			show("salvaged", records++, room, galz_length(answer));
	}
	EXPECT(galz_is_end(answer) && records == RECORDS - 2 && gaps == 1);
}

/* A new file's label is made from 29 of its bytes, as they will stand there: name, B, format, level, R, blocking. It gets the lowest free records in a row. */
static galz_u64 make(struct image image, const char *file)
{
	char fields[GALZ_FIELDS + 1];
	snprintf(fields, sizeof fields, "%-17.17s" "00256" "V" "2" "0094" "B", file);
	galz_u64 made = galz_create(image.bytes, image.length, (const galz_u8 *)fields, GALZ_FIELDS, ROOM);
	EXPECT(galz_done(made) && galz_slot(made) == find(image, file));
	printf("made: slot %llu, %d records from %05llu on\n", galz_slot(made), ROOM, galz_start(made));

	/* the name is in use now, and the refusal says by which slot */
	galz_u64 refused = galz_create(image.bytes, image.length, (const galz_u8 *)fields, GALZ_FIELDS, ROOM);
	EXPECT(galz_code(refused) == 12 && galz_first(refused) == galz_slot(made));
	return galz_slot(made);
}

/* Of a file that is dropped only the slot's sector changes: on a diskette it is the one to be written. */
static void drop(struct image image, galz_u64 slot)
{
	galz_u64 freed = galz_delete(image.bytes, image.length, slot);
	EXPECT(galz_done(freed) && galz_number(freed) == ROOM);
	printf("dropped: %llu records free again, the sector at byte %llu changed\n", galz_number(freed), galz_slot_offset(slot) - 1);
	EXPECT(galz_code(galz_count(image.bytes, image.length, slot)) == 13);
}

int main(int argc, char **argv)
{
	if (argc != 3) {
		fprintf(stderr, "usage: client IMAGE FILE\n");
		return 2;
	}
	struct image image = load(argv[1]);
	galz_u64 volume = list(image);
	galz_u64 slot = find(image, argv[2]);
	galz_u8 room[MOST];
	printf("read: %u records\n", read_all(image, slot, room, MOST));
	write_all(image, slot);
	damage(image, volume, slot);
	galz_u64 refused = galz_read(image.bytes, image.length, slot, 1, 0, 0, room, MOST);
	EXPECT(galz_code(refused) == 20 && galz_first(refused) == 1);
	salvage_all(image, slot);
	galz_u64 made = make(image, "MADE HERE");
	write_all(image, made);
	drop(image, made);
	return 0;
}
