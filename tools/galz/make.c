/* create and delete: files made and dropped, in a new image that takes the old one's place. */
#include "galz.h"

/* The bytes that galz_create takes: the fields one behind the other, each with the spaces that it wants. */
static galz_u64 create(struct bytes *image, const struct words *words)
{
	const struct draft *draft = &words->draft;
	char fields[GALZ_FIELDS + 1];
	snprintf(fields, sizeof fields, "%-17.17s%5s%1s%1s%4s%1s", words->file, draft->block_length, draft->format, draft->level, draft->record_length,
		 draft->blocking);
	return galz_create(image->at, image->length, (const galz_u8 *)fields, GALZ_FIELDS, words->records);
}

/* What stands in the free records is not asked when a file is made of them. */
static void warn_of_marks(const struct bytes *image, galz_u64 slot)
{
	galz_u64 blocks = galz_count(image->at, image->length, slot);
	if (galz_code(blocks) == 17)
		say("warning: reading and writing the new file is refused (17): sector ordinal %llu has the incorrect-data mark but is not defective",
		    galz_first(blocks));
}

/* On a volume that has been judged, a refusal is of the file that is to be made. */
enum status create_file(struct bytes *image, const struct words *words)
{
	galz_u64 volume = galz_judge(image->at, image->length);
	if (galz_refused(volume))
		return say_refusal(image, volume);
	galz_u64 created = create(image, words), slot = galz_slot(created);
	if (galz_refused(created))
		return say_unmade(image, created, words->records);
	enum status status = store_image(image, words);
	if (status == DONE) {
		printf("slot %llu\nstart %05llu\nend %.5s\n", slot, galz_start(created), field(image->at + galz_slot_offset(slot), 35));
		warn_of_marks(image, slot);
	}
	return status;
}

enum status delete_file(struct bytes *image, const struct words *words)
{
	galz_u64 slot;
	enum status status = find_slot(image, words, &slot);
	if (status != DONE)
		return status;
	galz_u64 freed = galz_delete(image->at, image->length, slot);
	if (galz_refused(freed))
		return say_refusal(image, freed);
	status = store_image(image, words);
	if (status == DONE)
		printf("freed %llu\n", galz_number(freed));
	return status;
}
