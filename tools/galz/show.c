/* judge, cylinders and list: what a volume is, and what is on it. */
#include "galz.h"

/* the volume's name: VOL1 stands right before slot 1 */
static const char *volume_name(const struct bytes *image) { return field(image->at + galz_slot_offset(0), 5); }

/* the number of so many digits, or of spaces in their stead */
static unsigned number(const galz_u8 *label, unsigned position, unsigned digits, unsigned blank)
{
	const char *at = field(label, position);
	unsigned n = 0;
	if (*at == ' ')
		return blank;
	for (unsigned i = 0; i < digits; i++)
		n = 10 * n + (unsigned)(at[i] - '0');
	return n;
}

static char shown(char character, char blank) { return character == ' ' ? blank : character; }

static unsigned labels_of(const struct bytes *image, galz_u64 volume)
{
	unsigned labels = 0;
	for (unsigned slot = 1; slot <= galz_slots(volume); slot++)
		labels += label_in(image, slot) != NULL;
	return labels;
}

static void show_defects(galz_u64 volume)
{
	if (galz_defect_2(volume))
		printf("defects %u %u\n", galz_defect_1(volume), galz_defect_2(volume));
	else if (galz_defect_1(volume))
		printf("defects %u\n", galz_defect_1(volume));
	else
		printf("defects none\n");
}

enum status judge(struct bytes *image, const struct words *words)
{
	(void)words;
	galz_u64 volume = galz_judge(image->at, image->length);
	if (galz_refused(volume))
		return say_refusal(image, volume);
	printf("volume %.6s\n", volume_name(image));
	printf("L %u\nI %u\nD %u\nP %u\nS %u\n", galz_cylinders(volume), galz_index_sectors(volume), galz_sectors(volume), galz_record_bytes(volume),
	       galz_sides(volume));
	show_defects(volume);
	printf("slots %u\nlabels %u\nfree %llu\n", galz_slots(volume), labels_of(image, volume), galz_number(galz_free(image->at, image->length)));
	return DONE;
}

/* "For data cylinder c from 1 to L: q is c, or c+1 if d1 is present and d1 <= c; the physical cylinder is q, or q+1 if d2 is present and d2 <= q." */
enum status cylinders(struct bytes *image, const struct words *words)
{
	(void)words;
	galz_u64 volume = galz_judge(image->at, image->length);
	if (galz_refused(volume))
		return say_refusal(image, volume);
	for (unsigned c = 1; c <= galz_cylinders(volume); c++)
		printf("%u|%llu|%u\n", c, galz_skip(galz_defect_1(volume), c), galz_physical(volume, c));
	return DONE;
}

/* "slot, name, level (`.` for space), format (`F` for space), `B` or `-`, B, R, start, end, blocks, U" */
static void list_file(const struct bytes *image, unsigned slot, const galz_u8 *label)
{
	galz_u64 blocks = galz_count(image->at, image->length, slot);
	unsigned block = number(label, 23, 5, 0);
	printf("%u|%.17s|%c|%c|%c|%u|%u|%.5s|%.5s|", slot, field(label, 6), shown(*field(label, 44), '.'), shown(*field(label, 40), 'F'),
	       shown(*field(label, 63), '-'), block, number(label, 54, 4, block), field(label, 29), field(label, 35));
	/* "Refused counts print `!17` or `!18` in place of blocks." */
	if (galz_refused(blocks))
		printf("!%u|", galz_code(blocks));
	else
		printf("%llu|", galz_number(blocks));
	printf("%u\n", number(label, 58, 5, 0));
}

/* "Another level shows `?` but for slot, level, start, end." */
static void list_other(unsigned slot, const galz_u8 *label)
{
	printf("%u|?|%c|?|?|?|?|%.5s|%.5s|?|?\n", slot, *field(label, 44), field(label, 29), field(label, 35));
}

/* "A refused volume prints one line: `REFUSED`, number and each place, one space between." */
static enum status list_refusal(const struct bytes *image, galz_u64 answer)
{
	printf("REFUSED %u %llu", galz_code(answer), galz_first(answer));
	if (has_second_place(answer))
		printf(" %llu", galz_second(answer));
	printf("\n");
	return say_refusal(image, answer);
}

enum status list(struct bytes *image, const struct words *words)
{
	(void)words;
	galz_u64 volume = galz_judge(image->at, image->length);
	if (galz_refused(volume))
		return list_refusal(image, volume);
	printf("VOLUME %.6s L=%u I=%u D=%u P=%u S=%u FREE=%llu\n", volume_name(image), galz_cylinders(volume), galz_index_sectors(volume),
	       galz_sectors(volume), galz_record_bytes(volume), galz_sides(volume), galz_number(galz_free(image->at, image->length)));
	for (unsigned slot = 1; slot <= galz_slots(volume); slot++) {
		const galz_u8 *label = label_in(image, slot);
		if (label && is_known(label))
			list_file(image, slot, label);
		else if (label)
			list_other(slot, label);
	}
	return DONE;
}
