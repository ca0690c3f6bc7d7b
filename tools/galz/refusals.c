/* What is said of a refusal: document 01's numbers and places, in words. */
#include "galz.h"

/* the fields of the labels, by their first positions; names after the tables of GOST 28081-89 */
struct field {
	unsigned position;
	const char *name;
};

static const struct field vol1[] = {
	{ 1, "the label's name, VOL1" },
	{ 5, "the volume's name" },
	{ 11, "access to the volume" },
	{ 38, "the owner's name" },
	{ 72, "the type of recording, A" },
	{ 76, "the code of the physical record's length P" },
	{ 77, "the sequence of sectors" },
	{ 80, "the version of the standard, 3" },
	{ 81, "the last data cylinder L" },
	{ 83, "the last sector of an index side I" },
	{ 85, "the last sector of a data side D" },
	{ 89, "the number of sides S" },
	{ 0, NULL },
};

static const struct field ermap[] = {
	{ 1, "the label's name, ERMAP" },
	{ 7, "the first defective cylinder" },
	{ 11, "the second defective cylinder" },
	{ 0, NULL },
};

static const struct field hdr1[] = {
	{ 6, "the file's name" },
	{ 23, "the block length B" },
	{ 29, "the start of the extent" },
	{ 35, "the end of the extent" },
	{ 40, "the record format" },
	{ 41, "the bypass mark" },
	{ 42, "access to the file" },
	{ 43, "the write protection" },
	{ 44, "the level" },
	{ 45, "the mark of a file on several volumes" },
	{ 46, "the number of the file's section" },
	{ 48, "the date of creation" },
	{ 54, "the record length R" },
	{ 58, "the unused count U" },
	{ 63, "the blocking" },
	{ 64, "the organization of the file" },
	{ 67, "the expiry date" },
	{ 73, "the mark of checking or copying" },
	{ 75, "the data end" },
	{ 0, NULL },
};

/* the same of a label to be made, with what is asked of them; the name's characters are the a-set */
static const struct field made[] = {
	{ 6, "the file's name: only capitals, digits, spaces and !\"%&'()*+,-./:;<=>?_ (no small letters); at most 8 of them, 17 at level 2" },
	{ 23, "the block length B: from 1 (V 4, S 5) to D*P, above P a multiple of P; V and S to 9999; level space to P" },
	{ 35, "the end of the extent: n is 0" },
	{ 40, "the record format: V and S at level 2 alone" },
	{ 44, "the level: space, 1 or 2" },
	{ 54, "the record length R: in F equal to B, or if blocked a divisor of B; in V from 4 to B" },
	{ 63, "the blocking: S is blocked always, level space never" },
	{ 0, NULL },
};

/* the refusals by number: what their places are called, what is wrong, and the fields that the last place is a position of */
static const struct refusal {
	const char *first, *second, *wrong;
	const struct field *fields;
} refusals[] = {
	[1] = { NULL, NULL, "the image is shorter than 903 bytes", NULL },
	[2] = { "index sector", NULL, "the index sector does not have the valid data mark", NULL },
	[3] = { "position", NULL, "a rule of the label VOL1 is broken", vol1 },
	[4] = { "position", NULL, "VOL1 restricts the access to the volume", NULL },
	[5] = { NULL, NULL, "the image does not have the length that VOL1 says", NULL },
	[6] = { "sector ordinal", NULL, "the kind byte of the sector is none of the three that it may be", NULL },
	[7] = { "position", NULL, "a rule of the label ERMAP is broken", ermap },
	[8] = { "slot", NULL, "the slot's sector failed its check or is defective", NULL },
	[9] = { "slot", NULL, "the slot holds neither a label HDR1 nor a deleted one", NULL },
	[10] = { "slot", "position", "a rule of the label HDR1 is broken", hdr1 },
	[11] = { "slot", NULL, "the extent shares a physical record with that of a lower slot", NULL },
	[12] = { "slot", NULL, "two files with one name, that of the file in the slot", NULL },
	[13] = { NULL, NULL, "there is no label in that slot or of that name", NULL },
	[14] = { "slot", NULL, "the file is of another level than space, 1 and 2", NULL },
	[15] = { "slot", NULL, "the label restricts the access to the file", NULL },
	[16] = { "slot", NULL, "the file goes on from or to another volume", NULL },
	[17] = { "sector ordinal", NULL, "a sector of the extent has the incorrect-data mark but is not defective", NULL },
	[18] = { "slot", NULL, "the data end splits a block, or U is not 0 in a file without blocks", NULL },
	[19] = { NULL, NULL, "the place is not in the file", NULL },
	[20] = { "block", NULL, "the block is lost: a sector of it failed its check", NULL },
	[21] = { "block", "offset", "the block's content breaks a rule", NULL },
	[22] = { NULL, NULL, "the file ends within a spanned record", NULL },
	[23] = { "length needed", NULL, "what is lent for the output does not have the length needed", NULL },
	[24] = { "slot", NULL, "the file is write-protected", NULL },
	[25] = { NULL, NULL, "the lengths of the records do not sum to their bytes", NULL },
	[26] = { "record", NULL, "the record, counted from 0, has a length that the label does not allow", NULL },
	[27] = { "blocks needed", NULL, "more blocks are needed than the extent holds", NULL },
	[28] = { NULL, NULL, "no deleted slot: delete a file first", NULL },
	[29] = { NULL, NULL, "no such number of free records in a row", NULL },
};

static const struct refusal unknown = { "first place", "second place", "a refusal that this tool does not know", NULL };

static const struct refusal *refusal_of(galz_u64 answer)
{
	unsigned number = galz_code(answer);
	return number >= 1 && number < sizeof refusals / sizeof *refusals ? &refusals[number] : &unknown;
}

bool has_second_place(galz_u64 answer) { return refusal_of(answer)->second != NULL; }

/* what the field at a position is called; NULL if nothing of the kind is judged there */
static const char *field_at(const struct field *fields, galz_u64 position)
{
	for (; fields && fields->name; fields++)
		if (fields->position == position)
			return fields->name;
	return NULL;
}

/* Request 2026-02: a label made by the numbers of table 2 as printed, which have the version before the reserve. VOL1 stands right before slot 1; 3 is given behind 1. */
static const char *hint_at(const struct bytes *image, galz_u64 answer)
{
	bool version = galz_code(answer) == 3 && galz_first(answer) == 80;
	return version && *field(image->at + galz_slot_offset(0), 79) == '3' ? " (3 stands at 79, where table 2 as printed has it)" : "";
}

static enum status say_in_words(const struct bytes *image, galz_u64 answer, const struct refusal *refusal)
{
	const char *name = field_at(refusal->fields, refusal->second ? galz_second(answer) : galz_first(answer));
	char places[100] = "";
	if (refusal->second)
		snprintf(places, sizeof places, " (%s %llu, %s %llu)", refusal->first, galz_first(answer), refusal->second, galz_second(answer));
	else if (refusal->first)
		snprintf(places, sizeof places, " (%s %llu)", refusal->first, galz_first(answer));
	say("refused %u%s: %s%s%s%s", galz_code(answer), places, refusal->wrong, name ? ": " : "", name ? name : "", hint_at(image, answer));
	return REFUSED;
}

enum status say_refusal(const struct bytes *image, galz_u64 answer) { return say_in_words(image, answer, refusal_of(answer)); }

enum status say_unmade(const struct bytes *image, galz_u64 answer, galz_u64 records)
{
	struct refusal refusal = *refusal_of(answer);
	char wrong[100];
	switch (galz_code(answer)) {
	case 10:
		refusal.wrong = "the label to be made breaks a rule";
		refusal.fields = made;
		break;
	case 12:
		snprintf(wrong, sizeof wrong, "the name is that of the file in slot %llu", galz_first(answer));
		refusal.wrong = wrong;
		break;
	case 29:
		snprintf(wrong, sizeof wrong, "no %llu free records in a row (%llu are free in all)", records, galz_number(galz_free(image->at, image->length)));
		refusal.wrong = wrong;
		break;
	}
	return say_in_words(image, answer, &refusal);
}
