/* Images: loading and storing one, and what stands where in an accepted one. */
#include "galz.h"

#include <string.h>

/* One byte more than the longest image is enough: 1 to 4 are judged within the first 903 bytes, and to 5 any length above the longest is the same. */
bool load_image(struct bytes *image, const char *path) { return load(image, path, GALZ_LONGEST + 1); }

/* The image is changed in memory alone; the new one is a new file, put in place whole. */
enum status store_image(const struct bytes *image, const struct words *words)
{
	const char *path = words->output ? words->output : words->image;
	struct new_file file;
	if (!new_open(&file, path, true))
		return FAILED;
	if (fwrite(image->at, 1, image->length, file.stream) == image->length)
		return new_keep(&file) ? DONE : FAILED;
	host_error(path);
	new_drop(&file);
	return FAILED;
}

const galz_u8 *label_in(const struct bytes *image, unsigned slot)
{
	const galz_u8 *body = image->at + galz_slot_offset(slot);
	return body[-1] == 0 ? body : NULL;
}

const char *field(const galz_u8 *label, unsigned position) { return (const char *)label + position - 1; }

bool is_known(const galz_u8 *label) { return strchr(" 12", *field(label, 44)) != NULL; }

static galz_u64 find_name(const struct bytes *image, const char *file)
{
	char name[GALZ_NAME];
	size_t length = strlen(file);
	/* a longer name is asked as it is: the name of no file */
	if (length > GALZ_NAME)
		return galz_find(image->at, image->length, (const galz_u8 *)file, length);
	memset(name, ' ', GALZ_NAME);
	memcpy(name, file, length);
	return galz_find(image->at, image->length, (const galz_u8 *)name, GALZ_NAME);
}

enum status find_slot(const struct bytes *image, const struct words *words, galz_u64 *slot)
{
	*slot = words->slot;
	if (words->by_slot)
		return DONE;
	galz_u64 found = find_name(image, words->file);
	if (galz_refused(found))
		return say_refusal(image, found);
	*slot = galz_slot(found);
	return DONE;
}
