/* write: a host file as all records of a file, in a new image that takes the old one's place. */
#include "galz.h"

#include <stdlib.h>

/* More than any volume takes: 5,111,808 records of one byte, each with its length. */
enum { MOST_HOST_BYTES = 32 << 20 };

static bool load_records(struct records *records, const struct words *words)
{
	struct bytes host;
	if (!load(&host, words->host, MOST_HOST_BYTES + 1))
		return false;
	bool fits = host.length <= MOST_HOST_BYTES;
	if (!fits)
		say("%s: longer than what any volume holds", words->host);
	if (fits && part_records(records, host, words->host, words->form, words->record_length))
		return true;
	free(host.at);
	return false;
}

static enum status write_records(struct bytes *image, galz_u64 slot, const struct records *records, const struct words *words)
{
	galz_u64 written = galz_write(image->at, image->length, slot, records->bodies, records->length, records->lengths, records->count);
	if (galz_refused(written))
		return say_refusal(image, written);
	enum status status = store_image(image, words);
	if (status == DONE)
		say("records %zu, bytes %zu, blocks %llu", records->count, records->length, galz_number(written));
	return status;
}

enum status write_file(struct bytes *image, const struct words *words)
{
	struct records records;
	galz_u64 slot;
	enum status status = find_slot(image, words, &slot);
	if (status != DONE)
		return status;
	if (!load_records(&records, words))
		return FAILED;
	status = write_records(image, slot, &records, words);
	free(records.bodies);
	free(records.lengths);
	return status;
}
