/* read, salvage and extract-all: files of a volume into files of the host. */
#define _POSIX_C_SOURCE 200809L
#include "galz.h"

#include <errno.h>
#include <stdlib.h>
#include <string.h>
#include <sys/stat.h>

/* what came of a file, and the answer that refused the rest of it, if one did */
struct tally {
	galz_u64 records, bytes, gaps, newlines, refusal;
};

/* A record into the stream. In lines one with a newline does not come back, which is said of the first of them. */
static bool pour_record(FILE *to, enum form form, const galz_u8 *body, size_t length, struct tally *tally)
{
	if (form == LINES && memchr(body, '\n', length) && tally->newlines++ == 0)
		say("warning: record %llu has a newline in it, so that lines do not say where it ends; --as lengths does", tally->records);
	tally->records++;
	tally->bytes += length;
	return put_record(to, form, body, length);
}

/* A file's records into a stream, from the start of the file to its end or to a refusal. */
static enum status pour(const struct bytes *image, galz_u64 slot, const struct words *words, FILE *to, galz_u8 *out, struct tally *tally)
{
	galz_u64 block = 0, offset = 0, mark = 0;
	for (;;) {
		galz_u64 answer = (words->salvage ? galz_salvage : galz_read)(image->at, image->length, slot, block, offset, mark, out, image->length);
		if (galz_is_end(answer))
			return DONE;
		if (galz_refused(answer))
			return say_refusal(image, tally->refusal = answer);
		block = galz_next_block(answer), offset = galz_next_offset(answer), mark = galz_next_mark(answer);
		if (galz_is_gap(answer)) {
			say("gap: block %llu is lost (records so far %llu)", block - 1, tally->records);
			tally->gaps++;
		} else if (!pour_record(to, words->form, out, galz_length(answer), tally)) {
			return FAILED;
		}
	}
}

/* the same with room for a record, which is never longer than the image */
static enum status pour_file(const struct bytes *image, galz_u64 slot, const struct words *words, FILE *to, const char *path, struct tally *tally)
{
	galz_u8 *out = malloc(image->length + 1);
	enum status status = out ? pour(image, slot, words, to, out, tally) : FAILED;
	if (status == FAILED)
		host_error(path);
	free(out);
	return status;
}

/* into a host file, which is there only if all was read */
static enum status pour_new(const struct bytes *image, galz_u64 slot, const struct words *words, const char *path, bool replace, struct tally *tally)
{
	struct new_file file;
	if (!new_open(&file, path, replace))
		return FAILED;
	enum status status = pour_file(image, slot, words, file.stream, path, tally);
	if (status == DONE)
		return new_keep(&file) ? DONE : FAILED;
	new_drop(&file);
	return status;
}

/* gaps are no refusal, but not the whole file either */
static enum status with_gaps(enum status status, const struct tally *tally) { return status == DONE && tally->gaps ? REFUSED : status; }

enum status read_file(struct bytes *image, const struct words *words)
{
	struct tally tally = { 0 };
	galz_u64 slot;
	enum status status = find_slot(image, words, &slot);
	if (status != DONE)
		return status;
	if (words->output)
		status = pour_new(image, slot, words, words->output, true, &tally);
	else
		status = pour_file(image, slot, words, stdout, "standard output", &tally);
	if (words->salvage && status != FAILED)
		say("records %llu, bytes %llu, gaps %llu, blocks lost %llu", tally.records, tally.bytes, tally.gaps, tally.gaps);
	return with_gaps(status, &tally);
}

enum status salvage_file(struct bytes *image, const struct words *words)
{
	struct words salvaging = *words;
	salvaging.salvage = true;
	return read_file(image, &salvaging);
}

/* A host name that is safe anywhere: the slot, so that no two are alike, and of the file's name letters, digits and '-', '_', '.', with '_' for the rest. */
static void name_host_file(char name[GALZ_NAME + 4], unsigned slot, const galz_u8 *label)
{
	static const char safe[] = "ABCDEFGHIJKLMNOPQRSTUVWXYZ0123456789-_.";
	const char *from = field(label, 6);
	size_t length = is_known(label) ? GALZ_NAME : 0;
	while (length > 0 && from[length - 1] == ' ')
		length--;
	size_t at = (size_t)snprintf(name, GALZ_NAME + 4, length ? "%02u-" : "%02u", slot % 100);
	for (size_t i = 0; i < length; i++)
		name[at + i] = memchr(safe, from[i], sizeof safe - 1) ? from[i] : '_';
	name[at + length] = 0;
}

/* a line of the table: slot, name, result, records, bytes, gaps, host file */
static void show_result(unsigned slot, const galz_u8 *label, enum status status, const struct tally *tally, const char *name)
{
	printf("%u|%.*s|", slot, is_known(label) ? GALZ_NAME : 1, is_known(label) ? field(label, 6) : "?");
	if (status == DONE)
		printf("%s|%llu|%llu|%llu|%s\n", tally->gaps ? "gaps" : "done", tally->records, tally->bytes, tally->gaps, name);
	else if (status == REFUSED)
		printf("refused %u|-|-|-|-\n", galz_code(tally->refusal));
	else
		printf("failed|-|-|-|-\n");
}

static enum status extract(const struct bytes *image, unsigned slot, const galz_u8 *label, const struct words *words)
{
	struct tally tally = { 0 };
	char name[GALZ_NAME + 4];
	name_host_file(name, slot, label);
	char *path = malloc(strlen(words->host) + 1 + sizeof name);
	if (!path)
		return host_error(name);
	sprintf(path, "%s/%s", words->host, name);
	speak_of(name);
	enum status status = pour_new(image, slot, words, path, words->force, &tally);
	speak_of(NULL);
	show_result(slot, label, status, &tally, name);
	free(path);
	return with_gaps(status, &tally);
}

static bool make_folder(const char *path)
{
	struct stat there;
	return mkdir(path, 0777) == 0 || (errno == EEXIST && stat(path, &there) == 0 && S_ISDIR(there.st_mode));
}

enum status extract_all(struct bytes *image, const struct words *words)
{
	galz_u64 volume = galz_judge(image->at, image->length);
	enum status worst = DONE;
	if (galz_refused(volume))
		return say_refusal(image, volume);
	if (!make_folder(words->host))
		return host_error(words->host);
	for (unsigned slot = 1; slot <= galz_slots(volume); slot++) {
		const galz_u8 *label = label_in(image, slot);
		enum status status = label ? extract(image, slot, label, words) : DONE;
		worst = status > worst ? status : worst;
	}
	return worst;
}
