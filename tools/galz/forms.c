/* The forms that records have in a host file. */
#include "galz.h"

#include <stdlib.h>
#include <string.h>

enum { COUNT = 4 }; /* the bytes of a length in the form 'lengths', the lowest first */

bool put_record(FILE *to, enum form form, const galz_u8 *body, size_t length)
{
	galz_u8 count[COUNT];
	for (int i = 0; i < COUNT; i++)
		count[i] = (galz_u8)(length >> 8 * i);
	if (form == LENGTHS && fwrite(count, 1, COUNT, to) != COUNT)
		return false;
	if (fwrite(body, 1, length, to) != length)
		return false;
	return form != LINES || putc('\n', to) != EOF;
}

/* how many bytes of a host file stand before a record's body, in it and behind it */
struct piece {
	size_t before, body, behind;
};

static struct piece line_at(const galz_u8 *at, size_t left)
{
	const galz_u8 *newline = memchr(at, '\n', left);
	return newline ? (struct piece){ 0, (size_t)(newline - at), 1 } : (struct piece){ 0, left, 0 };
}

/* a length that is not whole, or over what is left, gives a piece that is longer than that */
static struct piece counted_at(const galz_u8 *at, size_t left)
{
	struct piece piece = { COUNT, 0, 0 };
	for (int i = COUNT - 1; left >= COUNT && i >= 0; i--)
		piece.body = piece.body << 8 | at[i];
	return piece;
}

static struct piece piece_at(const galz_u8 *at, size_t left, enum form form, size_t record_length)
{
	if (form == LINES)
		return line_at(at, left);
	if (form == LENGTHS)
		return counted_at(at, left);
	return (struct piece){ 0, left < record_length ? left : record_length, 0 };
}

/* how many records there are, if the last is whole */
static bool count_records(size_t *count, struct bytes host, const char *path, enum form form, size_t record_length)
{
	*count = 0;
	for (size_t at = 0; at < host.length; ++*count) {
		struct piece piece = piece_at(host.at + at, host.length - at, form, record_length);
		if (piece.before + piece.body + piece.behind > host.length - at) {
			say("%s: ends within the record that begins at byte %zu", path, at);
			return false;
		}
		at += piece.before + piece.body + piece.behind;
	}
	return true;
}

bool part_records(struct records *records, struct bytes host, const char *path, enum form form, size_t record_length)
{
	*records = (struct records){ .bodies = host.at };
	if (!count_records(&records->count, host, path, form, record_length))
		return false;
	records->lengths = malloc((records->count + 1) * sizeof *records->lengths);
	if (!records->lengths) {
		host_error(path);
		return false;
	}
	for (size_t at = 0, i = 0; i < records->count; i++) {
		struct piece piece = piece_at(host.at + at, host.length - at, form, record_length);
		memmove(host.at + records->length, host.at + at + piece.before, piece.body);
		records->lengths[i] = (galz_u32)piece.body;
		records->length += piece.body;
		at += piece.before + piece.body + piece.behind;
	}
	return true;
}
