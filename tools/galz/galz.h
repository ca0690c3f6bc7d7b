/*
 * galz, the library's tool for the bench: what its parts share. main.c takes the command line apart; show.c has judge, cylinders and list, take.c read, salvage and
 * extract-all, put.c write, make.c create and delete; image.c loads and stores images and finds what stands where in one, forms.c has the forms of records in
 * host files, refusals.c what is said of a refusal, host.c the files of the host.
 */
#ifndef GALZ_H
#define GALZ_H

#include "../../include/galzeranta.h"

#include <stdbool.h>
#include <stddef.h>
#include <stdio.h>

/* The exit status: done; refused by the library, or with gaps; wrong usage, or an error of the host. Where several files have one, the highest counts. */
enum status { DONE = 0, REFUSED = 1, FAILED = 2 };

struct bytes {
	galz_u8 *at; /* never NULL once loaded, so that it may be lent */
	size_t length;
};

enum form { LINES, LENGTHS, RAW };

/* The fields of a label to be made, in characters as they will stand; one that was not said is empty. */
struct draft {
	char block_length[6], format[2], level[2], record_length[5], blocking[2];
};

/* What the command line says. What was not said is 0. */
struct words {
	const char *image, *file, *host, *output;
	bool by_slot, salvage, force;
	galz_u64 slot, records;
	enum form form;
	size_t record_length;
	struct draft draft;
};

/* show.c, take.c, put.c, make.c: the commands, on an image that has been loaded */
enum status judge(struct bytes *image, const struct words *words);
enum status cylinders(struct bytes *image, const struct words *words);
enum status list(struct bytes *image, const struct words *words);
enum status read_file(struct bytes *image, const struct words *words);
enum status salvage_file(struct bytes *image, const struct words *words);
enum status extract_all(struct bytes *image, const struct words *words);
enum status write_file(struct bytes *image, const struct words *words);
enum status create_file(struct bytes *image, const struct words *words);
enum status delete_file(struct bytes *image, const struct words *words);

/* image.c */
/* an image of any length; of one that is longer than any volume so much that the library sees it is */
bool load_image(struct bytes *image, const char *path);
/* an image that was changed, in place of the old one or where the command line says */
enum status store_image(const struct bytes *image, const struct words *words);
/* the slot that the command line names */
enum status find_slot(const struct bytes *image, const struct words *words, galz_u64 *slot);
/* of an accepted image: the label in a slot, or NULL */
const galz_u8 *label_in(const struct bytes *image, unsigned slot);
/* a label's field, by its first position, counted from 1 as the standard does */
const char *field(const galz_u8 *label, unsigned position);
/* whether the fields of a label are judged: level space, 1 or 2 */
bool is_known(const galz_u8 *label);

/* refusals.c */
/* says a refusal of a call on an image on standard error: number, places, what is wrong */
enum status say_refusal(const struct bytes *image, galz_u64 answer);
/* the same of creating so many records on an accepted volume: 10 and 12 speak of the label to be made */
enum status say_unmade(const struct bytes *image, galz_u64 answer, galz_u64 records);
/* whether a refusal has a second place */
bool has_second_place(galz_u64 answer);

/* forms.c */
/* the records of a host file: bodies joined, and their lengths, as galz_write takes them */
struct records {
	galz_u8 *bodies;
	galz_u32 *lengths;
	size_t length, count;
};
bool put_record(FILE *to, enum form form, const galz_u8 *body, size_t length);
/* takes a host file's bytes apart, in place; they are the bodies' room from then on */
bool part_records(struct records *records, struct bytes host, const char *path, enum form form, size_t record_length);

/* host.c */
/* readies the program's streams and signals */
bool begin(void);
/* says something on standard error, behind 'galz: ' and what is being spoken of, if anything */
#if defined(__GNUC__)
__attribute__((format(printf, 1, 2)))
#endif
void say(const char *format, ...);
void speak_of(const char *what);
/* says what the system found wrong with a file */
enum status host_error(const char *path);
/* at most so many bytes of a file; '-' is standard input */
bool load(struct bytes *bytes, const char *path, size_t most);

/* A host file that is written new beside its place and put there whole, or not at all. */
struct new_file {
	FILE *stream;
	char *path, *scratch;
	bool claimed;
};
/* opens one; a file that is there already stays and is an error, unless it may be replaced */
bool new_open(struct new_file *file, const char *path, bool replace);
bool new_keep(struct new_file *file);
void new_drop(struct new_file *file);

#endif
