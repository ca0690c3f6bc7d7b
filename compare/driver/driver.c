/*
 * Calls the library's exports for the comparison: requests on standard input, an answer to each on standard output, till the input ends.
 *
 * A request: a byte, the call's number in the table below; four numbers; three lent byte strings, each a length and its bytes. What a call does not take
 * is 0 or empty. Numbers have 8 bytes, the lowest first. The first string is the image. The lengths of a writing are the third string, numbers of 4
 * bytes as the machine has them in memory, which for the archive's is the lowest byte first too.
 *
 * An answer: the number that the call returned; a byte that says what has changed of the lent bytes (1, 2, 4 for the strings; 128 if a byte before or
 * behind one; 64 if the parts that the header's functions give do not make the number again); then each string that has changed, as it is now.
 *
 * Each call runs on a stack of its own, painted before the first. With an argument the driver writes at its end, on standard error, how many bytes of it each
 * export has used, those of the function here that makes the call included: its name and the number. With a second one the stacks are entered 8 bytes lower
 * than System V has it, as in a kernel that aligns its stack to 8.
 *
 * It includes no header but the library's own, so that a compiler without a C library's headers builds it.
 */
#include "../../include/galzeranta.h"

typedef galz_u8 u8;
typedef galz_u64 u64;
long read(int file, void *bytes, unsigned long most);
long write(int file, const void *bytes, unsigned long count);
void *malloc(unsigned long size);
void free(void *room);
void *memset(void *room, int byte, unsigned long count);

enum { STRINGS = 3, NUMBERS = 4, AROUND = 64, FILL = 0xA5, PARTS = 64, FAR = 128, EXPORTS = 9, CALLS = 10, STACK = 16384 };

/* a lent string: room with filled bytes around it, and a copy */
struct lent {
	u64 length;
	u8 *room, *bytes, *copy;
};

static u64 call_judge(struct lent *s, u64 *n) { (void)n; return galz_judge(s[0].bytes, s[0].length); }
static u64 call_find(struct lent *s, u64 *n) { (void)n; return galz_find(s[0].bytes, s[0].length, s[1].bytes, s[1].length); }
static u64 call_count(struct lent *s, u64 *n) { return galz_count(s[0].bytes, s[0].length, n[0]); }
static u64 call_free(struct lent *s, u64 *n) { (void)n; return galz_free(s[0].bytes, s[0].length); }
static u64 call_read(struct lent *s, u64 *n) { return galz_read(s[0].bytes, s[0].length, n[0], n[1], n[2], n[3], s[1].bytes, s[1].length); }
static u64 call_salvage(struct lent *s, u64 *n) { return galz_salvage(s[0].bytes, s[0].length, n[0], n[1], n[2], n[3], s[1].bytes, s[1].length); }
static u64 call_write(struct lent *s, u64 *n)
{
	const galz_u32 *lengths = (const void *)s[2].bytes;
	return galz_write(s[0].bytes, s[0].length, n[0], s[1].bytes, s[1].length, lengths, s[2].length / sizeof *lengths);
}

static u64 call_create(struct lent *s, u64 *n) { return galz_create(s[0].bytes, s[0].length, s[1].bytes, s[1].length, n[0]); }
static u64 call_delete(struct lent *s, u64 *n) { return galz_delete(s[0].bytes, s[0].length, n[0]); }
/* no export, but a function of the header over the judgement's number */
static u64 call_physical(struct lent *s, u64 *n) { return galz_physical(galz_judge(s[0].bytes, s[0].length), n[0]); }

/* the number again, from the parts that the header's functions give */
static u64 refusal_again(u64 a) { return (u64)galz_code(a) << 56 | galz_first(a) << 24 | galz_second(a) << 4 | galz_third(a); }
static u64 found_again(u64 a) { return galz_slot(a) << 24 | galz_offset(a); }
static u64 placed_again(u64 a) { return galz_slot(a) << 24 | galz_start(a); }
static u64 number_again(u64 a) { return galz_number(a); }
static u64 volume_again(u64 a)
{
	if (galz_record_bytes(a) != 128u << galz_size_code(a))
		return ~a;
	return galz_cylinders(a) | (u64)galz_index_sectors(a) << 8 | (u64)galz_sectors(a) << 16 | (u64)galz_size_code(a) << 24 | (u64)galz_sides(a) << 28 |
	       (u64)galz_defect_1(a) << 32 | (u64)galz_defect_2(a) << 40;
}

static u64 next_again(u64 a) { return galz_next_block(a) << 16 | galz_next_offset(a) << 1 | galz_next_mark(a); }
static u64 record_again(u64 a) { return galz_done(a) ? galz_length(a) << 32 | next_again(a) : ~a; }
static u64 gap_again(u64 a) { return 128ULL << 56 | next_again(a); }
static u64 end_again(u64 a) { return 129ULL << 56 | next_again(a); }
static u64 reading_again(u64 a) { return galz_is_gap(a) ? gap_again(a) : galz_is_end(a) ? end_again(a) : record_again(a); }

/* the calls by their numbers, which src/drive.rs knows too; the exports are the first */
static const struct {
	const char *name;
	u64 (*call)(struct lent *, u64 *);
	u64 (*again)(u64);
} calls[CALLS] = { { "galz_judge", call_judge, volume_again },
		   { "galz_find", call_find, found_again },
		   { "galz_count", call_count, number_again },
		   { "galz_free", call_free, number_again },
		   { "galz_read", call_read, reading_again },
		   { "galz_salvage", call_salvage, reading_again },
		   { "galz_write", call_write, number_again },
		   { "galz_create", call_create, placed_again },
		   { "galz_delete", call_delete, number_again },
		   { "galz_physical", call_physical, number_again } };

static u8 stacks[CALLS][STACK] __attribute__((aligned(16)));
static u64 lower;

/* a call on its stack */
static u64 call_on_stack(int call, struct lent *s, u64 *n)
{
	u64 returned;
	__asm__ volatile("movq %%rsp, %%rbx\n\tmovq %3, %%rsp\n\tcall *%4\n\tmovq %%rbx, %%rsp"
			 : "=a"(returned), "+D"(s), "+S"(n)
			 : "r"(stacks[call] + STACK - lower), "r"(calls[call].call)
			 : "rbx", "rcx", "rdx", "r8", "r9", "r10", "r11", "cc", "memory", "xmm0", "xmm1", "xmm2", "xmm3", "xmm4", "xmm5", "xmm6", "xmm7",
			   "xmm8", "xmm9", "xmm10", "xmm11", "xmm12", "xmm13", "xmm14", "xmm15");
	return returned;
}

/* all so many bytes: 1; the input ended before the first: 0; in the midst: -1 */
static int take(void *to, u64 count)
{
	u64 done = 0;
	while (done < count) {
		long got = read(0, (u8 *)to + done, count - done);
		if (got <= 0)
			return done == 0 && got == 0 ? 0 : -1;
		done += (u64)got;
	}
	return 1;
}

static int give_to(int file, const void *from, u64 count)
{
	u64 done = 0;
	while (done < count) {
		long put = write(file, (const u8 *)from + done, count - done);
		if (put <= 0)
			return -1;
		done += (u64)put;
	}
	return 1;
}

static int give(const void *from, u64 count) { return give_to(1, from, count); }

static u64 number(const u8 *bytes)
{
	u64 n = 0;
	for (int i = 7; i >= 0; i--)
		n = n << 8 | bytes[i];
	return n;
}

/* Reads a string into room of its own. Images begin at any address, so the room is entered a little further on each time; a string of numbers where they
   may stand. */
static int take_lent(struct lent *lent, u64 shift)
{
	u8 length[8];
	if (take(length, 8) != 1)
		return -1;
	lent->length = number(length);
	lent->room = malloc(lent->length + 2 * AROUND + 16);
	lent->copy = malloc(lent->length + 1);
	if (!lent->room || !lent->copy)
		return -1;
	lent->bytes = lent->room + AROUND + shift % 16;
	for (u8 *b = lent->room; b < lent->bytes; b++)
		*b = FILL;
	for (u8 *b = lent->bytes + lent->length; b < lent->room + lent->length + 2 * AROUND + 16; b++)
		*b = FILL;
	if (lent->length > 0 && take(lent->bytes, lent->length) != 1)
		return -1;
	for (u64 i = 0; i < lent->length; i++)
		lent->copy[i] = lent->bytes[i];
	return 1;
}

static int has_changed(const struct lent *lent)
{
	for (u64 i = 0; i < lent->length; i++)
		if (lent->bytes[i] != lent->copy[i])
			return 1;
	return 0;
}

static int has_changed_around(const struct lent *lent)
{
	for (const u8 *b = lent->room; b < lent->bytes; b++)
		if (*b != FILL)
			return 1;
	for (const u8 *b = lent->bytes + lent->length; b < lent->room + lent->length + 2 * AROUND + 16; b++)
		if (*b != FILL)
			return 1;
	return 0;
}

static int answer(u64 returned, u64 again, struct lent *lent)
{
	u8 head[9];
	for (int i = 0; i < 8; i++)
		head[i] = (u8)(returned >> 8 * i);
	head[8] = again == returned ? 0 : PARTS;
	for (int i = 0; i < STRINGS; i++) {
		if (has_changed(&lent[i]))
			head[8] |= (u8)(1 << i);
		if (has_changed_around(&lent[i]))
			head[8] |= FAR;
	}
	if (give(head, 9) != 1)
		return -1;
	for (int i = 0; i < STRINGS; i++)
		if (head[8] >> i & 1 && give(lent[i].bytes, lent[i].length) != 1)
			return -1;
	return 1;
}

/* One request and its answer: 1; the end of the input: 0; anything amiss: -1. */
static int serve(u64 turn)
{
	u8 call, numbers[8 * NUMBERS];
	u64 n[NUMBERS];
	struct lent lent[STRINGS];
	int began = take(&call, 1);
	if (began != 1)
		return began;
	if (call >= CALLS || take(numbers, sizeof numbers) != 1)
		return -1;
	for (int i = 0; i < NUMBERS; i++)
		n[i] = number(numbers + 8 * i);
	for (int i = 0; i < STRINGS; i++)
		if (take_lent(&lent[i], i == 2 ? turn * sizeof(galz_u32) : turn + (u64)i) != 1)
			return -1;
	u64 returned = call_on_stack(call, lent, n);
	u64 again = galz_refused(returned) ? refusal_again(returned) : calls[call].again(returned);
	if (galz_done(returned) + galz_refused(returned) + galz_is_gap(returned) + galz_is_end(returned) != 1)
		again = ~returned;
	if (answer(returned, again, lent) != 1)
		return -1;
	for (int i = 0; i < STRINGS; i++) {
		free(lent[i].room);
		free(lent[i].copy);
	}
	return 1;
}

/* the name of a call and the bytes of its stack that are no longer paint */
static void tell_depth(int call)
{
	char line[64], digits[8];
	u64 used = STACK - lower, end = 0, count = 0;
	for (u8 *b = stacks[call]; used > 0 && *b == FILL; b++)
		used--;
	for (const char *c = calls[call].name; *c; c++)
		line[end++] = *c;
	line[end++] = ' ';
	do
		digits[count++] = (char)('0' + used % 10);
	while (used /= 10);
	while (count > 0)
		line[end++] = digits[--count];
	line[end++] = '\n';
	give_to(2, line, end);
}

int main(int words, char **word)
{
	u64 turn = 0;
	int served;
	(void)word;
	lower = words > 2 ? 8 : 0;
	/* by the same memset as the archive's, which the loader thereby looks up on this stack, not on one of those */
	memset(stacks, FILL, sizeof stacks);
	while ((served = serve(turn++)) == 1)
		;
	for (int call = 0; words > 1 && call < EXPORTS; call++)
		tell_depth(call);
	return served == 0 ? 0 : 1;
}
