/* The command line. */
#include "galz.h"

#include <stdlib.h>
#include <string.h>

/* which options a command takes */
enum { OUTPUT = 1, AS = 2, SLOT = 4, RECORD_LENGTH = 8, SALVAGE = 16, FORCE = 32 };
/* and those of a label's fields */
enum { BLOCK_LENGTH = 64, FORMAT = 128, LEVEL = 256, LABEL_LENGTH = 512, BLOCKED = 1024, FIELDS = BLOCK_LENGTH | FORMAT | LEVEL | LABEL_LENGTH | BLOCKED };

/*
 * The commands. Operands are given by letters: i IMAGE, c the same where it is changed, f FILE (which is not given with --slot), h a file or folder of the
 * host, n a number of records.
 */
static const struct command {
	const char *name;
	enum status (*run)(struct bytes *, const struct words *);
	unsigned options;
	const char *operands, *help;
} commands[] = {
	{ "judge", judge, 0, "i",
	  "galz judge IMAGE\n"
	  "  The volume's numbers, or why it is refused.\n" },
	{ "cylinders", cylinders, 0, "i",
	  "galz cylinders IMAGE\n"
	  "  A line for each data cylinder: its number c; q, which is c past the first defective cylinder; the physical cylinder, which is q past the second.\n" },
	{ "list", list, 0, "i",
	  "galz list IMAGE\n"
	  "  The volume line and a line for each label: slot, name, level, format, blocking, B, R, start, end, blocks, U.\n" },
	{ "read", read_file, OUTPUT | AS | SLOT, "if",
	  "galz read [-o HOSTFILE] [--as lines|lengths|raw] IMAGE FILE\n"
	  "galz read [-o HOSTFILE] [--as lines|lengths|raw] --slot N IMAGE\n"
	  "  The records of a file. A lost block is refused.\n" },
	{ "salvage", salvage_file, OUTPUT | AS | SLOT, "if",
	  "galz salvage [-o HOSTFILE] [--as lines|lengths|raw] IMAGE FILE\n"
	  "galz salvage [-o HOSTFILE] [--as lines|lengths|raw] --slot N IMAGE\n"
	  "  The records of a file that no lost block has a part of.\n" },
	{ "write", write_file, OUTPUT | AS | SLOT | RECORD_LENGTH, "cfh",
	  "galz write [-o NEWIMAGE] [--as lines|lengths] IMAGE FILE HOSTFILE\n"
	  "galz write [-o NEWIMAGE] --as raw --record-length N IMAGE FILE HOSTFILE\n"
	  "  The records of HOSTFILE in place of those of FILE, or of --slot N; - is standard input.\n" },
	{ "create", create_file, OUTPUT | FIELDS, "cfn",
	  "galz create [-o NEWIMAGE] [--level 1|2] [--format F|V|S] [--blocked] --block-length B [--record-length R] IMAGE FILE N\n"
	  "  A new file without records, with N physical records in a row for them: its slot, start and end.\n" },
	{ "delete", delete_file, OUTPUT | SLOT, "cf",
	  "galz delete [-o NEWIMAGE] IMAGE FILE\n"
	  "galz delete [-o NEWIMAGE] --slot N IMAGE\n"
	  "  Drops a file, for good: how many physical records are free again.\n" },
	{ "extract-all", extract_all, AS | SALVAGE | FORCE, "ih",
	  "galz extract-all [--as lines|lengths|raw] [--salvage] [--force] IMAGE DIR\n"
	  "  Every file into DIR, and a line for each: slot, name, result, records, bytes, gaps, host file.\n" },
};

enum { COMMANDS = sizeof commands / sizeof *commands };

static const char general[] = "galz COMMAND --help\ngalz --help\ngalz --version\n"
			      "Exit status: 0 done; 1 refused, or with gaps; 2 wrong usage, or an error of the host.\n";

static enum status misused(const char *what, const char *word)
{
	say("%s%s%s; see galz --help", what, word ? ": " : "", word ? word : "");
	return FAILED;
}

static bool take_number(const char *word, galz_u64 *number)
{
	*number = 0;
	if (!*word || strlen(word) > 18 || strspn(word, "0123456789") != strlen(word))
		return false;
	for (; *word; word++)
		*number = 10 * *number + (galz_u64)(*word - '0');
	return true;
}

static bool take_form(const char *word, struct words *words)
{
	static const char *const forms[] = { [LINES] = "lines", [LENGTHS] = "lengths", [RAW] = "raw" };
	for (int form = LINES; form <= RAW; form++) {
		if (strcmp(word, forms[form]) == 0) {
			words->form = (enum form)form;
			return true;
		}
	}
	return false;
}

/* a field of one character, among those that may be */
static bool take_letter(const char *word, const char *letters, char field[2])
{
	field[0] = *word;
	return *word && !word[1] && strchr(letters, *word);
}

/* a field of so many digits, with zeros before the number; whether it fits */
static bool take_digits(const char *word, int digits, char *field)
{
	galz_u64 number;
	return take_number(word, &number) && snprintf(field, (size_t)digits + 1, "%0*llu", digits, number) == digits;
}

/* an option's value; whether it is one */
static bool take_value(unsigned option, const char *value, struct words *words)
{
	galz_u64 number = 0;
	switch (option) {
	case OUTPUT:
		words->output = value;
		return *value && strcmp(value, "-") != 0;
	case AS:
		return take_form(value, words);
	case SLOT:
		words->by_slot = true;
		return take_number(value, &words->slot);
	case BLOCK_LENGTH:
		return take_digits(value, 5, words->draft.block_length);
	case FORMAT:
		return take_letter(value, "FVS", words->draft.format);
	case LEVEL:
		return take_letter(value, "12", words->draft.level);
	case LABEL_LENGTH:
		return take_digits(value, 4, words->draft.record_length);
	default:
		if (!take_number(value, &number) || number == 0 || number > 0xFFFFFFFF)
			return false;
		words->record_length = (size_t)number;
		return true;
	}
}

static const struct option {
	const char *name;
	unsigned option;
	bool valued;
} options[] = {
	{ "-o", OUTPUT, true },
	{ "--as", AS, true },
	{ "--slot", SLOT, true },
	{ "--record-length", RECORD_LENGTH, true },
	{ "--block-length", BLOCK_LENGTH, true },
	{ "--format", FORMAT, true },
	{ "--level", LEVEL, true },
	{ "--record-length", LABEL_LENGTH, true },
	{ "--blocked", BLOCKED, false },
	{ "--salvage", SALVAGE, false },
	{ "--force", FORCE, false },
};

static const struct option *option_named(const char *word, unsigned allowed)
{
	for (size_t i = 0; i < sizeof options / sizeof *options; i++)
		if (strcmp(word, options[i].name) == 0 && (options[i].option & allowed))
			return &options[i];
	return NULL;
}

/* Takes one option from the words; the next word is its value, if it has one. */
static enum status take_option(char ***at, unsigned allowed, struct words *words)
{
	const char *word = *(*at)++;
	const struct option *option = option_named(word, allowed);
	if (!option)
		return misused("no such option", word);
	if (option->valued) {
		const char *value = **at;
		if (!value)
			return misused("a value is missing", word);
		if (!take_value(option->option, value, words))
			return misused("not a value of the option", word);
		++*at;
	}
	words->salvage |= option->option == SALVAGE;
	words->force |= option->option == FORCE;
	if (option->option == BLOCKED)
		words->draft.blocking[0] = 'B';
	return DONE;
}

/* The operands in their order, as the command's letters have them. */
static enum status take_operands(char **operands, int count, const char *letters, struct words *words)
{
	int taken = 0;
	for (; *letters; letters++) {
		if (*letters == 'f' && words->by_slot)
			continue;
		if (taken == count)
			return misused("an operand is missing", NULL);
		const char *operand = operands[taken++];
		if (*letters == 'i' || *letters == 'c')
			words->image = operand;
		else if (*letters == 'f')
			words->file = operand;
		else if (*letters == 'h')
			words->host = operand;
		else if (!take_number(operand, &words->records))
			return misused("not a number of records", operand);
	}
	return taken == count ? DONE : misused("one operand too many", operands[taken]);
}

/* What no option alone says. */
static enum status check_words(const struct command *command, const struct words *words)
{
	bool changes = command->operands[0] == 'c', writes = command->run == write_file, creates = command->run == create_file;
	if (writes && (words->form == RAW) != (words->record_length != 0))
		return misused("--as raw and --record-length go together", NULL);
	if (creates && !*words->draft.block_length)
		return misused("an option is missing", "--block-length");
	if (creates && strlen(words->file) > GALZ_NAME)
		return misused("a name of more than 17 bytes", words->file);
	if (changes && !words->output && strcmp(words->image, "-") == 0)
		return misused("an image from standard input needs -o", NULL);
	if (writes && strcmp(words->image, "-") == 0 && strcmp(words->host, "-") == 0)
		return misused("image and host file cannot both be standard input", NULL);
	return DONE;
}

/* Options stand anywhere before '--', behind which all are operands. '-' alone is an operand. */
static enum status take_words(const struct command *command, char **at, struct words *words)
{
	char *operands[4];
	int count = 0;
	bool plain = false;
	while (*at) {
		if (!plain && strcmp(*at, "--") == 0) {
			plain = true;
			at++;
		} else if (!plain && **at == '-' && (*at)[1]) {
			if (take_option(&at, command->options, words) != DONE)
				return FAILED;
		} else if (count == 4) {
			return misused("one operand too many", *at);
		} else {
			operands[count++] = *at++;
		}
	}
	if (take_operands(operands, count, command->operands, words) != DONE)
		return FAILED;
	return check_words(command, words);
}

static bool asks_help(char **words)
{
	for (; *words && strcmp(*words, "--") != 0; words++)
		if (strcmp(*words, "--help") == 0)
			return true;
	return false;
}

static enum status run_command(const struct command *command, char **at)
{
	struct words words = { 0 };
	struct bytes image;
	if (asks_help(at)) {
		fputs(command->help, stdout);
		return DONE;
	}
	if (take_words(command, at, &words) != DONE || !load_image(&image, words.image))
		return FAILED;
	enum status status = command->run(&image, &words);
	free(image.at);
	return status;
}

static enum status help(void)
{
	for (int i = 0; i < COMMANDS; i++)
		fputs(commands[i].help, stdout);
	fputs(general, stdout);
	return DONE;
}

static enum status version(void)
{
	puts("galz 1.2 (GOST 28081-89)");
	return DONE;
}

static enum status run(char **words)
{
	if (!words[0])
		return misused("a command is missing", NULL);
	if (strcmp(words[0], "--help") == 0)
		return help();
	if (strcmp(words[0], "--version") == 0)
		return version();
	for (int i = 0; i < COMMANDS; i++)
		if (strcmp(words[0], commands[i].name) == 0)
			return run_command(&commands[i], words + 1);
	return misused("no such command", words[0]);
}

/* What was printed counts as done only once it is out. */
static enum status close_output(enum status status)
{
	bool written = !ferror(stdout);
	if (fclose(stdout) == 0 && written)
		return status;
	return status == FAILED ? FAILED : host_error("standard output");
}

int main(int argc, char **argv)
{
	if (!begin())
		return FAILED;
	return (int)close_output(run(argv + (argc > 0)));
}
