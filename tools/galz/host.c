/* The host: messages, files that are read, and files that are written whole or not at all. */
#define _POSIX_C_SOURCE 200809L
#define _XOPEN_SOURCE 700
#include "galz.h"

#include <errno.h>
#include <fcntl.h>
#include <limits.h>
#include <signal.h>
#include <stdarg.h>
#include <stdlib.h>
#include <string.h>
#include <sys/stat.h>
#include <unistd.h>

static const char *spoken_of;

void speak_of(const char *what) { spoken_of = what; }

void say(const char *format, ...)
{
	va_list values;
	va_start(values, format);
	fprintf(stderr, "galz: %s%s", spoken_of ? spoken_of : "", spoken_of ? ": " : "");
	vfprintf(stderr, format, values);
	fprintf(stderr, "\n");
	va_end(values);
}

enum status host_error(const char *path)
{
	say("%s: %s", path, strerror(errno));
	return FAILED;
}

/* Makes room for more bytes; what is longer than it needs to be is cut in the end, so that a tool that watches memory sees every step too far. */
static bool make_room(struct bytes *bytes, size_t room)
{
	galz_u8 *made = realloc(bytes->at, room ? room : 1);
	if (made)
		bytes->at = made;
	return made != NULL;
}

/* Reads till the end or till there are so many bytes. Room grows with what is read, so that a device without end takes no more than that. */
static bool read_bytes(struct bytes *bytes, int file, size_t most)
{
	size_t room = 0;
	for (;;) {
		if (bytes->length == room) {
			room = room ? 2 * room : 65536;
			if (!make_room(bytes, room))
				return false;
		}
		size_t wanted = (room < most ? room : most) - bytes->length;
		ssize_t got = wanted ? read(file, bytes->at + bytes->length, wanted) : 0;
		if (got == 0)
			return make_room(bytes, bytes->length);
		if (got > 0)
			bytes->length += (size_t)got;
		else if (errno != EINTR)
			return false;
	}
}

bool load(struct bytes *bytes, const char *path, size_t most)
{
	bool is_input = strcmp(path, "-") == 0;
	int file = is_input ? STDIN_FILENO : open(path, O_RDONLY | O_CLOEXEC);
	*bytes = (struct bytes){ 0 };
	bool loaded = file >= 0 && read_bytes(bytes, file, most);
	if (!loaded) {
		host_error(is_input ? "standard input" : path);
		free(bytes->at);
	}
	if (file >= 0 && !is_input)
		close(file);
	return loaded;
}

/* What would be left behind if a signal ended the program: the scratch file, and the name that was claimed for it. */
static char *volatile left_scratch, *volatile left_claim;

static void leave(int signal)
{
	if (left_scratch)
		unlink(left_scratch);
	if (left_claim)
		unlink(left_claim);
	raise(signal); /* which now ends the program, as the handler was for once */
}

/* What ends the program first removes what would be left; what is ignored stays so. */
static void guard(int signal)
{
	struct sigaction before, once = { .sa_handler = leave, .sa_flags = (int)SA_RESETHAND };
	if (sigaction(signal, NULL, &before) == 0 && before.sa_handler != SIG_IGN)
		sigaction(signal, &once, NULL);
}

/*
 * A standard stream that is closed is opened for nothing, so that no file of ours gets its number. SIGXFSZ is ignored, so that a file over a limit is an
 * error of writing, as a full disk is.
 */
bool begin(void)
{
	for (int stream = 0; stream <= 2; stream++)
		if (fcntl(stream, F_GETFD) < 0 && open("/dev/null", stream == 0 ? O_WRONLY : O_RDONLY) != stream)
			return false;
	guard(SIGHUP);
	guard(SIGINT);
	guard(SIGTERM);
	guard(SIGPIPE);
	signal(SIGXFSZ, SIG_IGN);
	return true;
}

/* a path beside another, in the same directory */
static char *beside(const char *path, const char *name)
{
	const char *slash = strrchr(path, '/');
	size_t folder = slash ? (size_t)(slash - path) + 1 : 0;
	char *made = malloc(folder + strlen(name) + 1);
	if (made) {
		memcpy(made, path, folder);
		strcpy(made + folder, name);
	}
	return made;
}

/* A replaced file's owner and mode are kept; a new one gets what it would have been made with. */
static bool take_mode(int scratch, const struct stat *old)
{
	struct stat made;
	mode_t mask = umask(0);
	umask(mask);
	if (!old)
		return fchmod(scratch, 0666 & ~mask) == 0;
	if (fstat(scratch, &made) != 0)
		return false;
	if ((made.st_uid != old->st_uid || made.st_gid != old->st_gid) && fchown(scratch, old->st_uid, old->st_gid) != 0)
		return false;
	return fchmod(scratch, old->st_mode & 07777) == 0;
}

static bool open_scratch(struct new_file *file, const struct stat *old)
{
	file->scratch = beside(file->path, ".galz-XXXXXX");
	if (!file->scratch)
		return false;
	left_scratch = file->scratch;
	int scratch = mkstemp(file->scratch);
	if (scratch < 0) {
		left_scratch = NULL;
		free(file->scratch);
		file->scratch = NULL;
		return false;
	}
	if (!take_mode(scratch, old) || !(file->stream = fdopen(scratch, "wb"))) {
		close(scratch);
		return false;
	}
	return true;
}

/* Makes an empty file under a name that nobody has, so that nobody can have it any more. */
static bool claim(struct new_file *file)
{
	int claimed = open(file->path, O_WRONLY | O_CREAT | O_EXCL | O_CLOEXEC, 0600);
	if (claimed < 0)
		return false;
	file->claimed = true;
	left_claim = file->path;
	return close(claimed) == 0;
}

/* A file that is there is replaced only if it is a plain one and may be written; of a link the file behind it, not the link. */
static bool may_replace(struct new_file *file, const char *path, const struct stat *old)
{
	if (!S_ISREG(old->st_mode)) {
		say("%s: not a regular file", path);
		return false;
	}
	file->path = realpath(path, NULL);
	if (file->path && access(path, W_OK) == 0)
		return true;
	host_error(path);
	return false;
}

/* The place that the file will have: that of one to be replaced, or a new one, claimed if nothing may be replaced. */
static bool take_place(struct new_file *file, const char *path, bool replace, struct stat *old, bool *stands)
{
	*stands = replace && stat(path, old) == 0;
	if (*stands)
		return may_replace(file, path, old);
	file->path = strdup(path);
	if (file->path && (replace || claim(file)))
		return true;
	host_error(path);
	return false;
}

bool new_open(struct new_file *file, const char *path, bool replace)
{
	struct stat old;
	bool stands;
	*file = (struct new_file){ 0 };
	if (take_place(file, path, replace, &old, &stands)) {
		if (open_scratch(file, stands ? &old : NULL))
			return true;
		host_error(path);
	}
	new_drop(file);
	return false;
}

static bool sync_folder(const char *path)
{
	char *folder = beside(path, ".");
	int file = folder ? open(folder, O_RDONLY | O_DIRECTORY | O_CLOEXEC) : -1;
	/* some file systems have no such thing for a directory, and say EINVAL */
	bool synced = file >= 0 && (fsync(file) == 0 || errno == EINVAL);
	if (file >= 0)
		close(file);
	free(folder);
	return synced;
}

/* Writes all that is left to write; an error is that of the first step that failed. */
static bool finish(FILE *stream)
{
	bool written = fflush(stream) == 0 && !ferror(stream) && fsync(fileno(stream)) == 0;
	int error = errno;
	if (fclose(stream) == 0 && written)
		return true;
	errno = written ? errno : error;
	return false;
}

bool new_keep(struct new_file *file)
{
	FILE *stream = file->stream;
	file->stream = NULL;
	bool kept = finish(stream) && rename(file->scratch, file->path) == 0;
	if (kept) {
		left_scratch = left_claim = NULL;
		free(file->scratch);
		file->scratch = NULL;
		file->claimed = false;
		kept = sync_folder(file->path);
	}
	if (!kept)
		host_error(file->path);
	new_drop(file);
	return kept;
}

void new_drop(struct new_file *file)
{
	if (file->stream)
		fclose(file->stream);
	if (file->scratch)
		unlink(file->scratch);
	if (file->claimed)
		unlink(file->path);
	left_scratch = left_claim = NULL;
	free(file->scratch);
	free(file->path);
	*file = (struct new_file){ 0 };
}
