#include "file.h"

#include <errno.h>
#include <fcntl.h>
#include <stdbool.h>
#include <stdlib.h>
#include <string.h>
#include <sys/stat.h>
#include <unistd.h>

#include "commands.h"
#include "say.h"
#include "temporary.h"

static const char SUFFIX[] = ".XXXXXX";

bool file_is_standard(const char *name)
{
    return name != NULL && strcmp(name, "-") == 0;
}

const char *file_shown_name(const char *name, const char *standard_stream)
{
    return file_is_standard(name) ? standard_stream : name;
}

void file_hold_standard(void)
{
    for (int descriptor = STDIN_FILENO; descriptor <= STDERR_FILENO; descriptor++)
        if (fcntl(descriptor, F_GETFD) < 0 && open("/dev/null", descriptor == STDIN_FILENO ? O_WRONLY : O_RDONLY) < 0)
            _exit(EXIT_SYSTEM);
}

/* Octets until the end of the file, or until there is one more than `most`. False: errno says why. */
static bool read_all(int descriptor, size_t most, struct octets *octets)
{
    size_t room = 0;
    for (;;) {
        if (octets->count == room) {
            room = room == 0 ? 4096 : 2 * room;
            uint8_t *grown = realloc(octets->at, room);
            if (grown == NULL)
                return false;
            octets->at = grown;
        }
        const ssize_t got = read(descriptor, octets->at + octets->count, room - octets->count);
        if (got < 0 && errno == EINTR)
            continue;
        if (got < 0)
            return false;
        octets->count += (size_t)got;
        if (got == 0 || octets->count > most)
            return true;
    }
}

const char file_gzip_fault[] = "compressed with gzip: unpack it with `zcat', and give `-' for its name";

bool file_is_gzip(int first, int second)
{
    return first == 0x1F && second == 0x8B;
}

int file_read(const char *name, size_t most, struct octets *octets)
{
    const char *shown = file_shown_name(name, "standard input");
    const int descriptor = file_is_standard(name) ? STDIN_FILENO : open(name, O_RDONLY | O_CLOEXEC);
    int code = EXIT_SYSTEM;
    *octets = (struct octets){NULL, 0};
    if (descriptor < 0 || !read_all(descriptor, most, octets))
        say_error_at(shown, 0, "%s", strerror(errno));
    else if (octets->count > most) {
        say_error_at(shown, 0, "has more than %zu octets", most);
        code = EXIT_INPUT;
    } else if (octets->count >= 2 && file_is_gzip(octets->at[0], octets->at[1])) {
        say_error_at(shown, 0, "%s", file_gzip_fault);
        code = EXIT_INPUT;
    } else
        code = EXIT_DONE;
    if (descriptor > STDIN_FILENO)
        close(descriptor);
    if (code != EXIT_DONE) {
        free(octets->at);
        *octets = (struct octets){NULL, 0};
    }
    return code;
}

bool file_standard_twice(const char *const *names, size_t count)
{
    size_t found = 0;
    for (size_t i = 0; i < count; i++)
        found += file_is_standard(names[i]);
    if (found > 1)
        say_error("standard input can be read once: `-' stands for %zu inputs", found);
    return found > 1;
}

static bool fault_said;

/* Whether a name is that of a regular file, and which; "-" is what a standard stream was redirected to. */
static bool find_regular(const char *name, int standard_stream, struct stat *status)
{
    const int found = file_is_standard(name) ? fstat(standard_stream, status) : stat(name, status);
    return found == 0 && S_ISREG(status->st_mode);
}

static bool same_file(const struct stat *a, const struct stat *b)
{
    return a->st_dev == b->st_dev && a->st_ino == b->st_ino;
}

bool output_is_input(const char *out, const char *in, const char *what)
{
    struct stat written;
    struct stat read;
    if (!find_regular(out, STDOUT_FILENO, &written) || !find_regular(in, STDIN_FILENO, &read) || !same_file(&written, &read))
        return false;
    say_error_at(file_shown_name(out, "standard output"), 0, "is %s that is read, and would be replaced", what);
    return true;
}

bool output_is_stream(const char *out, FILE *stream)
{
    struct stat written;
    struct stat printed;
    if (!find_regular(out, STDOUT_FILENO, &written) || fstat(fileno(stream), &printed) != 0 || !same_file(&written, &printed))
        return false;
    say_error_at(file_shown_name(out, "standard output"), 0, "is the file that standard %s goes to, and can hold only one of the two",
                 stream == stderr ? "error" : "output");
    return true;
}

/* The directory of a name, and the name in it. */
static bool find_directory(const char *name, struct stat *status, const char **last)
{
    const char *slash = strrchr(name, '/');
    char *directory = slash == NULL ? strdup(".") : strndup(name, (size_t)(slash - name) + 1);
    const bool found = directory != NULL && stat(directory, status) == 0;
    free(directory);
    *last = slash == NULL ? name : slash + 1;
    return found;
}

/* Whether two names, neither of which is there yet, are one. */
static bool same_place(const char *one, const char *other)
{
    struct stat directory;
    struct stat other_directory;
    const char *last = NULL;
    const char *other_last = NULL;
    return find_directory(one, &directory, &last) && find_directory(other, &other_directory, &other_last) &&
           same_file(&directory, &other_directory) && strcmp(last, other_last) == 0;
}

/* What a name to write stands for; "-" is what standard output was redirected to. */
static bool find_written(const char *name, struct stat *status)
{
    return (file_is_standard(name) ? fstat(STDOUT_FILENO, status) : stat(name, status)) == 0;
}

bool output_is_output(const char *out, const char *other, const char *what)
{
    struct stat status;
    struct stat other_status;
    const bool found = find_written(out, &status);
    const bool other_found = find_written(other, &other_status);
    bool same = file_is_standard(out) && file_is_standard(other);
    if (!same && found && other_found)
        same = same_file(&status, &other_status) && !S_ISCHR(status.st_mode);
    else if (!same && !found && !other_found)
        same = same_place(out, other);
    if (same)
        say_error_at(file_shown_name(out, "standard output"), 0, "is %s too, and can hold only one of the two", what);
    return same;
}

int output_fault(const struct output *output)
{
    say_error_at(output->name, 0, "%s", strerror(errno));
    fault_said = true;
    return EXIT_SYSTEM;
}

FILE *output_nowhere(void)
{
    static const char name[] = "/dev/null";
    FILE *nowhere = fopen(name, "w");
    if (nowhere == NULL) {
        say_error_at(name, 0, "%s", strerror(errno));
        exit(EXIT_SYSTEM);
    }
    return nowhere;
}

/* A standard error that was closed from the start is no fault. */
int output_printed(FILE *stream)
{
    if (!ferror(stream) || (stream == stderr && errno != EPIPE))
        return EXIT_DONE;
    const struct output printed = {.name = stream == stderr ? "standard error" : "standard output"};
    return output_fault(&printed);
}

bool output_close_standard(void)
{
    errno = 0;
    const bool written = !ferror(stdout);
    if (fclose(stdout) == 0 && written)
        return true;
    if (!fault_said)
        say_error_at("standard output", 0, "%s", strerror(errno != 0 ? errno : EIO));
    return false;
}

/* A new file has the mode that open would give it, an old one keeps its own. */
static mode_t mode_of(const char *name)
{
    struct stat status;
    if (stat(name, &status) == 0)
        return status.st_mode & 07777;
    const mode_t mask = umask(0);
    umask(mask);
    return 0666 & ~mask;
}

static FILE *open_temporary(const struct output *output)
{
    const int descriptor = temporary_create(output->temporary);
    if (descriptor < 0)
        return NULL;
    FILE *file = fchmod(descriptor, mode_of(output->final)) == 0 ? fdopen(descriptor, "wb") : NULL;
    if (file == NULL) {
        temporary_remove(output->temporary);
        const int reason = errno;
        close(descriptor);
        errno = reason;
    }
    return file;
}

/* The temporary file stands in the directory of the final one, so that a rename suffices. */
static FILE *open_beside(struct output *output, const char *name)
{
    output->final = access(name, F_OK) == 0 ? realpath(name, NULL) : strdup(name);
    if (output->final == NULL)
        return NULL;
    const size_t length = strlen(output->final);
    output->temporary = malloc(length + sizeof SUFFIX);
    if (output->temporary == NULL)
        return NULL;
    memcpy(output->temporary, output->final, length);
    memcpy(output->temporary + length, SUFFIX, sizeof SUFFIX);
    return open_temporary(output);
}

/* A device or a pipe is written in place: a rename would replace it. What may not be written is left to open to refuse. */
static bool in_place(const char *name)
{
    struct stat status;
    return stat(name, &status) == 0 && (!S_ISREG(status.st_mode) || access(name, W_OK) != 0);
}

static void forget_names(struct output *output)
{
    free(output->final);
    free(output->temporary);
    output->final = NULL;
    output->temporary = NULL;
}

int output_open(struct output *output, const char *name)
{
    *output = (struct output){file_shown_name(name, "standard output"), NULL, NULL, NULL};
    if (file_is_standard(name))
        output->file = stdout;
    else if (in_place(name))
        output->file = fopen(name, "wb");
    else
        output->file = open_beside(output, name);
    if (output->file != NULL)
        return EXIT_DONE;
    const int code = output_fault(output);
    forget_names(output);
    return code;
}

static bool close_file(struct output *output)
{
    FILE *file = output->file;
    output->file = NULL;
    return file == stdout || fclose(file) == 0;
}

/* Whether all octets have reached the disk, or the reader of a pipe. */
static bool settle(struct output *output)
{
    const bool written = !ferror(output->file) && fflush(output->file) == 0 &&
                         (output->temporary == NULL || fsync(fileno(output->file)) == 0);
    if (!written) {
        const int reason = errno;
        close_file(output);
        errno = reason;
    }
    return written && close_file(output);
}

static void remove_temporary(struct output *output)
{
    if (output->temporary != NULL)
        temporary_remove(output->temporary);
    forget_names(output);
}

int output_settle(struct output *output)
{
    if (output->file == NULL || settle(output))
        return EXIT_DONE;
    const int code = output_fault(output);
    remove_temporary(output);
    return code;
}

int output_commit(struct output *output)
{
    int code = output_settle(output);
    if (code == EXIT_DONE && output->temporary != NULL && !temporary_keep(output->temporary, output->final))
        code = output_fault(output);
    forget_names(output);
    return code;
}

void output_abandon(struct output *output)
{
    if (output->file != NULL)
        close_file(output);
    remove_temporary(output);
}
