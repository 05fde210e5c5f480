/* Puts an equation into a catalogue that is kept in a file, or withdraws one, from C.
 * catalogue ENTRY CATALOGUE FILE: ENTRY is put or withdraw; CATALOGUE is the catalogue's file, and where there
 * is none of that name, an empty catalogue; FILE has the text, and `-` is standard input.
 * Prints `kinds=N` once the changed catalogue is on the disk, or `answer=refused` and `number=N`, and then the
 * file is as it was. Status 1: the catalogue or the answer could not be written; 2: wrong arguments, or the
 * text or the catalogue could not be read.
 *
 * The file has the catalogue's numbers, the low byte first, as x86-64 has them. A changed catalogue is written
 * to CATALOGUE.new, seen to the disk, and then given the file's name: wherever a run is stopped, the file is
 * the old catalogue or the new one, and whole. CATALOGUE.lock is empty and stays; whoever holds its lock may
 * change the catalogue, so that of two runs at the same time neither loses what the other did. */
#include <errno.h>
#include <fcntl.h>
#include <libgen.h>
#include <signal.h>
#include <stdio.h>
#include <stdlib.h>
#include <string.h>
#include <sys/file.h>
#include <sys/stat.h>
#include <unistd.h>

#include "puvainy.h"

typedef size_t entry(const uint8_t *, size_t, uint32_t *, size_t);

/* One byte more than a text may have is read, so that a longer one is seen to be too long. */
static uint8_t text[PUVAINY_MOST_PUT + 1];

/* Zeros, an empty catalogue, until a file is read. */
static uint32_t numbers[PUVAINY_CATALOGUE];

/* The catalogue's file, and the two beside it. */
static char *path, *new_path, *lock_path;

static entry *named(const char *word)
{
    if (!strcmp(word, "put"))
        return puvainy_put;
    return strcmp(word, "withdraw") ? NULL : puvainy_withdraw;
}

static int cannot(const char *verb, const char *what, const char *more, int status)
{
    fprintf(stderr, "catalogue: cannot %s %s: %s%s\n", verb, what, strerror(errno), more);
    return status;
}

static char *beside(const char *ending)
{
    size_t length = strlen(path) + strlen(ending) + 1;
    char *name = malloc(length);
    if (name)
        snprintf(name, length, "%s%s", path, ending);
    return name;
}

/* Names the files. Of a link the file that it leads to is taken, so that all who change it meet at one lock. */
static int name_files(const char *name)
{
    struct stat is;
    path = realpath(name, NULL);
    if (!path && errno == ENOENT && lstat(name, &is))
        path = strdup(name);
    return path && (new_path = beside(".new")) && (lock_path = beside(".lock"));
}

/* Whether the file is a catalogue, or not there yet. Answers a status, 0 if so. */
static int look(const char *name)
{
    struct stat is;
    if (stat(path, &is))
        return errno == ENOENT ? 0 : cannot("read", name, "", 2);
    if (S_ISREG(is.st_mode) && is.st_size == sizeof numbers)
        return 0;
    fprintf(stderr, "catalogue: %s is no catalogue: that is a file of %zu bytes\n", name, sizeof numbers);
    return 2;
}

/* Waits until nobody else changes the catalogue. The lock is held until this process ends. */
static int lock(void)
{
    int file = open(lock_path, O_RDONLY | O_CREAT | O_CLOEXEC, 0666);
    return file >= 0 && !flock(file, LOCK_EX);
}

/* Reads the catalogue, unless there is no file yet. Answers a status, 0 if all is well. */
static int read_catalogue(const char *name)
{
    int status = look(name);
    if (status)
        return status;
    FILE *file = fopen(path, "rb");
    if (!file)
        return errno == ENOENT ? 0 : cannot("read", name, "", 2);
    if (fread(numbers, sizeof numbers, 1, file) != 1)
        return cannot("read", name, "", 2);
    fclose(file);
    return 0;
}

/* Writes all numbers to a file and sees them to the disk. */
static int write_numbers(int file)
{
    const uint8_t *bytes = (const uint8_t *)numbers;
    for (size_t done = 0; done < sizeof numbers;) {
        ssize_t count = write(file, bytes + done, sizeof numbers - done);
        if (count <= 0)
            return 0;
        done += (size_t)count;
    }
    return !fsync(file);
}

/* Makes the new file, with the permissions of the old one. What a stopped run may have left there is gone. */
static int write_new(void)
{
    struct stat old;
    if (unlink(new_path) && errno != ENOENT)
        return 0;
    int file = open(new_path, O_WRONLY | O_CREAT | O_EXCL | O_CLOEXEC, 0666);
    if (file < 0)
        return 0;
    int is_well = (stat(path, &old) || !fchmod(file, old.st_mode & 07777)) && write_numbers(file);
    int why = errno;
    if (close(file) && is_well)
        return 0;
    errno = why;
    return is_well;
}

/* Sees the file's name to the disk. */
static int write_folder(void)
{
    char *name = strdup(path);
    int folder = name ? open(dirname(name), O_RDONLY | O_DIRECTORY | O_CLOEXEC) : -1;
    free(name);
    return folder >= 0 && !fsync(folder) && !close(folder);
}

/* Puts the changed catalogue in the place of the old one. Answers a status, 0 once it is on the disk. */
static int keep(const char *name)
{
    if (!write_new() || rename(new_path, path)) {
        int status = cannot("write", name, "; the catalogue is as it was", 1);
        unlink(new_path);
        return status;
    }
    if (!write_folder())
        return cannot("write the folder of", name, "; the catalogue is changed, but may be the old one if the machine stops", 1);
    return 0;
}

/* Reads the text. Answers a status, 0 if all is well. */
static int read_text(const char *name, size_t *length)
{
    FILE *file = strcmp(name, "-") ? fopen(name, "rb") : stdin;
    if (!file)
        return cannot("open", name, "", 2);
    *length = fread(text, 1, sizeof text, file);
    return ferror(file) ? cannot("read", name, "", 2) : 0;
}

/* Prints what the call returned. */
static int answer(size_t number)
{
    signal(SIGPIPE, SIG_IGN); /* a pipe that nobody reads is told as a failed write */
    int is_kept = number >= PUVAINY_ANSWER;
    if (is_kept)
        printf("kinds=%zu\n", number - PUVAINY_ANSWER);
    else
        printf("answer=refused\nnumber=%zu\n", number);
    if (fflush(stdout) || ferror(stdout))
        return cannot("write", "the answer", is_kept ? "; the catalogue is changed" : "", 1);
    return 0;
}

int main(int count, char **words)
{
    size_t length = 0;
    entry *asked = count == 4 ? named(words[1]) : NULL;
    if (!asked) {
        fprintf(stderr, "usage: catalogue put|withdraw CATALOGUE FILE (- is standard input)\n");
        return 2;
    }
    int status = read_text(words[3], &length);
    if (status)
        return status;
    if (!name_files(words[2]))
        return cannot("find", words[2], "", 2);
    if ((status = look(words[2])))
        return status;
    if (!lock())
        return cannot("lock", lock_path, "", 1);
    if ((status = read_catalogue(words[2])))
        return status;
    size_t number = asked(text, length, numbers, PUVAINY_CATALOGUE);
    if (number >= PUVAINY_ANSWER && (status = keep(words[2])))
        return status;
    return answer(number);
}
