/* Answers a job, or a derivation, by one of the six entries that print an answer, from C.
 * host ENTRY FILE: ENTRY is find, words, rename, same or weigh, which take a job, or check, which takes a derivation;
 * the FILE `-` is standard input.
 * Prints the answer, or `answer=refused` and `number=N`. Status 1: the answer could not be written;
 * 2: wrong arguments, or the text could not be read.
 *
 * A host that swaps plans goes by the line `answer=` of an answer of weigh, or of each block of one of find.
 * `answer=proved` and, of weigh, `answer=atmost` have a derivation from left to right, with its proof: the plans are
 * equal and may be swapped. Of an atmost a lighter one may exist. By any other such line nothing may be swapped. */
#include <errno.h>
#include <signal.h>
#include <stdio.h>
#include <string.h>

#include "puvainy.h"

/* One byte more than any text may have is read, so that a longer one is seen to be too long. */
enum { TEXT = PUVAINY_MOST_DERIVATION + 1, SLOTS = 400, ROOM = 32768 };
enum entry { FIND, WORDS, RENAME, CHECK, SAME, WEIGH, NONE };

static uint8_t text[TEXT], output[ROOM];
static uint32_t workspace[SLOTS * PUVAINY_SLOT];

static enum entry named(const char *word)
{
    static const char *const names[] = {"find", "words", "rename", "check", "same", "weigh"};
    int entry = FIND;
    while (entry < NONE && strcmp(word, names[entry]))
        entry++;
    return entry;
}

static size_t answer(enum entry entry, size_t length)
{
    if (entry == FIND)
        return puvainy_find(text, length, output, ROOM, workspace, SLOTS * PUVAINY_SLOT);
    if (entry == WORDS)
        return puvainy_words(text, length, output, ROOM);
    if (entry == RENAME)
        return puvainy_rename(text, length, output, ROOM);
    if (entry == CHECK)
        return puvainy_check(text, length, output, ROOM);
    if (entry == SAME)
        return puvainy_same(text, length, output, ROOM);
    return puvainy_weigh(text, length, output, ROOM, workspace, SLOTS * PUVAINY_SLOT);
}

static int cannot(const char *verb, const char *what, int status)
{
    fprintf(stderr, "host: cannot %s %s: %s\n", verb, what, strerror(errno));
    return status;
}

int main(int count, char **words)
{
    enum entry entry = count == 3 ? named(words[1]) : NONE;
    if (entry == NONE) {
        fprintf(stderr, "usage: host find|words|rename|check|same|weigh FILE (- is standard input)\n");
        return 2;
    }
    FILE *file = strcmp(words[2], "-") ? fopen(words[2], "rb") : stdin;
    if (!file)
        return cannot("open", words[2], 2);
    size_t length = fread(text, 1, TEXT, file);
    if (ferror(file))
        return cannot("read", words[2], 2);

    size_t number = answer(entry, length);
    signal(SIGPIPE, SIG_IGN); /* a pipe that nobody reads is told as a failed write */
    if (number < PUVAINY_ANSWER)
        printf("answer=refused\nnumber=%zu\n", number);
    else
        fwrite(output, 1, number - PUVAINY_ANSWER, stdout);
    if (fflush(stdout) || ferror(stdout))
        return cannot("write", "the answer", 1);
    return 0;
}
