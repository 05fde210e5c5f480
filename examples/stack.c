/* Holds the eight entries to the stack that puvainy.h grants them, and measures what they take.
 *
 * Standard input has calls as `oracle generate` writes them: a line `entry slots room length`, then the
 * bytes of the text; examples/deep.calls has those that go deepest. Entries 5 and 6, PUT and WITHDRAW, change
 * one catalogue, which is empty before the first call. Each call is made on a thread of its own whose stack
 * ends at pages that cannot be touched, where the header's figure is used up: a call that takes more ends the
 * program, which then names it. The stack is full of one byte before the call; the deepest byte that another
 * stands in afterwards says how much was used.
 *
 * What a thread takes by itself is measured by an empty call and added on top, so that a call has the
 * header's figure to the byte.
 *
 * Status 1: a call took more, or an entry answered no call; 2: the list or the system failed. */
#include <alloca.h>
#include <pthread.h>
#include <signal.h>
#include <stdio.h>
#include <stdlib.h>
#include <string.h>
#include <sys/mman.h>
#include <unistd.h>

#include "puvainy.h"

/* The guard is larger than any frame, so that no frame reaches past it. */
enum { PAINT = 0xa5, ENTRIES = 8, GUARD = 1 << 20, MOST = 1 << 19 };

/* A thread's first frame may be aligned to so many bytes, a call's to so few. */
enum { COARSE = 256, FINE = 16 };

static const char *const names[ENTRIES] = {"find", "words", "rename", "check", "put", "withdraw", "same", "weigh"};
static const size_t granted[ENTRIES] = {PUVAINY_FIND_STACK,  PUVAINY_WORDS_STACK, PUVAINY_RENAME_STACK,
                                        PUVAINY_CHECK_STACK, PUVAINY_PUT_STACK,   PUVAINY_WITHDRAW_STACK,
                                        PUVAINY_SAME_STACK,  PUVAINY_WEIGH_STACK};

struct call {
    size_t entry, slots, room, length;
    uint8_t *text, *output;
    uint32_t *workspace;
    size_t number;
    size_t bytes; /* the stack's size */
    size_t lower; /* how much of it is given away before the entry is called */
    void *given_away;
    uintptr_t top; /* where the stack stands when the entry is called */
};

/* The catalogue of all the calls. */
static uint32_t catalogue[PUVAINY_CATALOGUE];

/* What the handler says of the call that is being made. */
static char too_deep[200];

/* The stack of the calls begins here; the guard stands before it. */
static uint8_t *stack;

static void failed(const char *what)
{
    fprintf(stderr, "stack: %s\n", what);
    exit(2);
}

static void on_fault(int signal, siginfo_t *info, void *context)
{
    uint8_t *at = info->si_addr;
    (void)signal, (void)context;
    const char *said = at >= stack - GUARD && at < stack ? too_deep : "stack: a call touched memory that is not its own\n";
    if (write(STDERR_FILENO, said, strlen(said)) < 0)
        _exit(2);
    _exit(1);
}

/* In place of an entry: it leaves where the stack stood when it was called. */
static __attribute__((noinline)) void nothing(struct call *c)
{
    c->top = (uintptr_t)__builtin_frame_address(0) + 2 * sizeof(void *);
}

static void *run(void *given)
{
    static uint8_t other[1 << 16];
    stack_t handlers = {.ss_sp = other, .ss_size = sizeof other};
    struct call *c = given;
    size_t numbers = c->slots * PUVAINY_SLOT;
    sigaltstack(&handlers, NULL);
    c->given_away = alloca(c->lower);
    if (c->entry == 0)
        nothing(c);
    if (c->entry == 1)
        c->number = puvainy_find(c->text, c->length, c->output, c->room, c->workspace, numbers);
    if (c->entry == 2)
        c->number = puvainy_words(c->text, c->length, c->output, c->room);
    if (c->entry == 3)
        c->number = puvainy_rename(c->text, c->length, c->output, c->room);
    if (c->entry == 4)
        c->number = puvainy_check(c->text, c->length, c->output, c->room);
    if (c->entry == 5)
        c->number = puvainy_put(c->text, c->length, catalogue, PUVAINY_CATALOGUE);
    if (c->entry == 6)
        c->number = puvainy_withdraw(c->text, c->length, catalogue, PUVAINY_CATALOGUE);
    if (c->entry == 7)
        c->number = puvainy_same(c->text, c->length, c->output, c->room);
    if (c->entry == 8)
        c->number = puvainy_weigh(c->text, c->length, c->output, c->room, c->workspace, numbers);
    return NULL;
}

/* Makes a call on a painted stack. */
static void make(struct call *c)
{
    pthread_attr_t attributes;
    pthread_t thread;
    memset(stack, PAINT, c->bytes);
    if (pthread_attr_init(&attributes) || pthread_attr_setstack(&attributes, stack, c->bytes)
        || pthread_create(&thread, &attributes, run, c) || pthread_join(thread, NULL))
        failed("no thread");
    pthread_attr_destroy(&attributes);
}

/* How many bytes of a stack are left to a call, as an empty one finds it. */
static size_t left(size_t bytes, size_t lower)
{
    struct call none = {.bytes = bytes, .lower = lower};
    make(&none);
    return none.top - (uintptr_t)stack;
}

/* Gives a call a stack of which just so many bytes are left to it. */
static void fit(struct call *c, size_t grant)
{
    c->bytes = grant + MOST - left(MOST, 0) + COARSE;
    for (c->lower = 0; left(c->bytes, c->lower) != grant; c->lower += FINE)
        if (c->lower > 2 * COARSE)
            failed("no stack of the header's figure can be made");
}

/* Makes a call on the stack that is granted to it and answers how many bytes of it were used. */
static size_t used(struct call *c, size_t grant)
{
    size_t kept = 0;
    fit(c, grant);
    make(c);
    while (kept < grant && stack[kept] == PAINT)
        kept++;
    return grant - kept;
}

static void *room_for(size_t count, size_t size)
{
    void *room = calloc(count + 1, size);
    if (!room)
        failed("no memory");
    return room;
}

static void prepare(void)
{
    struct sigaction action = {.sa_sigaction = on_fault, .sa_flags = SA_SIGINFO | SA_ONSTACK};
    uint8_t *room = mmap(NULL, GUARD + MOST, PROT_READ | PROT_WRITE, MAP_PRIVATE | MAP_ANONYMOUS, -1, 0);
    if (room == MAP_FAILED || mprotect(room, GUARD, PROT_NONE))
        failed("no room for a stack");
    stack = room + GUARD;
    sigemptyset(&action.sa_mask);
    if (sigaction(SIGSEGV, &action, NULL) || sigaction(SIGBUS, &action, NULL))
        failed("no handler");
    left(MOST, 0); /* what is done once only, as binding names, is done now */
}

/* Reads the next call of the list, if there is one. */
static int next(struct call *c)
{
    int fields = scanf("%zu %zu %zu %zu", &c->entry, &c->slots, &c->room, &c->length);
    if (fields == EOF && !ferror(stdin))
        return 0;
    if (fields != 4 || getchar() != '\n' || c->entry < 1 || c->entry > ENTRIES)
        failed("the list has a line that is no call's");
    c->text = room_for(c->length, 1);
    c->output = room_for(c->room, 1);
    c->workspace = room_for(c->slots * PUVAINY_SLOT, sizeof *c->workspace);
    if (fread(c->text, 1, c->length, stdin) != c->length)
        failed("the list ends in a text");
    return 1;
}

int main(void)
{
    size_t calls[ENTRIES] = {0}, answered[ENTRIES] = {0}, most[ENTRIES] = {0}, count = 0;
    struct call c = {0};
    int status = 0;
    prepare();
    while (next(&c)) {
        size_t i = c.entry - 1;
        snprintf(too_deep, sizeof too_deep, "stack: call %zu of the list takes more than the %zu bytes of puvainy_%s\n",
                 ++count, granted[i], names[i]);
        size_t bytes = used(&c, granted[i]);
        calls[i]++;
        answered[i] += c.number >= PUVAINY_ANSWER;
        if (bytes > most[i])
            most[i] = bytes;
        free(c.text);
        free(c.output);
        free(c.workspace);
    }
    for (size_t i = 0; i < ENTRIES; i++)
        if (answered[i] > 0) {
            printf("%s: %zu of %zu bytes of stack at most in %zu calls, %zu answered\n", names[i], most[i], granted[i],
                   calls[i], answered[i]);
        } else {
            fprintf(stderr, "stack: puvainy_%s answers none of the calls in the list\n", names[i]);
            status = 1;
        }
    if (fflush(stdout) || ferror(stdout))
        failed("the figures cannot be written");
    return status;
}
