/* Put before the C library with LD_PRELOAD: refuses requests for memory of the program that it is loaded into.
 *
 * NBT_REFUSED   the number of the request to refuse, the first being 1; none is refused without it
 * NBT_REQUESTS  a file that gets the number of requests, in decimal, when the program ends
 * NBT_CALLS     a file that gets how many requests each call between marks made, a line each, when the program ends
 * NBT_SERVES    two descriptors: for each two numbers that come from the first one the program runs, as a process of its own, with the
 *               request of the one refused, and in each call between marks that of the other, and its status goes to the second
 *               descriptor. So it is loaded once for many runs. Behind them stands the program's name: valgrind serves none of its own.
 * Compiled with SERVES_ONLY it refuses nothing.
 *
 * A request is a call of malloc or realloc, which are all that the program's allocator calls. A program marks a call of
 * its own by two requests of an odd size, which no other request has: one of MARK bytes right before the call, and right
 * after it a larger one for the same block. Neither is a request of the call, and neither is refused as one. */
#include <errno.h>
#include <stdio.h>
#include <stdlib.h>
#include <string.h>
#include <sys/wait.h>
#include <unistd.h>

#define MARK 50021
#define MOST_CALLS 1000000

/* Those of the C library, by its own names. */
extern void *__libc_malloc(size_t);
extern void *__libc_realloc(void *, size_t);

/* How many requests there were; the number of the one to refuse, and that in each call, the first of each being 1. */
static unsigned long requests, refused[2];

/* The block of the mark before the call that is being made, and the requests of each call. */
static void *mark;
static unsigned long calls, call_requests[MOST_CALLS + 1];

#ifndef SERVES_ONLY
static int is_refused(void) {
    int is_of_call = 0;
    requests += 1;
    if (mark != NULL && calls < MOST_CALLS) {
        call_requests[calls] += 1;
        is_of_call = call_requests[calls] == refused[1];
    }
    if (requests != refused[0] && !is_of_call)
        return 0;
    errno = ENOMEM;
    return 1;
}

void *malloc(size_t size) {
    void *block;
    if (size == MARK)
        mark = NULL;
    block = is_refused() ? NULL : __libc_malloc(size);
    if (size == MARK)
        mark = block;
    return block;
}

void *realloc(void *block, size_t size) {
    if (mark != NULL && block == mark) {
        mark = NULL;
        if (calls < MOST_CALLS)
            calls += 1;
    }
    return is_refused() ? NULL : __libc_realloc(block, size);
}
#endif

static unsigned long asked(const char *name) {
    const char *number = getenv(name);
    return number == NULL ? 0 : strtoul(number, NULL, 10);
}

/* Runs the program for each two numbers. Each run returns from here as a child; what serves ends here. */
static void serve(int numbers, int statuses) {
    while (read(numbers, refused, sizeof refused) == sizeof refused) {
        pid_t child = fork();
        int status;
        if (child == 0) {
            close(numbers);
            close(statuses);
            return;
        }
        if (child < 0 || waitpid(child, &status, 0) != child || write(statuses, &status, sizeof status) != sizeof status)
            _exit(1);
    }
    _exit(0);
}

__attribute__((constructor)) static void begin(int count, char **words) {
    const char *served = getenv("NBT_SERVES");
    int numbers, statuses, name;
    refused[0] = asked("NBT_REFUSED");
    if (served != NULL && sscanf(served, "%d %d %n", &numbers, &statuses, &name) == 2 && count > 0 && strcmp(served + name, words[0]) == 0)
        serve(numbers, statuses);
    requests = 0;
}

/* Writes numbers into the file that a variable names, if it names one. */
static void write_numbers(const char *name, const unsigned long *numbers, unsigned long count) {
    const char *path = getenv(name);
    unsigned long i;
    FILE *file;
    if (path == NULL || (file = fopen(path, "w")) == NULL)
        return;
    for (i = 0; i < count; i++)
        fprintf(file, "%lu\n", numbers[i]);
    fclose(file);
}

__attribute__((destructor)) static void report(void) {
    unsigned long count = requests;
    refused[0] = 0;
    mark = NULL;
    write_numbers("NBT_REQUESTS", &count, 1);
    write_numbers("NBT_CALLS", call_requests, calls);
}
