/* Put before the C library with LD_PRELOAD: the streams of the program that it is loaded into do as it is asked, and its
 * words may be longer than a system takes.
 *
 * NBT_MOST              the most bytes that a read of standard input or a write to standard output moves
 * NBT_READ_INTERRUPTS   how often standard input is interrupted before each read
 * NBT_WRITE_INTERRUPTS  how often standard output is interrupted before each write
 * NBT_READ_FAILS        which read of standard input fails, the first being 1; interrupted ones aren't counted
 * NBT_END_FAILS         the end of standard input is a failure instead
 * NBT_WRITE_FAILS       which write to standard output fails, the first being 1; interrupted ones aren't counted
 * NBT_WRITES            a file that gets the number of writes to standard output, in decimal, when the program ends
 *
 * A word `@FILE` of the program is replaced by what the file holds. The program reads and writes by read and write
 * alone. */
#define _GNU_SOURCE
#include <errno.h>
#include <stdio.h>
#include <stdlib.h>
#include <sys/syscall.h>
#include <unistd.h>

/* Calls of one stream: how many there were, which one fails, and how many interrupts come before each, and before the next. */
static struct calls {
    unsigned long count, failing, interrupts, waiting;
} reads, writes;
static unsigned long most;
static int end_fails;

static unsigned long asked(const char *name, unsigned long otherwise) {
    const char *number = getenv(name);
    return number == NULL ? otherwise : strtoul(number, NULL, 10);
}

static ssize_t fails(int why) {
    errno = why;
    return -1;
}

/* The fault of a stream's next call, or 0. */
static int fault_of(struct calls *calls) {
    if (calls->waiting > 0) {
        calls->waiting -= 1;
        return EINTR;
    }
    calls->waiting = calls->interrupts;
    calls->count += 1;
    return calls->count == calls->failing ? EIO : 0;
}

ssize_t read(int descriptor, void *bytes, size_t size) {
    int fault = descriptor == 0 ? fault_of(&reads) : 0;
    ssize_t count;
    if (fault != 0)
        return fails(fault);
    count = syscall(SYS_read, descriptor, bytes, descriptor == 0 && size > most ? most : size);
    return descriptor == 0 && count == 0 && end_fails ? fails(EIO) : count;
}

ssize_t write(int descriptor, const void *bytes, size_t size) {
    int fault = descriptor == 1 ? fault_of(&writes) : 0;
    if (fault != 0)
        return fails(fault);
    return syscall(SYS_write, descriptor, bytes, descriptor == 1 && size > most ? most : size);
}

/* What a file holds, as a word. */
static char *word_of(const char *path) {
    FILE *file = fopen(path, "r");
    char *word = NULL;
    size_t room = 0;
    if (file == NULL)
        exit(99);
    if (getdelim(&word, &room, '\0', file) < 0)
        exit(99);
    fclose(file);
    return word;
}

__attribute__((constructor)) static void begin(int count, char **words) {
    int i;
    most = asked("NBT_MOST", 1UL << 30);
    reads.interrupts = reads.waiting = asked("NBT_READ_INTERRUPTS", 0);
    writes.interrupts = writes.waiting = asked("NBT_WRITE_INTERRUPTS", 0);
    reads.failing = asked("NBT_READ_FAILS", 0);
    writes.failing = asked("NBT_WRITE_FAILS", 0);
    end_fails = getenv("NBT_END_FAILS") != NULL;
    for (i = 1; i < count; i++)
        if (words[i][0] == '@')
            words[i] = word_of(words[i] + 1);
}

__attribute__((destructor)) static void report(void) {
    const char *path = getenv("NBT_WRITES");
    FILE *file;
    unsigned long count = writes.count;
    if (path == NULL || (file = fopen(path, "w")) == NULL)
        return;
    fprintf(file, "%lu\n", count);
    fclose(file);
}
