/* Hands a program its standard input, a file, line by line, and clocks each line: from the moment at which it is handed out to the next read.
 *
 *     cc -O2 -shared -fPIC -o line_clock.so line_clock.c -ldl
 *     LINE_CLOCK=times LD_PRELOAD=./line_clock.so PROGRAM ARGUMENTS < SCRIPT
 *
 * `times` then has the nanoseconds of each line as 64 bits. A line that is longer than the program's room is counted by its parts. Where
 * LINE_CLOCK_PROCESSOR is set, the time is that of the processor, of the whole process. */
#define _GNU_SOURCE
#include <dlfcn.h>
#include <fcntl.h>
#include <stdint.h>
#include <stdlib.h>
#include <string.h>
#include <sys/mman.h>
#include <sys/stat.h>
#include <time.h>
#include <unistd.h>

static char *text;
static size_t size, at;
static uint64_t *times, lines, since;
static int told;
static clockid_t kind = CLOCK_MONOTONIC;
static ssize_t (*system_read)(int, void *, size_t);

static uint64_t now(void) {
    struct timespec t;
    clock_gettime(kind, &t);
    return t.tv_sec * 1000000000ull + t.tv_nsec;
}

/* The text and the room for the times, which are the file's, are there before the first line. */
static void begin(void) {
    struct stat script;
    system_read = dlsym(RTLD_NEXT, "read");
    if (fstat(0, &script) != 0 || script.st_size == 0) return;
    size = script.st_size;
    text = mmap(NULL, size, PROT_READ, MAP_PRIVATE | MAP_POPULATE, 0, 0);
    if (getenv("LINE_CLOCK_PROCESSOR") != NULL) kind = CLOCK_PROCESS_CPUTIME_ID;
    told = open(getenv("LINE_CLOCK"), O_RDWR | O_CREAT | O_TRUNC, 0666);
    if (told < 0 || ftruncate(told, size * 8) != 0) abort();
    times = mmap(NULL, size * 8, PROT_READ | PROT_WRITE, MAP_SHARED, told, 0);
    if (text == MAP_FAILED || times == MAP_FAILED) abort();
}

static void end(void) {
    if (ftruncate(told, lines * 8) != 0 || close(told) != 0) abort();
}

ssize_t read(int file, void *room, size_t most) {
    uint64_t asked = now();
    if (system_read == NULL) begin();
    if (file != 0) return system_read(file, room, most);
    if (since != 0) times[lines++] = asked - since;
    since = 0;
    if (at == size) {
        end();
        return 0;
    }
    char *newline = memchr(text + at, '\n', size - at);
    size_t part = newline == NULL ? size - at : (size_t)(newline - (text + at)) + 1;
    if (part > most) part = most;
    memcpy(room, text + at, part);
    at += part;
    since = now();
    return part;
}
