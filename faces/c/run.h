/* A run of the program in a library, as the files of this folder see it. */
#ifndef SZP_RUN_H
#define SZP_RUN_H

#include "szp.h"
#include <sys/types.h>

/* The words of the command line: desk --image image --limit N --text rules. */
#define WORDS_MAX 7

/* The rules, the image from which the run goes on, and the one that is being made. */
enum { RULES_FILE, IMAGE_FILE, PART_FILE, FILE_COUNT };

/* Bytes that grow at their end. */
struct buffer {
    unsigned char *at;
    size_t len, room;
};

/* A file of the run. One that is not there has no bytes at all. */
struct file {
    struct buffer bytes;
    int is_there;
    size_t place; /* where the next read or write of it is */
};

/* A run lies at the foot of the stack on which the program runs. */
struct run {
    void *own_stack, *caller_stack;
    const char *words[WORDS_MAX];
    size_t word_count;
    char limit_text[24];
    struct file files[FILE_COUNT];
    const unsigned char *script; /* what of the script is to be read */
    size_t script_left;
    int is_script_ended; /* no more of it comes */
    int is_given_up;     /* the next read of the script fails */
    int is_within_line;
    struct buffer output;
    size_t output_taken; /* how much of it the caller has had */
    int has_ended, status, error, busy;
    uint64_t held, held_most, held_max;
};

/* ---- stack.c: two stacks */

/* A run that is all zero, at the foot of a stack of its own, or null. */
struct run *szp_run_made(void);
/* Gives a run back that does not run. */
void szp_run_unmade(struct run *run);
/* The program goes on until it waits for more of its script, or has ended. */
void szp_run_goes_on(struct run *run);
/* On the stack of a run: back to the caller. */
void szp_run_waits(struct run *run);
/* On the stack of a run: the run. */
struct run *szp_run_here(void);

/* ---- memory.c */

/* Adds bytes to a buffer; whether there was memory for them. */
int szp_buffer_add(struct buffer *to, const void *from, size_t len);
void szp_buffer_free(struct buffer *it);

#endif
