/* The rule engine Sozhipen as a library: a handle is one run of the program `desk` (docs/DESK.md) in the caller's process.
 *
 *     szp desk = SZP_INIT;
 *     szp_options options = {.form = SZP_TEXT};
 *     if (szp_open(&desk, rules, strlen(rules), &options) == SZP_GOES)
 *         szp_feed(&desk, script, strlen(script));
 *     szp_output(&desk, &bytes, &len);
 *     szp_close(&desk);
 *
 * What a handle puts out is byte for byte what the program prints for the same rules, options and script. When a call comes back, all that
 * the whole lines fed so far print has been put out.
 *
 * There are no globals, no threads and no callbacks. Handles know nothing of one another. A handle may go from thread to thread between calls; it is for
 * one call at a time. Each call tests what it is given, and where that cannot be it does nothing and answers SZP_BAD_CALL.
 */
#ifndef SZP_H
#define SZP_H

#include <stddef.h>
#include <stdint.h>

#ifdef __cplusplus
extern "C" {
#endif

/* The version of the engine, and of this header. */
#define SZP_VERSION "0.1.0"

/* A handle, in a place of the caller's. It is opaque, begins as SZP_INIT, and must not be copied while it is open. */
typedef struct szp {
    void *run;
} szp;

#define SZP_INIT \
    {            \
        NULL     \
    }

/* What a call answers: one of these, or the status of docs/DESK.md with which the run has ended: 0, 1 (a line was faulty), 3, 7, 8, 9, 11. Files and words
 * of a run are in memory, so where the program would end with 5, 6 or 10, memory was refused, and the status is 7. */
enum {
    SZP_GOES = -1,        /* the run waits for more of its script */
    SZP_NO_MEMORY = -2,   /* memory for the call itself was refused, and nothing was done. The handle is as it was, and still to be closed */
    SZP_BUSY = -3,        /* another call with this handle has not come back: nothing was done */
    SZP_BAD_CALL = -4,    /* an argument cannot be, or the handle is not open: nothing was done */
    SZP_WITHIN_LINE = -5  /* the last line that was fed has no newline yet: nothing was done */
};

/* The forms of what is put out. */
enum {
    SZP_OBJECTS = 0, /* an object of JSON for each answer */
    SZP_TEXT = 1     /* lines of text, as with the word `--text` */
};

/* How a run begins. All zero, or a null pointer in its place, is a run with a limit of 100,000 from the empty world, that answers in objects. */
typedef struct szp_options {
    uint64_t limit;    /* the most firings of one fire line, 1 to 1,000,000; 0 stands for 100,000 */
    uint64_t memory;   /* the most bytes that the engine may hold at once, 0 for no bound. Past it the run ends with the status 7 */
    const void *image; /* the image from which the run goes on, or null */
    size_t image_len;  /* how many bytes the image has */
    int form;          /* SZP_OBJECTS or SZP_TEXT */
} szp_options;

/* Begins a run over the text of a rule file. Rules and image are copied. The handle is SZP_INIT, or was closed.
 * SZP_GOES; or 3 where the rules are refused, 9 where the image is, and szp_output has the line that says so; or 7 where the engine had no memory:
 * then the handle is open, and to be closed. With SZP_NO_MEMORY or SZP_BAD_CALL it stays as it was. */
int szp_open(szp *handle, const void *rules, size_t rules_len, const szp_options *options);

/* Takes bytes of the script: lines, each ended by a newline, whole or in pieces. It does not keep them where they lie.
 * SZP_GOES, or the status with which the run has ended, now or before; behind that nothing is read. */
int szp_feed(szp *handle, const void *bytes, size_t len);

/* Gives what was put out since it was last asked. The bytes are good up to the next call with this handle, and end behind a line.
 * SZP_GOES, or the status with which the run has ended. */
int szp_output(szp *handle, const void **bytes, size_t *len);

/* Gives the image of the run as it is between two lines: szp_open goes on from it. The image is good up to the next call with this handle.
 * It is the line {"do":"save"} of the script: it has a number, and szp_output has what it answers. Of a run that was ended
 * by szp_end it gives the image of the end, and is no line.
 * SZP_GOES, or 0 or 1 behind szp_end, where there is an image. Else SZP_WITHIN_LINE, or the status with which the run has ended: 7 or 9 where the
 * image could not be made (docs/DESK.md, Statuses). */
int szp_save(szp *handle, const void **image, size_t *len);

/* Gives what is kept, as an object: clock, facts by type, firings, floors by entry point, and how many matches are pending (docs/DESK.md, While it runs).
 * The bytes are good up to the next call with this handle. It is the line {"do":"counts"} of the script, and szp_output has its answer too.
 * With SZP_TEXT there is no object, and the length is 0. SZP_GOES, or as szp_feed, or SZP_WITHIN_LINE. */
int szp_counts(szp *handle, const void **object, size_t *len);

/* The script ends here; what a last line without a newline prints is put out. It makes the image of the end, and gives all memory of the engine back.
 * The status with which the run has ended: 0, or 1 where a line was faulty; else docs/DESK.md, Statuses. */
int szp_end(szp *handle);

/* Ends the run where it stands, without an image of the end, and frees all that the handle holds: it is SZP_INIT again. One that is SZP_INIT stays so.
 * 0, or SZP_BUSY, or SZP_BAD_CALL. */
int szp_close(szp *handle);

/* How many bytes the engine holds, and the most that it has held, where `most` is not null. Of a handle that is not open 0. */
uint64_t szp_memory(const szp *handle, uint64_t *most);

/* The version of the library: SZP_VERSION of the header with which it was built. */
const char *szp_version(void);

#ifdef __cplusplus
}
#endif
#endif
