/* The rule engine Sozhipen as a library: a handle is a run of the program `desk` (docs/DESK.md) without its files. Each call is a function of
 * crates/desk_c, and its contract there says exactly what it does.
 *
 *     szp desk = SZP_INIT;
 *     if (szp_open(&desk, rules, rules_len, SZP_NOTHING, 0, 100000, SZP_TEXT) == SZP_GOES)
 *         szp_feed(&desk, script, script_len);
 *     while (szp_output(&desk, bytes, sizeof bytes, &len) == SZP_GOES && len)
 *         fwrite(bytes, 1, len, stdout);
 *     szp_close(&desk);
 *
 * What a handle puts out is byte for byte what the program prints for the same rules, limit, form and lines: of all lines whose ends were fed, and of
 * nothing else. There are no globals, no threads and no callbacks. Handles know nothing of one another; one is for one call at a time, and stays on its thread.
 *
 * No pointer may be null, also where there are no bytes: SZP_NOTHING stands for some place then.
 */
#ifndef SZP_H
#define SZP_H

#include <stddef.h>
#include <stdint.h>

#ifdef __cplusplus
extern "C" {
#endif

/* The version of this header. */
#define SZP_VERSION "0.1.0"

/* A handle, in a place of the caller's. It is opaque, begins as SZP_INIT, and is not copied while it is open. */
typedef struct szp {
    uint8_t *at;
} szp;

#define SZP_INIT \
    {            \
        NULL     \
    }

/* Where no bytes are. */
#define SZP_NOTHING ((const uint8_t *)"")

/* What a call answers. */
enum {
    SZP_GOES = 0,      /* it is done, and the run goes on */
    SZP_FAULTY = 1,    /* szp_close alone: a line of the run was a fault */
    SZP_BAD_LIMIT = 2, /* the limit is outside of 1 to 1,000,000 */
    SZP_RULES = 3,     /* the rules are refused: szp_output has the line that says why */
    SZP_NO_MEMORY = 7, /* memory was refused */
    SZP_LONG = 8,      /* more than 2^55 bytes would have been fed */
    SZP_IMAGE = 9,     /* an image is refused; behind szp_open the line that says why is put out by szp_output */
    SZP_LIMIT = 11,    /* all 2^55 firings of a run were made: it has ended */
    SZP_ENDED = 12     /* the handle is empty, or its run has ended */
};

/* The forms of what is put out. */
enum {
    SZP_OBJECTS = 0, /* an object of JSON for each answer */
    SZP_TEXT = 1     /* lines of text */
};

/* What is told of a run. */
typedef struct szp_told {
    int64_t clock;    /* in milliseconds */
    uint64_t pending; /* how many matches are pending */
    uint64_t lines;   /* how many lines were done, those before an image too */
    uint64_t firings; /* how many firings were made, those before an image too */
    uint32_t faulted; /* 1 where a line was a fault, else 0 */
} szp_told;

/* Puts the version of the library into `out`, as much as there is room for, and how much that is into `written`. SZP_GOES. */
uint32_t szp_version(uint8_t *out, size_t room, size_t *written);

/* Opens a handle over the text of a rule file: in the empty world, or, where `image_len` is not 0, behind the image of a run of the same rules. Each fire
 * command makes at most `each` firings. What the handle held before is let go.
 * SZP_GOES; SZP_RULES or SZP_IMAGE: there is no run, and szp_output has a line; SZP_BAD_LIMIT or SZP_NO_MEMORY: the handle is empty. */
uint32_t szp_open(szp *handle, const uint8_t *rules, size_t rules_len, const uint8_t *image, size_t image_len, uint64_t each, uint32_t form);

/* Takes bytes of the script: lines, each ended by a newline, whole or in pieces. A line whose end never comes is never done.
 * SZP_GOES; SZP_LIMIT: the run ended with these lines; SZP_NO_MEMORY: it has ended, and what they print is lost; SZP_LONG or SZP_ENDED: nothing has changed. */
uint32_t szp_feed(szp *handle, const uint8_t *bytes, size_t len);

/* Puts what was printed and was not put out yet into `out`, as much as there is room for, and how much that is into `written`. It takes no memory.
 * SZP_GOES, also of a run that has ended; SZP_ENDED of an empty handle. */
uint32_t szp_output(szp *handle, uint8_t *out, size_t room, size_t *written);

/* Makes the image of the run as it is between the lines that were fed and the next, and tells its size. It waits for szp_image, in the place of an earlier one.
 * SZP_GOES; SZP_NO_MEMORY; SZP_IMAGE: it is too long, or no run could go on from its numbers; SZP_ENDED. Nothing has changed but behind SZP_GOES. */
uint32_t szp_save(szp *handle, size_t *size);

/* Puts what is left of that image into `out`, as szp_output does. SZP_GOES, or SZP_ENDED of an empty handle. */
uint32_t szp_image(szp *handle, uint8_t *out, size_t room, size_t *written);

/* Tells of the run between the lines that were fed and the next. SZP_GOES; SZP_NO_MEMORY or SZP_ENDED: `told` stays as it was. */
uint32_t szp_counts(szp *handle, szp_told *told);

/* Ends the run where it stands, and frees all that the handle holds: it is empty, and may be closed again or opened.
 * SZP_GOES, or SZP_FAULTY; SZP_ENDED where it was empty or its run had ended. */
uint32_t szp_close(szp *handle);

#ifdef __cplusplus
}
#endif
#endif
