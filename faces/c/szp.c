/* The calls of szp.h: each is one step of a run of the program. */
#include "szp.h"
#include "run.h"
#include <stdlib.h>
#include <string.h>

/* The statuses of the program behind a faulty line, where a read or a write fails, where memory is refused, and where its words cannot be had. */
#define FAULTY_LINE 1
#define READ_FAILED 5
#define WRITE_FAILED 6
#define MEMORY_REFUSED 7
#define NO_WORDS 10
#define LIMIT_MAX 1000000

/* ---- a handle is for one call at a time */

static int enters(struct run *run) { return !__atomic_exchange_n(&run->busy, 1, __ATOMIC_ACQUIRE); }

/* Leaves the run with this answer of the call. */
static int leaves(struct run *run, int answer)
{
    __atomic_store_n(&run->busy, 0, __ATOMIC_RELEASE);
    return answer;
}

/* SZP_GOES, or the status of the program. Its files and words are in memory: where they fail, that was refused. */
static int status_of(const struct run *run)
{
    if (!run->has_ended)
        return SZP_GOES;
    int is_machine = run->status == READ_FAILED || run->status == WRITE_FAILED || run->status == NO_WORDS;
    return is_machine ? MEMORY_REFUSED : run->status;
}

/* The run of an open handle, entered; else null, and what is to be answered. */
static struct run *entered(const szp *handle, int *answer)
{
    if (!handle || !handle->run) {
        *answer = SZP_BAD_CALL;
        return NULL;
    }
    if (!enters(handle->run)) {
        *answer = SZP_BUSY;
        return NULL;
    }
    return handle->run;
}

/* ---- the beginning */

static int are_options(const szp_options *it)
{
    return it->limit <= LIMIT_MAX && (it->form == SZP_OBJECTS || it->form == SZP_TEXT) && (it->image || !it->image_len);
}

static void put_word(struct run *run, const char *word) { run->words[run->word_count++] = word; }

static void put_words(struct run *run, const szp_options *options)
{
    put_word(run, "desk");
    put_word(run, "--image");
    put_word(run, "image");
    if (options->limit) {
        char *digit = run->limit_text + sizeof run->limit_text;
        *--digit = 0;
        for (uint64_t left = options->limit; left; left /= 10)
            *--digit = (char)('0' + left % 10);
        put_word(run, "--limit");
        put_word(run, digit);
    }
    if (options->form == SZP_TEXT)
        put_word(run, "--text");
    put_word(run, "rules");
}

static int put_file(struct run *run, int file, const void *bytes, size_t len)
{
    run->files[file].is_there = 1;
    return szp_buffer_add(&run->files[file].bytes, bytes, len);
}

static void freed(struct run *run)
{
    for (int i = 0; i < FILE_COUNT; i++)
        szp_buffer_free(&run->files[i].bytes);
    szp_buffer_free(&run->output);
    szp_run_unmade(run);
}

int szp_open(szp *handle, const void *rules, size_t rules_len, const szp_options *options)
{
    static const szp_options PLAIN = {0, 0, NULL, 0, SZP_OBJECTS};
    options = options ? options : &PLAIN;
    if (!handle || handle->run || (!rules && rules_len) || !are_options(options))
        return SZP_BAD_CALL;
    struct run *run = szp_run_made();
    if (!run)
        return SZP_NO_MEMORY;
    run->held_max = options->memory ? options->memory : UINT64_MAX;
    if (!put_file(run, RULES_FILE, rules, rules_len) || (options->image && !put_file(run, IMAGE_FILE, options->image, options->image_len))) {
        freed(run);
        return SZP_NO_MEMORY;
    }
    put_words(run, options);
    szp_run_goes_on(run);
    handle->run = run;
    return status_of(run);
}

/* ---- lines in, answers out */

/* What the caller has had of the output is given up, where nothing is left of it. */
static void forget_taken(struct run *run)
{
    if (run->output_taken == run->output.len)
        run->output_taken = run->output.len = 0;
}

static int given(struct run *run, const void *bytes, size_t len)
{
    if (run->has_ended || !len)
        return status_of(run);
    forget_taken(run);
    run->is_within_line = ((const char *)bytes)[len - 1] != '\n';
    run->script = bytes;
    run->script_left = len;
    szp_run_goes_on(run);
    run->script = NULL;
    run->script_left = 0;
    return status_of(run);
}

int szp_feed(szp *handle, const void *bytes, size_t len)
{
    int answer = SZP_BAD_CALL;
    if (!bytes && len)
        return SZP_BAD_CALL;
    struct run *run = entered(handle, &answer);
    return run ? leaves(run, given(run, bytes, len)) : answer;
}

int szp_output(szp *handle, const void **bytes, size_t *len)
{
    int answer = SZP_BAD_CALL;
    if (!bytes || !len)
        return SZP_BAD_CALL;
    *bytes = NULL;
    *len = 0;
    struct run *run = entered(handle, &answer);
    if (!run)
        return answer;
    if (run->output_taken < run->output.len) {
        *bytes = run->output.at + run->output_taken;
        *len = run->output.len - run->output_taken;
        run->output_taken = run->output.len;
    }
    return leaves(run, status_of(run));
}

/* ---- lines of the library's own */

/* Does a line of the library's own, between two lines of the caller's. */
static int own_line(struct run *run, const char *line)
{
    return run->is_within_line && !run->has_ended ? SZP_WITHIN_LINE : given(run, line, strlen(line));
}

int szp_save(szp *handle, const void **image, size_t *len)
{
    int answer = SZP_BAD_CALL;
    if (!image || !len)
        return SZP_BAD_CALL;
    *image = NULL;
    *len = 0;
    struct run *run = entered(handle, &answer);
    if (!run)
        return answer;
    int status = own_line(run, "{\"do\":\"save\"}\n");
    const struct file *file = &run->files[IMAGE_FILE];
    if (file->is_there && (status == SZP_GOES || (0 <= status && status <= FAULTY_LINE))) {
        *image = file->bytes.at;
        *len = file->bytes.len;
    }
    return leaves(run, status);
}

int szp_counts(szp *handle, const void **object, size_t *len)
{
    int answer = SZP_BAD_CALL;
    if (!object || !len)
        return SZP_BAD_CALL;
    *object = NULL;
    *len = 0;
    struct run *run = entered(handle, &answer);
    if (!run)
        return answer;
    forget_taken(run);
    size_t before = run->output.len;
    int status = own_line(run, "{\"do\":\"counts\"}\n");
    const unsigned char *told = run->output.at + before, *end = run->output.len > before ? memchr(told, '\n', run->output.len - before) : NULL;
    if (status == SZP_GOES && end && *told == '{' && (size_t)(end - run->output.at) + 1 < run->output.len) { /* and behind it `done` */
        *object = told;
        *len = (size_t)(end - told);
    }
    return leaves(run, status);
}

/* ---- the end */

int szp_end(szp *handle)
{
    int answer = SZP_BAD_CALL;
    struct run *run = entered(handle, &answer);
    if (!run)
        return answer;
    forget_taken(run);
    run->is_script_ended = 1;
    run->is_within_line = 0;
    while (!run->has_ended)
        szp_run_goes_on(run);
    return leaves(run, status_of(run));
}

int szp_close(szp *handle)
{
    int answer = SZP_BAD_CALL;
    if (handle && !handle->run)
        return 0;
    struct run *run = entered(handle, &answer);
    if (!run)
        return answer;
    run->is_given_up = 1;
    while (!run->has_ended)
        szp_run_goes_on(run);
    handle->run = NULL;
    freed(run);
    return 0;
}

uint64_t szp_memory(const szp *handle, uint64_t *most)
{
    const struct run *run = handle ? handle->run : NULL;
    if (most)
        *most = run ? run->held_most : 0;
    return run ? run->held : 0;
}

const char *szp_version(void) { return SZP_VERSION; }
