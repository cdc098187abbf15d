/* Tests of the library, each by its name:
 *
 *     test_szp EXAMPLES EXPECTED TEST..
 *
 * EXAMPLES has NAME.drl and NAME.jsonl, EXPECTED what the program prints for them: NAME.objects and NAME.text. It is linked with malloc, realloc, free, mmap,
 * munmap and mprotect in these wrappers, which count what is held, and refuse one call where a test asks for it.
 */
#define _GNU_SOURCE
#include "szp.h"
#include <pthread.h>
#include <stdarg.h>
#include <stdatomic.h>
#include <stdio.h>
#include <stdlib.h>
#include <string.h>
#include <sys/mman.h>

#define THREADS 16
#define SPOILT_IMAGES 2000
#define SOME 29 /* of so many calls and images, the tests that are called `some` take one */
#define MOST_BYTES 64

static const char *const NAMES[] = {"smoke", "fraud", "parcels", "plant", "orders", "assembly", "dear", "alarm"};
enum { NAME_COUNT = sizeof NAMES / sizeof *NAMES };
static const char *examples, *expected;

static void fail(const char *why, ...)
{
    va_list rest;
    va_start(rest, why);
    vfprintf(stderr, why, rest);
    fputc('\n', stderr);
    va_end(rest);
    exit(1);
}

/* ---- what is held, and what is refused */

static atomic_long held_blocks, held_map, refused_call;

void *__real_malloc(size_t), *__real_realloc(void *, size_t), *__real_mmap(void *, size_t, int, int, int, off_t);
void __real_free(void *);
int __real_munmap(void *, size_t), __real_mprotect(void *, size_t, int);

/* Whether this is the call that is to be refused; calls are counted down to it. */
static int is_refused(void) { return atomic_load(&refused_call) > 0 && atomic_fetch_sub(&refused_call, 1) == 1; }

void *__wrap_malloc(size_t len)
{
    void *at = is_refused() ? NULL : __real_malloc(len);
    held_blocks += at != NULL;
    return at;
}

void *__wrap_realloc(void *old, size_t len)
{
    void *at = is_refused() ? NULL : __real_realloc(old, len);
    held_blocks += at && !old;
    return at;
}

void __wrap_free(void *at)
{
    held_blocks -= at != NULL;
    __real_free(at);
}

void *__wrap_mmap(void *at, size_t len, int how, int flags, int file, off_t from)
{
    void *map = is_refused() ? MAP_FAILED : __real_mmap(at, len, how, flags, file, from);
    held_map += map == MAP_FAILED ? 0 : (long)len;
    return map;
}

int __wrap_munmap(void *at, size_t len)
{
    held_map -= (long)len;
    return __real_munmap(at, len);
}

int __wrap_mprotect(void *at, size_t len, int how) { return is_refused() ? -1 : __real_mprotect(at, len, how); }

static void wants_nothing_held(const char *where)
{
    if (held_blocks || held_map)
        fail("%s: %ld blocks and %ld bytes of address space are held", where, (long)held_blocks, (long)held_map);
}

/* ---- texts */

struct text {
    char *at;
    size_t len;
};

/* A file; its memory is none of the library's, and is not counted. */
static struct text file(const char *folder, const char *name, const char *end)
{
    char path[4096];
    snprintf(path, sizeof path, "%s/%s.%s", folder, name, end);
    FILE *it = fopen(path, "rb");
    if (!it)
        fail("%s is not there", path);
    struct text text = {__real_malloc(1 << 20), 0};
    text.len = fread(text.at, 1, 1 << 20, it);
    fclose(it);
    return text;
}

static void gone(struct text *text) { __real_free(text->at); }

static void add(struct text *to, const void *from, size_t len)
{
    to->at = __real_realloc(to->at, to->len + len + 1);
    if (len)
        memcpy(to->at + to->len, from, len);
    to->len += len;
}

static void add_output(struct text *to, szp *desk)
{
    const void *bytes;
    size_t len;
    if (szp_output(desk, &bytes, &len) == SZP_BAD_CALL)
        fail("szp_output was refused");
    add(to, bytes, len);
}

static void wants_same(const char *where, const char *name, size_t at, struct text it, struct text wanted)
{
    if (it.len != wanted.len || memcmp(it.at, wanted.at, it.len))
        fail("%s: %s, %zu: %zu bytes in the place of %zu, or others", where, name, at, it.len, wanted.len);
}

/* ---- tests */

struct example {
    struct text rules, script, wanted;
    szp_options options;
};

static struct example example(const char *name, int form)
{
    const char *end = form == SZP_TEXT ? "text" : "objects";
    return (struct example){file(examples, name, "drl"), file(examples, name, "jsonl"), file(expected, name, end), {.form = form}};
}

static void gone_example(struct example *it) { gone(&it->rules), gone(&it->script), gone(&it->wanted); }

/* Runs an example in pieces, and adds what is put out. The status of the end. */
static int run_in_pieces(const struct example *it, size_t piece, struct text *told)
{
    szp desk = SZP_INIT;
    int status = szp_open(&desk, it->rules.at, it->rules.len, &it->options);
    if (status == SZP_NO_MEMORY)
        return status;
    for (size_t at = 0; at < it->script.len && status == SZP_GOES; at += piece) {
        status = szp_feed(&desk, it->script.at + at, it->script.len - at < piece ? it->script.len - at : piece);
        add_output(told, &desk);
    }
    status = szp_end(&desk);
    add_output(told, &desk);
    if (szp_memory(&desk, NULL))
        fail("the engine holds %lu bytes behind its end", (unsigned long)szp_memory(&desk, NULL));
    if (szp_close(&desk) || desk.run)
        fail("a handle was not closed");
    return status;
}

static void test_pieces(void)
{
    static const size_t PIECES[] = {1, 7, 100, 4096};
    for (int form = SZP_OBJECTS; form <= SZP_TEXT; form++)
        for (int name = 0; name < NAME_COUNT; name++)
            for (int i = 0; i < 4; i++) {
                struct example it = example(NAMES[name], form);
                struct text told = {0};
                int status = run_in_pieces(&it, PIECES[i], &told);
                if (status != 0 && status != 1)
                    fail("pieces: %s ends with %d", NAMES[name], status);
                wants_same("pieces", NAMES[name], PIECES[i], told, it.wanted);
                gone(&told), gone_example(&it);
                wants_nothing_held("pieces");
            }
}

/* Feeds the lines one by one with a save behind each third; with `changes` a new handle goes on from each image. */
static void run_with_saves(struct example it, int changes, struct text *told)
{
    szp desk = SZP_INIT;
    szp_open(&desk, it.rules.at, it.rules.len, &it.options);
    int lines = 0;
    for (char *at = it.script.at, *end = at + it.script.len, *next; at < end; at = next) {
        next = memchr(at, '\n', (size_t)(end - at));
        next = next ? next + 1 : end;
        szp_feed(&desk, at, (size_t)(next - at));
        add_output(told, &desk);
        if (++lines % 3 || next == end)
            continue;
        szp next_desk = SZP_INIT;
        if (szp_save(&desk, &it.options.image, &it.options.image_len) != SZP_GOES || !it.options.image)
            fail("there is no image behind line %d", lines);
        if (changes && szp_open(&next_desk, it.rules.at, it.rules.len, &it.options) != SZP_GOES)
            fail("the image behind line %d is refused", lines);
        add_output(told, &desk);
        if (changes) {
            szp_close(&desk);
            desk = next_desk;
        }
    }
    szp_end(&desk);
    add_output(told, &desk);
    szp_close(&desk);
}

static void test_saves(void)
{
    for (int name = 0; name < NAME_COUNT; name++) {
        struct example it = example(NAMES[name], SZP_OBJECTS);
        struct text one = {0}, many = {0};
        run_with_saves(it, 0, &one);
        run_with_saves(it, 1, &many);
        wants_same("saves", NAMES[name], 0, many, one);
        gone(&one), gone(&many), gone_example(&it);
        wants_nothing_held("saves");
    }
}

/* An image from the middle of an example, which the caller frees. */
static struct text image_of(const struct example *it)
{
    szp desk = SZP_INIT;
    struct text copy = {0};
    const void *image;
    size_t len;
    const char *half = memchr(it->script.at + it->script.len / 2, '\n', it->script.len / 2);
    szp_open(&desk, it->rules.at, it->rules.len, &it->options);
    szp_feed(&desk, it->script.at, (size_t)(half + 1 - it->script.at));
    if (szp_save(&desk, &image, &len) != SZP_GOES)
        fail("there is no image");
    add(&copy, image, len);
    szp_close(&desk);
    return copy;
}

/* A run with memory refused at its n-th call, from an image and with one in its middle. Whether there was such a call. */
static int run_refused(struct example *it, struct text image, long call, int *status_of_end, struct text *told)
{
    szp desk = SZP_INIT;
    const void *bytes;
    size_t len;
    it->options.image = image.at;
    it->options.image_len = image.len;
    atomic_store(&refused_call, call);
    int status = szp_open(&desk, it->rules.at, it->rules.len, &it->options);
    if (status == SZP_GOES)
        status = szp_feed(&desk, it->script.at, it->script.len);
    if (status == SZP_GOES)
        status = szp_save(&desk, &bytes, &len);
    if (status == SZP_GOES)
        status = szp_counts(&desk, &bytes, &len);
    if (status == SZP_GOES)
        status = szp_end(&desk);
    int was_refused = call && atomic_exchange(&refused_call, 0) == 0;
    if (desk.run)
        add_output(told, &desk);
    szp_close(&desk);
    *status_of_end = status;
    return was_refused;
}

static void refuse(long step)
{
    struct example it = example("alarm", SZP_OBJECTS);
    struct text image = image_of(&it), whole = {0};
    int status, wanted, unneeded = 0;
    run_refused(&it, image, 0, &wanted, &whole); /* nothing is refused */
    long call = 1;
    for (int goes = 1; goes; call += step) {
        struct text told = {0};
        goes = run_refused(&it, image, call, &status, &told);
        if (goes && status == wanted) /* a block that the program does without, as one of less room */
            unneeded++;
        else if (goes && status != 7 && status != SZP_NO_MEMORY)
            fail("refused: with call %ld the status is %d", call, status);
        if (told.len > whole.len || memcmp(told.at ? told.at : "", whole.at, told.len) || (status == wanted && told.len < whole.len))
            fail("refused: with call %ld something else was put out", call);
        gone(&told);
        wants_nothing_held("refused");
    }
    fprintf(stderr, "refused: of %ld calls, the run does without %d\n", call / step - 1, unneeded);
    gone(&whole), gone(&image), gone_example(&it);
}

static void test_refused(void) { refuse(1); }

static void test_some_refused(void) { refuse(SOME); }

static void test_bounded(void)
{
    struct example it = example("fraud", SZP_TEXT);
    for (uint64_t most = 1; most < 400000; most += most / 16 + 1) {
        struct text told = {0};
        it.options.memory = most;
        int status = run_in_pieces(&it, 4096, &told);
        if (status != 0 && status != 1 && status != 7)
            fail("bounded: with %lu bytes the status is %d", (unsigned long)most, status);
        if (told.len > it.wanted.len || memcmp(told.at ? told.at : "", it.wanted.at, told.len) || (status < 2 && told.len < it.wanted.len))
            fail("bounded: with %lu bytes something else was put out", (unsigned long)most);
        gone(&told);
        wants_nothing_held("bounded");
    }
    gone_example(&it);
}

static uint64_t drawn(uint64_t *state)
{
    *state ^= *state << 13, *state ^= *state >> 7, *state ^= *state << 17;
    return *state;
}

static void test_spoilt(void)
{
    static const char LINES[] = "{\"do\":\"fire\"}\n{\"do\":\"facts\"}\n{\"do\":\"counts\"}\n";
    struct example it = example("fraud", SZP_OBJECTS);
    struct text image = image_of(&it);
    uint64_t state = 88172645463325252u;
    int read = 0;
    for (int i = 0; i < SPOILT_IMAGES; i++) {
        struct text spoilt = {0}, told = {0};
        add(&spoilt, image.at, i % 5 ? image.len : drawn(&state) % image.len);
        for (uint64_t n = spoilt.len ? 1 + drawn(&state) % 3 : 0; n; n--)
            spoilt.at[drawn(&state) % spoilt.len] = (char)drawn(&state);
        szp desk = SZP_INIT;
        it.options.image = spoilt.at;
        it.options.image_len = spoilt.len;
        int status = szp_open(&desk, it.rules.at, it.rules.len, &it.options);
        if (status == SZP_GOES)
            read += szp_feed(&desk, LINES, strlen(LINES)) == SZP_GOES;
        else if (status != 9)
            fail("spoilt: image %d is answered %d", i, status);
        add_output(&told, &desk);
        szp_close(&desk);
        gone(&spoilt), gone(&told);
        wants_nothing_held("spoilt");
    }
    fprintf(stderr, "spoilt: %d of %d images are refused\n", SPOILT_IMAGES - read, SPOILT_IMAGES);
    gone(&image), gone_example(&it);
}

static void *work(void *number)
{
    int form = *(int *)number % 2;
    for (int name = 0; name < NAME_COUNT; name++) {
        struct example it = example(NAMES[name], form);
        struct text told = {0};
        run_in_pieces(&it, MOST_BYTES, &told);
        wants_same("threads", NAMES[name], MOST_BYTES, told, it.wanted);
        gone(&told), gone_example(&it);
    }
    return NULL;
}

static void test_threads(void)
{
    pthread_t threads[THREADS];
    int numbers[THREADS];
    for (int i = 0; i < THREADS; i++) {
        numbers[i] = i;
        if (pthread_create(&threads[i], NULL, work, &numbers[i]))
            fail("there is no thread");
    }
    for (int i = 0; i < THREADS; i++)
        pthread_join(threads[i], NULL);
    long left = held_blocks; /* the machine's own threads may hold blocks */
    if (left > THREADS)
        fail("threads: %ld blocks are held", left);
    held_blocks = held_map = 0;
}

static void wants(int answer, int wanted, const char *what)
{
    if (answer != wanted)
        fail("calls: %s is answered %d, not %d", what, answer, wanted);
}

static void test_closed_calls(const struct text *rules)
{
    szp none = SZP_INIT;
    const void *bytes = "";
    size_t len = 1;
    szp_options wrong[] = {{.form = 2}, {.form = -1}, {.limit = 1000001}, {.image_len = 1}};
    wants(szp_open(NULL, rules->at, rules->len, NULL), SZP_BAD_CALL, "szp_open without a handle");
    wants(szp_open(&none, NULL, 1, NULL), SZP_BAD_CALL, "szp_open without rules");
    for (int i = 0; i < 4; i++)
        wants(szp_open(&none, rules->at, rules->len, &wrong[i]), SZP_BAD_CALL, "szp_open with options that cannot be");
    wants(szp_feed(&none, "", 0), SZP_BAD_CALL, "szp_feed of a closed handle");
    wants(szp_feed(NULL, "", 0), SZP_BAD_CALL, "szp_feed without a handle");
    wants(szp_output(&none, &bytes, &len), SZP_BAD_CALL, "szp_output of a closed handle");
    if (bytes || len)
        fail("calls: szp_output leaves its places as they were");
    wants(szp_save(&none, &bytes, &len), SZP_BAD_CALL, "szp_save of a closed handle");
    wants(szp_counts(&none, &bytes, &len), SZP_BAD_CALL, "szp_counts of a closed handle");
    wants(szp_end(&none), SZP_BAD_CALL, "szp_end of a closed handle");
    wants(szp_close(&none), 0, "szp_close of a closed handle");
    wants(szp_close(NULL), SZP_BAD_CALL, "szp_close without a handle");
    if (szp_memory(NULL, NULL) || szp_memory(&none, NULL) || none.run)
        fail("calls: a closed handle holds something");
}

static void test_open_calls(const struct text *rules)
{
    szp desk = SZP_INIT;
    const void *bytes;
    size_t len;
    wants(szp_open(&desk, rules->at, rules->len, NULL), SZP_GOES, "szp_open");
    wants(szp_open(&desk, rules->at, rules->len, NULL), SZP_BAD_CALL, "szp_open of an open handle");
    wants(szp_feed(&desk, NULL, 1), SZP_BAD_CALL, "szp_feed without bytes");
    wants(szp_feed(&desk, NULL, 0), SZP_GOES, "szp_feed of nothing");
    wants(szp_output(&desk, NULL, &len), SZP_BAD_CALL, "szp_output without a place");
    wants(szp_save(&desk, &bytes, NULL), SZP_BAD_CALL, "szp_save without a place");
    wants(szp_counts(&desk, NULL, NULL), SZP_BAD_CALL, "szp_counts without a place");
    wants(szp_feed(&desk, "{\"do\":", 6), SZP_GOES, "szp_feed of a piece");
    wants(szp_save(&desk, &bytes, &len), SZP_WITHIN_LINE, "szp_save within a line");
    wants(szp_counts(&desk, &bytes, &len), SZP_WITHIN_LINE, "szp_counts within a line");
    wants(szp_feed(&desk, "\"fire\"}\n", 8), SZP_GOES, "szp_feed of the rest");
    wants(szp_counts(&desk, &bytes, &len), SZP_GOES, "szp_counts");
    if (len < 2 || ((const char *)bytes)[0] != '{' || ((const char *)bytes)[len - 1] != '}')
        fail("calls: szp_counts gives no object");
    wants(szp_end(&desk), 0, "szp_end");
    wants(szp_feed(&desk, "x\n", 2), 0, "szp_feed behind the end");
    wants(szp_save(&desk, &bytes, &len), 0, "szp_save behind the end");
    if (!bytes || !len)
        fail("calls: there is no image of the end");
    wants(szp_close(&desk), 0, "szp_close");
    wants(szp_close(&desk), 0, "szp_close again");
}

static void test_refusals(const struct text *rules)
{
    szp desk = SZP_INIT;
    szp_options options = {.image = "nonsense", .image_len = 8};
    struct text told = {0};
    wants(szp_open(&desk, "rule", 4, NULL), 3, "szp_open with wrong rules");
    add_output(&told, &desk);
    wants(szp_feed(&desk, "x\n", 2), 3, "szp_feed behind a refusal");
    szp_close(&desk);
    wants(szp_open(&desk, rules->at, rules->len, &options), 9, "szp_open with a wrong image");
    add_output(&told, &desk);
    szp_close(&desk);
    struct text wanted = {"refused item 1 line 1 Syntax\nrefused checkpoint BadImage\n", 57};
    wants_same("calls", "refusals", 0, told, wanted);
    gone(&told);
}

static void test_calls(void)
{
    struct text rules = file(examples, "smoke", "drl");
    if (strcmp(szp_version(), SZP_VERSION))
        fail("the version is %s", szp_version());
    test_closed_calls(&rules);
    test_open_calls(&rules);
    test_refusals(&rules);
    gone(&rules);
    wants_nothing_held("calls");
}

int main(int count, char **words)
{
    static const struct {
        const char *name;
        void (*test)(void);
    } TESTS[] = {{"calls", test_calls}, {"pieces", test_pieces}, {"saves", test_saves}, {"refused", test_refused},
                 {"some_refused", test_some_refused}, {"bounded", test_bounded}, {"spoilt", test_spoilt}, {"threads", test_threads}};
    if (count < 4)
        fail("usage: test_szp EXAMPLES EXPECTED TEST..");
    examples = words[1], expected = words[2];
    for (int i = 3; i < count; i++) {
        size_t it = 0;
        while (it < sizeof TESTS / sizeof *TESTS && strcmp(TESTS[it].name, words[i]))
            it++;
        if (it == sizeof TESTS / sizeof *TESTS)
            fail("there is no test %s", words[i]);
        held_blocks = held_map = 0;
        TESTS[it].test();
        printf("%s: passed\n", words[i]);
        held_blocks = 0;
    }
    return 0;
}
