/* Tests of the library, each by its name:
 *
 *     test_desk_c EXAMPLES EXPECTED TEST..
 *
 * EXAMPLES has NAME.drl and NAME.jsonl, EXPECTED what the program prints for them: NAME.objects and NAME.text. It is linked with malloc, realloc and free in
 * these wrappers, which count what is held, and refuse one call where a test asks for it.
 */
#include "szp.h"
#include <pthread.h>
#include <stdarg.h>
#include <stdatomic.h>
#include <stdio.h>
#include <stdlib.h>
#include <string.h>

#define THREADS 16
#define SPOILT_IMAGES 2000
#define SOME 29 /* of so many calls, the test that is called `some` takes one */
#define MOST_BYTES 64
#define LIMIT 100000

static const char *const NAMES[] = {"smoke", "fraud", "parcels", "plant", "orders", "assembly", "dear", "alarm"};
enum { NAME_COUNT = sizeof NAMES / sizeof *NAMES };
static const char *examples, *expected;

static void fail(const char *why, ...)
{
    va_list rest;
    va_start(rest, why);
    vfprintf(stderr, why, rest);
    fputc('\n', stderr);
    va_end(rest);
    exit(1);
}

/* ---- what is held, and what is refused */

static atomic_long held_blocks, refused_call;

void *__real_malloc(size_t), *__real_realloc(void *, size_t);
void __real_free(void *);

/* Whether this is the call that is to be refused; calls are counted down to it. */
static int is_refused(void) { return atomic_load(&refused_call) > 0 && atomic_fetch_sub(&refused_call, 1) == 1; }

void *__wrap_malloc(size_t len)
{
    void *at = is_refused() ? NULL : __real_malloc(len);
    held_blocks += at != NULL;
    return at;
}

void *__wrap_realloc(void *old, size_t len)
{
    void *at = is_refused() ? NULL : __real_realloc(old, len);
    held_blocks += at && !old;
    return at;
}

void __wrap_free(void *at)
{
    held_blocks -= at != NULL;
    __real_free(at);
}

static void wants_nothing_held(const char *where)
{
    if (held_blocks)
        fail("%s: %ld blocks are held", where, (long)held_blocks);
}

/* ---- texts; their memory is none of the library's, and is not counted */

struct text {
    uint8_t *at;
    size_t len;
};

static struct text file(const char *folder, const char *name, const char *end)
{
    char path[4096];
    snprintf(path, sizeof path, "%s/%s.%s", folder, name, end);
    FILE *it = fopen(path, "rb");
    if (!it)
        fail("%s is not there", path);
    struct text text = {__real_malloc(1 << 20), 0};
    text.len = fread(text.at, 1, 1 << 20, it);
    fclose(it);
    return text;
}

static void gone(struct text *text) { __real_free(text->at); }

static void add(struct text *to, const void *from, size_t len)
{
    to->at = __real_realloc(to->at, to->len + len + 1);
    if (len)
        memcpy(to->at + to->len, from, len);
    to->len += len;
}

static void add_output(struct text *to, szp *desk)
{
    uint8_t bytes[MOST_BYTES];
    size_t len;
    while (szp_output(desk, bytes, sizeof bytes, &len) == SZP_GOES && len)
        add(to, bytes, len);
}

static void wants_same(const char *where, const char *name, size_t at, struct text it, struct text wanted)
{
    if (it.len != wanted.len || memcmp(it.at, wanted.at, it.len))
        fail("%s: %s, %zu: %zu bytes in the place of %zu, or others", where, name, at, it.len, wanted.len);
}

/* ---- runs */

struct example {
    struct text rules, script, wanted, image;
    uint32_t form;
};

static struct example example(const char *name, uint32_t form)
{
    const char *end = form == SZP_TEXT ? "text" : "objects";
    struct text none = {0};
    struct example it = {file(examples, name, "drl"), file(examples, name, "jsonl"), file(expected, name, end), none, form};
    if (it.script.at[it.script.len - 1] != '\n') /* the program takes the last line at the end of its input, a handle with its newline */
        add(&it.script, "\n", 1);
    return it;
}

static void gone_example(struct example *it) { gone(&it->rules), gone(&it->script), gone(&it->wanted), gone(&it->image); }

static uint32_t open_example(szp *desk, const struct example *it)
{
    return szp_open(desk, it->rules.at, it->rules.len, it->image.at ? it->image.at : SZP_NOTHING, it->image.len, LIMIT, it->form);
}

/* Takes the image of a run as it is. */
static uint32_t take_image(szp *desk, struct text *image)
{
    size_t size, len;
    uint32_t status = szp_save(desk, &size);
    image->len = 0;
    if (status == SZP_GOES) {
        image->at = __real_realloc(image->at, size);
        if (szp_image(desk, image->at, size, &len) != SZP_GOES || len != size)
            fail("an image of %zu bytes has %zu", size, len);
        image->len = len;
    }
    return status;
}

/* Runs an example in pieces, and adds what is put out. The status of the end. */
static uint32_t run_in_pieces(const struct example *it, size_t piece, struct text *told)
{
    szp desk = SZP_INIT;
    uint32_t status = open_example(&desk, it);
    for (size_t at = 0; at < it->script.len && status == SZP_GOES; at += piece) {
        status = szp_feed(&desk, it->script.at + at, it->script.len - at < piece ? it->script.len - at : piece);
        add_output(told, &desk);
    }
    status = status == SZP_GOES ? szp_close(&desk) : status;
    add_output(told, &desk);
    if (szp_close(&desk) != SZP_ENDED || desk.at)
        fail("a handle was not closed");
    return status;
}

/* ---- tests */

static void test_pieces(void)
{
    static const size_t PIECES[] = {1, 7, 100, 4096};
    for (uint32_t form = SZP_OBJECTS; form <= SZP_TEXT; form++)
        for (int name = 0; name < NAME_COUNT; name++)
            for (int i = 0; i < 4; i++) {
                struct example it = example(NAMES[name], form);
                struct text told = {0};
                uint32_t status = run_in_pieces(&it, PIECES[i], &told);
                if (status > SZP_FAULTY)
                    fail("pieces: %s ends with %u", NAMES[name], status);
                wants_same("pieces", NAMES[name], PIECES[i], told, it.wanted);
                gone(&told), gone_example(&it);
                wants_nothing_held("pieces");
            }
}

/* Feeds the lines one by one; behind each third a new handle goes on from the image. */
static void run_with_saves(struct example *it, struct text *told)
{
    szp desk = SZP_INIT;
    int lines = 0;
    open_example(&desk, it);
    for (uint8_t *at = it->script.at, *end = at + it->script.len, *next; at < end; at = next) {
        next = memchr(at, '\n', (size_t)(end - at));
        next = next ? next + 1 : end;
        szp_feed(&desk, at, (size_t)(next - at));
        add_output(told, &desk);
        if (++lines % 3 || next == end)
            continue;
        if (take_image(&desk, &it->image) != SZP_GOES || open_example(&desk, it) != SZP_GOES)
            fail("a run does not go on from its image behind line %d", lines);
    }
    szp_close(&desk);
}

static void test_saves(void)
{
    for (int name = 0; name < NAME_COUNT; name++) {
        struct example it = example(NAMES[name], SZP_OBJECTS);
        struct text told = {0};
        run_with_saves(&it, &told);
        wants_same("saves", NAMES[name], 0, told, it.wanted);
        gone(&told), gone_example(&it);
        wants_nothing_held("saves");
    }
}

/* The same example from the image in its middle, which it has. */
static void begin_in_middle(struct example *it)
{
    szp desk = SZP_INIT;
    const uint8_t *half = memchr(it->script.at + it->script.len / 2, '\n', it->script.len / 2);
    open_example(&desk, it);
    szp_feed(&desk, it->script.at, (size_t)(half + 1 - it->script.at));
    if (take_image(&desk, &it->image) != SZP_GOES)
        fail("there is no image");
    szp_close(&desk);
}

/* A run with memory refused at its n-th call, from an image and with one in its middle. Whether there was such a call. */
static int run_refused(struct example *it, long call, uint32_t *status_of_end, struct text *told)
{
    szp desk = SZP_INIT;
    szp_told counts;
    size_t size;
    atomic_store(&refused_call, call);
    uint32_t status = open_example(&desk, it);
    if (status == SZP_GOES)
        status = szp_feed(&desk, it->script.at, it->script.len);
    if (status == SZP_GOES)
        status = szp_save(&desk, &size);
    if (status == SZP_GOES)
        status = szp_counts(&desk, &counts);
    int was_refused = call && atomic_exchange(&refused_call, 0) == 0;
    add_output(told, &desk);
    szp_close(&desk);
    *status_of_end = status;
    return was_refused;
}

static void refuse(long step)
{
    struct example it = example("alarm", SZP_OBJECTS);
    struct text whole = {0};
    uint32_t status, wanted;
    int unneeded = 0;
    begin_in_middle(&it);
    run_refused(&it, 0, &wanted, &whole); /* nothing is refused */
    long call = 1;
    for (int goes = 1; goes; call += step) {
        struct text told = {0};
        goes = run_refused(&it, call, &status, &told);
        if (goes && status == wanted) /* a block that the run does without, as one of less room */
            unneeded++;
        else if (goes && status != SZP_NO_MEMORY)
            fail("refused: with call %ld the status is %u", call, status);
        if (told.len > whole.len || memcmp(told.at ? told.at : SZP_NOTHING, whole.at, told.len) || (status == wanted && told.len < whole.len))
            fail("refused: with call %ld something else was put out", call);
        gone(&told);
        wants_nothing_held("refused");
    }
    fprintf(stderr, "refused: of %ld calls, the run does without %d\n", call / step - 1, unneeded);
    gone(&whole), gone_example(&it);
}

static void test_refused(void) { refuse(1); }

static void test_some_refused(void) { refuse(SOME); }

static uint64_t drawn(uint64_t *state)
{
    *state ^= *state << 13, *state ^= *state >> 7, *state ^= *state << 17;
    return *state;
}

static void test_spoilt(void)
{
    static const char LINES[] = "{\"do\":\"fire\"}\n{\"do\":\"facts\"}\n{\"do\":\"counts\"}\n";
    struct example it = example("fraud", SZP_OBJECTS);
    uint64_t state = 88172645463325252u;
    int read = 0;
    begin_in_middle(&it);
    struct text image = it.image;
    for (int i = 0; i < SPOILT_IMAGES; i++) {
        struct text spoilt = {0}, told = {0};
        add(&spoilt, image.at, i % 5 ? image.len : 1 + drawn(&state) % (image.len - 1));
        for (uint64_t n = 1 + drawn(&state) % 3; n; n--)
            spoilt.at[drawn(&state) % spoilt.len] = (uint8_t)drawn(&state);
        szp desk = SZP_INIT;
        it.image = spoilt;
        uint32_t status = open_example(&desk, &it);
        if (status == SZP_GOES)
            read += szp_feed(&desk, (const uint8_t *)LINES, strlen(LINES)) == SZP_GOES;
        else if (status != SZP_IMAGE)
            fail("spoilt: image %d is answered %u", i, status);
        add_output(&told, &desk);
        szp_close(&desk);
        gone(&spoilt), gone(&told);
        wants_nothing_held("spoilt");
    }
    fprintf(stderr, "spoilt: %d of %d images are refused\n", SPOILT_IMAGES - read, SPOILT_IMAGES);
    it.image = image;
    gone_example(&it);
}

static void *work(void *number)
{
    uint32_t form = *(uint32_t *)number % 2;
    for (int name = 0; name < NAME_COUNT; name++) {
        struct example it = example(NAMES[name], form);
        struct text told = {0};
        run_in_pieces(&it, MOST_BYTES, &told);
        wants_same("threads", NAMES[name], MOST_BYTES, told, it.wanted);
        gone(&told), gone_example(&it);
    }
    return NULL;
}

static void test_threads(void)
{
    pthread_t threads[THREADS];
    uint32_t numbers[THREADS];
    for (uint32_t i = 0; i < THREADS; i++) {
        numbers[i] = i;
        if (pthread_create(&threads[i], NULL, work, &numbers[i]))
            fail("there is no thread");
    }
    for (int i = 0; i < THREADS; i++)
        pthread_join(threads[i], NULL);
    if (held_blocks > THREADS) /* the machine's own threads may hold blocks */
        fail("threads: %ld blocks are held", (long)held_blocks);
}

static void wants(uint32_t answer, uint32_t wanted, const char *what)
{
    if (answer != wanted)
        fail("calls: %s is answered %u, not %u", what, answer, wanted);
}

static void test_empty_calls(const struct text *rules)
{
    szp none = SZP_INIT;
    szp_told told = {.clock = -1};
    uint8_t byte = 'x';
    size_t len = 7;
    wants(szp_open(&none, rules->at, rules->len, SZP_NOTHING, 0, 0, SZP_TEXT), SZP_BAD_LIMIT, "szp_open with the limit 0");
    wants(szp_open(&none, rules->at, rules->len, SZP_NOTHING, 0, 1000001, SZP_TEXT), SZP_BAD_LIMIT, "szp_open with the limit 1,000,001");
    wants(szp_feed(&none, SZP_NOTHING, 0), SZP_ENDED, "szp_feed of an empty handle");
    wants(szp_save(&none, &len), SZP_ENDED, "szp_save of an empty handle");
    wants(szp_counts(&none, &told), SZP_ENDED, "szp_counts of an empty handle");
    if (len != 7 || told.clock != -1)
        fail("calls: szp_save or szp_counts tells something of an empty handle");
    wants(szp_output(&none, &byte, 1, &len), SZP_ENDED, "szp_output of an empty handle");
    if (len || byte != 'x')
        fail("calls: szp_output puts out something of an empty handle");
    wants(szp_image(&none, &byte, 1, &len), SZP_ENDED, "szp_image of an empty handle");
    wants(szp_close(&none), SZP_ENDED, "szp_close of an empty handle");
    if (none.at)
        fail("calls: an empty handle holds something");
}

static void test_open_calls(const struct text *rules)
{
    static const char LINES[] = "{\"do\":\"at\",\"ms\":5}\n{\"do\":\"nonsense\"}\n{\"do\":\"fi";
    szp desk = SZP_INIT;
    szp_told told;
    struct text image = {0}, again = {0};
    wants(szp_open(&desk, rules->at, rules->len, SZP_NOTHING, 0, LIMIT, SZP_TEXT), SZP_GOES, "szp_open");
    wants(szp_feed(&desk, SZP_NOTHING, 0), SZP_GOES, "szp_feed of nothing");
    wants(szp_feed(&desk, (const uint8_t *)LINES, strlen(LINES)), SZP_GOES, "szp_feed");
    wants(szp_counts(&desk, &told), SZP_GOES, "szp_counts");
    if (told.clock != 5 || told.lines != 2 || told.firings || told.pending || told.faulted != 1)
        fail("calls: szp_counts tells something else");
    wants(take_image(&desk, &image), SZP_GOES, "szp_save within a line");
    wants(take_image(&desk, &again), SZP_GOES, "szp_save again");
    wants_same("calls", "image", 0, again, image);
    wants(szp_open(&desk, rules->at, rules->len, image.at, image.len, 1, SZP_TEXT), SZP_GOES, "szp_open of an open handle");
    wants(szp_close(&desk), SZP_FAULTY, "szp_close");
    wants(szp_close(&desk), SZP_ENDED, "szp_close again");
    gone(&image), gone(&again);
}

static void test_refusals(const struct text *rules)
{
    szp desk = SZP_INIT;
    struct text told = {0};
    wants(szp_open(&desk, (const uint8_t *)"rule", 4, SZP_NOTHING, 0, LIMIT, SZP_TEXT), SZP_RULES, "szp_open with wrong rules");
    add_output(&told, &desk);
    wants(szp_feed(&desk, (const uint8_t *)"x\n", 2), SZP_ENDED, "szp_feed behind a refusal");
    wants(szp_open(&desk, rules->at, rules->len, (const uint8_t *)"nonsense", 8, LIMIT, SZP_TEXT), SZP_IMAGE, "szp_open with a wrong image");
    add_output(&told, &desk);
    wants(szp_close(&desk), SZP_ENDED, "szp_close behind a refusal");
    struct text wanted = {(uint8_t *)"refused item 1 line 1 Syntax\nrefused checkpoint BadImage\n", 57};
    wants_same("calls", "refusals", 0, told, wanted);
    gone(&told);
}

static void test_version(void)
{
    uint8_t version[] = "xxxxxxx";
    size_t len;
    wants(szp_version(version, 7, &len), SZP_GOES, "szp_version");
    if (len != strlen(SZP_VERSION) || memcmp(version, SZP_VERSION "xx", 7))
        fail("calls: the version is %s", version);
    wants(szp_version(version, 2, &len), SZP_GOES, "szp_version");
    if (len != 2)
        fail("calls: there was room for 2 bytes, and %zu were put out", len);
}

static void test_calls(void)
{
    struct text rules = file(examples, "smoke", "drl");
    test_version();
    test_empty_calls(&rules);
    test_open_calls(&rules);
    test_refusals(&rules);
    gone(&rules);
    wants_nothing_held("calls");
}

int main(int count, char **words)
{
    static const struct {
        const char *name;
        void (*test)(void);
    } TESTS[] = {{"calls", test_calls}, {"pieces", test_pieces}, {"saves", test_saves}, {"refused", test_refused},
                 {"some_refused", test_some_refused}, {"spoilt", test_spoilt}, {"threads", test_threads}};
    if (count < 4)
        fail("usage: test_desk_c EXAMPLES EXPECTED TEST..");
    examples = words[1], expected = words[2];
    for (int i = 3; i < count; i++) {
        size_t it = 0;
        while (it < sizeof TESTS / sizeof *TESTS && strcmp(TESTS[it].name, words[i]))
            it++;
        if (it == sizeof TESTS / sizeof *TESTS)
            fail("there is no test %s", words[i]);
        held_blocks = 0;
        TESTS[it].test();
        printf("%s: passed\n", words[i]);
        held_blocks = 0;
    }
    return 0;
}
