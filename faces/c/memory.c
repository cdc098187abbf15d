/* Memory: what the program asks for, counted for each run, and the buffers of the library. */
#include "run.h"
#include <stdlib.h>
#include <string.h>

/* Before each block stands its size. malloc aligns to this. */
#define HEAD_BYTES ((size_t)16)
#define FIRST_ROOM ((size_t)4096)

/* What the program is answered: whether there is a block, and where. */
struct block {
    uint64_t is_there;
    void *at;
};

static struct block refused(void) { return (struct block){0, (void *)HEAD_BYTES}; }

/* Whether the run may hold `more` bytes in the place of `less`. */
static int is_allowed(const struct run *run, size_t more, size_t less, size_t align)
{
    return align <= HEAD_BYTES && more <= SIZE_MAX / 2 && run->held - less <= run->held_max && more <= run->held_max - (run->held - less);
}

/* The block behind this head, which the run holds from here on. */
static struct block taken(struct run *run, size_t *head, size_t more, size_t less)
{
    if (!head)
        return refused();
    *head = more;
    run->held += more - less;
    if (run->held_most < run->held)
        run->held_most = run->held;
    return (struct block){1, (char *)head + HEAD_BYTES};
}

static size_t *head_of(void *block) { return (size_t *)(void *)((char *)block - HEAD_BYTES); }

struct block szp_os_alloc(size_t len, size_t align)
{
    struct run *run = szp_run_here();
    len = len ? len : align;
    if (!is_allowed(run, len, 0, align))
        return refused();
    return taken(run, malloc(len + HEAD_BYTES), len, 0);
}

struct block szp_os_realloc(void *block, size_t kept, size_t len, size_t align)
{
    struct run *run = szp_run_here();
    size_t old = *head_of(block);
    (void)kept;
    len = len ? len : align;
    if (!is_allowed(run, len, old, align))
        return refused();
    return taken(run, realloc(head_of(block), len + HEAD_BYTES), len, old);
}

void szp_os_dealloc(void *block)
{
    szp_run_here()->held -= *head_of(block);
    free(head_of(block));
}

/* ---- buffers */

static size_t room_for(const struct buffer *it, size_t len)
{
    size_t room = it->room ? it->room : FIRST_ROOM;
    while (room - it->len < len)
        room = room > SIZE_MAX / 2 ? SIZE_MAX : 2 * room;
    return room;
}

int szp_buffer_add(struct buffer *to, const void *from, size_t len)
{
    if (len > SIZE_MAX / 2 - to->len)
        return 0;
    if (to->room - to->len < len) {
        size_t room = room_for(to, len);
        unsigned char *at = realloc(to->at, room);
        if (!at)
            return 0;
        to->at = at;
        to->room = room;
    }
    if (len)
        memcpy(to->at + to->len, from, len);
    to->len += len;
    return 1;
}

void szp_buffer_free(struct buffer *it)
{
    free(it->at);
    *it = (struct buffer){0};
}
