/* The machine as the program sees it: names.txt has which function stands in the place of which. Standard input is what szp_feed is given, and a
 * read that finds nothing goes back to the caller. Standard output is a buffer. The files are the rules and the images, in memory. */
#include "run.h"
#include <errno.h>
#include <fcntl.h>
#include <string.h>
#include <unistd.h>

/* The numbers of open files: each file has one, and the folder, of which nothing is read. */
#define FIRST_FILE 100
#define FOLDER (FIRST_FILE + FILE_COUNT)

static const char *const FILE_NAMES[FILE_COUNT] = {"rules", "image", "image.part"};

static ssize_t fail(int error)
{
    szp_run_here()->error = error;
    return -1;
}

static size_t least(size_t a, size_t b) { return a < b ? a : b; }

/* The file of this name, there or not, or null. */
static struct file *named(const char *name)
{
    for (int i = 0; i < FILE_COUNT; i++)
        if (!strcmp(FILE_NAMES[i], name))
            return &szp_run_here()->files[i];
    return NULL;
}

static struct file *opened(int number)
{
    return FIRST_FILE <= number && number < FOLDER ? &szp_run_here()->files[number - FIRST_FILE] : NULL;
}

static ssize_t read_script(struct run *run, void *into, size_t room)
{
    if (!room)
        return 0;
    while (!run->script_left && !run->is_script_ended && !run->is_given_up)
        szp_run_waits(run);
    if (run->is_given_up)
        return fail(EIO);
    size_t len = least(run->script_left, room);
    if (len)
        memcpy(into, run->script, len);
    run->script += len;
    run->script_left -= len;
    return (ssize_t)len;
}

ssize_t szp_os_read(int number, void *into, size_t room)
{
    if (number == STDIN_FILENO)
        return read_script(szp_run_here(), into, room);
    struct file *file = opened(number);
    if (!file)
        return fail(EBADF);
    size_t len = file->place < file->bytes.len ? least(file->bytes.len - file->place, room) : 0;
    if (len)
        memcpy(into, file->bytes.at + file->place, len);
    file->place += len;
    return (ssize_t)len;
}

static ssize_t added(struct buffer *to, const void *from, size_t len)
{
    return szp_buffer_add(to, from, len) ? (ssize_t)len : fail(ENOSPC);
}

ssize_t szp_os_write(int number, const void *from, size_t len)
{
    struct run *run = szp_run_here();
    if (number == STDERR_FILENO)
        return (ssize_t)len;
    if (number == STDOUT_FILENO)
        return added(&run->output, from, len);
    return number == FIRST_FILE + PART_FILE ? added(&run->files[PART_FILE].bytes, from, len) : fail(EBADF);
}

/* What the start of the program says of a processor that is too old. */
ssize_t szp_os_complain(int number, const void *from, size_t len) { return write(number, from, len); }

int szp_os_open(const char *name, int flags, ...)
{
    if (!strcmp(name, "."))
        return FOLDER;
    struct file *file = named(name);
    if (!file || (!file->is_there && !(flags & O_CREAT)))
        return (int)fail(ENOENT);
    if (flags & O_TRUNC)
        szp_buffer_free(&file->bytes);
    file->is_there = 1;
    file->place = 0;
    return FIRST_FILE + (int)(file - szp_run_here()->files);
}

int64_t szp_os_lseek(int number, int64_t to, int whence)
{
    struct file *file = opened(number);
    if (!file)
        return fail(EBADF);
    int64_t from = whence == SEEK_SET ? 0 : (int64_t)(whence == SEEK_CUR ? file->place : file->bytes.len);
    if (to < -from || to > INT64_MAX - from)
        return fail(EINVAL);
    file->place = (size_t)(from + to);
    return from + to;
}

int szp_os_close(int number) { return opened(number) || number == FOLDER ? 0 : (int)fail(EBADF); }

int szp_os_fsync(int number) { return opened(number) || number == FOLDER ? 0 : (int)fail(EBADF); }

int szp_os_unlink(const char *name)
{
    struct file *file = named(name);
    if (!file || !file->is_there)
        return (int)fail(ENOENT);
    szp_buffer_free(&file->bytes);
    file->is_there = 0;
    return 0;
}

int szp_os_rename(const char *from, const char *to)
{
    struct file *old = named(from), *other = named(to);
    if (!old || !other || !old->is_there)
        return (int)fail(ENOENT);
    szp_buffer_free(&other->bytes);
    *other = *old;
    *old = (struct file){0};
    return 0;
}

/* A library leaves the signals of its process alone. */
void *szp_os_signal(int number, void *handler)
{
    (void)number, (void)handler;
    return NULL;
}

size_t szp_os_arg_count(void) { return szp_run_here()->word_count; }

ssize_t szp_os_arg(size_t i, char *into, size_t room)
{
    struct run *run = szp_run_here();
    if (i >= run->word_count)
        return -1;
    size_t len = strlen(run->words[i]);
    memcpy(into, run->words[i], least(len, room));
    return len <= room ? (ssize_t)len : -2;
}

int szp_os_errno(void) { return szp_run_here()->error; }

void szp_os_set_errno(int error) { szp_run_here()->error = error; }
