/* A run of the program has a stack of its own, so that a read of its script can wait for the caller of the library. The stack is aligned
 * to its size, and the run lies at its foot: so what the program calls finds its run by the stack pointer, and there is no global. */
#define _GNU_SOURCE
#include "run.h"
#include <stdlib.h>
#include <string.h>
#include <sys/mman.h>

/* So much of the address space, of which what is touched takes memory: as much as a process has by default. */
#define STACK_BYTES ((size_t)8 << 20)
#define PAGE_BYTES ((size_t)4096)

_Static_assert(sizeof(struct run) <= PAGE_BYTES, "a run is less than a page");

#if defined(__x86_64__)
void szp_switch_stacks(void **save, void *to);
/* Registers that a call keeps; a process has the same modes of its floating-point units on each of its stacks. */
__asm__(".text\n.p2align 4\n.hidden szp_switch_stacks\n.globl szp_switch_stacks\n.type szp_switch_stacks,@function\n"
        "szp_switch_stacks:\n"
        "  endbr64\n  push %rbp\n  push %rbx\n  push %r12\n  push %r13\n  push %r14\n  push %r15\n"
        "  mov %rsp,(%rdi)\n  mov %rsi,%rsp\n"
        "  pop %r15\n  pop %r14\n  pop %r13\n  pop %r12\n  pop %rbx\n  pop %rbp\n  ret\n"
        ".size szp_switch_stacks,.-szp_switch_stacks\n");
#define SAVED_REGISTERS 6
#else
#error "the program is built for x86-64, and a switch of stacks for other processors is missing"
#endif

extern int szp_program_main(int, char **);

struct run *szp_run_here(void)
{
    return (struct run *)((uintptr_t)__builtin_frame_address(0) & ~(uintptr_t)(STACK_BYTES - 1));
}

void szp_run_waits(struct run *run) { szp_switch_stacks(&run->own_stack, run->caller_stack); }

void szp_run_goes_on(struct run *run) { szp_switch_stacks(&run->caller_stack, run->own_stack); }

/* Where the first switch to a stack arrives. */
static void begin(void)
{
    struct run *run = szp_run_here();
    run->status = szp_program_main(0, NULL);
    run->has_ended = 1;
    szp_run_waits(run);
    abort();
}

/* Room for a stack, at a multiple of its size, or null. */
static char *stack_made(void)
{
    char *twice = mmap(NULL, 2 * STACK_BYTES, PROT_READ | PROT_WRITE, MAP_PRIVATE | MAP_ANONYMOUS | MAP_NORESERVE | MAP_STACK, -1, 0);
    if (twice == MAP_FAILED)
        return NULL;
    char *foot = (char *)(((uintptr_t)twice + STACK_BYTES - 1) & ~(uintptr_t)(STACK_BYTES - 1));
    size_t before = (size_t)(foot - twice);
    if (before)
        munmap(twice, before);
    munmap(foot + STACK_BYTES, STACK_BYTES - before);
    if (mprotect(foot + PAGE_BYTES, PAGE_BYTES, PROT_NONE)) { /* a stack that is too deep must not reach the run */
        munmap(foot, STACK_BYTES);
        return NULL;
    }
    return foot;
}

struct run *szp_run_made(void)
{
    char *foot = stack_made();
    if (!foot)
        return NULL;
    struct run *run = (struct run *)foot;
    uint64_t *top = (uint64_t *)(foot + STACK_BYTES);
    *--top = 0;
    *--top = (uint64_t)(uintptr_t)begin; /* the stack is as behind a call */
    top -= SAVED_REGISTERS;
    run->own_stack = top;
    return run;
}

void szp_run_unmade(struct run *run) { munmap(run, STACK_BYTES); }
