/* As much of <ucontext.h> as tools/library_stack.c needs, for a Cortex-M: a call on a stack of its own. */
#ifndef UCONTEXT_H
#define UCONTEXT_H

#include <stddef.h>
#include <stdint.h>

typedef struct ucontext {
    struct {
        void *ss_sp;
        size_t ss_size;
    } uc_stack;
    struct ucontext *uc_link;
    void (*call)(void);
} ucontext_t;

static inline void getcontext(ucontext_t *context)
{
    context->call = NULL;
}

static inline void makecontext(ucontext_t *context, void (*call)(void), int count)
{
    (void)count;
    context->call = call;
}

/* Makes the call on the stack of `there`, and returns to the current stack. */
static inline void swapcontext(ucontext_t *here, const ucontext_t *there)
{
    uintptr_t top = ((uintptr_t)there->uc_stack.ss_sp + there->uc_stack.ss_size) & ~(uintptr_t)7;
    register void (*call)(void) __asm__("r5") = there->call;
    (void)here;
    __asm__ volatile("mov r4, sp\n\tmov sp, %0\n\tblx %1\n\tmov sp, r4"
                     :
                     : "r"(top), "r"(call)
                     : "r0", "r1", "r2", "r3", "r4", "r12", "lr", "cc", "memory");
}

#endif
