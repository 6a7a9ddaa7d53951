/* Starts a program on a Cortex-M4 without an operating system. Newlib's _start takes arguments and ends the program by semihosting. */
#include <stdint.h>

extern uint32_t stack_top[];
extern void _start(void);

static void reset(void)
{
    _start();
}

/* Ends the run with an error: SYS_EXIT of semihosting with the reason for an internal error. */
static void fault(void)
{
    register uint32_t operation __asm__("r0") = 0x18;
    register uint32_t reason __asm__("r1") = 0x20024;
    for (;;)
        __asm__ volatile("bkpt 0xab" : : "r"(operation), "r"(reason));
}

/* The top of the stack, and then the handlers of reset, NMI and the faults. */
__attribute__((section(".vectors"), used)) static const void *const vectors[] = {stack_top, reset, fault, fault, fault, fault, fault};
