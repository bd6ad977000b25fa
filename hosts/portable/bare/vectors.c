/* The vectors of a Cortex-M: newlib's _start, and a fault that ends the program with words instead of standing still. */
extern void _start(void);
extern char __stack[];

/* Asks the machine around the board, by semihosting. */
static void ask(unsigned what, const void *with)
{
    register unsigned r0 __asm__("r0") = what;
    register const void *r1 __asm__("r1") = with;
    __asm__ volatile("bkpt 0xAB" : "+r"(r0) : "r"(r1) : "memory");
}

enum { SYS_WRITE0 = 0x04, SYS_EXIT = 0x18, INTERNAL_ERROR = 0x20024 };

static void fault(void)
{
    ask(SYS_WRITE0, "a fault has ended the program\n");
    ask(SYS_EXIT, (const void *)INTERNAL_ERROR);
    for (;;)
        ;
}

__attribute__((section(".vectors"), used)) static void (*const vectors[])(void) = {
    (void (*)(void))__stack, _start, fault, fault, fault, fault, fault,
};
