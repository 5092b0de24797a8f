/* Makes a call on a stack that has 24 KB, as cozgelt.h asks, with a page below that nobody may touch. To be included first, where
 * _DEFAULT_SOURCE is defined. */
#include <stdint.h>
#include <stdlib.h>
#include <sys/mman.h>
#include <ucontext.h>

#define PAGE 4096
#define STACK (24 << 10)

static ucontext_t here, there;

static void call_on_small_stack(void (*call)(void)) {
    static uint8_t *low;
    if (!low) {
        low = mmap(0, PAGE + STACK, PROT_READ | PROT_WRITE, MAP_PRIVATE | MAP_ANONYMOUS, -1, 0);
        if (low == MAP_FAILED || mprotect(low, PAGE, PROT_NONE)) exit(3);
    }
    if (getcontext(&there)) exit(3);
    there.uc_stack.ss_sp = low + PAGE;
    there.uc_stack.ss_size = STACK;
    there.uc_link = &here;
    makecontext(&there, call, 0);
    if (swapcontext(&here, &there)) exit(3);
}
