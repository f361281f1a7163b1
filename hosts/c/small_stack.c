#include "small_stack.h"

#include "roundcabinet.h"

#include <signal.h>
#include <stdint.h>
#include <stdlib.h>
#include <string.h>
#include <sys/mman.h>
#include <unistd.h>

enum { PAGE = 4096, PAINT = 0xa5 };

static uint8_t *lowest; /* the first byte above the page that nobody may touch */
static const char *running;

static void overrun(int number) {
    static const char head[] = "WRONG: the header's stack is too small for ", end[] = "\n";
    (void)number;
    ssize_t told = write(1, head, sizeof head - 1);
    if (running != NULL) told += write(1, running, strlen(running));
    told += write(1, end, 1);
    _exit(told < 0 ? 3 : 2);
}

void small_stack_open(void) {
    static uint8_t handlers[1 << 16];
    const stack_t other = {.ss_sp = handlers, .ss_size = sizeof handlers};
    struct sigaction action;
    uint8_t *map = mmap(NULL, PAGE + RC_STACK, PROT_READ | PROT_WRITE, MAP_PRIVATE | MAP_ANONYMOUS, -1, 0);
    if (map == MAP_FAILED || mprotect(map, PAGE, PROT_NONE) != 0) exit(3);
    lowest = map + PAGE;
    memset(&action, 0, sizeof action);
    action.sa_handler = overrun;
    action.sa_flags = SA_ONSTACK;
    if (sigaltstack(&other, NULL) != 0 || sigaction(SIGSEGV, &action, NULL) != 0 || sigaction(SIGBUS, &action, NULL) != 0) exit(3);
}

/* Makes a call with the stack pointer at top. rbx outlives the call, so the old pointer waits there. */
static void make_at(uint8_t *top, void (*make)(void)) {
    __asm__ volatile("movq %%rsp, %%rbx\n\tmovq %0, %%rsp\n\tcallq *%1\n\tmovq %%rbx, %%rsp"
                     :
                     : "r"(top), "r"(make)
                     : "rax", "rbx", "rcx", "rdx", "rsi", "rdi", "r8", "r9", "r10", "r11", "xmm0", "xmm1", "xmm2", "xmm3", "xmm4", "xmm5",
                       "xmm6", "xmm7", "xmm8", "xmm9", "xmm10", "xmm11", "xmm12", "xmm13", "xmm14", "xmm15", "memory", "cc");
}

size_t small_stack_make(const char *name, size_t length, void (*make)(void)) {
    size_t clean = 0;
    memset(lowest, PAINT, length);
    running = name;
    make_at(lowest + length, make);
    running = NULL;
    while (clean < length && lowest[clean] == PAINT) clean++;
    return length - clean;
}
