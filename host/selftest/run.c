/* run.c: the self-test as a program without a C library, for Linux and its user emulators. The exit status is what larsavim_selftest returns, or 255 above that. */
#include <stddef.h>

int larsavim_selftest(void);
void *memcpy(void *to, const void *from, size_t n);
void *memset(void *at, int byte, size_t n);
void run(void);

void *memcpy(void *to, const void *from, size_t n) {
    unsigned char *t = to;
    const unsigned char *f = from;
    while (n-- > 0)
        *t++ = *f++;
    return to;
}

void *memset(void *at, int byte, size_t n) {
    unsigned char *t = at;
    while (n-- > 0)
        *t++ = (unsigned char)byte;
    return at;
}

/* Linux's call that ends a program, and the entry, with the stack as the C convention wants it. */
#if defined(__x86_64__)
__asm__(".globl _start\n_start:\n  andq $-16, %rsp\n  call run\n");
static void leave(long status) {
    __asm__ volatile("syscall" : : "a"(60L), "D"(status) : "memory");
}
#elif defined(__aarch64__)
__asm__(".globl _start\n_start:\n  bl run\n");
static void leave(long status) {
    register long number __asm__("x8") = 93, first __asm__("x0") = status;
    __asm__ volatile("svc #0" : : "r"(number), "r"(first) : "memory");
}
#elif defined(__riscv)
__asm__(".globl _start\n_start:\n  call run\n");
static void leave(long status) {
    register long number __asm__("a7") = 93, first __asm__("a0") = status;
    __asm__ volatile("ecall" : : "r"(number), "r"(first) : "memory");
}
#else
#error "no entry for this core"
#endif

void run(void) {
    int failed = larsavim_selftest();
    for (;;)
        leave(failed > 255 ? 255 : failed);
}
