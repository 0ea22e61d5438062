/* The start, the output and the end of a program on the empty machine `virt` of qemu, and the three functions of C that
 * the library calls. link.ld has its stack. */
typedef unsigned char u8;
typedef unsigned long usize;

int main(void);

void *memset(void *to, int byte, usize n) {
    for (usize i = 0; i < n; i++) {
        ((u8 *)to)[i] = (u8)byte;
    }
    return to;
}

void *memmove(void *to, const void *from, usize n) {
    u8 *t = to;
    const u8 *f = from;
    if (t < f) {
        for (usize i = 0; i < n; i++) {
            t[i] = f[i];
        }
    } else {
        while (n--) {
            t[n] = f[n];
        }
    }
    return to;
}

void *memcpy(void *to, const void *from, usize n) {
    return memmove(to, from, n);
}

#if defined(__aarch64__)
#define SERIAL 0x09000000ul
/* Vector registers are off at the start. */
__asm__(".section .text.start, \"ax\"\n"
        ".globl _start\n"
        "_start: mrs x0, cpacr_el1\n"
        "orr x0, x0, #(3 << 20)\n"
        "msr cpacr_el1, x0\n"
        "isb\n"
        "ldr x0, =stack_top\n"
        "mov sp, x0\n"
        "bl start\n");

static void leave(void) {
    static const unsigned long ended[] = {0x20026, 0};
    register unsigned long call __asm__("x0") = 0x18;
    register const unsigned long *with __asm__("x1") = ended;
    __asm__ volatile("hlt #0xf000" : : "r"(call), "r"(with) : "memory");
}
#elif defined(__riscv)
#define SERIAL 0x10000000ul
/* Floating-point registers are off at the start. */
__asm__(".section .text.start, \"ax\"\n"
        ".globl _start\n"
        "_start: li t0, 0x6000\n"
        "csrs mstatus, t0\n"
        "la sp, stack_top\n"
        "call start\n");

static void leave(void) {
    *(volatile unsigned *)0x100000ul = 0x5555;
}
#endif

int putchar(int c) {
    *(volatile u8 *)SERIAL = (u8)c;
    return c;
}

void start(void) {
    main();
    leave();
    for (;;) {
    }
}
