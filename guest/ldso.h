/* What a guest of ldso can call: the functions of the linker's own object, and its two system calls.
 *
 * guest/cc links against a stub of the object, ldso.so.1; ldso has the functions itself. docs/GUESTS.md says what a
 * hart starts with, docs/COMMANDS.md how harts are started.
 */
#ifndef LDSO_H
#define LDSO_H

/* Flags of dlopen and dlmopen: one of the first two, with any of the others. */
#define RTLD_LAZY     0x1
#define RTLD_NOW      0x2
#define RTLD_NOLOAD   0x4
#define RTLD_DEEPBIND 0x8
#define RTLD_LOCAL    0x0
#define RTLD_GLOBAL   0x100
#define RTLD_NODELETE 0x1000

/* For dlsym and dlvsym, in place of a handle. */
#define RTLD_DEFAULT ((void *)0)

/* Namespaces: the base, and a new one. */
typedef long Lmid_t;
#define LM_ID_BASE  ((Lmid_t)0)
#define LM_ID_NEWLM ((Lmid_t)-1)

#ifdef __cplusplus
extern "C" {
#endif

/* The name 0 is the program. A name has at most 255 bytes. The answer is 0 where it is refused. */
void *dlopen(const char *name, int flags);
void *dlmopen(Lmid_t space, const char *name, int flags);

/* The address of a symbol, or 0; of a thread-local one its address for this hart. */
void *dlsym(void *handle, const char *name);
void *dlvsym(void *handle, const char *name, const char *version);

/* 0, or -1 where it is refused. */
int dlclose(void *handle);

/* Why this hart's latest dl call that was refused was refused, once; else 0. The text is overwritten by the next
 * message, and lies at the lowest end of the hart's stack. */
char *dlerror(void);

/* An ecall: there are 93, exit, and 64, write; any other number answers -38. */
static inline long ldso_ecall(long number, long a, long b, long c)
{
    register long a0 __asm__("a0") = a;
    register long a1 __asm__("a1") = b;
    register long a2 __asm__("a2") = c;
    register long a7 __asm__("a7") = number;
    __asm__ volatile("ecall" : "+r"(a0) : "r"(a1), "r"(a2), "r"(a7) : "memory");
    return a0;
}

/* Ends this hart, not the others. The first hart's code is the exit status of ldso. */
__attribute__((noreturn)) static inline void ldso_exit(int code)
{
    for (;;)
        ldso_ecall(93, code, 0, 0);
}

/* Writes to file 1 or 2, 256 bytes at most a call: how many it wrote; -9 for another file, -14 for bytes that can't
 * be read. */
static inline long ldso_write(int file, const void *bytes, unsigned long count)
{
    return ldso_ecall(64, file, (long)bytes, (long)count);
}

/* What a name of --harts is: a function that is called with the hart's number, 1 to 15, and ends the hart with what
 * it returns. The program's main is called with 0, the number of the first hart. */
typedef int ldso_hart(long number);

#ifdef __cplusplus
}
#endif
#endif
