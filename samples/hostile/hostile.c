/* Each function does one wrong thing, on a hart of its own, which it ends. */
#include "ldso.h"

int nowhere(void); /* no library has it */
int harmless(void);

static int data[2] = { 0x00000513, 0x00008067 }; /* li a0, 0; ret */
static const volatile long constant = 7;
static int (*const volatile pointer)(void) = harmless; /* written by the linker at load, read-only then */
extern char __ehdr_start[] __attribute__((visibility("hidden")));
extern const struct {
    long tag;
    unsigned long value;
} _DYNAMIC[] __attribute__((visibility("hidden")));

static void store(const volatile void *place) { *(volatile long *)place = 0; }

static void enter(unsigned long address) { ((void (*)(void))address)(); }

int harmless(void) { return 0; }

void writes_code(void) { store((void *)((unsigned long)harmless & ~7ul)); }

void writes_constant(void) { store(&constant); }

void writes_pointer(void) { store(&pointer); }

/* Its first slot lies behind two words of the table that DT_PLTGOT, tag 3, leads to. */
void writes_slot(void)
{
    int entry = 0;
    while (_DYNAMIC[entry].tag != 3)
        entry++;
    store(__ehdr_start + _DYNAMIC[entry].value + 16);
}

void runs_data(void) { enter((unsigned long)data); }

void reads_nothing(void) { (void)*(volatile long *)0; }

static const volatile unsigned long nothing = 0;
void enters_nothing(void) { enter(nothing); }

void reads_askew(void) { (void)*(volatile int *)((unsigned long)data + 2); }

void no_instruction(void) { __asm__ volatile(".word 0xffffffff"); }

void breaks(void) { __asm__ volatile("ebreak"); }

void calls_nowhere(void) { nowhere(); }

void never_ends(void)
{
    for (;;)
        __asm__ volatile("");
}

/* Thread-local storage of a module that isn't there. */
void wrong_module(void)
{
    static const unsigned long place[2] = { 77, 0 };
    extern void *__tls_get_addr(const unsigned long *);
    __tls_get_addr(place);
}

/* The linker's own entry, as the procedure linkage table uses it: for an object that isn't there, and for a slot
 * that the program hasn't. */
static void binds(unsigned long object, unsigned long eights)
{
    register unsigned long t0 __asm__("t0") = object;
    register unsigned long t1 __asm__("t1") = eights;
    __asm__ volatile("jr %2" : : "r"(t0), "r"(t1), "r"(0x80f000ul));
}

void wrong_object(void) { binds(1000, 0); }

void wrong_slot(void) { binds(1, 8000); }
