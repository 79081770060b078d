#include <stdio.h>

/* An object with a constructor and a destructor that say its name. */
#define SAYS(name) \
    __attribute__((constructor)) static void begins(void) { printf(name " begins\n"); } \
    __attribute__((destructor)) static void ends(void) { printf(name " ends\n"); }
