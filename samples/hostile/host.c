/* Is linked against a hostile library, whose functions harts run, and goes on while those end. Then it asks for what
 * it can't have, itself. */
#include "ldso.h"
#include <stdio.h>

int harmless(void);

int main(void)
{
    harmless();
    printf("execve: %ld\n", ldso_ecall(221, 0, 0, 0));
    printf("write to another file: %ld\n", ldso_write(5, "text", 4));
    printf("write of what can't be read: %ld\n", ldso_write(1, (void *)0, 4));
    printf("dlclose of the program: %d\n", dlclose((void *)1));
    return 0;
}
