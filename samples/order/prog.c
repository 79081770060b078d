/* left and right both need base; late, which needs left, is opened and closed while the program runs. */
#include "says.h"
#include <dlfcn.h>
SAYS("prog")

int left(void);
int right(void);

int main(void)
{
    int sum = left() + right();
    void *handle = dlopen("liblate.so", RTLD_NOW);
    int (*late)(void) = (int (*)(void))dlsym(handle, "late");
    sum += late();
    dlclose(handle);
    printf("main returns\n");
    return sum;
}
