/* Calls a plug-in's function when the plug-in is closed. OTHER is 1 where another plug-in was opened meanwhile, which
 * then lies where the first one was. */
#include <dlfcn.h>
#include <stdio.h>

int main(void)
{
    void *handle = dlopen("libone.so", RTLD_NOW);
    int (*one)(void) = (int (*)(void))dlsym(handle, "one");
    printf("open: %d\n", one());
    dlclose(handle);
    if (OTHER)
        dlopen("libtwo.so", RTLD_NOW);
    printf("closed: %d\n", one());
    return 0;
}
