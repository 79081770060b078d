/* A library in three copies: the host's, and one for each tenant, in a namespace of its own. Then as many further
 * namespaces as there are. */
#include <dlfcn.h>
#include <stdio.h>

int pay(int amount);

static void *open_tenant(int number, int customers)
{
    void *handle = dlmopen(LM_ID_NEWLM, "libtenant.so", RTLD_NOW);
    if (!handle) {
        printf("tenant %d: %s\n", number, dlerror());
        return 0;
    }
    int (*serve)(int) = (int (*)(int))dlsym(handle, "serve");
    printf("tenant %d: the balance is %d\n", number, serve(customers));
    return handle;
}

int main(void)
{
    void *handles[16];
    pay(5);
    handles[0] = open_tenant(1, 3);
    handles[1] = open_tenant(2, 4);
    printf("host: the balance is %d\n", pay(0));
    int count = 2;
    while (count < 16 && (handles[count] = dlmopen(LM_ID_NEWLM, "libsmall.so", RTLD_NOW)))
        count++;
    printf("%d namespaces beside the base, then %s\n", count, dlerror());
    int closed = 0;
    while (count)
        closed += dlclose(handles[--count]) == 0;
    return closed;
}
