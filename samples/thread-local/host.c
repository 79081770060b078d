/* Three harts, one after the other, count by a plug-in whose counter is thread-local, and add to a thread-local sum
 * of the host's. */
#include <dlfcn.h>
#include <stdio.h>

static __thread int sum = 1000;
static int (*count)(void);
static long next = -1;

int work(long hart)
{
    while (__atomic_load_n(&next, __ATOMIC_ACQUIRE) != hart)
        ;
    for (long i = 0; i <= hart; i++)
        sum += count();
    printf("hart %ld: the sum is %d\n", hart, sum);
    __atomic_store_n(&next, hart + 1, __ATOMIC_RELEASE);
    return 0;
}

int main(void)
{
    void *plugin = dlopen("libcounter.so", RTLD_NOW);
    count = (int (*)(void))dlsym(plugin, "count");
    __atomic_store_n(&next, 0, __ATOMIC_RELEASE);
    work(0);
    while (__atomic_load_n(&next, __ATOMIC_ACQUIRE) != 3)
        ;
    printf("the first hart's counter is %d\n", *(int *)dlsym(plugin, "counter"));
    return dlclose(plugin);
}
