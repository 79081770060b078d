/* Calls ticks as it was linked, and looks it up in each version. Linked twice: against the first library, and
 * against the second. */
#include <dlfcn.h>
#include <stdio.h>

int ticks(int seconds);

static void show(const char *what, void *found)
{
    if (found)
        printf("%s: %d\n", what, ((int (*)(int))found)(3));
    else
        printf("%s: %s\n", what, dlerror());
}

int main(void)
{
    printf("called: %d\n", ticks(3));
    show("looked up", dlsym(RTLD_DEFAULT, "ticks"));
    show("of CLOCK_1", dlvsym(RTLD_DEFAULT, "ticks", "CLOCK_1"));
    show("of CLOCK_2", dlvsym(RTLD_DEFAULT, "ticks", "CLOCK_2"));
    show("of CLOCK_3", dlvsym(RTLD_DEFAULT, "ticks", "CLOCK_3"));
    return 0;
}
