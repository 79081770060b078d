/* What the functions of dlfcn.h answer in corners, a line each. The same source runs on Linux (-DLINUX), under glibc
 * and musl: docs/DIFFERENCES.md has what those answer. */
#define _GNU_SOURCE
#include <dlfcn.h>
#include <stdio.h>

static void *say(const char *what, void *answer)
{
    const char *why = answer ? 0 : dlerror();
#ifdef LINUX
    why = why ? "a message" : 0;
#endif
    printf("%s: %s\n", what, answer ? "found" : why ? why : "0");
    return answer;
}

int main(void)
{
    void *self = say("dlopen of the null name", dlopen(0, RTLD_NOW));
    void *odd = say("dlopen with flags 0", dlopen("libopen.so", 0));
    if (odd)
        dlclose(odd);
    odd = say("dlopen with LAZY and NOW", dlopen("libopen.so", RTLD_LAZY | RTLD_NOW));
    if (odd)
        dlclose(odd);
    say("dlopen of what isn't there", dlopen("libnone.so", RTLD_NOW));
    say("NOLOAD of what isn't loaded", dlopen("libshut.so", RTLD_NOW | RTLD_NOLOAD));

    void *global = say("dlopen with GLOBAL", dlopen("libopen.so", RTLD_NOW | RTLD_GLOBAL));
    say("its symbol by RTLD_DEFAULT", dlsym(RTLD_DEFAULT, "opened"));
    say("its symbol by the program's handle", dlsym(self, "opened"));

    void *local = say("dlopen with LOCAL", dlopen("libshut.so", RTLD_NOW | RTLD_LOCAL));
    say("its symbol by RTLD_DEFAULT", dlsym(RTLD_DEFAULT, "shut"));
    say("its symbol by its handle", dlsym(local, "shut"));
    say("GLOBAL and NOLOAD then", dlopen("libshut.so", RTLD_NOW | RTLD_NOLOAD | RTLD_GLOBAL));
    say("its symbol by RTLD_DEFAULT", dlsym(RTLD_DEFAULT, "shut"));
    printf("a second dlopen answers the same handle: %s\n", dlopen("libshut.so", RTLD_NOW) == local ? "yes" : "no");
    say("a symbol that nobody has", dlsym(local, "nothing"));
    printf("dlerror a second time: %s\n", dlerror() ? "a message" : "0");

    printf("dlclose of the global one: %d\n", dlclose(global));
    say("its symbol by RTLD_DEFAULT", dlsym(RTLD_DEFAULT, "opened"));
    printf("dlclose of the null name's handle: %d\n", dlclose(self));
    printf("dlclose of it again: %s\n", dlclose(self) ? "refused" : "0");
    return 0;
}
