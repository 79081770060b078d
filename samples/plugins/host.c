/* Opens plug-ins by name, applies each to 7, and says why where that can't be done. */
#include "plugin.h"
#include <dlfcn.h>
#include <stdio.h>

static int use(const char *file)
{
    void *handle = dlopen(file, RTLD_NOW);
    if (!handle) {
        printf("%s: %s\n", file, dlerror());
        return 0;
    }
    const struct plugin *plugin = dlsym(handle, "plugin");
    if (plugin)
        printf("%s: the %s of 7 is %d\n", file, plugin->name, plugin->apply(7));
    else
        printf("%s: %s\n", file, dlerror());
    if (dlclose(handle))
        printf("%s isn't closed: %s\n", file, dlerror());
    return plugin != 0;
}

int main(void)
{
    static const char *const files[] = { "double.so", "cube.so", "torn.so", "empty.so", "absent.so", "text.so" };
    int used = 0;
    for (unsigned i = 0; i < sizeof files / sizeof *files; i++)
        used += use(files[i]);
    if (dlclose((void *)99))
        printf("closing what isn't open: %s\n", dlerror());
    return used;
}
