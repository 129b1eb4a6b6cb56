/* loaded LIBRARY PLUGIN: opens a shared object of the library by its name, then one that calls it,
 * and prints what that one's `opens` says. */
#include "check.h"

#include <dlfcn.h>

int main(int count, char **words) {
    const char *(*opens)(void);
    CHECK(count == 3);
    CHECK(dlopen(words[1], RTLD_NOW | RTLD_GLOBAL) != NULL);
    void *plugin = dlopen(words[2], RTLD_NOW);
    CHECK(plugin != NULL);
    *(void **)&opens = dlsym(plugin, "opens");
    CHECK(opens != NULL);
    return puts(opens()) < 0;
}
