/* Looks up the functions that this runtime stands before. */
#include <dlfcn.h>

#include "recorder.h"

void *real_function(const char *name, const char *version)
{
    /* Looking up may call malloc or take a lock of the loader's: these are no events of the program. */
    uintptr_t before = self.inside;
    self.inside = (uintptr_t)__builtin_frame_address(0);
    void *found = version ? dlvsym(RTLD_NEXT, name, version) : NULL;
    if (!found) {
        found = dlsym(RTLD_NEXT, name);
    }
    self.inside = before;
    return found;
}
