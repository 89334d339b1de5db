#include "failed.h"

/* Returns whether all of it is in the file. */
static int written(const char *path, void (*tell)(FILE *to, const void *failure),
                   const void *failure)
{
    FILE *kept = fopen(path, "w");
    int whole;
    if (kept == NULL) {
        return 0;
    }
    tell(kept, failure);
    whole = !ferror(kept);
    return fclose(kept) == 0 && whole;
}

void failed_keep(const char *name, int fault, void (*tell)(FILE *to, const void *failure),
                 const void *failure)
{
    char path[200];
    if (fault == 0) {
        snprintf(path, sizeof path, "target/failed/%s.txt", name);
    } else {
        snprintf(path, sizeof path, "target/failed/%s-fault%d.txt", name, fault);
    }
    tell(stdout, failure);
    printf(written(path, tell, failure) ? "kept in %s\n" : "%s cannot be written\n", path);
}
