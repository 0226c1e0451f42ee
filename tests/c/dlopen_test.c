/* The header with no library linked: limits and texts, and a library that is loaded, at the path given. */
#define BAY_MARKET_UNLINKED
#include "bay_market.h"

#include <dlfcn.h>
#include <stdio.h>
#include <string.h>

int main(int count, char **words)
{
    uint32_t (*version)(void);
    void *library = count == 2 ? dlopen(words[1], RTLD_NOW) : NULL;
    void *found = library ? dlsym(library, "bay_market_version") : NULL;

    if (!found) {
        fprintf(stderr, "no library: %s\n", dlerror());
        return 1;
    }
    memcpy(&version, &found, sizeof version);
    if (version() != BAY_MARKET_VERSION_NUMBER || BAY_MARKET_MAX_BIDS != 8000
        || strcmp(bay_market_refusal_text(BAY_MARKET_ACCEPTED), "accepted") != 0) {
        fprintf(stderr, "version %u loaded, the header is of %s\n", (unsigned)version(), BAY_MARKET_VERSION);
        return 1;
    }
    puts("C test with a loaded library: as expected");
    return 0;
}
