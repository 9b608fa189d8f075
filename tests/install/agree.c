/* Prints the version of the header and of the library, a line each, and then each refusal's number and words, with a tab between. */

#include <inttypes.h>
#include <stdio.h>

#include <tulonkasa.h>

int main(void) {
    printf("%d.%d.%d\n", TK_VERSION_MAJOR, TK_VERSION_MINOR, TK_VERSION_PATCH);
    printf("%" PRIu32 ".%" PRIu32 ".%" PRIu32 "\n", tk_version() / 1000000, tk_version() / 1000 % 1000, tk_version() % 1000);
    for (uint32_t n = 0; n <= TK_REFUSED_REASON + 1; n++) printf("%" PRIu32 "\t%s\n", n, tk_refusal_text(n));
    return 0;
}
