/* README.md's lines of C, which `bindings/test` takes out of it, and whether they do what they say. */
#include <inttypes.h>
#include <stdio.h>
#include <string.h>

#include "aaru.h"

int main(void)
{
    static uint8_t buffer[4096];
    uint8_t name[64] = {0}, sectors[1024];
    uint64_t now = 1;

    memset(sectors, 'A', 512);
    memset(sectors + 512, 'B', 512);
#include "readme-lines.h"
    if (no != 0 || size != 512 || memcmp(buffer + start, sectors + 512, 512) != 0) {
        printf("README.md's lines of C: no sector at address 5 as handed in\n");
        return 1;
    }
    return 0;
}
