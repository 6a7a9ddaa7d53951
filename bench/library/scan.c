/* Scans standard input so many times in memory with the library for C, and prints a sum of the places where frames start. */
#include "hart.h"

#include <inttypes.h>
#include <stdio.h>
#include <stdlib.h>

enum { LENGTH = 1 << 20, AT_ONCE = 64 };

static uint64_t scan(const uint8_t *bytes, size_t len)
{
    static hart_frame frames[AT_ONCE];
    size_t used = 0;
    uint64_t sum = 0;
    hart_search found;
    do {
        found = hart_find_in_bytes(bytes + used, len - used, true, frames, AT_ONCE);
        for (size_t i = 0; i < found.count; i++)
            sum ^= used + frames[i].start;
        used += found.used;
    } while (found.count == AT_ONCE);
    return sum;
}

int main(int argc, char **argv)
{
    static uint8_t bytes[LENGTH];
    size_t len = fread(bytes, 1, LENGTH, stdin);
    uint64_t sum = 0;
    for (long times = argc > 1 ? atol(argv[1]) : 1; times > 0; times--)
        sum += scan(bytes, len);
    printf("%" PRIu64 "\n", sum);
    return 0;
}
