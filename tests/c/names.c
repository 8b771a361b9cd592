/* Each refusal's number and name, a line each, as docs/RULES.md has them in its table. Between the first and the last there are numbers that are none, as 9. */
#include "brinepost.h"
#include <stdio.h>
#include <string.h>

int main(void)
{
    for (uint32_t n = BP_JOB; n <= BP_AGAIN; n++)
        if (strcmp(bp_refusal_name(n), "UNKNOWN") != 0)
            printf("%u %s\n", (unsigned)n, bp_refusal_name(n));
    printf("0 %s, 9 %s, %u %s\n", bp_refusal_name(BP_ACCEPTED), bp_refusal_name(9), BP_AGAIN + 1u, bp_refusal_name(BP_AGAIN + 1));
    return 0;
}
