/* A C host. It is built by: (cd crates/host && rt lib) && cc -Iinclude examples/host.c crates/host/out/libhost.a -o crates/host/out/example */
#include "buffermoss.h"
#include <stdio.h>

int main(void)
{
    const char text[] = "%%MatrixMarket matrix coordinate integer symmetric\n"
                        "3 3 5\n1 1 10\n2 2 20\n3 3 30\n2 1 10\n3 2 7\n";
    uint8_t tree[BUFFERMOSS_ROOM];
    uint32_t found = buffermoss_plan((const uint8_t *)text, sizeof text - 1, BUFFERMOSS_NAIVE, BUFFERMOSS_NO_LIMIT, tree, sizeof tree);

    if (found <= BUFFERMOSS_PLAN) {
        printf("refused: %u\n", (unsigned)found);
        return 1;
    }
    printf("%.*s\n", (int)(found - BUFFERMOSS_PLAN), (const char *)tree);
    return 0;
}
