/* Settles samples/hour/sample.txt by the proved library. README says how it is built. */
#include <culvertjig.h>
#include <inttypes.h>
#include <stdio.h>

int main(void) {
    static uint8_t text[10640]; /* no good block is longer */
    FILE *file = fopen("samples/hour/sample.txt", "rb");
    if (file == NULL) return 1;
    size_t length = fread(text, 1, sizeof text, file);
    fclose(file);
    int64_t row[CULVERTJIG_ROW], grains = 0, cents = 0;
    uint64_t place = 0;
    uint64_t refused = culvertjig_block(text, length, false, -1, 24, row, CULVERTJIG_ROW, &place, &grains, &cents);
    if (refused == 0) printf("grains=%" PRId64 " pay=%" PRId64 ", interval 1: %" PRId64 "\n", grains, cents, row[0]);
    else printf("refused=%" PRIu64 " at=%" PRIu64 "\n", refused, place);
    return 0;
}
