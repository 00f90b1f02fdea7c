/* Settles samples/line/mixed.txt, a controllable line's day, block by block by the proved library. README says how it is built. */
#include <culvertjig.h>
#include <inttypes.h>
#include <stdio.h>
#include <string.h>

int main(void) {
    static char text[69500]; /* no good day is longer, and the last byte stays 0 */
    FILE *file = fopen("samples/line/mixed.txt", "rb");
    if (file == NULL) return 1;
    size_t length = fread(text, 1, sizeof text - 1, file);
    fclose(file);
    /* The header is taken as good: it has a mark for each hour, and each block stands behind an empty line. */
    const char *mark = strstr(text, "mark="), *empty = strstr(text, "\n\n");
    if (mark == NULL) return 1;
    mark += 5;
    size_t hours = strspn(mark, "012");
    for (size_t hour = 0; hour < hours && empty != NULL; hour++, empty = strstr(empty + 1, "\n\n")) {
        const char *block = empty + 2;
        int64_t row[CULVERTJIG_ROW], grains = 0, cents = 0;
        uint64_t place = 0;
        uint64_t refused = culvertjig_line_block((const uint8_t *)block, text + length - block, mark[hour] == '0', hour, hours, row,
                                                 CULVERTJIG_ROW, &place, &grains, &cents);
        if (refused == 0) printf("hour=%zu pay=%" PRId64 "\n", hour, cents);
        else printf("hour=%zu refused=%" PRIu64 " at=%" PRIu64 "\n", hour, refused, place);
    }
    return 0;
}
