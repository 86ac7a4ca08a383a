#include "goadlotus.h"
#include <inttypes.h>
#include <stdio.h>
static uint8_t file[GOADLOTUS_FILE_LIMIT + 1]; /* one byte more tells a file that is too long */
static struct goadlotus_judged judged;
int main(int argc, char **argv) { /* prints the verdict of the domain file that its argument names, then its rows */
    if (argc != 2) return fputs("usage: example FILE\n", stderr), 2;
    FILE *in = fopen(argv[1], "rb");
    size_t length = in == NULL ? 0 : fread(file, 1, sizeof file, in);
    if (in == NULL || ferror(in)) return perror(argv[1]), 1;
    goadlotus_judge_file(file, length, &judged);
    printf("verdict %" PRIu64 " %" PRIu64 " %" PRIu64 " %" PRIu64 "\n", judged.number, judged.first, judged.second, judged.third);
    for (const uint8_t *row = judged.report; row < judged.report + judged.rows * GOADLOTUS_ROW_SIZE; row += GOADLOTUS_ROW_SIZE)
        printf("row %u %u %u %s\n", row[0], row[1], row[2], goadlotus_name_word(row[3]));
    return fflush(stdout) != 0;
}
