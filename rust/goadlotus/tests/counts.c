/* Prints what the header's own functions tell of a domain file and a run file: verdict, rows, facts of the witness; number, facts held; the
 * same with the instance of no object and of object 0, and the total; number and templates of the list, and the last of them; number and
 * classes of trying, and how many are yes; of a box with the domain file twice, how many met its verdict and how many moments had each name;
 * of that box cut by a byte, number and place. */
#include "goadlotus.h"
#include <inttypes.h>
#include <stdio.h>

static uint8_t domain[GOADLOTUS_FILE_LIMIT + 1], run[1 << 20];
static uint8_t box[2 * (sizeof domain + 4)];
static struct goadlotus_judged judged;
static struct goadlotus_played played;
static struct goadlotus_tracked tracked;
static struct goadlotus_listed listed;
static struct goadlotus_tried tried;
static struct goadlotus_counted counted;

static size_t contents(const char *name, uint8_t *memory, size_t size) {
    FILE *in = fopen(name, "rb");
    return in == NULL ? 0 : fread(memory, 1, size, in);
}

/* A file behind its length, at the end of the box; the box's length then. */
static size_t put(size_t at, size_t len) {
    for (int i = 0; i < 4; i++) box[at + i] = (uint8_t)(len >> 8 * i);
    memcpy(box + at + 4, domain, len);
    return at + 4 + len;
}

int main(int argc, char **argv) {
    if (argc != 3) return 2;
    size_t domain_len = contents(argv[1], domain, sizeof domain), run_len = contents(argv[2], run, sizeof run);
    /* memory of an earlier call counts for nothing */
    memset(&judged, 0xAA, sizeof judged);
    memset(&played, 0xAA, sizeof played);
    goadlotus_judge_file(domain, domain_len, &judged);
    goadlotus_play_files(domain, domain_len, run, run_len, &played);
    printf("%" PRIu64 " %zu %zu\n%" PRIu64 " %zu\n", judged.number, judged.rows, judged.facts, played.number, played.facts);
    for (size_t objects = 0; objects < 2; objects++) {
        const uint8_t instance[1] = {0};
        memset(&tracked, 0xAA, sizeof tracked);
        goadlotus_track_files(domain, domain_len, run, run_len, instance, objects, &tracked);
        printf("%" PRIu64 " %zu %" PRIu64 "\n", tracked.number, tracked.facts, tracked.total);
    }
    memset(&listed, 0xAA, sizeof listed);
    goadlotus_list_templates(domain, domain_len, &listed);
    const uint8_t *last = listed.templates == 0 ? listed.list : listed.list + (listed.templates - 1) * GOADLOTUS_TEMPLATE_SIZE;
    printf("%" PRIu64 " %zu %u %u %u\n", listed.number, listed.templates, last[0], last[1], last[2]);
    memset(&tried, 0xAA, sizeof tried);
    goadlotus_try_file(domain, domain_len, &tried);
    size_t yes = 0;
    for (size_t i = 0; i < sizeof tried.tried; i++) yes += tried.tried[i];
    printf("%" PRIu64 " %zu %zu\n", tried.number, tried.classes, yes);
    size_t box_len = put(put(0, domain_len), domain_len);
    memset(&counted, 0xAA, sizeof counted);
    goadlotus_count_box(box, box_len, &counted);
    printf("%" PRIu64 " %" PRIu64 " %" PRIu64, counted.number, counted.first, counted.numbers[judged.number]);
    for (int i = 0; i < 7; i++) printf(" %" PRIu64, counted.names[i]);
    goadlotus_count_box(box, box_len - 1, &counted);
    printf("\n%" PRIu64 " %" PRIu64 "\n", counted.number, counted.first);
    return 0;
}
