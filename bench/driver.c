/* Makes one call many times, so that its instructions can be counted: driver CALL TIMES [FILE [FILE]].
 * `nothing` makes none. The bytes are those of the files. */
#include "fulgavod.h"
#include <stdio.h>
#include <stdlib.h>
#include <string.h>

static uint8_t one[8192], other[8192], out[8192];
static fulgavod_part parts[FULGAVOD_PARTS_LIMIT];

static size_t read_all(const char *path, uint8_t *to) {
    FILE *f = fopen(path, "rb");
    if (!f) {
        perror(path);
        exit(2);
    }
    size_t n = fread(to, 1, 8192, f);
    fclose(f);
    return n;
}

__attribute__((noinline)) static uint32_t call(const char *what, size_t n, size_t m) {
    if (!strcmp(what, "matcher")) return fulgavod_matcher(one, n).fault.number;
    if (!strcmp(what, "template")) return fulgavod_template(one, n).fault.number;
    if (!strcmp(what, "formatter")) return fulgavod_formatter(one, n).fault.number;
    if (!strcmp(what, "encode")) return fulgavod_encode(one, n, out, sizeof out).fault.number;
    if (!strcmp(what, "back")) return fulgavod_write_back(one, n, out, sizeof out).fault.number;
    if (!strcmp(what, "groups")) return fulgavod_groups(one, n).fault.number;
    if (!strcmp(what, "match")) return fulgavod_match(one, n, other, m, parts, FULGAVOD_PARTS_LIMIT).fault.number;
    return 0;
}

int main(int argc, char **argv) {
    if (argc < 3) return 2;
    size_t n = argc > 3 ? read_all(argv[3], one) : 0;
    size_t m = argc > 4 ? read_all(argv[4], other) : 0;
    uint32_t refused = 0;
    for (long i = atol(argv[2]); i > 0; i--) refused = call(argv[1], n, m);
    if (!strcmp(argv[1], "written")) { /* the code of a template, to be written back */
        fulgavod_written w = fulgavod_encode(one, n, out, sizeof out);
        fwrite(out, 1, w.length, stdout);
        refused = w.fault.number;
    }
    if (refused) fprintf(stderr, "%s: refused %u\n", argv[1], refused);
    return refused != 0;
}
