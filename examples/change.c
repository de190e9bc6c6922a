/* change.c: loads a delivery and asks for one change, from C.
 *
 *   cc -O2 -o change examples/change.c crates/exports/out/libexports.a
 *   ./change examples/delivery 1 2 14122015 3 1 15122015
 */
#include <inttypes.h>
#include <stdio.h>
#include <stdlib.h>

#include "calyxcabin.h"

static const char *const names[CALYXCABIN_FILES] = {"DELIVERY", "COMPANY",  "COUNTRY",  "TRNSMODE", "TIMEZONE", "STATIONS",
                                                    "FOOTNOTE", "TIMETBLS", "CHANGES",  "XFOOTNOTE", "XCHANGES"};

/* A file's bytes; one that is not there has none. Exits where memory or the disk fail. */
static calyxcabin_file read_file(const char *folder, const char *name)
{
    char path[4096];
    snprintf(path, sizeof path, "%s/%s", folder, name);
    calyxcabin_file file = {(const uint8_t *)"", 0};
    FILE *in = fopen(path, "rb");
    if (in == NULL)
        return file;
    if (fseek(in, 0, SEEK_END) != 0)
        exit(2);
    long length = ftell(in);
    rewind(in);
    uint8_t *bytes = malloc(length > 0 ? (size_t)length : 1);
    if (length < 0 || bytes == NULL || fread(bytes, 1, (size_t)length, in) != (size_t)length)
        exit(2);
    fclose(in);
    file.bytes = bytes;
    file.length = (size_t)length;
    return file;
}

/* A line for each CR LF, and what remains behind the last. */
static size_t lines_of(calyxcabin_file file)
{
    size_t lines = 0, ended = 0;
    for (size_t at = 0; at + 1 < file.length; at++)
        if (file.bytes[at] == '\r' && file.bytes[at + 1] == '\n') {
            lines++;
            ended = at + 2;
        }
    return lines + (ended < file.length);
}

int main(int count, char **words)
{
    if (count != 8) {
        fprintf(stderr, "usage: change DELIVERY SERVICE STOP DATE SERVICE STOP DATE\n");
        return 2;
    }
    calyxcabin_file files[CALYXCABIN_FILES];
    calyxcabin_table tables[CALYXCABIN_FILES];
    for (int k = 0; k < CALYXCABIN_FILES; k++) {
        files[k] = read_file(words[1], names[k]);
        tables[k].length = (lines_of(files[k]) + 100) * calyxcabin_width[k];
        tables[k].words = malloc(tables[k].length * sizeof(uint64_t));
        if (tables[k].words == NULL)
            return 2;
    }
    uint64_t loaded[6];
    calyxcabin_load(CALYXCABIN_TEXTS(files), CALYXCABIN_TABLES(tables), loaded);
    if (loaded[0] != 0) {
        printf("refused %" PRIu64 " %s %" PRIu64 " %" PRIu64 "\n", loaded[0], loaded[1] ? names[loaded[1] - 1] : "", loaded[2], loaded[3]);
        return 1;
    }
    uint64_t asked[6], answer[7];
    int32_t gap[1];
    for (int k = 0; k < 6; k++)
        asked[k] = strtoull(words[2 + k], NULL, 10);
    calyxcabin_change(CALYXCABIN_TABLES(tables), asked[0], asked[1], asked[2], asked[3], asked[4], asked[5], answer, gap);
    static const char *const verdicts[] = {"refused", "no", "yes", "unsettled"};
    printf("%s", verdicts[answer[1]]);
    if (answer[0] != 0)
        printf(" %" PRIu64, answer[0]);
    if (answer[3] != 0)
        printf(" gap %" PRId32, gap[0]);
    if (answer[5] != 0)
        printf(" needed %" PRIu64, answer[6]);
    printf("\n");
    for (int k = 0; k < CALYXCABIN_FILES; k++)
        free(tables[k].words);
    static const int statuses[] = {1, 3, 0, 4};
    return statuses[answer[1]];
}
