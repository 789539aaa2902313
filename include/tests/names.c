/* usage: names HEADER

   Compares the name of each kind of answer, and of each error, with the one that the header gives to its number. */
#include "yarrowdoor.h"
#include <stdio.h>
#include <stdlib.h>

static unsigned kinds, errors;

static void check(uint32_t number, const char *found, const char *want)
{
    if (strcmp(found, want) != 0) {
        fprintf(stderr, "names: %u is named %s, not %s\n", (unsigned)number, found, want);
        exit(1);
    }
}

/* Checks the kind or the error that a line of the header declares, if it is one. */
static void check_line(const char *line)
{
    char name[64];
    unsigned number;
    if (sscanf(line, " YARROWDOOR_%63[A-Z_] = %u", name, &number) != 2 || strcmp(name, "KIND_WIDTH") == 0) {
        return;
    }
    if (strncmp(name, "ERROR_", 6) == 0) {
        errors++;
        check(number, yarrowdoor_error_name(number), name + 6);
    } else {
        kinds++;
        check(number, yarrowdoor_kind_name(number), name);
    }
}

int main(int argc, char **argv)
{
    FILE *header = argc == 2 ? fopen(argv[1], "r") : NULL;
    char line[256];
    int is_inside = 0;
    if (!header) {
        fprintf(stderr, "usage: names HEADER\n");
        return 1;
    }
    while (fgets(line, sizeof line, header)) {
        if (is_inside) {
            check_line(line);
        }
        is_inside = strcmp(line, "enum yarrowdoor_kind {\n") == 0 || strcmp(line, "enum yarrowdoor_error {\n") == 0 ||
                    (is_inside && strcmp(line, "};\n") != 0);
    }
    fclose(header);
    if (kinds != YARROWDOOR_NO_FRAME ||
        errors != YARROWDOOR_ERROR_NOT_GRANTED) { /* the last numbers: each up to them is one */
        fprintf(stderr, "names: the header has %u kinds and %u errors\n", kinds, errors);
        return 1;
    }
    check(0, yarrowdoor_kind_name(0), "no kind");
    check(YARROWDOOR_NO_FRAME + 1, yarrowdoor_kind_name(YARROWDOOR_NO_FRAME + 1), "no kind");
    check(UINT32_MAX, yarrowdoor_kind_name(UINT32_MAX), "no kind");
    check(0, yarrowdoor_error_name(0), "no error");
    check(7, yarrowdoor_error_name(7), "no error");
    check(UINT32_MAX, yarrowdoor_error_name(UINT32_MAX), "no error");
    printf("names: %u names passed\n", kinds + errors);
    return 0;
}
