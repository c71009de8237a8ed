/* What the examples share: the files that they look at, a group of everyone to search in, the lines of a refusal, of a finding and of a
 * pair, and the file that they write. What not every example needs is inline. */
#include "cogsplice.h"

#include <stdio.h>
#include <stdlib.h>
#include <string.h>

/* 6 members and the links 0-3, 0-4, 1-3, 1-4, 2-3, 2-4, 4-5, 5-5. */
static const uint8_t network_w[] = {
    'V', 'C', 'H', 1, 0, 6, 0, 8, 0,
    0, 0, 3, 0, 0, 0, 4, 0, 1, 0, 3, 0, 1, 0, 4, 0,
    2, 0, 3, 0, 2, 0, 4, 0, 4, 0, 5, 0, 5, 0, 5, 0,
};

/* Room for a network file of either version, and for a byte more, by which one that is too long is told. */
#define ROOM (COGSPLICE_FILE_OF_KINDS(COGSPLICE_LINKS) + 1)

static inline void give_up(const char *why) {
    fprintf(stderr, "%s\n", why);
    exit(1);
}

static inline bool is_standard_input(const char *name) {
    return strcmp(name, "-") == 0;
}

/* Standard input, or the file that is named. */
static inline FILE *opened(const char *name) {
    FILE *from = is_standard_input(name) ? stdin : fopen(name, "rb");
    if (from == NULL)
        give_up("the file cannot be opened");
    return from;
}

/* A network file, read into a table of ROOM bytes. An input that cannot be read is no empty file. */
static inline const uint8_t *read_network(FILE *from, uint8_t *room, size_t *length) {
    *length = fread(room, 1, ROOM, from);
    if (ferror(from))
        give_up("the network file cannot be read");
    return room;
}

/* Network W, or standard input if it is named by "-". */
static inline const uint8_t *network_file(int argc, char **argv, size_t *length) {
    static uint8_t room[ROOM];
    if (argc > 1 && is_standard_input(argv[1]))
        return read_network(stdin, room, length);
    *length = sizeof network_w;
    return network_w;
}

/* The names of two files, NULL for one that is not named. */
static inline void two_names(int argc, char **argv, const char *names[2]) {
    names[0] = argc > 1 ? argv[1] : NULL;
    names[1] = argc > 2 ? argv[2] : NULL;
    if (names[1] != NULL && is_standard_input(names[0]) && is_standard_input(names[1]))
        give_up("standard input is one file, not two");
}

/* A group that everyone is in: as A and as B it has the whole network searched. */
static inline const uint8_t *everyone(void) {
    static uint8_t group[COGSPLICE_GROUP(COGSPLICE_MEMBERS)];
    memset(group, 1, sizeof group);
    return group;
}

static void print_refusal(uint16_t refusal, uint16_t link) {
    printf("refused %u", (unsigned)refusal);
    if (refusal == COGSPLICE_REFUSED_END || refusal == COGSPLICE_REFUSED_KIND || refusal == COGSPLICE_REFUSED_REPEAT
        || refusal == COGSPLICE_REFUSED_ORDER)
        printf(" at %u", (unsigned)link);
    printf("\n");
}

/* The first line of a report: x, y and the equal level. */
static inline void print_levels(const struct cogsplice_finding_numbers *found) {
    printf("x %zu y %zu equal %zu\n", found->x, found->y, found->equal);
}

static inline void print_group(const char *name, const uint8_t *group, size_t n) {
    printf("%s", name);
    for (size_t member = 0; member < n; member++)
        if (group[member])
            printf(" %zu", member);
    printf("\n");
}

/* Three lines: E, |S| and |T|, then the members of S and of T. */
static inline void print_pair(uint32_t edges, const uint8_t *s, size_t sources, const uint8_t *t, size_t targets, size_t n) {
    printf("links %u vouchers %zu vouched %zu\n", (unsigned)edges, sources, targets);
    print_group("S", s, n);
    print_group("T", t, n);
}

/* A network file of so many bytes, to standard output. */
static inline void write_network(const uint8_t *file, size_t length) {
    fwrite(file, 1, length, stdout);
    if (fflush(stdout) != 0 || ferror(stdout))
        give_up("standard output cannot be written");
}
