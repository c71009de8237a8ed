/* Makes a network file of version 2, whose links have kinds, and prints its finding: a ring that only the weights of its links make. With
 * kind 0 throughout the finding is the star of those who vouch for member 0.
 *
 *     cc -Iinclude examples/kinds.c target/staticlib/libcogsplice_c.a -o kinds && ./kinds
 */
#include "cogsplice.h"
#include "network.h"

#define MEMBERS 6
#define LINKS 9

struct link {
    uint16_t voucher, vouched;
    uint8_t kind;
};

/* Ascending by voucher, then vouched. Kind 2 weighs 2; the others weigh 1. */
static const struct link links[LINKS] = {
    {0, 2, 2}, {0, 3, 1}, {1, 0, 0}, {1, 2, 1}, {1, 3, 2}, {2, 0, 0}, {3, 0, 1}, {4, 0, 0}, {5, 0, 0},
};

static uint8_t file[COGSPLICE_FILE_OF_KINDS(LINKS)];
static uint8_t s[COGSPLICE_GROUP(MEMBERS)], t[COGSPLICE_GROUP(MEMBERS)];
static uint16_t work[COGSPLICE_WORK(MEMBERS, LINKS)];

/* A number of 16 bits, low byte first. */
static void put(uint8_t *at, unsigned number) {
    at[0] = (uint8_t)(number & 255);
    at[1] = (uint8_t)(number >> 8);
}

static void make_file(void) {
    memcpy(file, "VCH", 3);
    put(file + 3, 2);
    put(file + 5, MEMBERS);
    put(file + 7, LINKS);
    for (size_t link = 0; link < LINKS; link++) {
        uint8_t *at = file + COGSPLICE_FILE_OF_KINDS(link);
        put(at, links[link].voucher);
        put(at + 2, links[link].vouched);
        at[4] = links[link].kind;
    }
}

int main(void) {
    make_file();
    const uint8_t *all = everyone();
    struct cogsplice_finding_numbers found = cogsplice_finding(
        file, sizeof file, all, MEMBERS, all, MEMBERS, s, sizeof s, t, sizeof t, work, sizeof work / sizeof *work);
    if (found.refusal != COGSPLICE_ACCEPTED) {
        print_refusal(found.refusal, found.link);
        return 0;
    }
    print_levels(&found);
    print_pair(found.edges, s, found.sources, t, found.targets, MEMBERS);
    return 0;
}
