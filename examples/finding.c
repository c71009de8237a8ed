/* Prints the finding of network W, or of a network file on standard input if one is named by "-".
 *
 *     cc -Iinclude examples/finding.c target/staticlib/libcogsplice_c.a -o finding && ./finding
 */
#include "cogsplice.h"
#include "network.h"

static uint8_t s[COGSPLICE_GROUP(COGSPLICE_MEMBERS)], t[COGSPLICE_GROUP(COGSPLICE_MEMBERS)];
static uint16_t work[COGSPLICE_WORK(COGSPLICE_MEMBERS, COGSPLICE_LINKS)];

int main(int argc, char **argv) {
    size_t length;
    const uint8_t *file = network_file(argc, argv, &length);
    const uint8_t *all = everyone();
    struct cogsplice_finding_numbers found = cogsplice_finding(
        file, length, all, COGSPLICE_MEMBERS, all, COGSPLICE_MEMBERS,
        s, sizeof s, t, sizeof t, work, sizeof work / sizeof *work);
    if (found.refusal != COGSPLICE_ACCEPTED) {
        print_refusal(found.refusal, found.link);
        return 0;
    }
    print_levels(&found);
    print_pair(found.edges, s, found.sources, t, found.targets, cogsplice_check(file, length).n);
    return 0;
}
