/* Prints the pair that the harmonic measure finds in network W, or in a network file on standard input if one is named by "-".
 *
 *     cc -Iinclude examples/harmonic.c target/staticlib/libcogsplice_c.a -o harmonic && ./harmonic
 */
#include "cogsplice.h"
#include "network.h"

static uint8_t s[COGSPLICE_GROUP(COGSPLICE_MEMBERS)], t[COGSPLICE_GROUP(COGSPLICE_MEMBERS)];
static uint16_t work[COGSPLICE_WORK(COGSPLICE_MEMBERS, COGSPLICE_LINKS)];

int main(int argc, char **argv) {
    size_t length;
    const uint8_t *file = network_file(argc, argv, &length);
    struct cogsplice_totals_numbers found = cogsplice_harmonic(
        file, length, s, sizeof s, t, sizeof t, work, sizeof work / sizeof *work);
    if (found.refusal != COGSPLICE_ACCEPTED) {
        print_refusal(found.refusal, found.link);
        return 0;
    }
    print_pair(found.edges, s, found.sources, t, found.targets, cogsplice_check(file, length).n);
    return 0;
}
