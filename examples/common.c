/* Writes the network file of the links that are in both of two network files, such as vouchers and vouched keep of the same events: a file
 * of version 2, with the first one's kinds. Each is in a file that is named or on standard input if it is named by "-". Network W stands
 * for a first file that is not named, and what others recorded of the same month for a second one. On standard error it says how many
 * links are in both, in the first only and in the second only.
 *
 *     cc -Iinclude examples/common.c target/staticlib/libcogsplice_c.a -o common
 *     ./common samples/given.vch samples/received.vch | bin/vouch-report
 */
#include "cogsplice.h"
#include "network.h"

/* All links of network W but 4-5, and of its own 1-5 and 3-0. */
static const uint8_t others_of_w[] = {
    'V', 'C', 'H', 1, 0, 6, 0, 9, 0,
    0, 0, 3, 0, 0, 0, 4, 0, 1, 0, 3, 0, 1, 0, 4, 0, 1, 0, 5, 0,
    2, 0, 3, 0, 2, 0, 4, 0, 3, 0, 0, 0, 5, 0, 5, 0,
};

static uint8_t first_room[ROOM], second_room[ROOM];
static uint8_t out[COGSPLICE_FILE_OF_KINDS(COGSPLICE_LINKS)];

int main(int argc, char **argv) {
    const char *names[2];
    two_names(argc, argv, names);
    size_t first_length = sizeof network_w, second_length = sizeof others_of_w;
    const uint8_t *first = names[0] == NULL ? network_w : read_network(opened(names[0]), first_room, &first_length);
    const uint8_t *second = names[1] == NULL ? others_of_w : read_network(opened(names[1]), second_room, &second_length);
    struct cogsplice_common_numbers found = cogsplice_common(first, first_length, second, second_length, out, sizeof out);
    /* As in examples/journal.c, the line stands where the file would. */
    if (found.refusal != COGSPLICE_ACCEPTED) {
        print_refusal(found.refusal, found.link);
        return 0;
    }
    write_network(out, COGSPLICE_FILE_OF_KINDS(found.both));
    fprintf(stderr, "both %zu first %zu second %zu\n", found.both, found.first_only, found.second_only);
    return 0;
}
