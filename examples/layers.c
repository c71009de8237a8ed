/* Prints the layers of network W, or of a network file on standard input if one is named by "-": a line for each, with its links.
 *
 *     cc -Iinclude examples/layers.c target/staticlib/libcogsplice_c.a -o layers && ./layers
 */
#include "cogsplice.h"
#include "network.h"

static uint16_t layers[COGSPLICE_LAYERS(COGSPLICE_LINKS)];
static uint16_t work[COGSPLICE_WORK(COGSPLICE_MEMBERS, COGSPLICE_LINKS)];

static unsigned number_at(const uint8_t *file, size_t offset) {
    return file[offset] + 256u * file[offset + 1];
}

/* Where a link's voucher and vouched member stand: each link has four bytes, in version 2 five. */
static const uint8_t *ends_of(const uint8_t *file, size_t link) {
    return file + (number_at(file, 3) == 2 ? COGSPLICE_FILE_OF_KINDS(link) : COGSPLICE_FILE(link));
}

int main(int argc, char **argv) {
    size_t length;
    const uint8_t *file = network_file(argc, argv, &length);
    const uint8_t *all = everyone();
    struct cogsplice_layers_numbers found = cogsplice_layers(
        file, length, all, COGSPLICE_MEMBERS, all, COGSPLICE_MEMBERS,
        layers, sizeof layers / sizeof *layers, work, sizeof work / sizeof *work);
    if (found.refusal != COGSPLICE_ACCEPTED) {
        print_refusal(found.refusal, found.link);
        return 0;
    }
    size_t m = cogsplice_check(file, length).m;
    for (size_t layer = 1; layer <= found.layers; layer++) {
        printf("layer %zu", layer);
        for (size_t link = 0; link < m; link++)
            if (layers[link] == layer)
                printf(" %u>%u", number_at(ends_of(file, link), 0), number_at(ends_of(file, link), 2));
        printf("\n");
    }
    return 0;
}
