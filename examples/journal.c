/* Follows a journal, the one in a file that is named or on standard input if it is named by "-", and writes the network file of the links
 * then present. A number beside the name tells how many entries to follow, else all are. With no name it is a small journal that ends
 * with network W. On standard error it says which entries are refused, and by which number.
 *
 *     cc -Iinclude examples/journal.c target/staticlib/libcogsplice_c.a -o journal
 *     ./journal samples/ring-forms.vjn 12 | bin/vouch-report
 */
#include "cogsplice.h"
#include "network.h"

/* All links of network W but 4-5, then a state set, two entries that the return to it takes back, and 4-5. */
static const uint8_t journal_w[] = {
    'V', 'J', 'N', 1, 0, 6, 0,
    COGSPLICE_ENTRY_ADD, 2, 0, 3, 0, COGSPLICE_ENTRY_ADD, 2, 0, 4, 0, COGSPLICE_ENTRY_ADD, 0, 0, 3, 0, COGSPLICE_ENTRY_ADD, 0, 0, 4, 0,
    COGSPLICE_ENTRY_ADD, 1, 0, 3, 0, COGSPLICE_ENTRY_ADD, 1, 0, 4, 0, COGSPLICE_ENTRY_ADD, 5, 0, 5, 0, COGSPLICE_ENTRY_SET, 0, 0, 0, 0,
    COGSPLICE_ENTRY_ADD, 3, 0, 3, 0, COGSPLICE_ENTRY_WITHDRAW, 5, 0, 5, 0, COGSPLICE_ENTRY_RETURN, 0, 0, 0, 0,
    COGSPLICE_ENTRY_ADD, 4, 0, 5, 0,
};

static uint8_t out[COGSPLICE_JOURNAL_OUT];
static uint16_t work[COGSPLICE_JOURNAL_WORK];

/* Room for so many bytes and one more, so that there is some for none. */
static void *room(void *old, size_t length) {
    void *bytes = realloc(old, length + 1);
    if (bytes == NULL)
        give_up("no memory");
    return bytes;
}

/* All of a file: a journal may have any number of entries. What cannot be read is no journal. */
static const uint8_t *read_all(FILE *from, size_t *length) {
    uint8_t *bytes = NULL;
    size_t most = COGSPLICE_JOURNAL(1000);
    *length = 0;
    do {
        most *= 2;
        bytes = room(bytes, most);
        *length += fread(bytes + *length, 1, most - *length, from);
    } while (*length == most);
    if (ferror(from))
        give_up("the journal cannot be read");
    return bytes;
}

static const uint8_t *journal_file(int argc, char **argv, size_t *length) {
    if (argc < 2) {
        *length = sizeof journal_w;
        return journal_w;
    }
    return read_all(opened(argv[1]), length);
}

/* How many entries to follow: more than there are means all. */
static size_t entries_asked(int argc, char **argv) {
    if (argc < 3)
        return SIZE_MAX;
    char *end;
    unsigned long long asked = strtoull(argv[2], &end, 10);
    if (argv[2][0] < '0' || argv[2][0] > '9' || *end != '\0')
        give_up("how many entries to follow is a number");
    return asked < SIZE_MAX ? (size_t)asked : SIZE_MAX;
}

int main(int argc, char **argv) {
    size_t length, asked = entries_asked(argc, argv);
    const uint8_t *journal = journal_file(argc, argv, &length);
    /* There are fewer entries than bytes. Those not followed keep a number of 0. */
    uint8_t *numbers = memset(room(NULL, length), 0, length);
    struct cogsplice_write_numbers written = cogsplice_journal(
        journal, length, asked, out, sizeof out, numbers, length, work, sizeof work / sizeof *work);
    /* The line stands where the file would: what reads a network file refuses it, as it would not refuse nothing at all. */
    if (written.refusal != COGSPLICE_ACCEPTED) {
        print_refusal(written.refusal, written.link);
        return 0;
    }
    for (size_t entry = 0; entry < length; entry++)
        if (numbers[entry] != 0)
            fprintf(stderr, "entry %zu refused %u\n", entry, (unsigned)numbers[entry]);
    write_network(out, COGSPLICE_FILE(written.m));
    return 0;
}
