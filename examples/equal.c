/* Compares the findings of two network files, each in a file that is named or on standard input if it is named by "-". Network W stands for
 * one that is not named. Prints a line for each in turn, the first of its report or its refusal, and unless one is refused a third line
 * that tells whether the findings are equal.
 *
 *     cc -Iinclude examples/equal.c target/staticlib/libcogsplice_c.a -o equal
 *     ./equal samples/w.vch samples/other-members.vch
 */
#include "cogsplice.h"
#include "network.h"

struct finding {
    struct cogsplice_finding_numbers numbers;
    size_t n;
    uint8_t s[COGSPLICE_GROUP(COGSPLICE_MEMBERS)], t[COGSPLICE_GROUP(COGSPLICE_MEMBERS)];
};

static struct finding one, other;
static uint16_t work[COGSPLICE_WORK(COGSPLICE_MEMBERS, COGSPLICE_LINKS)];

static void find(const char *name, struct finding *found) {
    static uint8_t room[ROOM];
    size_t length = sizeof network_w;
    const uint8_t *file = name == NULL ? network_w : read_network(opened(name), room, &length);
    const uint8_t *all = everyone();
    found->numbers = cogsplice_finding(
        file, length, all, COGSPLICE_MEMBERS, all, COGSPLICE_MEMBERS,
        found->s, sizeof found->s, found->t, sizeof found->t, work, sizeof work / sizeof *work);
    found->n = cogsplice_check(file, length).n;
}

static void print_first_line(const struct finding *found) {
    if (found->numbers.refusal != COGSPLICE_ACCEPTED)
        print_refusal(found->numbers.refusal, found->numbers.link);
    else
        print_levels(&found->numbers);
}

int main(int argc, char **argv) {
    const char *names[2];
    two_names(argc, argv, names);
    /* Both files are read before anything is printed. */
    find(names[0], &one);
    find(names[1], &other);
    print_first_line(&one);
    print_first_line(&other);
    if (one.numbers.refusal != COGSPLICE_ACCEPTED || other.numbers.refusal != COGSPLICE_ACCEPTED)
        return 0;
    /* Not refused: each n is that of a file, and the groups are as the library wrote them. */
    struct cogsplice_equal_numbers compared = cogsplice_equal_findings(
        one.numbers.x, one.numbers.y, one.n, one.s, sizeof one.s, one.t, sizeof one.t,
        other.numbers.x, other.numbers.y, other.n, other.s, sizeof other.s, other.t, sizeof other.t);
    printf("%s\n", compared.equal ? "equal" : "not equal");
    return 0;
}
