/*
 * Cogsplice: dense rings in a network of members who vouch for members.
 *
 * Link with libcogsplice_c.a (`make lib` puts it into target/staticlib). Every call is proved to do what is said here, for every
 * input: it has no precondition beyond the three that C cannot check:
 *   - a table's pointer is valid for the length beside it, counted in entries (NULL only with the length 0);
 *   - tables that one call may write overlap no other table of that call;
 *   - tables of uint16_t are aligned as C aligns them.
 * A call keeps nothing between calls, allocates nothing, and may run in any number of threads on different tables.
 *
 * A network file is bytes: the mark "VCH", then numbers of 16 bits, low byte first: the version, 1 or 2, n (members, at most
 * COGSPLICE_MEMBERS), m (links, at most COGSPLICE_LINKS), and for each link the voucher and the vouched member; in version 2 a fifth byte
 * of each link is its kind, from 0 to 7. Members are numbered from 0 to n - 1, links from 0. A link may join a member to itself. Links
 * ascend by voucher, then vouched, and none stands twice, not even with two kinds: two accepted files of the same version and n, neither
 * of zero bytes, hold the same links with the same kinds exactly when their bytes are equal. By the old rule links could stand in any
 * order: cogsplice_order brings a stored file, which is of version 1, into this one. Zero bytes count as the file of version 1 without
 * members and links: it is for the caller to tell an empty input from one that cannot be read.
 *
 * The kinds 0 to 7 have the weights 1, 1, 2, 3, 4, 6, 8 and 12. Links of version 1 and of a journal have kind 0, and so all weigh 1. What a
 * member gives to a group, or gets from one, is the sum of the weights of its links there. By such sums go E, cores, levels, both finders
 * and layers; by numbers of links go m, the index, the limits, all that a journal counts, and the totals of cogsplice_common.
 *
 * A journal is bytes too: the mark "VJN", the version 1 and n as in a network file, and then its entries, numbered from 0, of five bytes
 * each: a kind of 8 bits and two numbers of 16 bits. An entry adds a link or withdraws one (COGSPLICE_ENTRY_ADD, COGSPLICE_ENTRY_WITHDRAW;
 * voucher, then vouched), or sets a named state to the links then present or returns to one (COGSPLICE_ENTRY_SET, COGSPLICE_ENTRY_RETURN;
 * a name from 0 to 3, then 0). It begins without links and with no named state set. A named state holds until it is set again; returning
 * to one leaves all four as they are. Only cogsplice_journal takes a journal, and refuses one of zero bytes.
 *
 * In a journal each member is due COGSPLICE_DUE vouches given and may have up to COGSPLICE_GIVEN: it has given as many as links present
 * have it for their voucher. Live is the number of links present, due the total of what members lack to COGSPLICE_DUE, and live + due is
 * never above COGSPLICE_LINKS. So a member with fewer than COGSPLICE_DUE is never refused for lack of places, whatever the others entered;
 * among COGSPLICE_MEMBERS members none can give more than these. The place of a link that is withdrawn is used again: its voucher can
 * enter one next, and what a member with more than COGSPLICE_DUE gives back is there for everyone who has not given COGSPLICE_GIVEN.
 * Returning to a named state restores live and due.
 *
 * A group is a table of bytes, one for each member: 1 in, 0 out. S is the group of vouchers, T that of the vouched. E(S,T) is
 * the sum of the weights of the links whose voucher is in S and whose vouched member is in T.
 *
 * Core, level, level across, equal level, finding and layers search inside two further groups, A and B: S lies in A, T in B. Every
 * other pair that they speak of lies so too. The groups may overlap, and either may be empty; with everyone in both the whole network
 * is searched. They are read, and never written.
 *
 * Every answer has `refusal`: 0 where the call was accepted, else one of COGSPLICE_REFUSED_.., the first that applies in the order of
 * the tests: 1 to 7, 22, 8, 15, 21, 9, 10, 11, 12, 14. Of 7, 22, 8 and 15 each is tested over all links before the next, and of two files
 * 1 to 7, 22, 8 and 15 all on the first before any on the second. Of a refused call every other number is 0, but for `link`, two findings
 * are not called equal, and no table has changed. `link`, where an answer has it, is the link's number for refusals 7, 22, 8 and 15, of
 * two files in the one that is refused, else 0. A table may be longer than the call needs: what lies past the needed entries is neither
 * read nor changed.
 *
 * Each entry that is followed has a number too: 0 where it does what it says, else one of COGSPLICE_REFUSED_.., the first that applies
 * in the order of the tests: 18, 10, 16, 17, 19, 20. A refused entry is skipped: it changes nothing, and the next one is followed.
 */
#ifndef COGSPLICE_H
#define COGSPLICE_H

#include <stdbool.h>
#include <stddef.h>
#include <stdint.h>

#ifdef __cplusplus
extern "C" {
#endif

#define COGSPLICE_MEMBERS 2048
#define COGSPLICE_LINKS 8192
#define COGSPLICE_KINDS 8        /* the kinds that a link may have, numbered from 0 */
#define COGSPLICE_MOST_WEIGHT 12 /* the most that a link weighs */
#define COGSPLICE_GIVEN 64       /* the most vouches that a member may have given in a journal */
#define COGSPLICE_DUE 4          /* the vouches due to each member of a journal */

/* The entries that a table needs, for a file of n members and m links. */
#define COGSPLICE_FILE(m) (9 + 4 * (size_t)(m))                           /* uint8_t: a file of version 1; out of order, of write */
#define COGSPLICE_FILE_OF_KINDS(m) (9 + 5 * (size_t)(m))                  /* uint8_t: a file of version 2; out of common, of write */
#define COGSPLICE_GROUP(n) ((size_t)(n))                                  /* uint8_t: S, T, A, B */
#define COGSPLICE_STARTS(n) ((size_t)(n) + 1)                             /* uint16_t: out_starts, in_starts */
#define COGSPLICE_ROWS(m) ((size_t)(m))                                   /* uint16_t: out_rows, in_rows */
#define COGSPLICE_LAYERS(m) ((size_t)(m))                                 /* uint16_t: layers */
#define COGSPLICE_WORK(n, m) (2 * (size_t)(m) + 6 * (size_t)(n) + 2)      /* uint16_t: work; the call's to use, its contents mean nothing */

/* The same for a journal of k entries, or of which k are followed. Its output and its work table are as long for every journal. */
#define COGSPLICE_JOURNAL(k) (7 + 5 * (size_t)(k))                        /* uint8_t: a journal */
#define COGSPLICE_JOURNAL_OUT COGSPLICE_FILE(COGSPLICE_LINKS)             /* uint8_t: out, 32,777 */
#define COGSPLICE_JOURNAL_NUMBERS(k) ((size_t)(k))                        /* uint8_t: numbers */
#define COGSPLICE_JOURNAL_WORK 81920                                      /* uint16_t: work */

/* The kinds of a journal's entries. */
#define COGSPLICE_ENTRY_ADD 0      /* adds the link voucher, vouched */
#define COGSPLICE_ENTRY_WITHDRAW 1 /* withdraws that link */
#define COGSPLICE_ENTRY_SET 2      /* sets the named state to the links present; a name, then 0 */
#define COGSPLICE_ENTRY_RETURN 3   /* makes the links present those of the named state; a name, then 0 */

enum {
    COGSPLICE_ACCEPTED = 0,
    COGSPLICE_REFUSED_SHORT = 1,    /* the file has 1 to 8 bytes; a journal has under 7 */
    COGSPLICE_REFUSED_MARK = 2,     /* its mark is not VCH; a journal's is not VJN */
    COGSPLICE_REFUSED_VERSION = 3,  /* its version is neither 1 nor 2; order, and a journal: it is not 1 */
    COGSPLICE_REFUSED_MEMBERS = 4,  /* n is above COGSPLICE_MEMBERS; equal_findings: either n is */
    COGSPLICE_REFUSED_LINKS = 5,    /* m is above COGSPLICE_LINKS */
    COGSPLICE_REFUSED_LENGTH = 6,   /* its length is not COGSPLICE_FILE(m), of version 2 not COGSPLICE_FILE_OF_KINDS(m); a journal's is
                                     * COGSPLICE_JOURNAL(k) for no k */
    COGSPLICE_REFUSED_END = 7,      /* a link names a member not below n; the first such link */
    COGSPLICE_REFUSED_REPEAT = 8,   /* a link repeats an earlier one, of whatever kinds they are; the first such link */
    COGSPLICE_REFUSED_TABLE = 9,    /* a lent table is shorter than the call needs; a finding's group needs n of that finding */
    COGSPLICE_REFUSED_MEMBER = 10,  /* row: the member is not below n; of an entry: a member of the link is not */
    COGSPLICE_REFUSED_GROUP = 11,   /* a byte among the first n of A, B, or a group given to count or equal_findings is neither 0 nor 1 */
    COGSPLICE_REFUSED_ZERO = 12,    /* level, level across: asked for 0 */
    /* 13 is retired: it is never given again, nor used for something else */
    COGSPLICE_REFUSED_ROW = 14,     /* row: the member's start is above the next start, or that is above the length of the rows table */
    COGSPLICE_REFUSED_ORDER = 15,   /* a link comes before the one preceding it, by voucher, then vouched; the first such link */
    /* of an entry alone */
    COGSPLICE_REFUSED_PRESENT = 16, /* the link that it adds is present */
    COGSPLICE_REFUSED_ABSENT = 17,  /* the link that it withdraws is absent */
    COGSPLICE_REFUSED_ENTRY = 18,   /* its kind or its name is above 3, its name is not followed by 0, or it returns to a state never set */
    COGSPLICE_REFUSED_GIVEN = 19,   /* the voucher of the link that it adds has given COGSPLICE_GIVEN */
    COGSPLICE_REFUSED_PLACE = 20,   /* that voucher has given COGSPLICE_DUE or more, and live + due is COGSPLICE_LINKS */
    /* of two files */
    COGSPLICE_REFUSED_MISMATCH = 21, /* they have different numbers of members */
    /* of a file of version 2 */
    COGSPLICE_REFUSED_KIND = 22      /* a link has a kind above 7; the first such link */
};

/* The side of a row: what a member vouches for, or who vouches for it. */
#define COGSPLICE_VOUCHER false
#define COGSPLICE_VOUCHED true

struct cogsplice_check_numbers {
    uint16_t refusal, link;
    size_t n, m;
};

struct cogsplice_totals_numbers {
    uint16_t refusal, link;
    uint32_t edges;          /* E(S,T), a sum of weights */
    size_t sources, targets; /* |S| and |T| */
};

struct cogsplice_write_numbers {
    uint16_t refusal, link;
    size_t m;
};

struct cogsplice_index_numbers {
    uint16_t refusal, link;
};

struct cogsplice_row_numbers {
    size_t start, length; /* the row is rows[start] to rows[start + length - 1] */
    uint16_t refusal;
};

struct cogsplice_level_numbers {
    uint16_t refusal, link;
    size_t level;
};

struct cogsplice_finding_numbers {
    uint16_t refusal, link;
    uint32_t edges;          /* E(S,T), a sum of weights */
    size_t x, y, equal;      /* the finding is the [x,y]-core; equal is the equal level */
    size_t sources, targets; /* |S| and |T| */
};

struct cogsplice_layers_numbers {
    uint16_t refusal, link;
    size_t layers; /* K, the number of layers */
};

struct cogsplice_equal_numbers {
    uint16_t refusal;
    bool equal;
};

struct cogsplice_common_numbers {
    uint16_t refusal, link;
    size_t both, first_only, second_only; /* the numbers of links in both files, in the first only and in the second only */
};

/* n and m of a file. Refusals 1 to 7, 22, 8, 15, as in every call on a network file but cogsplice_order. */
struct cogsplice_check_numbers cogsplice_check(const uint8_t *file, size_t file_length);

/* E(S,T), |S| and |T| of the groups s and t. Refusals 1 to 7, 22, 8, 15, 9, 11. */
struct cogsplice_totals_numbers cogsplice_count(
    const uint8_t *file, size_t file_length,
    const uint8_t *s, size_t s_length,
    const uint8_t *t, size_t t_length);

/* Writes the file as it stands, of the same version and with the same kinds, into the first bytes of out: COGSPLICE_FILE(m) of version 1,
 * COGSPLICE_FILE_OF_KINDS(m) of version 2. Zero bytes are written as the file that they count as. Refusals 1 to 7, 22, 8, 15, 9. */
struct cogsplice_write_numbers cogsplice_write(
    const uint8_t *file, size_t file_length,
    uint8_t *out, size_t out_length);

/* Reads a file by the old rule, of version 1 alone and its links in any order, and writes the file of the same n and the same links,
 * ascending by voucher, then vouched, into the first COGSPLICE_FILE(m) bytes of out. Every call accepts what is written. A file of version
 * 2 is refused by 3. Refusals 1 to 8, 9; never 22 or 15. */
struct cogsplice_write_numbers cogsplice_order(
    const uint8_t *file, size_t file_length,
    uint8_t *out, size_t out_length);

/* Fills the four tables. Entry a of out_starts is the number of links whose voucher is below a; out_rows are the vouched members by
 * ascending voucher, then ascending vouched. in_starts and in_rows are the same with the sides exchanged. Kinds do not show in them.
 * Refusals 1 to 7, 22, 8, 15, 9. */
struct cogsplice_index_numbers cogsplice_index(
    const uint8_t *file, size_t file_length,
    uint16_t *out_starts, size_t out_starts_length,
    uint16_t *out_rows, size_t out_rows_length,
    uint16_t *in_starts, size_t in_starts_length,
    uint16_t *in_rows, size_t in_rows_length);

/* The row of a member on a side, as a part of that side's rows table: its neighbours ascending, where the index filled the tables.
 * Only that side's two tables are looked at, whatever they hold; the other two may be NULL, 0. n is here the length of the side's
 * starts table less one. Refusals 9, 10, 14. */
struct cogsplice_row_numbers cogsplice_row(
    bool side, size_t member,
    const uint16_t *out_starts, size_t out_starts_length,
    const uint16_t *out_rows, size_t out_rows_length,
    const uint16_t *in_starts, size_t in_starts_length,
    const uint16_t *in_rows, size_t in_rows_length);

/* The refusal of that row, or 0. */
uint16_t cogsplice_row_refusal(
    bool side, size_t member,
    const uint16_t *out_starts, size_t out_starts_length,
    const uint16_t *out_rows, size_t out_rows_length,
    const uint16_t *in_starts, size_t in_starts_length,
    const uint16_t *in_rows, size_t in_rows_length);

/* Writes the [x,y]-core inside A and B to s and t: the largest pair, S inside A and T inside B, in which each member of S gives at least x
 * to T and each member of T gets at least y from S, by sums of weights. For x = 0 S is A, for y = 0 T is B. Both groups may be empty.
 * Refusals 1 to 7, 22, 8, 15, 9, 11. */
struct cogsplice_totals_numbers cogsplice_core(
    const uint8_t *file, size_t file_length,
    const uint8_t *a, size_t a_length,
    const uint8_t *b, size_t b_length,
    uint16_t x, uint16_t y,
    uint8_t *s, size_t s_length,
    uint8_t *t, size_t t_length,
    uint16_t *work, size_t work_length);

/* The level of x: the largest y of at least 1 with a non-empty [x,y]-core inside A and B, or 0. Refusals 1 to 7, 22, 8, 15, 9, 11, 12. */
struct cogsplice_level_numbers cogsplice_level(
    const uint8_t *file, size_t file_length,
    const uint8_t *a, size_t a_length,
    const uint8_t *b, size_t b_length,
    uint16_t x,
    uint16_t *work, size_t work_length);

/* The level across, for y: the largest x of at least 1 with a non-empty [x,y]-core inside A and B, or 0. Refusals 1 to 7, 22, 8, 15, 9, 11,
 * 12. */
struct cogsplice_level_numbers cogsplice_level_across(
    const uint8_t *file, size_t file_length,
    const uint8_t *a, size_t a_length,
    const uint8_t *b, size_t b_length,
    uint16_t y,
    uint16_t *work, size_t work_length);

/* The equal level: the largest k with a non-empty [k,k]-core inside A and B, or 0. Refusals 1 to 7, 22, 8, 15, 9, 11. */
struct cogsplice_level_numbers cogsplice_equal_level(
    const uint8_t *file, size_t file_length,
    const uint8_t *a, size_t a_length,
    const uint8_t *b, size_t b_length,
    uint16_t *work, size_t work_length);

/* Writes the finding inside A and B to s and t: the non-empty [x,y]-core inside them, x and y at least 1, with the greatest x * y; among
 * equal products the smallest difference between x and y comes first, then the smallest x. No pair of groups inside A and B is more than
 * twice as dense, where the density of S and T is E(S,T) / sqrt(|S| * |T|). Where no link goes from A to B, the month is quiet: all numbers
 * are 0 and both groups are empty. x * y is 0 exactly then. Refusals 1 to 7, 22, 8, 15, 9, 11. */
struct cogsplice_finding_numbers cogsplice_finding(
    const uint8_t *file, size_t file_length,
    const uint8_t *a, size_t a_length,
    const uint8_t *b, size_t b_length,
    uint8_t *s, size_t s_length,
    uint8_t *t, size_t t_length,
    uint16_t *work, size_t work_length);

/* Takes the links between the two groups of the finding inside A and B out, searches what remains, and goes on until no link from A to B
 * remains. Writes the layer of each link into the first COGSPLICE_LAYERS(m) entries of layers, in the order of the file. Each link from A
 * to B has one layer from 1 to K: layer l is, of the links still in at its start, those between the two groups of their finding. Every
 * other link of the file gets 0. The layers' E add up to the weights of the links from A to B, and x * y never rises from a layer to the
 * next. In each layer the finding's bound holds over the links still in at its start: for all non-empty S inside A and T inside B, E(S,T)
 * squared is at most 4 * x * y * |S| * |T|. Where no link goes from A to B, K is 0. Refusals 1 to 7, 22, 8, 15, 9, 11. */
struct cogsplice_layers_numbers cogsplice_layers(
    const uint8_t *file, size_t file_length,
    const uint8_t *a, size_t a_length,
    const uint8_t *b, size_t b_length,
    uint16_t *layers, size_t layers_length,
    uint16_t *work, size_t work_length);

/* Writes the pair of the harmonic measure, 2 * E(S,T) / (|S| + |T|), to s and t. A place is a side and a member, so that each member has
 * two: as a voucher in S, as a vouched member in T. From everyone in both groups the place whose links to places not yet dropped weigh
 * least together is dropped, again and again; ties go to the voucher side, then to the smaller member. Of all pairs met so, the first too
 * and the last, where both groups are empty, not, the earliest with the greatest measure is written. No pair of groups has more than twice
 * its measure: for all non-empty S and T, E(S,T) * (sources + targets) is at most 2 * edges * (|S| + |T|). Without links all numbers are 0
 * and both groups are empty. The whole network is searched: there are no A and B. Refusals 1 to 7, 22, 8, 15, 9. */
struct cogsplice_totals_numbers cogsplice_harmonic(
    const uint8_t *file, size_t file_length,
    uint8_t *s, size_t s_length,
    uint8_t *t, size_t t_length,
    uint16_t *work, size_t work_length);

/* Follows the first `asked` entries of a journal, all where there are fewer. Writes the links then present as the file of version 1 of the
 * journal's n and these links, ascending by voucher, then vouched, into the first COGSPLICE_FILE(m) bytes of out, which every call accepts,
 * and the number of each entry followed into numbers, which has as many bytes at the least. A finding in the file written is that of these
 * links, however they came to be present. Refusals 1, 2, 3, 4, 6, 9: what an entry holds is no reason to refuse the call. */
struct cogsplice_write_numbers cogsplice_journal(
    const uint8_t *journal, size_t journal_length,
    size_t asked,
    uint8_t *out, size_t out_length,
    uint8_t *numbers, size_t numbers_length,
    uint16_t *work, size_t work_length);

/* Whether two findings are equal. Each is given by its x and y, which may be any numbers, by n of the network that it was found in, and by
 * its groups S and T. Equal are those whose x, y and n agree and whose groups have the same members, S as S and T as T; the equal level
 * and E are not compared. The call is refused, in this order, by 4 where either n is above COGSPLICE_MEMBERS, by 9 where a group is
 * shorter than n, and by 11 where one of its first n bytes is neither 0 nor 1: 9 and 11 over all four groups, each by n of its own
 * finding. Only then do two n that differ mean unequal. Bytes past n are not read. Nothing is written, and the tables may overlap. Where
 * the call is refused `equal` is false. Refusals 4, 9, 11. */
struct cogsplice_equal_numbers cogsplice_equal_findings(
    size_t x1, size_t y1, size_t n1,
    const uint8_t *s1, size_t s1_length,
    const uint8_t *t1, size_t t1_length,
    size_t x2, size_t y2, size_t n2,
    const uint8_t *s2, size_t s2_length,
    const uint8_t *t2, size_t t2_length);

/* Takes two files over the same n, each of either version, such as vouchers and vouched keep of the same events, and writes the links that
 * are in both: the same voucher, the same vouched and an equal weight, where kinds 0 and 1 are equal. They are written as the file of
 * version 2 of this n, ascending by voucher, then vouched, with the first file's kinds, into the first COGSPLICE_FILE_OF_KINDS(both) bytes
 * of out. A link that both have with different weights is in each of them only. Every call but cogsplice_order accepts the file: a finding
 * in it is a ring that both files bear out. The first file's m is both + first_only, the second's both + second_only. With the two
 * exchanged the same links are written with the second file's kinds, of the same weights, and first_only and second_only are exchanged. Of
 * a file with itself it is the file of its links and kinds in version 2, and of zero bytes that without members and links. Both are read
 * only, and may overlap. The call is refused, in this order, by 1 to 7, 22, 8 and 15 for the first file, by the same for the second, by 21
 * where the two n differ, and by 9 where out is shorter than COGSPLICE_FILE_OF_KINDS(both). Refusals 1 to 7, 22, 8, 15, 21, 9. */
struct cogsplice_common_numbers cogsplice_common(
    const uint8_t *first, size_t first_length,
    const uint8_t *second, size_t second_length,
    uint8_t *out, size_t out_length);

#ifdef __cplusplus
}
#endif

#endif
