/*
 * Leskwyn: two population trees counted against each other, quartet by quartet.
 *
 * The functions of the static library that `tools/build staticlib capi` builds (target/staticlib/libcapi.a). Each is proved to
 * meet its contract for every input: any words in a slice of any length give either the whole answer or one refusal
 * number, and nothing beyond the lent cells is touched.
 *
 * Slices. A slice is a pointer to its first element, then the number of its elements (not of its bytes). The pointer
 * is aligned for its elements and not null, even where the number is 0. Nothing is kept after a call returns: a slice
 * has to live only as long as the call.
 *
 * Overlap. Tables, shelves and levels are only read, so the two of a pair may be one slice, or share words; and so are
 * marks, but for those of leskwyn_change_mark. The lent cells (`walk`, `out`, `copy`, `work`, and those marks) must not
 * overlap a table, a shelf, marks or levels.
 *
 * Threads. No globals, no allocation, no input or output. Calls from several threads at once need no lock, as long as
 * no two of them lend the same cells and nobody writes to a table, a shelf, marks or levels that are being read.
 * leskwyn_claim_sums, leskwyn_quartet_table, leskwyn_weighted_distance and leskwyn_view take up to 240 kB of stack, and
 * so does leskwyn_nearest, which takes about as much as a quartet table; leskwyn_triplet_table, leskwyn_holding,
 * leskwyn_change_mark, leskwyn_canonical_copy, leskwyn_exchange_tallies and leskwyn_exchange_distance up to 64 kB, the
 * others up to 40 kB.
 *
 * A tree table. 16-bit words: n, the tips (2 to 256); m, the nodes (n to 4n); then m parent words; then m label words;
 * 2 + 2m words in all.
 *   - Node 0 is the tip labelled 0. Its parent word is 0. It has exactly one child, node 1, whose parent word is 0.
 *   - For i >= 2, node i's parent is at least 1 and less than i.
 *   - A tip's label is 0 to n - 1, each standing once. LESKWYN_INNER marks an inner node.
 *   - A tip other than node 0 has no child. An inner node has one child or more; with one it is a pass-through node,
 *     and a table with it taken out has the same counts and distances.
 * Edge i (1 to m - 1) joins node i to its parent; the labels beyond it are those on node i's side, away from tip 0.
 *
 * A shelf. 16-bit words: the number of trees, 2 to 16; then so many tables with the same n, end to end. Each takes
 * 2 + 2m words by its own m, or all that remain if fewer. leskwyn_nearest takes a shelf.
 *
 * Work. A call that counts two trees is lent cells of one byte each, one for each edge of the first tree with each edge
 * of the second: how many labels lie beyond both edges. They are 255 at most, since tip 0 lies beyond no edge.
 * leskwyn_evidence, leskwyn_holding and leskwyn_change_mark take no work. leskwyn_exchange_tallies takes no pair: it is
 * lent a cell for each edge of its tree with each edge of the same tree, and leaves 0 in all of them.
 * leskwyn_nearest is lent as many for the largest tree of its shelf, and leaves 0 in all of them too.
 * leskwyn_exchange_distance takes neither a pair nor work.
 *
 * Marks. n bytes, one for each label from 0 on: LESKWYN_KEPT, 1, or LESKWYN_STRUCK, 0. A call that takes marks counts
 * kept labels only, in its cells too: its figures are those of the two trees cut down to the kept labels. Any labels
 * may be struck, tip 0 and even all of them; fewer than four kept labels give zero counts. With all marks 1 all labels
 * count. leskwyn_holding counts one label besides, kept or struck. leskwyn_triplet_table, leskwyn_evidence,
 * leskwyn_exchange_tallies, leskwyn_exchange_distance and leskwyn_nearest take no marks and know all labels.
 * leskwyn_canonical_copy counts nothing: it writes one tree cut down to its kept labels, of which there are to be two
 * or more.
 *
 * Levels. n bytes, one for each label from 0 on, each 0 to 3; and a viewer has a level of 0 to 3. A label is visible
 * if its level is not above the viewer's, else it is hidden. leskwyn_view and leskwyn_view_topology are for viewers
 * and take levels in place of marks. Levels, viewer and work come from the desk that keeps the trees. A viewer chooses
 * only the four labels, and is told only the answer: nothing of the work is the viewer's. Any labels may be hidden,
 * tip 0 and even all of them. Two desks whose visible labels are the same, with the same topology of every four of
 * them in the two first trees and in the two second ones, tell a viewer the same, if neither refuses the tables, the
 * levels or the work; n, m, the levels and the viewer's may differ. So a hidden label is like one that does not exist.
 *
 * Refusals. 0 stands for accepted. A refused call gives its number, 0 in every other field of its answer (but case E
 * where a case is told), and no change to a lent cell. Where several conditions hold, the first in this order decides.
 *
 *   of a table   1   fewer than two words
 *                2   n is not 2 to 256
 *                3   m is not n to 4n
 *                4   the length is not 2 + 2m
 *                5   a parent word breaks its rule
 *                6   node 0's label is not 0, or a label is neither LESKWYN_INNER nor below n
 *               31   some label from 0 to n - 1 does not stand exactly once
 *                7   a tip other than node 0 has a child, or an inner node has none
 *   of labels   10   a label is n or more, or hidden, where the call takes levels
 *               11   two of the labels are equal
 *   of an edge  13   the edge is 0, or m or more
 *   of room     12   the lent walk is shorter than n, or `out` has fewer than 2 + 2m cells
 *   of a pair    the first table's number; then the second's, with 100 more (101 to 106, 131, 107); then
 *                8   the two n differ
 *               32   there are not n marks, or a mark is above 1, where the call takes marks; or `mark` is above 1
 *               37   there are not n levels, or a level or the viewer's is above 3, where the call takes levels
 *                9   the work has fewer than (m - 1)(m' - 1) cells, m' being the second table's m
 *   of exchanges 9   the work has fewer than (m - 1)(m - 1) cells
 *   of a shelf  38   there is no word 0, or it is not 2 to 16
 *               39   a table is refused, the n differ, or words are left over
 *                9   the work has fewer than (m - 1)(m - 1) cells, with the largest m
 *   of a weight 30   the kind is not 0 to 2, or the fraction of a part is not k/256 with a k from 0 to 256
 *   of a change 33   the label already is as wished
 *               34   the given counts do not add up to the number of sets of four kept labels, or a strike would take
 *                    more from a case than it holds
 *   of a copy   35   fewer than two labels are kept
 *               36   `copy` has fewer cells than the copy has words
 */
#ifndef LESKWYN_H
#define LESKWYN_H

#include <stddef.h>
#include <stdint.h>

#ifdef __cplusplus
extern "C" {
#endif

/* The version of this header as one number: major * 1000000 + minor * 1000 + patch. */
#define LESKWYN_VERSION 15000

/* The label word of an inner node. */
#define LESKWYN_INNER 65535

/* The marks of labels: struck from the count, or kept in it. */
#define LESKWYN_STRUCK 0
#define LESKWYN_KEPT 1

/*
 * Cells, and so bytes, that are enough for the work of every pair: (1024 - 1)(1024 - 1), for two trees of 256 tips and
 * 1024 nodes.
 */
#define LESKWYN_WORK_CELLS 1046529

/* The refusal, or 0; the first cell of the labels beyond an edge in a walk, and how many they are. */
typedef struct { uint16_t refusal, start, labels; } leskwyn_beyond_answer;

/* The refusal, or 0; the node where the paths join. */
typedef struct { uint16_t refusal, node; } leskwyn_centre_answer;

/* The refusal, or 0; 1 for a butterfly and 0 for a star; the partner of the smallest label, 0 for a star. */
typedef struct { uint16_t refusal, butterfly, partner; } leskwyn_topology_answer;

/* The refusal, or 0; how many words the copy has. */
typedef struct { uint16_t refusal, words; } leskwyn_copy_answer;

/* The refusal, or 0; how many exchanges fall in each of the eleven tallies. */
typedef struct { uint16_t refusal; uint64_t tallies[11]; } leskwyn_exchange_answer;

/* The refusal, or 0; the quartet distance of the tree with two labels exchanged to the tree itself. */
typedef struct { uint16_t refusal; uint64_t distance; } leskwyn_exchange_distance_answer;

/* The refusal, or 0; the claim sums S, S', S2 and S3 of the kept tips. */
typedef struct { uint16_t refusal; uint64_t first, second, same, different; } leskwyn_claim_sums_answer;

/*
 * The refusal, or 0; how many sets of four kept tips are: a, the same butterfly in both trees; b, different
 * butterflies; c, a butterfly in the first tree only; d, in the second only; e, a star in both. The quartet distance is
 * b + c + d.
 */
typedef struct { uint16_t refusal; uint64_t a, b, c, d, e, distance; } leskwyn_quartet_table_answer;

/*
 * The refusal, or 0; how many labels are visible; and over these the five cases and the distance of the quartet table,
 * then the splits of the first tree, of the second, and of both, and the Robinson-Foulds distance.
 */
typedef struct {
    uint16_t refusal;
    uint64_t visible, a, b, c, d, e, distance, first_splits, second_splits, common_splits, robinson_foulds;
} leskwyn_view_answer;

/* The refusal, or 0; the position of a tree on its shelf, from 0; the sum of its quartet distances to all. */
typedef struct { uint16_t refusal, position; uint64_t sum; } leskwyn_nearest_answer;

/* The refusal, or 0; how many sets of four of some kind are in each of these five cases. */
typedef struct { uint16_t refusal; uint64_t a, b, c, d, e; } leskwyn_five_answer;

/*
 * The refusal, or 0; the splits of the first tree, of the second, and of both; the Robinson-Foulds distance,
 * first + second - 2 common. A split is the pair of sets of kept tips of an edge that has at least two of them on each
 * side; a pair that several edges have is one split.
 */
typedef struct { uint16_t refusal; uint64_t first, second, common, distance; } leskwyn_split_counts_answer;

/*
 * The refusal, or 0; with tip 0 as the outgroup, how many sets of three of the labels 1 to n - 1 are: a, resolved alike
 * in both trees; b, resolved differently; c, resolved in the first tree only; d, in the second only; e, in neither. A
 * set is resolved if two of its labels have a lowest common ancestor that is not an ancestor of the third. The triplet
 * distance is b + c + d.
 */
typedef struct { uint16_t refusal; uint64_t a, b, c, d, e, distance; } leskwyn_triplet_table_answer;

/*
 * The refusal, or 0; the weighted distance b + p (c + d), with b, c and d of the quartet table and the weight p. It is
 * exact: 256 times it is 256 b + k (c + d), where p is k/256. It is never minus zero.
 */
typedef struct { uint16_t refusal; double distance; } leskwyn_weighted_distance_answer;

/*
 * The cases of four tips in two trees: A, the same butterfly in both; B, different butterflies; C, a butterfly in the
 * first tree only; D, in the second only; E, a star in both.
 */
#define LESKWYN_CASE_A 0
#define LESKWYN_CASE_B 1
#define LESKWYN_CASE_C 2
#define LESKWYN_CASE_D 3
#define LESKWYN_CASE_E 4

/*
 * The refusal, or 0; the case of four tips, one of the five above; and for each tree what shows it: 1 and the number of
 * an edge, or 0 and the number of a node. A butterfly is shown by the lowest-numbered edge that has two of the tips on
 * each side, a star by the node where all paths between the tips meet.
 */
typedef struct {
    uint16_t refusal, which, first_edge, first_number, second_edge, second_number;
} leskwyn_evidence_answer;

/* The version of the library that is linked. It is LESKWYN_VERSION where header and library are of one release. */
uint32_t leskwyn_version(void);

/* Whether the words are a tree table. Answers 0, or the table's refusal: 1 to 6, 31, 7. */
uint16_t leskwyn_check(const uint16_t *table, size_t words);

/*
 * The labels depth first from node 0, children in rising node number, into the first n cells of `walk`; later cells
 * stay. Answers 0, or the table's refusal, then 12.
 */
uint16_t leskwyn_walk(const uint16_t *table, size_t words, uint16_t *walk, size_t cells);

/*
 * The labels beyond an edge, as a part of the caller's walk of so many cells: its `labels` cells from cell `start` on.
 * On a walk that leskwyn_walk wrote these are exactly the labels beyond the edge. The part is chosen by position alone,
 * so that a walk filled with other words gives other words. Refuses as the check does, then 13, then 12.
 */
leskwyn_beyond_answer leskwyn_beyond(const uint16_t *table, size_t words, uint16_t edge, size_t cells);

/* The centre of three tips: the node where the paths between them join. Refuses as the check does, then 10, then 11. */
leskwyn_centre_answer leskwyn_centre(const uint16_t *table, size_t words, uint16_t a, uint16_t b, uint16_t c);

/*
 * The topology of four tips, whatever their order: the butterfly ab|cd if some edge has a, b on one side and c, d on
 * the other, else a star. Refuses as the check does, then 10, then 11.
 */
leskwyn_topology_answer leskwyn_topology(const uint16_t *table, size_t words,
                                         uint16_t a, uint16_t b, uint16_t c, uint16_t d);

/*
 * The table re-rooted at the tip with that label, into the first 2 + 2m cells of `out`; later cells stay. The path from
 * the tip to node 0 is numbered first, from the tip on, and the parent of a node on it is the one before. The other
 * nodes follow in their order and keep their parents. The labels 0 and `label` change places. Answers 0, or the table's
 * refusal, then 10, then 12.
 */
uint16_t leskwyn_reroot(const uint16_t *table, size_t table_words, uint16_t label, uint16_t *out, size_t out_words);

/*
 * The canonical copy of the tree cut down to its kept labels, into the first 2 + 2m cells of `copy`, with the copy's m;
 * later cells stay.
 *   - Labels are ranks: the smallest kept label becomes 0, the next one 1, and so on. The tip of rank 0 is node 0, so
 *     that the copy hangs from the smallest kept label, whether that is 0 or not.
 *   - Branches without a kept label and pass-through nodes are gone: an inner node has two children or more, and m is
 *     n to 2n - 2, with the copy's n.
 *   - Nodes are numbered depth first, a node before all that hangs from it, and the children of a node come in the
 *     order of the smallest label at or below each.
 * Two trees have copies of the same words under the same marks exactly if they have the same splits there, and what is
 * counted of two copies with all labels kept is what is counted of the two trees under the marks; their triplets are
 * the sets of four that hold the smallest kept label. As many cells as the table has words are always enough. Refuses as the check does, then 32, 35 and 36.
 */
leskwyn_copy_answer leskwyn_canonical_copy(const uint16_t *table, size_t table_words,
                                           const uint8_t *marks, size_t marks_count,
                                           uint16_t *copy, size_t copy_words);

/*
 * How far the exchange of two labels moves a tree. The labels of each unordered pair of tips are exchanged in turn,
 * label 0 among them, and the quartet distance of the exchanged tree to the tree itself is taken: how many sets of four
 * labels have different topologies in the two. A distance d falls in tally 10 d / f, rounded down, with f the number of
 * sets of four, n(n - 1)(n - 2)(n - 3)/24; with fewer than four tips all fall in tally 0. The tallies add up to
 * n(n - 1)/2. Afterwards the first (m - 1)(m - 1) cells of the work are 0; later cells stay. What the cells held before
 * plays no part. Refuses as the check does, then 9.
 */
leskwyn_exchange_answer leskwyn_exchange_tallies(const uint16_t *table, size_t words, uint8_t *work, size_t cells);

/* That distance for the labels x and y, in either order. Refuses as the check does, then 10, then 11. */
leskwyn_exchange_distance_answer leskwyn_exchange_distance(const uint16_t *table, size_t words, uint16_t x, uint16_t y);

/*
 * The crossings of two trees: afterwards cell (i - 1)(m' - 1) + (j - 1) of the work holds how many kept labels lie
 * beyond both edge i of the first tree and edge j of the second; later cells stay. What the cells held before plays no
 * part. Answers 0, or the pair's refusal.
 */
uint16_t leskwyn_crossings(const uint16_t *first, size_t first_words,
                           const uint16_t *second, size_t second_words,
                           const uint8_t *marks, size_t marks_count,
                           uint8_t *work, size_t cells);

/* The claim sums of two trees. Leaves the crossings in the work, as leskwyn_crossings does. */
leskwyn_claim_sums_answer leskwyn_claim_sums(const uint16_t *first, size_t first_words,
                                             const uint16_t *second, size_t second_words,
                                             const uint8_t *marks, size_t marks_count,
                                             uint8_t *work, size_t cells);

/* The quartet table of two trees. Leaves the crossings in the work, as leskwyn_crossings does. */
leskwyn_quartet_table_answer leskwyn_quartet_table(const uint16_t *first, size_t first_words,
                                                   const uint16_t *second, size_t second_words,
                                                   const uint8_t *marks, size_t marks_count,
                                                   uint8_t *work, size_t cells);

/* The split counts of two trees. Leaves the crossings in the work, as leskwyn_crossings does. */
leskwyn_split_counts_answer leskwyn_split_counts(const uint16_t *first, size_t first_words,
                                                 const uint16_t *second, size_t second_words,
                                                 const uint8_t *marks, size_t marks_count,
                                                 uint8_t *work, size_t cells);

/*
 * The triplet table of two trees, over all labels. Leaves the crossings of all labels in the work, as leskwyn_crossings
 * does where all are kept. Refuses by the pair's numbers without 32.
 */
leskwyn_triplet_table_answer leskwyn_triplet_table(const uint16_t *first, size_t first_words,
                                                   const uint16_t *second, size_t second_words,
                                                   uint8_t *work, size_t cells);

/* The weight of a star against a butterfly: nothing, p = 0; full, p = 1; a part, p being its fraction. */
#define LESKWYN_WEIGHT_NONE 0
#define LESKWYN_WEIGHT_FULL 1
#define LESKWYN_WEIGHT_PART 2

/*
 * The weighted distance of two trees. The kind is one of the three above. The fraction of a part is k/256 with a k
 * from 0 to 256, and minus zero is taken as zero; for the other two kinds the fraction plays no part. Leaves the
 * crossings in the work, as leskwyn_crossings does. Refuses by the pair's numbers, then 30.
 */
leskwyn_weighted_distance_answer leskwyn_weighted_distance(const uint16_t *first, size_t first_words,
                                                           const uint16_t *second, size_t second_words,
                                                           const uint8_t *marks, size_t marks_count,
                                                           uint8_t *work, size_t cells,
                                                           uint16_t kind, double fraction);

/*
 * The evidence for four tips, whatever their order: the case in which the quartet table counts them if they are kept,
 * and the edge or the node of each tree that shows it. It takes neither marks nor work, so that 32 and 9 do not occur.
 * Refuses by the pair's other numbers, then 10, then 11.
 */
leskwyn_evidence_answer leskwyn_evidence(const uint16_t *first, size_t first_words,
                                         const uint16_t *second, size_t second_words,
                                         uint16_t a, uint16_t b, uint16_t c, uint16_t d);

/*
 * The sets of four that hold a label and three other kept ones, whether the label itself is kept or struck. Refuses by
 * the pair's numbers without 9, then 10.
 */
leskwyn_five_answer leskwyn_holding(const uint16_t *first, size_t first_words,
                                    const uint16_t *second, size_t second_words,
                                    const uint8_t *marks, size_t marks_count,
                                    uint16_t label);

/*
 * A label struck, where `mark` is LESKWYN_STRUCK, or restored, where it is LESKWYN_KEPT: its mark changes, and no
 * other. The five counts given are to be those of the quartet table under the marks as they are. The answer is these
 * without the sets that leskwyn_holding counts, or with them: the quartet table's under the new marks. Refuses by the
 * pair's numbers without 9, then 10, 33 and 34.
 */
leskwyn_five_answer leskwyn_change_mark(const uint16_t *first, size_t first_words,
                                        const uint16_t *second, size_t second_words,
                                        uint8_t *marks, size_t marks_count,
                                        uint64_t a, uint64_t b, uint64_t c, uint64_t d, uint64_t e,
                                        uint16_t label, uint16_t mark);

/*
 * What a viewer may see of two trees: how many labels are visible, and what leskwyn_quartet_table and
 * leskwyn_split_counts tell under marks that keep these. Leaves the crossings of visible labels in the work, as
 * leskwyn_crossings does under those marks; they are the desk's. Refuses by the pair's numbers, with 37 in the place
 * of 32.
 */
leskwyn_view_answer leskwyn_view(const uint16_t *first, size_t first_words,
                                 const uint16_t *second, size_t second_words,
                                 const uint8_t *levels, size_t levels_count, uint16_t viewer,
                                 uint8_t *work, size_t cells);

/*
 * The topology of four visible labels, as leskwyn_topology tells it. A hidden label is refused by 10, even if it stands
 * twice. Refuses as the check does, then 37, 10 and 11.
 */
leskwyn_topology_answer leskwyn_view_topology(const uint16_t *table, size_t words,
                                              const uint8_t *levels, size_t levels_count, uint16_t viewer,
                                              uint16_t a, uint16_t b, uint16_t c, uint16_t d);

/*
 * The tree of a shelf that is nearest to all: the position, from 0, of the tree with the least sum of quartet distances
 * to all trees of the shelf, and that sum. Of trees with equal sums it is the earliest. All labels count. Afterwards
 * the first (m - 1)(m - 1) cells of the work, with the largest m of the shelf, are 0; later cells stay. What the cells
 * held before plays no part. LESKWYN_WORK_CELLS are enough for every shelf. Refuses by 38, 39 and 9.
 */
leskwyn_nearest_answer leskwyn_nearest(const uint16_t *shelf, size_t words, uint8_t *work, size_t cells);

#ifdef __cplusplus
}
#endif

#endif
