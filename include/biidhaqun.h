/*
 * Biidhaqun: certified floors and ceilings for plans over hidden states.
 *
 * A POMDP with 1 to 64 states, 1 to 8 actions and 1 to 8 observations is held in whole numbers. A certifier opens on it, is
 * offered levels of alpha vectors (a floor) and of corner and point values (a sawtooth ceiling) by anyone, and accepts a
 * level exactly where it is within the limits and every backup inequality holds. Beside the level it keeps a ceiling of its
 * own, the fast informed bound, which it steps at each acceptance. From then on its totals at a mixture of the states bracket
 * what the best plan earns, of all plans with as many steps as levels were accepted. A vector may cover part of the states: it
 * then counts at the mixtures of those alone, and where no vector counts there are no totals.
 *
 *     cc -std=c99 -Iinclude program.c target/staticlib/libbiidhaqun.a -o program
 *
 * examples/ladder.c is a whole program. The library is for x86-64. It keeps nothing between calls, allocates nothing, and
 * may be called from any thread that has the stack for it (which stands behind the calls), as long as no two calls at once are
 * lent the same memory and one of them writes it.
 *
 * What is proved: whatever it is lent, a call ends without fault, answers, and leaves in every slice what the definitions say
 * (specs/ of the crates; "What to believe" in docs/ARCHITECTURE.md has them in reading order). Where a certifier was opened
 * by biidhaqun_open, its slices were written by biidhaqun_offer, biidhaqun_replay and biidhaqun_reprice alone, whatever they
 * were lent, and each call was lent the tables in force (those of the opening, or the last new ones that were not refused),
 * its totals bracket every plan of these tables wherever they are given. A level that is built upon it, or adopted, is
 * accepted if the certifier's slices have room for it. What biidhaqun_convert writes is read by biidhaqun_read, with the same
 * T, O, discount and start numbers and exactly the expected rewards. The inline functions at the end, and what this file
 * says, are not proved.
 *
 * SLICES. What a call is lent are slices: a pointer, and a length in elements. They are packed by the model's counts (n
 * states, m actions, k observations), the last index fastest, and may be longer: what lies behind is neither read nor
 * written. A pointer is aligned as its type asks for, and may be anything if its length is 0. A slice that is lent to be
 * written must not overlap another of the same call.
 *
 *   tables       transition   m x n x n   by action, state left, state reached      thousandths; a row totals 1,000
 *                observation  m x n x k   by action, state reached, observation     thousandths; a row totals 1,000
 *                reward       m x n       by action, state                          ticks, within -100,000 and 100,000
 *                discount                                                           thousandths
 *   list         words        see LISTS   of the transitions above 0
 *   certifier    state        3           levels accepted; vectors and points of the last of them
 *                the slices of that level, and
 *                informed     m x n       by action, state                          ticks, within 100,000 x t of 0
 *                qmdp         m x n       by action, state                          ticks, within 100,000 x t of 0
 *   level t      actions      vectors     the action that a plan of the vector opens with
 *                choices      vectors x k the vector of level t - 1 to go on with after an observation
 *                masks        vectors     the states that the vector covers: bit s (of value 2^s) is 1 where state s is
 *                entries      vectors x n ticks, within 100,000 x t of 0 where the state is covered
 *                corners      n           ticks, within 100,000 x t of 0
 *                weights      points x n  the weights of a point total 1 to 100
 *                values       points      ticks times the total of the point's weights, within 100,000 x t times that total
 *   offers       vectors      count       how many vectors and points each offer has
 *                points       count
 *                the slices of a level, each in count blocks of one size (biidhaqun_replay)
 *   mixture      weights      n           0 to 1,000,000 each, not all 0
 *   ranges       lows         n           no low above its high
 *                highs        n           0 to 1,000,000 each, not all 0
 *   plan graph   actions      nodes       next         nodes x k   the node to go on with after an observation
 *   start        numbers      n           hundredths; they total 100
 *
 * A tick is a hundredth of a unit of reward. Totals are in ticks times the mixture's total weight: over 100 times that
 * weight they are units of reward. No number of an answer overflows, whatever is lent. Of a certifier as above, totals lie
 * within 6.4 x 10^14 of 0 (64 states x 1,000,000 x 10,000,000 ticks) and gaps within twice that; worths lie within 400,000.
 *
 * MASKS. A vector is a floor on the states that it covers. It counts at a mixture where all weight lies on these, and lower
 * total and action are those of the vectors that count. Its inequality and its range are tested on covered states alone, and a
 * covered state must reach, with T x O above 0, no state that the vector chosen after that observation does not cover. On
 * entries elsewhere, and on bits of a mask past the states, no answer depends, and an acceptance stores them as 0. A mask may
 * be empty: the vector never counts. The vector of level 0, and all that biidhaqun_build and biidhaqun_adopt make, cover every
 * state; biidhaqun_build goes on with such vectors alone. Ceilings have nothing to do with masks.
 *
 * LISTS. Where most of T is 0, the rest can be kept as a list: biidhaqun_list makes it, and biidhaqun_offer and biidhaqun_build
 * take it beside the table and work out successor weights and backups from it, with the same answers. It has
 *
 *     m x n + 1 words   at which word of the list the cells of each column begin, and where those of the last one end
 *     the cells         column by column, each by rising s: one word s x 65,536 + T(s,a,s') for each T(s,a,s') above 0
 *
 * Column a x n + s' is that of the action a and of the state s' that is reached: a successor weight is a sum down it. So the
 * first word is m x n + 1, and a list has at most m x n + 1 + m x n x n words. A slice of length 0 says that no list is meant.
 * Any other must begin with the list of the table that is lent with it, word by word; what lies behind is not read.
 *
 * NEW PRICES. Rewards may change while a certifier stands at level t (biidhaqun_reprice). With d the largest change of any
 * reward, up or down, each entry of a covered state falls by d x t, each corner, informed and QMDP entry rises by d x t, and a
 * value by d x t times the total of its point's weights; each is held at the end of its range. The number of levels, actions,
 * choices, masks and weights stay, and so do entries of states that are not covered. From then on the new tables are lent, and
 * totals bracket every plan of the new model; at level 0 only the tables change.
 *
 * CEILINGS. Two bounds say what no plan earns more than at a mixture, and the upper total is the lower of them. The sawtooth
 * is that of the level's corners and points: they are offered, and an offer's corners and points are tested against the
 * sawtooth that stands, and nothing else. The fast informed bound is a row for each action, and its ceiling the largest
 * product of a row with the mixture. No one offers it: the rows are 0 at level 0, and each acceptance steps them by one
 * level, from the tables and the rows that stand, whatever the level has,
 *
 *     informed'(a, s) = R(s,a) + discount x the sum over o of the largest over a' of
 *                                           the sum over s' of T(s,a,s') x O(a,s',o) x informed(a', s')
 *     qmdp'(a, s)     = R(s,a) + discount x the sum over s' of T(s,a,s') x the largest over a' of qmdp(a', s')
 *
 * rounded up to ticks. The QMDP rows are kept beside them to be looked at: they have the state known after each step, and
 * none of their entries is below the informed one. No total is worked out from them.
 *
 * REFUSALS. A call is served, or it is refused by a number with a place: then nothing that was lent has changed, and every
 * other field of the answer is 0. One number is tested throughout before the next, in the order given for each call; the
 * place is the first that offends. A slice that is too short for its counts is refused by the number given here, when that
 * number's turn comes; a slice to be written is asked for room before anything is written.
 *
 *    number                           place
 *    1  BIIDHAQUN_FILE_LENGTH         0; a model file, or either of a solver's files
 *    2  BIIDHAQUN_FORM                the bytes before the word; the file's length where a word is missing
 *    3  BIIDHAQUN_LIMIT               in a file the bytes before the word; on tables 0; also, at 0: a slice of the tables is too
 *                                     short, in biidhaqun_read too, for the counts of the file
 *    4  BIIDHAQUN_START_TOTAL         the file's length
 *    5  BIIDHAQUN_TRANSITION_TOTAL    in a file its length; on tables action x n + state left
 *    6  BIIDHAQUN_OBSERVATION_TOTAL   in a file its length; on tables action x n + state reached
 *    7  BIIDHAQUN_CERTIFIER           0; a slice is too short for the tables, for the three numbers of the state, for the
 *                                     level that stands, or for the rows; a list that is not the table's. The slice of the
 *                                     choices that stand may be too short: no call reads them
 *    8  BIIDHAQUN_LEVELS              0
 *    9  BIIDHAQUN_LEVEL_SIZE          0; a slice is too short for the level offered, to be built or adopted, for a list of
 *                                     offers, for the points, for state, level 0 and rows in biidhaqun_open, for answers, or
 *                                     for the list in biidhaqun_list
 *   10  BIIDHAQUN_NUMBERS             the vector
 *   11  BIIDHAQUN_RANGE               the first vector, at a covered state; else the first corner; else the first point, those
 *                                     that get 12 aside
 *   12  BIIDHAQUN_POINT_TOTAL         the point
 *   13  BIIDHAQUN_VECTOR_BACKUP       the vector, at a covered state
 *   14  BIIDHAQUN_CORNER_BACKUP       the corner
 *   15  BIIDHAQUN_POINT_BACKUP        the point
 *   16  BIIDHAQUN_NO_LEVEL            0
 *   17  BIIDHAQUN_MIXTURE             0; the mixture has fewer weights than there are states, or several have too few, or
 *                                     there are fewer lows or highs; of ranges the highs are tested
 *   18  BIIDHAQUN_GRAPH               the node; 0 for the node count, a short slice, or the node, state or steps asked for
 *   19  BIIDHAQUN_SOLVER_FORM         the bytes before the word of the alpha file or, if all of its words fit, of the policy
 *                                     graph; that file's length where a word is missing
 *   20  BIIDHAQUN_SOLVER_FILES        0
 *   21  BIIDHAQUN_COVERED             the vector: a state that it covers reaches one that the vector chosen there does not
 *   22  BIIDHAQUN_COUNTING            0; no vector counts at the mixture or at the highs, or none covers all states to build
 *                                     upon
 *   23  BIIDHAQUN_PRICES              0; new tables of which counts, T, O or discount differ
 *   24  BIIDHAQUN_LOW_HIGH            0; a low or a high that is missing counts as 0 here
 *   25  BIIDHAQUN_WIDE                0; a model of over 16 states, which is not written
 *   26  BIIDHAQUN_EXPECTED_REWARD     action x n + state, the first by action, then by state
 *   27  BIIDHAQUN_OUTPUT              0; an output of less than 32,768 bytes
 *  100  BIIDHAQUN_ROOM                the length that the start numbers of biidhaqun_read need
 */
#ifndef BIIDHAQUN_H
#define BIIDHAQUN_H

#include <stddef.h>
#include <stdint.h>

#ifdef __cplusplus
extern "C" {
#endif

/*
 * The version of the layout: of the calls' names, parameters and answers. It changes when they do; a program that was
 * compiled with another one must be compiled anew. The macro is this file's, the function's answer the archive's: compare
 * the two where header and archive may come from different places, before any other call.
 */
#define BIIDHAQUN_VERSION 6

uint64_t biidhaqun_version(void);

/* Limits. */
enum {
    BIIDHAQUN_STATES = 64,
    BIIDHAQUN_ACTIONS = 8,
    BIIDHAQUN_OBSERVATIONS = 8,
    BIIDHAQUN_VECTORS = 1000,        /* of a level */
    BIIDHAQUN_POINTS = 32,           /* of a level */
    BIIDHAQUN_BUILT_POINTS = 16,     /* to build at */
    BIIDHAQUN_NODES = 32,
    BIIDHAQUN_STEPS = 4,
    BIIDHAQUN_ACCEPTED = 100,        /* levels */
    BIIDHAQUN_FILE_BYTES = 32768,    /* of a model file */
    BIIDHAQUN_LIST_WORDS = 33281,    /* of a list of transitions */
    BIIDHAQUN_WRITTEN_STATES = 16,   /* of a model that is written as a model file */
    BIIDHAQUN_SOLVER_BYTES = 4194304 /* of each of a solver's files: 4 MiB */
};

/* Refusals. */
enum {
    BIIDHAQUN_SERVED = 0,
    BIIDHAQUN_FILE_LENGTH = 1,
    BIIDHAQUN_FORM = 2,
    BIIDHAQUN_LIMIT = 3,
    BIIDHAQUN_START_TOTAL = 4,
    BIIDHAQUN_TRANSITION_TOTAL = 5,
    BIIDHAQUN_OBSERVATION_TOTAL = 6,
    BIIDHAQUN_CERTIFIER = 7,
    BIIDHAQUN_LEVELS = 8,
    BIIDHAQUN_LEVEL_SIZE = 9,
    BIIDHAQUN_NUMBERS = 10,
    BIIDHAQUN_RANGE = 11,
    BIIDHAQUN_POINT_TOTAL = 12,
    BIIDHAQUN_VECTOR_BACKUP = 13,
    BIIDHAQUN_CORNER_BACKUP = 14,
    BIIDHAQUN_POINT_BACKUP = 15,
    BIIDHAQUN_NO_LEVEL = 16,
    BIIDHAQUN_MIXTURE = 17,
    BIIDHAQUN_GRAPH = 18,
    BIIDHAQUN_SOLVER_FORM = 19,
    BIIDHAQUN_SOLVER_FILES = 20,
    BIIDHAQUN_COVERED = 21,
    BIIDHAQUN_COUNTING = 22,
    BIIDHAQUN_PRICES = 23,
    BIIDHAQUN_LOW_HIGH = 24,
    BIIDHAQUN_WIDE = 25,
    BIIDHAQUN_EXPECTED_REWARD = 26,
    BIIDHAQUN_OUTPUT = 27,
    BIIDHAQUN_ROOM = 100
};

/* A refusal in words. */
static inline const char *biidhaqun_words(uint64_t number)
{
    switch (number) {
    case BIIDHAQUN_SERVED: return "served";
    case BIIDHAQUN_FILE_LENGTH: return "the model file has more than 32,768 bytes, or one of a solver's files more than "
                                       "4,194,304";
    case BIIDHAQUN_FORM: return "a word of the file does not fit its form, or is missing";
    case BIIDHAQUN_LIMIT: return "a count, index, start number, probability, discount or reward is outside its limit, or a "
                                 "slice of the tables is too short";
    case BIIDHAQUN_START_TOTAL: return "the start numbers do not total 1";
    case BIIDHAQUN_TRANSITION_TOTAL: return "a row of T does not total 1";
    case BIIDHAQUN_OBSERVATION_TOTAL: return "a row of O does not total 1";
    case BIIDHAQUN_CERTIFIER: return "the certifier's tables, standing level or rows break a limit, over 100 levels stand, or a "
                                     "list is not that of the transitions";
    case BIIDHAQUN_LEVELS: return "100 levels already stand";
    case BIIDHAQUN_LEVEL_SIZE: return "a level has no vector, over 1,000 vectors or over 32 points, the builder is given "
                                      "over 16 points, or a slice is too short";
    case BIIDHAQUN_NUMBERS: return "an action or a chosen vector does not exist";
    case BIIDHAQUN_RANGE: return "an entry of a covered state, a corner or a point value is outside its level's range";
    case BIIDHAQUN_POINT_TOTAL: return "a point's weights total less than 1 or more than 100";
    case BIIDHAQUN_VECTOR_BACKUP: return "a vector's entry is above its backup";
    case BIIDHAQUN_CORNER_BACKUP: return "a corner is below its backup";
    case BIIDHAQUN_POINT_BACKUP: return "a point is below its backup";
    case BIIDHAQUN_NO_LEVEL: return "there are no totals at level 0";
    case BIIDHAQUN_MIXTURE: return "a mixture's weight, or a high, is missing or above 1,000,000, or all are 0, or a low is "
                                   "missing";
    case BIIDHAQUN_GRAPH: return "a plan graph, or the node, state or steps asked for, are outside their limits";
    case BIIDHAQUN_SOLVER_FORM: return "a word of the solver's files does not fit its form, or is missing, or a node is out "
                                       "of order";
    case BIIDHAQUN_SOLVER_FILES: return "the solver's files differ in the number of vectors, or in an action";
    case BIIDHAQUN_COVERED: return "a vector covers a state from which one is reached that the vector chosen there does not "
                                   "cover";
    case BIIDHAQUN_COUNTING: return "no vector counts at the mixture or at the highs, or none covers all states to build "
                                    "upon";
    case BIIDHAQUN_PRICES: return "the new tables differ in counts, T, O or discount";
    case BIIDHAQUN_LOW_HIGH: return "a low is above its high";
    case BIIDHAQUN_WIDE: return "the model has over 16 states, and no more are written as a model file";
    case BIIDHAQUN_EXPECTED_REWARD: return "the expected reward of an action and a state is no whole number of ticks";
    case BIIDHAQUN_OUTPUT: return "the output that a model file is written into has less than 32,768 bytes";
    case BIIDHAQUN_ROOM: return "the slice that the start numbers are read into is too short";
    default: return "no such refusal is known";
    }
}

/* How a call ended. */
struct biidhaqun_refusal {
    uint64_t number; /* 0, or the refusal's */
    size_t place;
};

/* How reading ended, and what the file says beside its tables. */
struct biidhaqun_reading {
    uint64_t number;
    size_t place;
    size_t states;
    size_t actions;
    size_t observations;
    uint64_t discount;
};

/* How a conversion ended, and how many bytes were written. */
struct biidhaqun_conversion {
    uint64_t number;
    size_t place;
    size_t length;
};

/* What is certified at a mixture, in ticks times its total weight. */
struct biidhaqun_bounds {
    uint64_t number;
    size_t place;
    int64_t lower;    /* the largest product of a vector that counts with the mixture */
    int64_t upper;    /* the lower of the two ceilings at the mixture: no plan earns more */
    int64_t gap;      /* upper less lower */
    size_t action;    /* the action of the first such vector: some plan that opens with it earns the lower total */
    int64_t sawtooth; /* the ceiling of the level's corners and points */
    int64_t informed; /* the ceiling of the informed rows: the largest product of a row with the mixture */
};

/* Whether the informed rows speak: theirs is the lower ceiling. Where both are the same, the sawtooth does. */
static inline int biidhaqun_informed_speaks(struct biidhaqun_bounds at)
{
    return at.informed < at.sawtooth;
}

/*
 * What is certified of every mixture inside ranges of weights, in ticks times its total weight: the best plan there earns at
 * least the lower total, and at most the upper. Mixtures inside differ in their total weight: over 100 times that of the one
 * at hand, the two are its bounds in units of reward.
 */
struct biidhaqun_between {
    uint64_t number;
    size_t place;
    int64_t lower; /* the largest, over vectors that count at the highs, of the least product with a mixture inside */
    int64_t upper; /* the largest product of the corners with a mixture inside */
};

/* How the adoption of a solver's files ended, and how many vectors the level has that was made of them. */
struct biidhaqun_adopted {
    uint64_t number;
    size_t place;
    size_t vectors;
};

/* How a list of offers ended, and how many of them were accepted. */
struct biidhaqun_replayed {
    uint64_t number;
    size_t place;
    size_t accepted;
};

/* What a plan graph's node is worth. */
struct biidhaqun_value {
    uint64_t number;
    size_t place;
    int64_t ticks;
};

/* ---- the calls, slice by slice; below are shorter ones */

/*
 * Reads a model file. Tests: 1, 2 and 3 word by word, 4, 5, 6, 100. Once the three counts are read, and before the start line,
 * transition, observation and reward must have room for them: 3 at 0. Room for the start numbers is asked for at the end: 100.
 */
struct biidhaqun_reading biidhaqun_read(
    const uint8_t *file, size_t file_length, uint16_t *transition, size_t transition_length,
    uint16_t *observation, size_t observation_length, int64_t *reward, size_t reward_length,
    uint16_t *start, size_t start_length);

/*
 * Writes a file whose rewards depend on what follows as a model file that biidhaqun_read takes. The file is a model file with R
 * statements in full, `R: a : s : s' : o r`, of which each index may be a star for all; later ones supersede outcome by outcome,
 * and outcomes that none names earn 0. What is written has the same T, O, discount and start numbers, and for each action and
 * state the expected reward, the sum over s' and o of T x O x r over 1,000,000, with T and O as they stand after the last
 * statement:
 *
 *     discount: 0.900
 *     values: reward
 *     states: 2
 *     actions: 1
 *     observations: 2
 *     start: 0.50 0.50
 *     T: 0 : 0 0.500 0.500          a line for each action and state left
 *     O: 0 : 0 0.800 0.200          a line for each action and state reached
 *     R: 0 : 0 : * : * -1.00        a line for each action and state left
 *
 * It lies at the front of the output, and what lies behind its length stays. An output of BIIDHAQUN_FILE_BYTES is long enough for
 * any. Tests: 27, 1, 2 and 3 word by word, 4, 5, 6, 25, 26.
 */
struct biidhaqun_conversion biidhaqun_convert(
    const uint8_t *file, size_t file_length, uint8_t *output, size_t output_length);

/*
 * Opens a certifier: level 0 stands, one vector of zeros with action and choices 0 that covers all states, zero corners and no
 * points, and the rows are zeros. Of weights and values only the length is looked at. Tests: 3, 5, 6, 9.
 */
struct biidhaqun_refusal biidhaqun_open(
    size_t states, size_t actions, size_t observations, uint64_t discount,
    const uint16_t *transition, size_t transition_length, const uint16_t *observation, size_t observation_length,
    const int64_t *reward, size_t reward_length, size_t *state, size_t state_length,
    uint8_t *standing_actions, size_t standing_actions_length, uint16_t *choices, size_t choices_length,
    uint64_t *masks, size_t masks_length, int64_t *entries, size_t entries_length,
    int64_t *corners, size_t corners_length, const uint32_t *weights, size_t weights_length,
    const int64_t *values, size_t values_length, int64_t *informed, size_t informed_length,
    int64_t *qmdp, size_t qmdp_length);

/*
 * Makes the list of the transitions: it is written over the first words of the slice, and what lies past it stays. Tests: 3,
 * 5, 6, as biidhaqun_open has them; 9 where the slice has fewer words than the list.
 */
struct biidhaqun_refusal biidhaqun_list(
    size_t states, size_t actions, size_t observations, uint64_t discount,
    const uint16_t *transition, size_t transition_length, const uint16_t *observation, size_t observation_length,
    const int64_t *reward, size_t reward_length, uint32_t *list, size_t list_length);

/*
 * Offers a level: accepted, it is copied into the certifier's slices, with 0 for what its masks leave out, the first number of
 * the state is one more, and the rows are stepped. Tests: 7 to 12, 21, 13, 14, 15. A level with slices that are too short
 * therefore gets 8 where 100 levels stand, and 9 before anything in it is looked at. A list, if one is meant, is tested before
 * all else (7); successor weights and backups are then worked out from it, and all that is answered and left is the same.
 */
struct biidhaqun_refusal biidhaqun_offer(
    size_t states, size_t actions, size_t observations, uint64_t discount,
    const uint16_t *transition, size_t transition_length, const uint32_t *list, size_t list_length,
    const uint16_t *observation, size_t observation_length, const int64_t *reward, size_t reward_length,
    size_t *state, size_t state_length,
    uint8_t *standing_actions, size_t standing_actions_length, uint16_t *choices, size_t choices_length,
    uint64_t *masks, size_t masks_length, int64_t *entries, size_t entries_length,
    int64_t *corners, size_t corners_length, uint32_t *weights, size_t weights_length,
    int64_t *values, size_t values_length, int64_t *informed, size_t informed_length, int64_t *qmdp, size_t qmdp_length,
    size_t vectors, size_t points, const uint8_t *new_actions, size_t new_actions_length,
    const uint16_t *new_choices, size_t new_choices_length, const uint64_t *new_masks, size_t new_masks_length,
    const int64_t *new_entries, size_t new_entries_length, const int64_t *new_corners, size_t new_corners_length,
    const uint32_t *new_weights, size_t new_weights_length, const int64_t *new_values, size_t new_values_length);

/*
 * Offers `count` levels, one after the other: what biidhaqun_offer does with each of them, upon what the one before left. It is
 * for levels that were stored: replayed upon a certifier that was just opened, they are tested anew, and its totals bracket
 * every plan, whoever stored them. `accepted` is how many were accepted. One that is refused leaves the certifier as it was
 * and is not counted, and those behind it are offered all the same.
 *
 * The levels lie in blocks, each with room for block_vectors vectors (0 to 1,000) and block_points points (0 to 32):
 *
 *     block i of   new_actions   begins at   i x block_vectors
 *                  new_choices               i x block_vectors x k
 *                  new_masks                 i x block_vectors
 *                  new_entries               i x block_vectors x n
 *                  new_corners               i x n
 *                  new_weights               i x block_points x n
 *                  new_values                i x block_points
 *
 * Offer i is the level of vectors[i] vectors and points[i] points, in the units of any level, that is packed at the front of
 * block i; what lies behind it in the block is not read. One that has more of them than its block has room for is refused.
 *
 * Tests for the whole call: 7; 9 where block_vectors is above 1,000 or block_points above 32, vectors or points has fewer than
 * count numbers, or another slice is shorter than count blocks. A slice of the certifier that is too short for an offer
 * refuses that offer alone.
 */
struct biidhaqun_replayed biidhaqun_replay(
    size_t states, size_t actions, size_t observations, uint64_t discount,
    const uint16_t *transition, size_t transition_length, const uint16_t *observation, size_t observation_length,
    const int64_t *reward, size_t reward_length, size_t *state, size_t state_length,
    uint8_t *standing_actions, size_t standing_actions_length, uint16_t *choices, size_t choices_length,
    uint64_t *masks, size_t masks_length, int64_t *entries, size_t entries_length,
    int64_t *corners, size_t corners_length, uint32_t *weights, size_t weights_length,
    int64_t *values, size_t values_length, int64_t *informed, size_t informed_length, int64_t *qmdp, size_t qmdp_length,
    size_t count, size_t block_vectors, size_t block_points, const size_t *vectors, size_t vectors_length,
    const size_t *points, size_t points_length, const uint8_t *new_actions, size_t new_actions_length,
    const uint16_t *new_choices, size_t new_choices_length, const uint64_t *new_masks, size_t new_masks_length,
    const int64_t *new_entries, size_t new_entries_length, const int64_t *new_corners, size_t new_corners_length,
    const uint32_t *new_weights, size_t new_weights_length, const int64_t *new_values, size_t new_values_length);

/*
 * Moves a certifier to new tables, of which only the rewards differ from those in force, as NEW PRICES says. It is no offer: the
 * level and its number stay. Once it is served, the new tables are in force, and are lent to the calls that follow. Tests: 7; the
 * new tables' own 3, 5 and 6, with places by their own counts; 23.
 */
struct biidhaqun_refusal biidhaqun_reprice(
    size_t states, size_t actions, size_t observations, uint64_t discount,
    const uint16_t *transition, size_t transition_length, const uint16_t *observation, size_t observation_length,
    const int64_t *reward, size_t reward_length, size_t new_states, size_t new_actions, size_t new_observations,
    uint64_t new_discount, const uint16_t *new_transition, size_t new_transition_length,
    const uint16_t *new_observation, size_t new_observation_length, const int64_t *new_reward, size_t new_reward_length,
    const size_t *state, size_t state_length, const uint8_t *standing_actions, size_t standing_actions_length,
    const uint64_t *masks, size_t masks_length, int64_t *entries, size_t entries_length,
    int64_t *corners, size_t corners_length, const uint32_t *weights, size_t weights_length,
    int64_t *values, size_t values_length, int64_t *informed, size_t informed_length, int64_t *qmdp, size_t qmdp_length);

/*
 * The totals at a mixture. Tests: 7, 16, 17, 22: a short mixture gets 16 at level 0. Where no vector counts, 22 is all that is
 * answered: no floor, and no ceiling either.
 */
struct biidhaqun_bounds biidhaqun_totals(
    size_t states, size_t actions, size_t observations, uint64_t discount,
    const uint16_t *transition, size_t transition_length, const uint16_t *observation, size_t observation_length,
    const int64_t *reward, size_t reward_length, const size_t *state, size_t state_length,
    const uint8_t *standing_actions, size_t standing_actions_length, const uint64_t *masks, size_t masks_length,
    const int64_t *entries, size_t entries_length, const int64_t *corners, size_t corners_length,
    const uint32_t *weights, size_t weights_length, const int64_t *values, size_t values_length,
    const int64_t *informed, size_t informed_length, const int64_t *qmdp, size_t qmdp_length,
    const uint32_t *mixture, size_t mixture_length);

/*
 * The totals at `count` mixtures, whose weights lie one after the other; the certifier is judged once. Each answer is the one
 * that biidhaqun_totals gives, at its mixture's number: 0, 17 or 22, lower, upper, action (0 where it is refused). Tests for
 * the whole call: 7, 16, 17 where there are fewer than count x n weights, 9 where a slice for answers is shorter than count.
 */
struct biidhaqun_refusal biidhaqun_each(
    size_t states, size_t actions, size_t observations, uint64_t discount,
    const uint16_t *transition, size_t transition_length, const uint16_t *observation, size_t observation_length,
    const int64_t *reward, size_t reward_length, const size_t *state, size_t state_length,
    const uint8_t *standing_actions, size_t standing_actions_length, const uint64_t *masks, size_t masks_length,
    const int64_t *entries, size_t entries_length, const int64_t *corners, size_t corners_length,
    const uint32_t *weights, size_t weights_length, const int64_t *values, size_t values_length,
    const int64_t *informed, size_t informed_length, const int64_t *qmdp, size_t qmdp_length,
    const uint32_t *mixtures, size_t mixtures_length, size_t count, uint8_t *numbers, size_t numbers_length,
    int64_t *lower, size_t lower_length, int64_t *upper, size_t upper_length, uint8_t *action, size_t action_length);

/*
 * The totals over all mixtures of which each weight is known within a range, its low and its high. The lower total is the
 * largest, over the vectors that cover every state with a high above 0, of the sum of low x entry for entries of 0 or more and
 * of high x entry for those below; the upper total is the sum of high x corner for corners of 0 or more and of low x corner
 * for those below. So at every mixture inside some plan earns the lower total, and none more than the upper; neither points
 * nor informed rows lower it. Of one mixture, low and high the same, the upper total is therefore that of the corners alone.
 * Tests: 7, 16, 24, 17, 22; a low or a high that is missing counts as 0 for 24; what passes 24 so gets 17.
 */
struct biidhaqun_between biidhaqun_within(
    size_t states, size_t actions, size_t observations, uint64_t discount,
    const uint16_t *transition, size_t transition_length, const uint16_t *observation, size_t observation_length,
    const int64_t *reward, size_t reward_length, const size_t *state, size_t state_length,
    const uint8_t *standing_actions, size_t standing_actions_length, const uint64_t *masks, size_t masks_length,
    const int64_t *entries, size_t entries_length, const int64_t *corners, size_t corners_length,
    const uint32_t *weights, size_t weights_length, const int64_t *values, size_t values_length,
    const int64_t *informed, size_t informed_length, const int64_t *qmdp, size_t qmdp_length,
    const uint32_t *lows, size_t lows_length, const uint32_t *highs, size_t highs_length);

/*
 * Builds a level upon the one that stands, with a vector at each corner and then at each of `count` points; it would be
 * accepted. It has n + count vectors and count points, and its weights are the points: they are not written anew. Its vectors
 * cover all states, and go on with standing vectors that do. If this level, number t, and those from 1 to t - 1 were all built,
 * with no price change between, each entry is less than t ticks below what the plan earns that its vector names. Tests: 7, 8, 9,
 * 12, 22. A list is as in biidhaqun_offer.
 */
struct biidhaqun_refusal biidhaqun_build(
    size_t states, size_t actions, size_t observations, uint64_t discount,
    const uint16_t *transition, size_t transition_length, const uint32_t *list, size_t list_length,
    const uint16_t *observation, size_t observation_length, const int64_t *reward, size_t reward_length,
    const size_t *state, size_t state_length,
    const uint8_t *standing_actions, size_t standing_actions_length, const uint64_t *masks, size_t masks_length,
    const int64_t *entries, size_t entries_length, const int64_t *corners, size_t corners_length,
    const uint32_t *weights, size_t weights_length, const int64_t *values, size_t values_length,
    const int64_t *informed, size_t informed_length, const int64_t *qmdp, size_t qmdp_length, size_t count,
    const uint32_t *points, size_t points_length, uint8_t *new_actions, size_t new_actions_length,
    uint16_t *new_choices, size_t new_choices_length, uint64_t *new_masks, size_t new_masks_length,
    int64_t *new_entries, size_t new_entries_length, int64_t *new_corners, size_t new_corners_length,
    int64_t *new_values, size_t new_values_length);

/*
 * Makes a level of the two files that a POMDP solver saves for a step; it would be accepted. The alpha file has for each
 * vector an action (one or two digits) and n decimals in units of reward (an optional minus, 1 to 6 digits, optionally a
 * point and 1 to 12 digits); the policy graph has for each node its number (0, 1, .. in order, one to three digits), the
 * action, and for each observation a next node or, upon level 0, a hyphen for vector 0. Words part as in a model file; each
 * file has at most 4 MiB. Each entry is the lesser of the decimal rounded down to ticks and of its own backup rounded down;
 * corners and values are those that biidhaqun_build makes at `count` points. The level has as many vectors as are answered
 * and count points, and its weights are the points: they are not written anew. Its vectors cover all states, so that the nodes
 * may go on only with vectors that cover what is reached there. Tests: 1, 7, 19, 20, 8, 9, 10, 21, 11, 12; with 10 and 21
 * before any backup.
 */
struct biidhaqun_adopted biidhaqun_adopt(
    size_t states, size_t actions, size_t observations, uint64_t discount,
    const uint16_t *transition, size_t transition_length, const uint16_t *observation, size_t observation_length,
    const int64_t *reward, size_t reward_length, const size_t *state, size_t state_length,
    const uint8_t *standing_actions, size_t standing_actions_length, const uint64_t *masks, size_t masks_length,
    const int64_t *entries, size_t entries_length, const int64_t *corners, size_t corners_length,
    const uint32_t *weights, size_t weights_length, const int64_t *values, size_t values_length,
    const int64_t *informed, size_t informed_length, const int64_t *qmdp, size_t qmdp_length,
    const uint8_t *alpha, size_t alpha_length, const uint8_t *graph, size_t graph_length,
    const uint32_t *points, size_t points_length, size_t count, uint8_t *new_actions, size_t new_actions_length,
    uint16_t *new_choices, size_t new_choices_length, uint64_t *new_masks, size_t new_masks_length,
    int64_t *new_entries, size_t new_entries_length, int64_t *new_corners, size_t new_corners_length,
    int64_t *new_values, size_t new_values_length);

/*
 * What a plan graph's node is worth at a state with some steps left (0 to 4), in ticks, rounded down at each step. Tests: 3,
 * 5, 6, 18.
 */
struct biidhaqun_value biidhaqun_worth(
    size_t states, size_t actions, size_t observations, uint64_t discount,
    const uint16_t *transition, size_t transition_length, const uint16_t *observation, size_t observation_length,
    const int64_t *reward, size_t reward_length, size_t nodes, const uint8_t *node_actions, size_t node_actions_length,
    const uint16_t *next, size_t next_length, size_t node, size_t state, size_t steps);

/*
 * The stack that a call takes, in kilobytes of 1,024 bytes. It is measured, not proved: the most that was seen on small models
 * and on the largest (64 states, 1,000 vectors, 32 points), rounded up; no call calls itself.
 *
 *     biidhaqun_convert   208          biidhaqun_build      12          biidhaqun_within      4
 *     biidhaqun_read       80          biidhaqun_adopt      12          biidhaqun_reprice     4
 *     biidhaqun_worth      56          biidhaqun_each        4          biidhaqun_open        4
 *     biidhaqun_replay     16          biidhaqun_totals      4          biidhaqun_list        4
 *     biidhaqun_offer      16
 *
 * A thread needs that beside what its own functions and the C library take: glibc on Linux nearly 8, for the thread itself and
 * where memcpy and memset are bound at their first use. So 16, the least that a thread has on Linux, are too few for an offer;
 * 32 do for every call but biidhaqun_convert, biidhaqun_read and biidhaqun_worth, and 256 for all.
 */

/* ---- the same over structs of pointers */

/* Tables. */
struct biidhaqun_tables {
    size_t states;
    size_t actions;
    size_t observations;
    uint64_t discount;
    uint16_t *transition;
    size_t transition_length;
    uint16_t *observation;
    size_t observation_length;
    int64_t *reward;
    size_t reward_length;
};

/* The list of the transitions of tables, if one is meant. */
struct biidhaqun_transitions {
    uint32_t *list;
    size_t list_length;
};

/* What a certifier keeps between calls. state[0] is the number of levels accepted. */
struct biidhaqun_certifier {
    size_t state[3];
    uint8_t *actions;
    size_t actions_length;
    uint16_t *choices;
    size_t choices_length;
    uint64_t *masks;
    size_t masks_length;
    int64_t *entries;
    size_t entries_length;
    int64_t *corners;
    size_t corners_length;
    uint32_t *weights;
    size_t weights_length;
    int64_t *values;
    size_t values_length;
    int64_t *informed;
    size_t informed_length;
    int64_t *qmdp;
    size_t qmdp_length;
};

/* A level to be offered, or to be built. No call writes its weights. */
struct biidhaqun_level {
    size_t vectors;
    size_t points;
    uint8_t *actions;
    size_t actions_length;
    uint16_t *choices;
    size_t choices_length;
    uint64_t *masks;
    size_t masks_length;
    int64_t *entries;
    size_t entries_length;
    int64_t *corners;
    size_t corners_length;
    const uint32_t *weights;
    size_t weights_length;
    int64_t *values;
    size_t values_length;
};

/* A list of levels to be offered in turn, in `count` blocks. */
struct biidhaqun_offers {
    size_t count;
    size_t block_vectors; /* that each block has room for */
    size_t block_points;
    const size_t *vectors; /* of each offer */
    size_t vectors_length;
    const size_t *points;
    size_t points_length;
    const uint8_t *actions;
    size_t actions_length;
    const uint16_t *choices;
    size_t choices_length;
    const uint64_t *masks;
    size_t masks_length;
    const int64_t *entries;
    size_t entries_length;
    const int64_t *corners;
    size_t corners_length;
    const uint32_t *weights;
    size_t weights_length;
    const int64_t *values;
    size_t values_length;
};

/* A plan graph. */
struct biidhaqun_graph {
    size_t nodes;
    const uint8_t *actions;
    size_t actions_length;
    const uint16_t *next;
    size_t next_length;
};

/* Room for the tables of any model, 78 KB. */
struct biidhaqun_tables_room {
    uint16_t transition[BIIDHAQUN_ACTIONS * BIIDHAQUN_STATES * BIIDHAQUN_STATES];
    uint16_t observation[BIIDHAQUN_ACTIONS * BIIDHAQUN_STATES * BIIDHAQUN_OBSERVATIONS];
    int64_t reward[BIIDHAQUN_ACTIONS * BIIDHAQUN_STATES];
};

/* Room for the list of any model's transitions, 133 KB. */
struct biidhaqun_transitions_room {
    uint32_t list[BIIDHAQUN_LIST_WORDS];
};

/*
 * Room for any level, 546 KB: one that stands, one that is offered, or one that is built. It is large for a stack: keep it
 * static or allocate it. Where levels are known to be small, lend shorter slices instead: those of n states, k observations, v
 * vectors and p points have v, v x k, v, v x n, n, p x n and p elements, and a level built at c points has n + c vectors.
 */
struct biidhaqun_level_room {
    uint8_t actions[BIIDHAQUN_VECTORS];
    uint16_t choices[BIIDHAQUN_VECTORS * BIIDHAQUN_OBSERVATIONS];
    uint64_t masks[BIIDHAQUN_VECTORS];
    int64_t entries[BIIDHAQUN_VECTORS * BIIDHAQUN_STATES];
    int64_t corners[BIIDHAQUN_STATES];
    uint32_t weights[BIIDHAQUN_POINTS * BIIDHAQUN_STATES];
    int64_t values[BIIDHAQUN_POINTS];
};

/* Room for any certifier, 554 KB: the level that stands, and the rows. It is large for a stack, too. */
struct biidhaqun_certifier_room {
    struct biidhaqun_level_room level;
    int64_t informed[BIIDHAQUN_ACTIONS * BIIDHAQUN_STATES];
    int64_t qmdp[BIIDHAQUN_ACTIONS * BIIDHAQUN_STATES];
};

#define BIIDHAQUN_LEND(object, room, slice) \
    ((object)->slice = (room)->slice, (object)->slice##_length = sizeof(room)->slice / sizeof(room)->slice[0])

/* Tables that lie in a room; their counts are still to be said, or read from a file. */
static inline void biidhaqun_tables_in(struct biidhaqun_tables *tables, struct biidhaqun_tables_room *room)
{
    tables->states = tables->actions = tables->observations = 0;
    tables->discount = 0;
    BIIDHAQUN_LEND(tables, room, transition);
    BIIDHAQUN_LEND(tables, room, observation);
    BIIDHAQUN_LEND(tables, room, reward);
}

/* A list that lies in a room; it is still to be made. */
static inline void biidhaqun_transitions_in(struct biidhaqun_transitions *transitions,
                                            struct biidhaqun_transitions_room *room)
{
    BIIDHAQUN_LEND(transitions, room, list);
}

/* A certifier that lies in a room; it is still to be opened. */
static inline void biidhaqun_certifier_in(struct biidhaqun_certifier *certifier, struct biidhaqun_certifier_room *room)
{
    certifier->state[0] = certifier->state[1] = certifier->state[2] = 0;
    BIIDHAQUN_LEND(certifier, &room->level, actions);
    BIIDHAQUN_LEND(certifier, &room->level, choices);
    BIIDHAQUN_LEND(certifier, &room->level, masks);
    BIIDHAQUN_LEND(certifier, &room->level, entries);
    BIIDHAQUN_LEND(certifier, &room->level, corners);
    BIIDHAQUN_LEND(certifier, &room->level, weights);
    BIIDHAQUN_LEND(certifier, &room->level, values);
    BIIDHAQUN_LEND(certifier, room, informed);
    BIIDHAQUN_LEND(certifier, room, qmdp);
}

/* A level that lies in a room; its counts are still to be said, or it is to be built. */
static inline void biidhaqun_level_in(struct biidhaqun_level *level, struct biidhaqun_level_room *room)
{
    level->vectors = level->points = 0;
    BIIDHAQUN_LEND(level, room, actions);
    BIIDHAQUN_LEND(level, room, choices);
    BIIDHAQUN_LEND(level, room, masks);
    BIIDHAQUN_LEND(level, room, entries);
    BIIDHAQUN_LEND(level, room, corners);
    BIIDHAQUN_LEND(level, room, weights);
    BIIDHAQUN_LEND(level, room, values);
}

#undef BIIDHAQUN_LEND

/* The mask of a vector that covers all of so many states, or the first 64 of more. */
static inline uint64_t biidhaqun_full_mask(size_t states)
{
    return states < BIIDHAQUN_STATES ? ((uint64_t)1 << states) - 1 : ~(uint64_t)0;
}

/*
 * The entry of an action's informed row at a state, both within their counts, in ticks. With as many steps as levels were
 * accepted, no plan that opens with the action earns more from there.
 */
static inline int64_t biidhaqun_informed_at(const struct biidhaqun_tables *t, const struct biidhaqun_certifier *c,
                                            size_t action, size_t state)
{
    return c->informed[action * t->states + state];
}

/* The same of the QMDP rows: what no such plan earns more than if it were shown the state after each step. */
static inline int64_t biidhaqun_qmdp_at(const struct biidhaqun_tables *t, const struct biidhaqun_certifier *c,
                                        size_t action, size_t state)
{
    return c->qmdp[action * t->states + state];
}

/* biidhaqun_read, which also sets the counts and the discount of the tables if it is served. */
static inline struct biidhaqun_refusal biidhaqun_read_file(const uint8_t *file, size_t file_length,
                                                           struct biidhaqun_tables *tables, uint16_t *start,
                                                           size_t start_length)
{
    struct biidhaqun_reading x = biidhaqun_read(
        file, file_length, tables->transition, tables->transition_length, tables->observation,
        tables->observation_length, tables->reward, tables->reward_length, start, start_length);
    struct biidhaqun_refusal refusal;
    if (x.number == BIIDHAQUN_SERVED) {
        tables->states = x.states;
        tables->actions = x.actions;
        tables->observations = x.observations;
        tables->discount = x.discount;
    }
    refusal.number = x.number;
    refusal.place = x.place;
    return refusal;
}

/* biidhaqun_open */
static inline struct biidhaqun_refusal biidhaqun_open_on(const struct biidhaqun_tables *t, struct biidhaqun_certifier *c)
{
    return biidhaqun_open(
        t->states, t->actions, t->observations, t->discount, t->transition, t->transition_length, t->observation,
        t->observation_length, t->reward, t->reward_length, c->state, 3, c->actions, c->actions_length, c->choices,
        c->choices_length, c->masks, c->masks_length, c->entries, c->entries_length, c->corners, c->corners_length,
        c->weights, c->weights_length, c->values, c->values_length, c->informed, c->informed_length, c->qmdp,
        c->qmdp_length);
}

/* biidhaqun_list */
static inline struct biidhaqun_refusal biidhaqun_list_transitions(const struct biidhaqun_tables *t,
                                                                  struct biidhaqun_transitions *x)
{
    return biidhaqun_list(
        t->states, t->actions, t->observations, t->discount, t->transition, t->transition_length, t->observation,
        t->observation_length, t->reward, t->reward_length, x->list, x->list_length);
}

/* biidhaqun_offer, by a list; without one (NULL), by the table */
static inline struct biidhaqun_refusal biidhaqun_offer_listed(const struct biidhaqun_tables *t,
                                                              const struct biidhaqun_transitions *x,
                                                              struct biidhaqun_certifier *c,
                                                              const struct biidhaqun_level *l)
{
    return biidhaqun_offer(
        t->states, t->actions, t->observations, t->discount, t->transition, t->transition_length, x ? x->list : NULL,
        x ? x->list_length : 0, t->observation, t->observation_length, t->reward, t->reward_length, c->state, 3,
        c->actions, c->actions_length, c->choices, c->choices_length, c->masks, c->masks_length, c->entries,
        c->entries_length, c->corners, c->corners_length, c->weights, c->weights_length, c->values, c->values_length,
        c->informed, c->informed_length, c->qmdp, c->qmdp_length, l->vectors, l->points, l->actions, l->actions_length,
        l->choices, l->choices_length, l->masks, l->masks_length, l->entries, l->entries_length, l->corners,
        l->corners_length, l->weights, l->weights_length, l->values, l->values_length);
}

/* biidhaqun_offer, by the table */
static inline struct biidhaqun_refusal biidhaqun_offer_level(const struct biidhaqun_tables *t,
                                                             struct biidhaqun_certifier *c,
                                                             const struct biidhaqun_level *l)
{
    return biidhaqun_offer_listed(t, NULL, c, l);
}

/* biidhaqun_reprice: from then on the new tables, `next`, are in force */
static inline struct biidhaqun_refusal biidhaqun_reprice_on(const struct biidhaqun_tables *t,
                                                            const struct biidhaqun_tables *next,
                                                            struct biidhaqun_certifier *c)
{
    return biidhaqun_reprice(
        t->states, t->actions, t->observations, t->discount, t->transition, t->transition_length, t->observation,
        t->observation_length, t->reward, t->reward_length, next->states, next->actions, next->observations,
        next->discount, next->transition, next->transition_length, next->observation, next->observation_length,
        next->reward, next->reward_length, c->state, 3, c->actions, c->actions_length, c->masks, c->masks_length,
        c->entries, c->entries_length, c->corners, c->corners_length, c->weights, c->weights_length, c->values,
        c->values_length, c->informed, c->informed_length, c->qmdp, c->qmdp_length);
}

/* biidhaqun_replay */
static inline struct biidhaqun_replayed biidhaqun_replay_offers(const struct biidhaqun_tables *t,
                                                                struct biidhaqun_certifier *c,
                                                                const struct biidhaqun_offers *l)
{
    return biidhaqun_replay(
        t->states, t->actions, t->observations, t->discount, t->transition, t->transition_length, t->observation,
        t->observation_length, t->reward, t->reward_length, c->state, 3, c->actions, c->actions_length, c->choices,
        c->choices_length, c->masks, c->masks_length, c->entries, c->entries_length, c->corners, c->corners_length,
        c->weights, c->weights_length, c->values, c->values_length, c->informed, c->informed_length, c->qmdp,
        c->qmdp_length, l->count, l->block_vectors, l->block_points, l->vectors, l->vectors_length, l->points,
        l->points_length, l->actions, l->actions_length, l->choices, l->choices_length, l->masks, l->masks_length,
        l->entries, l->entries_length, l->corners, l->corners_length, l->weights, l->weights_length, l->values,
        l->values_length);
}

/* biidhaqun_totals */
static inline struct biidhaqun_bounds biidhaqun_totals_at(const struct biidhaqun_tables *t,
                                                          const struct biidhaqun_certifier *c, const uint32_t *mixture,
                                                          size_t mixture_length)
{
    return biidhaqun_totals(
        t->states, t->actions, t->observations, t->discount, t->transition, t->transition_length, t->observation,
        t->observation_length, t->reward, t->reward_length, c->state, 3, c->actions, c->actions_length, c->masks,
        c->masks_length, c->entries, c->entries_length, c->corners, c->corners_length, c->weights, c->weights_length,
        c->values, c->values_length, c->informed, c->informed_length, c->qmdp, c->qmdp_length, mixture, mixture_length);
}

/* biidhaqun_each, with answers in slices of `count` */
static inline struct biidhaqun_refusal biidhaqun_totals_at_each(const struct biidhaqun_tables *t,
                                                                const struct biidhaqun_certifier *c,
                                                                const uint32_t *mixtures, size_t mixtures_length,
                                                                size_t count, uint8_t *numbers, int64_t *lower,
                                                                int64_t *upper, uint8_t *action)
{
    return biidhaqun_each(
        t->states, t->actions, t->observations, t->discount, t->transition, t->transition_length, t->observation,
        t->observation_length, t->reward, t->reward_length, c->state, 3, c->actions, c->actions_length, c->masks,
        c->masks_length, c->entries, c->entries_length, c->corners, c->corners_length, c->weights, c->weights_length,
        c->values, c->values_length, c->informed, c->informed_length, c->qmdp, c->qmdp_length, mixtures, mixtures_length,
        count, numbers, count, lower, count, upper, count, action, count);
}

/* biidhaqun_within */
static inline struct biidhaqun_between biidhaqun_totals_within(const struct biidhaqun_tables *t,
                                                               const struct biidhaqun_certifier *c, const uint32_t *lows,
                                                               size_t lows_length, const uint32_t *highs,
                                                               size_t highs_length)
{
    return biidhaqun_within(
        t->states, t->actions, t->observations, t->discount, t->transition, t->transition_length, t->observation,
        t->observation_length, t->reward, t->reward_length, c->state, 3, c->actions, c->actions_length, c->masks,
        c->masks_length, c->entries, c->entries_length, c->corners, c->corners_length, c->weights, c->weights_length,
        c->values, c->values_length, c->informed, c->informed_length, c->qmdp, c->qmdp_length, lows, lows_length, highs,
        highs_length);
}

/*
 * biidhaqun_build, by a list or, without one (NULL), by the table. It also sets the counts of the level if it is served. Its
 * weights are then the points themselves, which must outlive it, and are not the certifier's own weights, which an offer writes.
 */
static inline struct biidhaqun_refusal biidhaqun_build_listed(const struct biidhaqun_tables *t,
                                                              const struct biidhaqun_transitions *x,
                                                              const struct biidhaqun_certifier *c, size_t count,
                                                              const uint32_t *points, size_t points_length,
                                                              struct biidhaqun_level *l)
{
    struct biidhaqun_refusal refusal = biidhaqun_build(
        t->states, t->actions, t->observations, t->discount, t->transition, t->transition_length, x ? x->list : NULL,
        x ? x->list_length : 0, t->observation, t->observation_length, t->reward, t->reward_length, c->state, 3,
        c->actions, c->actions_length, c->masks, c->masks_length, c->entries, c->entries_length, c->corners,
        c->corners_length, c->weights, c->weights_length, c->values, c->values_length, c->informed, c->informed_length,
        c->qmdp, c->qmdp_length, count, points, points_length, l->actions, l->actions_length, l->choices,
        l->choices_length, l->masks, l->masks_length, l->entries, l->entries_length, l->corners, l->corners_length,
        l->values, l->values_length);
    if (refusal.number == BIIDHAQUN_SERVED) {
        l->vectors = t->states + count;
        l->points = count;
        l->weights = points;
        l->weights_length = points_length;
    }
    return refusal;
}

/* The same by the table. */
static inline struct biidhaqun_refusal biidhaqun_build_level(const struct biidhaqun_tables *t,
                                                             const struct biidhaqun_certifier *c, size_t count,
                                                             const uint32_t *points, size_t points_length,
                                                             struct biidhaqun_level *l)
{
    return biidhaqun_build_listed(t, NULL, c, count, points, points_length, l);
}

/*
 * biidhaqun_adopt, which also sets the counts of the level if it is served. Its weights are then the points themselves, which
 * must outlive it, and are not the certifier's own weights, which an offer writes.
 */
static inline struct biidhaqun_refusal biidhaqun_adopt_level(const struct biidhaqun_tables *t,
                                                             const struct biidhaqun_certifier *c, const uint8_t *alpha,
                                                             size_t alpha_length, const uint8_t *graph,
                                                             size_t graph_length, size_t count, const uint32_t *points,
                                                             size_t points_length, struct biidhaqun_level *l)
{
    struct biidhaqun_adopted x = biidhaqun_adopt(
        t->states, t->actions, t->observations, t->discount, t->transition, t->transition_length, t->observation,
        t->observation_length, t->reward, t->reward_length, c->state, 3, c->actions, c->actions_length, c->masks,
        c->masks_length, c->entries, c->entries_length, c->corners, c->corners_length, c->weights, c->weights_length,
        c->values, c->values_length, c->informed, c->informed_length, c->qmdp, c->qmdp_length, alpha, alpha_length,
        graph, graph_length, points, points_length, count, l->actions, l->actions_length, l->choices, l->choices_length,
        l->masks, l->masks_length, l->entries, l->entries_length, l->corners, l->corners_length, l->values,
        l->values_length);
    struct biidhaqun_refusal refusal;
    if (x.number == BIIDHAQUN_SERVED) {
        l->vectors = x.vectors;
        l->points = count;
        l->weights = points;
        l->weights_length = points_length;
    }
    refusal.number = x.number;
    refusal.place = x.place;
    return refusal;
}

/* biidhaqun_worth */
static inline struct biidhaqun_value biidhaqun_worth_of(const struct biidhaqun_tables *t, const struct biidhaqun_graph *g,
                                                        size_t node, size_t state, size_t steps)
{
    return biidhaqun_worth(
        t->states, t->actions, t->observations, t->discount, t->transition, t->transition_length, t->observation,
        t->observation_length, t->reward, t->reward_length, g->nodes, g->actions, g->actions_length, g->next,
        g->next_length, node, state, steps);
}

#ifdef __cplusplus
}
#endif

#endif
