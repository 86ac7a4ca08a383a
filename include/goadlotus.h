/*
 * goadlotus: judging a domain file, playing a run, also with an instance that is followed, listing the
 * templates of a single component, trying the facts themselves, and counting a box of files. The library
 * is libgoadlotus.a, in lib/ of a release, and in crates/goadlotus/out/ of a checkout, where `rt lib`,
 * called in crates/goadlotus, writes it; it links into x86-64 programs.
 *
 * goadlotus_judge_file and goadlotus_play_files, at the end, bring the memory and say how many rows and
 * facts were written; goadlotus_judge and goadlotus_play work in memory that the caller lends. In the
 * same two ways goadlotus_track_files and goadlotus_track play a run with an instance,
 * goadlotus_list_templates and goadlotus_templates list templates, goadlotus_try_file and goadlotus_try
 * try the facts, goadlotus_count_box and goadlotus_totals count a box.
 */
#ifndef GOADLOTUS_H
#define GOADLOTUS_H

#include <stddef.h>
#include <stdint.h>
#include <string.h>

/* Sizes in bytes. */
#define GOADLOTUS_FILE_LIMIT   65535 /* the longest domain file that is read */
#define GOADLOTUS_REPORT_SIZE  32768 /* memory for the report that is enough for every file */
#define GOADLOTUS_WITNESS_SIZE   512 /* memory for the witness that is enough for every file */
#define GOADLOTUS_WORK_SIZE     8192 /* work memory that playing needs */
#define GOADLOTUS_TEMPLATES_SIZE 1344 /* memory for the list of templates that is enough for every file */
#define GOADLOTUS_TRIED_SIZE    4096 /* memory for the answers of trying that is enough for every file */
#define GOADLOTUS_TOTALS_SIZE    568 /* the totals of a box: 71 numbers of 8 bytes */
#define GOADLOTUS_ROW_SIZE         4 /* a row of the report */
#define GOADLOTUS_TEMPLATE_SIZE    3 /* an entry of the list of templates */
#define GOADLOTUS_FACT_SIZE        8 /* a fact of the witness or of work memory */

/* The numbers that the calls return. */
enum goadlotus_number {
    GOADLOTUS_ACCEPTED           = 0,  /* accepted; no moment is unbounded */
    GOADLOTUS_ACCEPTED_UNBOUNDED = 1,  /* accepted; some journey's end is unbounded */
    GOADLOTUS_PLAYED             = 2,  /* played to the end */
    GOADLOTUS_FILE_TOO_LONG      = 9,  /* domain file too long */
    GOADLOTUS_CUT_SHORT          = 10, /* record cut short, or closing record missing */
    GOADLOTUS_UNKNOWN_KIND       = 11, /* unknown kind */
    GOADLOTUS_WRONG_LENGTH       = 12, /* wrong payload length */
    GOADLOTUS_OUT_OF_ORDER       = 13, /* kind out of order, or bytes behind the closing record */
    GOADLOTUS_OVER_LIMIT         = 14, /* over a limit */
    GOADLOTUS_OUT_OF_RANGE       = 15, /* arity, variable count or sort out of range */
    GOADLOTUS_WRONG_ROLE         = 16, /* role unknown, or not for an action at once */
    GOADLOTUS_NO_RELATION        = 17, /* no such relation */
    GOADLOTUS_NO_VARIABLE        = 18, /* no such variable */
    GOADLOTUS_LITERAL_REPEATED   = 19, /* literal repeated in its role */
    GOADLOTUS_CONTRADICTION      = 20, /* literal both true and false condition */
    GOADLOTUS_WRONG_LABELS       = 21, /* a key not below n, or a key missing */
    GOADLOTUS_COMPONENT_REPEATED = 22, /* relation has a component already */
    GOADLOTUS_NO_COMPONENT       = 23, /* no component */
    GOADLOTUS_KEY_TWICE          = 24, /* a key twice in a component */
    GOADLOTUS_COUNTED_TWICE      = 25, /* FF twice in a component */
    GOADLOTUS_WRONG_CLEARING     = 26, /* FF in a literal that can't clear, or twice */
    GOADLOTUS_KEY_CLEARED        = 27, /* a key where a literal of the relation has FF */
    GOADLOTUS_REPORT_TOO_SMALL   = 30, /* report memory too small, or that of a service */
    GOADLOTUS_WITNESS_TOO_SMALL  = 31, /* witness memory too small */
    GOADLOTUS_BOX_CUT            = 33, /* box cut inside a length or a file */
    GOADLOTUS_REFUSED_HEAVY      = 40, /* refused: heavy */
    GOADLOTUS_REFUSED_UNBALANCED = 41, /* refused: unbalanced */
    GOADLOTUS_REFUSED_UNBOUNDED  = 42, /* refused: unbounded outside a journey's end */
    GOADLOTUS_REFUSED_BOUNDED    = 43, /* refused: bounded beside an unbounded journey's end */
    GOADLOTUS_RUN_MALFORMED      = 50, /* run file: form, order or length */
    GOADLOTUS_RUN_OUT_OF_RANGE   = 51, /* number out of range, or moment 1 of an action at once */
    GOADLOTUS_RUN_OVER_LIMIT     = 52, /* over a limit of the player: 1,024 facts, 16 events in a step, 32 open */
    GOADLOTUS_OBJECT_TWICE       = 53, /* one object bound twice */
    GOADLOTUS_EVENT_REPEATED     = 54, /* event repeated in its step */
    GOADLOTUS_CONDITION_FAILS    = 55, /* a condition fails */
    GOADLOTUS_INTERFERENCE       = 56, /* interference */
    GOADLOTUS_NOT_OPEN           = 57, /* end of something that is not open */
    GOADLOTUS_WORK_TOO_SMALL     = 58, /* work memory too small */
};

/* The names of a report's rows. */
enum goadlotus_name {
    GOADLOTUS_UNREACHABLE = 1,
    GOADLOTUS_IRRELEVANT  = 2,
    GOADLOTUS_HEAVY       = 3,
    GOADLOTUS_BALANCED    = 4,
    GOADLOTUS_UNBALANCED  = 5,
    GOADLOTUS_BOUNDED     = 6,
    GOADLOTUS_UNBOUNDED   = 7
};

#ifdef __cplusplus
extern "C" {
#endif

/*
 * Judges the file_len bytes at file. The number is returned; its three places always come back in
 * *first, *second and *third, an unused place as 0.
 *
 *    0, 1     accepted; 1 if some moment is unbounded. Places 0, 0, 0.
 *    9 to 27  not well-formed. First place: the offset of the faulty record (9: 0; no closing record:
 *             file_len). For 24, a key twice in a component, and 25, a second FF, it is the offset of
 *             the label that repeats one; for 21 that of the first key not below the number of keys,
 *             or the record's where a key is only missing.
 *   30        report_len is under 4 bytes a moment. Places 0, 0, 0.
 *   31        witness_len is under 8 bytes a fact, where a witness is written. Places 0, 0, 0.
 *   40 to 43  refused: heavy, unbalanced, unbounded, bounded beside an unbounded journey's end. Places:
 *             action, class, moment.
 *
 * No other number is returned. What is written:
 *
 *    0, 1, 43  the report: 4 bytes a moment (action, class, moment, name 1 to 7), in that order of
 *              sorting, from report[0] on
 *   40 to 42   the report, and the witness: 8 bytes a fact (relation, arity, arguments, FF to fill),
 *              from witness[0] on; but the report alone where the place named is an end whose class
 *              has an over-all literal
 *    9 to 31   nothing
 *
 * All other bytes of report and witness stay as they were, and the file stays as it was. No length is
 * ever exceeded, in reading or in writing, whatever the file says. The answer depends on the file and
 * on the two lengths alone, not on what the lent memory held.
 *
 * All lengths may be any, 0 too; GOADLOTUS_REPORT_SIZE bytes of report and GOADLOTUS_WITNESS_SIZE of
 * witness are enough for every file.
 * file, report, witness, first, second and third must not overlap. No pointer may be null, not even
 * one to 0 bytes, and first, second and third must be aligned.
 */
uint64_t goadlotus_judge(const uint8_t *file, size_t file_len,
                         uint8_t *report, size_t report_len,
                         uint8_t *witness, size_t witness_len,
                         uint64_t *first, uint64_t *second, uint64_t *third);

/*
 * Plays the run_len bytes at run, a run file, on the domain_len bytes at domain, a domain file. The
 * number is returned; *place, *steps, *weight, *part_file and *part_at always come back.
 *
 *    2        played: every step is allowed, and the run is closed.
 *    9 to 27  the domain file is not well-formed; the same number as from goadlotus_judge.
 *   50        the run file: form, order or length.
 *   51        a number out of range, or moment 1 of an action at once.
 *   52        over a limit of the player: a step's 17th event, the 1,025th different start fact, a step
 *             that would leave more than 1,024 facts or more than 32 lasting actions open.
 *   53        one object bound twice.
 *   54        an event repeated in its step.
 *   55        a step not allowed: a condition fails, of one of its events or over all of something open.
 *   56        a step not allowed: two of its events interfere.
 *   57        a step not allowed: an end is not open.
 *   58        work_len is under 8,192.
 *
 * No other number is returned. 9 to 27 come before 58, and 58 before anything of the run file.
 *
 * What comes back:
 *
 *   *place      the offset of the faulty record: for 9 to 27 in the domain file, as goadlotus_judge tells
 *               it; for 50 to 57 in the run file, for a step that of its closing record. A record cut
 *               short is faulty where it begins, a missing one at run_len, bytes behind the run's
 *               closing record at the first of them. 0 for 2 and 58.
 *   *steps      the steps made, without the one at fault. 0 for 9 to 27 and 58.
 *   *weight     the highest weight of any instance of the template in any state reached, the start
 *               included once the first uncut record of kind 18 to 20 is met. 0 before that, and for 9
 *               to 27 and 58.
 *   *part_file  the file of which a part is returned: 0 the domain file, 1 the run file.
 *   *part_at    the offset at which that part begins; it ends with its file. For 9 to 27 the domain file
 *               from the faulty record on, not from its label (9: all of it), for 50 to 57 the run file from the faulty
 *               record on, for 2 and 58 the empty end of the run file. Never above the file's length.
 *
 * What is written:
 *
 *    2, 50 to 57   the first 8,192 bytes of work: the facts held, 8 bytes each (relation, arity, objects,
 *                  FF to fill), then zeros. With 2 they are those of the last state, else those before
 *                  the step at fault, or the start facts read so far. Facts kept stay in order; new ones
 *                  follow by event and literal, also one that the same step deletes and adds again.
 *    9 to 27, 58   nothing
 *
 * All other bytes of work stay as they were, and both files stay as they were. No length is ever
 * exceeded, in reading or in writing, whatever the files say. The answer depends on the two files and on
 * work_len alone, not on what the lent memory held.
 *
 * All lengths may be any, 0 too. work, place, steps, weight, part_file and part_at must not overlap each
 * other or a file; the two files may overlap. No pointer may be null, not even one to 0 bytes, and
 * place, steps, weight, part_file and part_at must be aligned.
 */
uint64_t goadlotus_play(const uint8_t *domain, size_t domain_len,
                        const uint8_t *run, size_t run_len,
                        uint8_t *work, size_t work_len,
                        uint64_t *place, uint64_t *steps, uint64_t *weight,
                        uint64_t *part_file, uint64_t *part_at);

/*
 * Plays a run as goadlotus_play does, and follows an instance: instance_len bytes at instance, an object for
 * each key of the template, in the order of the keys; objects may repeat in it.
 *
 *   51        also: instance_len is not the number of keys, or an object is not below the object count. It is
 *             told at the record of kind 16, after that record's own 50 and 51, so not before the run file
 *             has such a record; *steps, *weight and *total are then 0, and no fact is held.
 *   *total    the instance's weight plus its open journeys: each open entry counts once for every journey
 *             of its action whose key tuple, bound, is the instance. After the last step made, for 50 to 57
 *             too; 0 while the start doesn't count yet, and for 9 to 27 and 58.
 *
 * Where the instance is right, everything else is answered and written as by goadlotus_play. Where the
 * template's verdict is 1 and the start weighs at most one, the total never rises from one state to the
 * next: a volume whose weight is 0 and whose total is 1 is on its way, one whose total is 0 is nowhere.
 * The total is told for every template, whatever its verdict.
 *
 * instance may overlap the two files, and nothing else. It may not be null, not even where it has 0 bytes.
 */
uint64_t goadlotus_track(const uint8_t *domain, size_t domain_len,
                         const uint8_t *run, size_t run_len,
                         const uint8_t *instance, size_t instance_len,
                         uint8_t *work, size_t work_len,
                         uint64_t *place, uint64_t *steps, uint64_t *weight, uint64_t *total,
                         uint64_t *part_file, uint64_t *part_at);

/*
 * Lists the templates of a single component that the domain in the file_len bytes at file could have, each
 * with its verdict; the file's own components are checked and left aside. The number is returned, and its
 * place always comes back in *first.
 *
 *    0        listed: *first is the number of bytes written.
 *    9 to 27  not well-formed; the same number and first place as from goadlotus_judge.
 *   30        list_len is too short for the whole list. *first is 0.
 *
 * No other number is returned. The list has 3 bytes for each template: relation, counted place (FF for
 * none), and the verdict, 0, 1 or 40 to 43, that goadlotus_judge would return with memory enough for the
 * file with this template in place of its own. Relations rise; of each comes first the template without a
 * counted place, then those with one, the place rising. Keys are numbered from left to right; how they are
 * numbered changes no verdict. A template that puts a key where a literal of the relation has FF (27) is
 * passed over, every other one is there once.
 *
 * 9 to 30 write nothing; all other bytes of list stay as they were, and the file stays as it was. No length
 * is ever exceeded, in reading or in writing, whatever the file says. GOADLOTUS_TEMPLATES_SIZE bytes are
 * enough for every file. All lengths may be any, 0 too. file, list and first must not overlap; no pointer
 * may be null, not even one to 0 bytes, and first must be aligned.
 */
uint64_t goadlotus_templates(const uint8_t *file, size_t file_len,
                             uint8_t *list, size_t list_len, uint64_t *first);

/*
 * Tries the facts of the domain in the file_len bytes at file: for each class of each action at once, in the
 * order of the report, a byte that says whether some set of facts shows harm, 1 yes, 0 no. Lasting actions
 * are passed over. The number is returned, and its place always comes back in *first.
 *
 *    0        tried: *first is the number of bytes written, one for each class.
 *    9 to 27  not well-formed; the same number and first place as from goadlotus_judge.
 *   30        tried_len is under the number of classes of actions at once. *first is 0.
 *
 * No other number is returned. Variable i is bound to object i, and there is one object more. The sets are
 * the action's true conditions, and these with one further fact that the class's instance matches, over
 * these objects. From each of them in which the instance weighs at most one, and in which the action alone
 * is an allowed step of the machine, this step is made; a set shows harm if the instance then weighs two
 * or more. So the answer is defined; the call makes one step for each action, from its true conditions, and
 * decides the sets with a further fact by it, which is proved to be the same. The answer is 1 exactly where
 * the report's name is heavy, unbalanced or unbounded.
 *
 * 9 to 30 write nothing; all other bytes of tried stay as they were, and the file stays as it was. No length
 * is ever exceeded, in reading or in writing, whatever the file says. GOADLOTUS_TRIED_SIZE bytes are enough
 * for every file. All lengths may be any, 0 too. file, tried and first must not overlap; no pointer may be
 * null, not even one to 0 bytes, and first must be aligned.
 */
uint64_t goadlotus_try(const uint8_t *file, size_t file_len,
                       uint8_t *tried, size_t tried_len, uint64_t *first);

/*
 * Counts the files_len bytes at files, a box: domain files in a row, each behind its length in 4 bytes,
 * little-endian. The number is returned, and its place always comes back in *first.
 *
 *    0   counted: 568 bytes of totals are written, and *first is 568.
 *   30   totals_len is under 568. *first is 0.
 *   33   the box is cut inside a length or a file. *first is the offset of that length.
 *
 * No other number is returned; 33 comes before 30. The totals are 71 numbers of 8 bytes, little-endian:
 * how many files met each number from 0 to 63, then how many moments had each of the seven names, in the
 * order of their numbers 1 to 7. Each file is judged as by goadlotus_judge with memory enough, so that 30
 * and 31 are never counted; of a file that is refused 9 to 27 no moment is. The first 64 totals add up to
 * the number of files, and the totals of two boxes joined are the sums, so that a long row of files may be
 * counted in parts.
 *
 * 30 and 33 write nothing; all other bytes of totals stay as they were, and the box stays as it was. No
 * length is ever exceeded, in reading or in writing, whatever the box says. An empty box is whole, and its
 * totals are 0. All lengths may be any, 0 too. files, totals and first must not overlap; no pointer may be
 * null, not even one to 0 bytes, and first must be aligned.
 */
uint64_t goadlotus_totals(const uint8_t *files, size_t files_len,
                          uint8_t *totals, size_t totals_len, uint64_t *first);

#ifdef __cplusplus
}
#endif

/*
 * How many rows, or facts, stand at the start of memory that held zeros before a call wrote to it: up to
 * the first that is none. (A row's name is 1 to 7, and what a fact's objects leave of its 8 bytes is FF,
 * so zeros are neither. goadlotus_play itself writes zeros behind the facts held.)
 */
static inline size_t goadlotus_count_rows(const uint8_t *report, size_t report_len) {
    size_t n = 0;
    while (n < report_len / GOADLOTUS_ROW_SIZE && report[n * GOADLOTUS_ROW_SIZE + 3] != 0) n++;
    return n;
}

static inline size_t goadlotus_count_facts(const uint8_t *facts, size_t facts_len) {
    size_t n = 0;
    while (n < facts_len / GOADLOTUS_FACT_SIZE
           && (facts[n * GOADLOTUS_FACT_SIZE + 1] != 0 || facts[n * GOADLOTUS_FACT_SIZE + 7] != 0)) n++;
    return n;
}

/* A judgement, in memory that is enough for every file. */
struct goadlotus_judged {
    uint64_t number, first, second, third;
    size_t rows, facts;                      /* how many were written */
    uint8_t report[GOADLOTUS_REPORT_SIZE];   /* the rows: action, class, moment, name */
    uint8_t witness[GOADLOTUS_WITNESS_SIZE]; /* the facts: relation, arity, objects, FF to fill */
};

/* Judges a domain file; the number is also returned, and is never 30 or 31. */
static inline uint64_t goadlotus_judge_file(const uint8_t *file, size_t file_len, struct goadlotus_judged *judged) {
    memset(judged, 0, sizeof *judged);
    judged->number = goadlotus_judge(file, file_len, judged->report, sizeof judged->report, judged->witness,
                                     sizeof judged->witness, &judged->first, &judged->second, &judged->third);
    judged->rows = goadlotus_count_rows(judged->report, sizeof judged->report);
    judged->facts = goadlotus_count_facts(judged->witness, sizeof judged->witness);
    return judged->number;
}

/* A run played. */
struct goadlotus_played {
    uint64_t number, place, steps, weight, part_file, part_at;
    size_t facts;                      /* how many are held */
    uint8_t work[GOADLOTUS_WORK_SIZE]; /* the facts held, then zeros */
};

/* Plays a run file on a domain file; the number is also returned, and is never 58. */
static inline uint64_t goadlotus_play_files(const uint8_t *domain, size_t domain_len, const uint8_t *run,
                                            size_t run_len, struct goadlotus_played *played) {
    memset(played, 0, sizeof *played);
    played->number = goadlotus_play(domain, domain_len, run, run_len, played->work, sizeof played->work,
                                    &played->place, &played->steps, &played->weight, &played->part_file,
                                    &played->part_at);
    played->facts = goadlotus_count_facts(played->work, sizeof played->work);
    return played->number;
}

/* A run played with an instance. */
struct goadlotus_tracked {
    uint64_t number, place, steps, weight, total, part_file, part_at;
    size_t facts;                      /* how many are held */
    uint8_t work[GOADLOTUS_WORK_SIZE]; /* the facts held, then zeros */
};

/* Plays a run file on a domain file with an instance; the number is also returned, and is never 58. */
static inline uint64_t goadlotus_track_files(const uint8_t *domain, size_t domain_len, const uint8_t *run,
                                             size_t run_len, const uint8_t *instance, size_t instance_len,
                                             struct goadlotus_tracked *tracked) {
    memset(tracked, 0, sizeof *tracked);
    tracked->number = goadlotus_track(domain, domain_len, run, run_len, instance, instance_len, tracked->work,
                                      sizeof tracked->work, &tracked->place, &tracked->steps, &tracked->weight,
                                      &tracked->total, &tracked->part_file, &tracked->part_at);
    tracked->facts = goadlotus_count_facts(tracked->work, sizeof tracked->work);
    return tracked->number;
}

/* The templates of a file. */
struct goadlotus_listed {
    uint64_t number, first;
    size_t templates;                        /* how many there are */
    uint8_t list[GOADLOTUS_TEMPLATES_SIZE];  /* relation, counted place or FF, verdict */
};

/* Lists the templates of a domain file; the number is also returned, and is never 30. */
static inline uint64_t goadlotus_list_templates(const uint8_t *file, size_t file_len, struct goadlotus_listed *listed) {
    memset(listed, 0, sizeof *listed);
    listed->number = goadlotus_templates(file, file_len, listed->list, sizeof listed->list, &listed->first);
    listed->templates = listed->number == 0 ? (size_t)listed->first / GOADLOTUS_TEMPLATE_SIZE : 0;
    return listed->number;
}

/* The facts of a file tried. */
struct goadlotus_tried {
    uint64_t number, first;
    size_t classes;                      /* how many answers there are */
    uint8_t tried[GOADLOTUS_TRIED_SIZE]; /* 1 yes, 0 no */
};

/* Tries the facts of a domain file; the number is also returned, and is never 30. */
static inline uint64_t goadlotus_try_file(const uint8_t *file, size_t file_len, struct goadlotus_tried *tried) {
    memset(tried, 0, sizeof *tried);
    tried->number = goadlotus_try(file, file_len, tried->tried, sizeof tried->tried, &tried->first);
    tried->classes = tried->number == 0 ? (size_t)tried->first : 0;
    return tried->number;
}

/* The totals of a box. */
struct goadlotus_counted {
    uint64_t number, first;
    uint64_t numbers[64]; /* how many files met each number */
    uint64_t names[7];    /* how many moments had each name, in the order of their numbers 1 to 7 */
};

/* Counts a box; the number is also returned, and is never 30. With 33 all totals are 0. */
static inline uint64_t goadlotus_count_box(const uint8_t *files, size_t files_len, struct goadlotus_counted *counted) {
    uint8_t bytes[GOADLOTUS_TOTALS_SIZE] = {0};
    memset(counted, 0, sizeof *counted);
    counted->number = goadlotus_totals(files, files_len, bytes, sizeof bytes, &counted->first);
    for (size_t i = 0; i < sizeof bytes; i++) {
        uint64_t *total = i / 8 < 64 ? &counted->numbers[i / 8] : &counted->names[i / 8 - 64];
        *total |= (uint64_t)bytes[i] << 8 * (i % 8);
    }
    return counted->number;
}

/* The word of a name, as the listing prints it; "" where it is not 1 to 7. */
static inline const char *goadlotus_name_word(uint8_t name) {
    static const char *const words[] = {"", "unreachable", "irrelevant", "heavy", "balanced", "unbalanced", "bounded",
                                        "unbounded"};
    return name < sizeof words / sizeof words[0] ? words[name] : "";
}

#endif
