/* The check for an editor written in C: is every course of a model accepted, and if not, which one is not? The opposite machine, which
 * accepts exactly the courses that the model does not. One course by itself. And a model from the bytes of its file.
 *
 * A course is a beginning u, which may be empty, and a round v of at least one event. u is read once, and then v again and again without
 * end. The model accepts the course if some start state has a way along its events, arrow by arrow, that comes past a home state again and
 * again for ever.
 *
 * Link target/staticlib/libeditor.a (x86-64 Linux), which ./build-library proves and writes. The calls take any numbers and slices
 * of any length, refuse what they cannot check, and always return. They keep no pointer and allocate nothing. For the verdict a word is
 * rebuilt by a call for each of its letters, of which there are up to 2,048. Built by the older kit, rattle-kit-5b, each took 64 bytes of
 * stack, so all of them up to 128 KiB; as it is built now the compiler makes loops of these calls.
 *
 * What the caller sees to. Each slice is a pointer and, behind it, how many elements stand there (elements, not bytes). The pointer is not
 * NULL and is aligned for its element, also where the length is 0. The slices that are written overlap neither each other nor one that is read.
 * The caller owns all of them; the call borrows them until it returns, and meanwhile no other thread may use them. Several threads may
 * call at the same time, each with its own slices.
 */
#ifndef COVER_H
#define COVER_H

#include <stddef.h>
#include <stdint.h>

#ifdef __cplusplus
extern "C" {
#endif

/* No more room than this is ever used, of word memory one byte less: so many places in each of the three set slices and of the four profile
 * slices, so many bytes of word memory, and so many places in each of the three slices of the opposite's arrows and in that of its flags.
 * With these 4 and 6 never come, 5 comes only for a model with more than 2,048 profiles, and 7 only for an opposite with more than 65,535
 * states or arrows, which no room can help. Slices may be longer; what is behind these lengths is never touched. */
#define COVER_SETS 256
#define COVER_PROFILES 2048
#define COVER_WORDS 2304
#define COVER_ARROWS 65535
#define COVER_STATES 65535

/* What stands for "none" in set_from and profile_from, and in set_event. */
#define COVER_NO_ENTRY 65535
#define COVER_NO_EVENT 255

/* The field number of each answer: 0, or why there is no verdict, no opposite, no judgement or no model. Of several reasons that apply, 1, 2
 * and 3 come first, in this order. Then the verdict gives 4, 5, 6 and the opposite 4, 5, 7, the first that applies; one course 10, and then
 * 9. The reader goes through the file field by field instead, and gives 1, 2, 3 or 8 for the first fault: within a field its form (8) comes
 * before its value (1 or 3), and 2 is given at the field of k, behind 1, with offset 4. */
#define COVER_DONE 0          /* a verdict or a judgement is given, an opposite is written, or a model is read */
#define COVER_OUT_OF_RANGE 1  /* n is not 1 to 8, or k is not 1 to 16 */
#define COVER_FEW_ARROWS 2    /* arrows has fewer than k numbers; of the reader: has no room for k numbers */
#define COVER_MISSING_STATE 3 /* a bit of start, home or one of the first k arrows names a state that is n or above */
#define COVER_MORE_SETS 4     /* the model has more sets than room: the shortest of the three set slices, at most 256 */
#define COVER_MORE_PROFILES 5 /* the model has more profiles than room: the shortest of the four profile slices, at most 2,048 */
#define COVER_MORE_LETTERS 6  /* the model is not covered, and u and v together have more letters than the word memory has bytes */
#define COVER_MORE_OPPOSITE 7 /* the opposite has more states than its flags have places, or more arrows than the shortest of their three
                                 slices has, or more than 65,535 of either */
#define COVER_BAD_FILE 8      /* the file has not the form of a model file */
#define COVER_NO_SUCH_EVENT 9 /* a letter of u or v is k or above */
#define COVER_NO_ROUND 10     /* v is empty */

/* CoverVerdict.verdict */
#define COVER_NO_VERDICT 0 /* with every number but COVER_DONE */
#define COVER_COVERED 1    /* every course is accepted */
#define COVER_UNCOVERED 2  /* the course u, v that now stands in the word memory is not */

/* The answer. Compare it field by field: there are unused bytes between the fields. */
typedef struct CoverVerdict {
  uint8_t number;
  uint8_t verdict;
  size_t sets;     /* how many sets stand in their slices: after 0, 5 and 6 all; after 4 as many as there is room; after 1, 2 and 3 none */
  size_t profiles; /* the same of profiles: after 0 and 6 all; after 5 as many as there is room; after 1 to 4 none */
  size_t u;        /* how many letters u has; 0 unless the verdict is COVER_UNCOVERED */
  size_t v;        /* how many letters v has; 0 unless the verdict is COVER_UNCOVERED, and then at least 1 */
} CoverVerdict;

/* The verdict on a model.
 *
 * The sets and profiles are what the verdict was found from; an editor need not read them. A set has the states that some word of events
 * leads to from the start states. A profile says of some word of one event or more from which state to which it leads, and whether that is
 * marked: it can come to a home state on its way. They are numbered by their place in the slices, from 0. In every slice everything past
 * the count is left as it was, whatever the number. */
CoverVerdict cover_verdict(
    size_t n,      /* how many states, 1 to 8: they are 0 to n-1 */
    size_t k,      /* how many events, 1 to 16: they are 0 to k-1 */
    uint8_t start, /* bit q: state q is a start state */
    uint8_t home,  /* bit q: state q is a home state */
    const uint64_t *arrows, size_t arrows_length, /* read; k numbers or more, one an event, the rest not read. Bit 8*p+q: it leads p to q */
    /* written, a place for each set; COVER_SETS places are always enough, for no model has more sets */
    uint8_t *set_masks, size_t set_masks_length, /* bit q: state q is in the set */
    uint16_t *set_from, size_t set_from_length,  /* the set from which its last event leads here; COVER_NO_ENTRY for the start states */
    uint8_t *set_event, size_t set_event_length, /* that event; COVER_NO_EVENT for the start states */
    /* written, a place for each profile; of more than COVER_PROFILES places no more are used, and a model with more profiles gets 5 */
    uint64_t *profile_arrows, size_t profile_arrows_length, /* bit 8*p+q: the word leads p to q */
    uint64_t *profile_marks, size_t profile_marks_length,   /* bit 8*p+q: and that is marked */
    uint16_t *profile_from, size_t profile_from_length,     /* that of the word without its last event; COVER_NO_ENTRY for one event */
    uint8_t *profile_event, size_t profile_event_length,    /* its last event */
    /* written only when the verdict is COVER_UNCOVERED: u, and right behind it v, a byte for each event; COVER_WORDS are enough */
    uint8_t *memory, size_t memory_length);

/* The opposite's answer. Compare it field by field: there are unused bytes between the fields. */
typedef struct CoverOpposite {
  uint8_t number;
  size_t sets;     /* how many sets stand in their slices: after 0, 5 and 7 all; after 4 as many as there is room; after 1, 2 and 3 none */
  size_t profiles; /* the same of profiles: after 0 and 7 all; after 5 as many as there is room; after 1 to 4 none */
  size_t states;   /* how many states the opposite has, at least 1; 0 with every number but COVER_DONE */
  size_t arrows;   /* how many arrows it has, at least 1; 0 with every number but COVER_DONE */
} CoverOpposite;

/* The opposite of a model: a machine over the same events that accepts exactly the courses that the model does not accept. Its states are 0
 * to states-1, and its only start state is 0. It accepts a course as a model does, with its accepting states for home states.
 *
 * The arrows are sorted by where they start, then by their event, then by where they lead, and none is there twice. The first states are
 * the sets, by their numbers. In every slice everything past the count is left as it was, whatever the number; after a refusal nothing of the
 * opposite is written. */
CoverOpposite cover_opposite(
    size_t n, size_t k, uint8_t start, uint8_t home, const uint64_t *arrows, size_t arrows_length, /* the model, as for the verdict */
    /* written, as by the verdict: a place for each set, and one for each profile */
    uint8_t *set_masks, size_t set_masks_length, uint16_t *set_from, size_t set_from_length, uint8_t *set_event, size_t set_event_length,
    uint64_t *profile_arrows, size_t profile_arrows_length, uint64_t *profile_marks, size_t profile_marks_length,
    uint16_t *profile_from, size_t profile_from_length, uint8_t *profile_event, size_t profile_event_length,
    /* written, a place for each arrow of the opposite; of more than COVER_ARROWS places no more are used */
    uint16_t *from, size_t from_length, /* the state where it starts */
    uint8_t *event, size_t event_length,
    uint16_t *to, size_t to_length, /* the state where it leads */
    /* written, a place for each state of the opposite, 1 if it is accepting, else 0; of more than COVER_STATES places no more are used */
    uint8_t *flags, size_t flags_length);

/* CoverCourse.judgement */
#define COVER_NO_JUDGEMENT 0 /* with every number but COVER_DONE */
#define COVER_ACCEPTED 1     /* the model accepts the course */
#define COVER_NOT_ACCEPTED 2 /* it does not */

/* The judgement of one course. */
typedef struct CoverCourse {
  uint8_t number;    /* 0, 1, 2, 3, 9 or 10 */
  uint8_t judgement;
} CoverCourse;

/* One course: does the model accept the beginning u and the round v? No memory is lent for it but what is read, and nothing is written. */
CoverCourse cover_course(
    size_t n, size_t k, uint8_t start, uint8_t home, const uint64_t *arrows, size_t arrows_length, /* the model, as for the verdict */
    const uint8_t *u, size_t u_length,  /* read; a byte for each event, of any length, also none */
    const uint8_t *v, size_t v_length); /* read; a byte for each event, of any length, at least one */

/* A longest file of a model has so many bytes, and so many arrow numbers are read at most. The reader takes files of any length; what follows
 * the end is refused. */
#define COVER_FILE 211
#define COVER_EVENTS 16

/* What was read of a file. Compare it field by field: there are unused bytes between the fields. */
typedef struct CoverReading {
  uint8_t number;
  size_t offset; /* where the first byte of the faulty field is, at the file's end where it is missing, or the first byte too many; 0 also
                    with COVER_DONE */
  size_t n;      /* the model's numbers and masks, as the other calls take them; all 0 with every number but COVER_DONE */
  size_t k;
  uint8_t start;
  uint8_t home;
} CoverReading;

/* Reads the model of a file: fields one behind the other, each a tag byte, the value's length in two bytes, low byte first, and the value.
 * 01 n; 02 k; 03 start; 04 home, a byte each; then for each event a field 05 with the event and n masks, the p-th with the states to which
 * it leads from p; then 7F 00 00 and nothing more. A model that was read, with its k arrow numbers, is not refused by the other calls with
 * 1, 2 or 3. */
CoverReading cover_read(
    const uint8_t *file, size_t file_length, /* read; any bytes, of any length */
    /* written when all is right, k numbers, as the other calls take them; COVER_EVENTS places are always enough. Places past k are left as
     * they were, and after a refusal all of them */
    uint64_t *arrows, size_t arrows_length);

#ifdef __cplusplus
}
#endif

#endif
