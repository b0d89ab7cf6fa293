/* An editor's use of the check. The models that document 01 works by hand are checked and printed, each held against what the document says
 * of it; then one of our own, C at the edges of what is refused, C's tables in slices of different lengths, and opposites; then C's file is
 * opened, whole and with faults, and courses of C are tried. Exits with 1 if anything differs. */
#include "../include/cover.h"
#include <stdio.h>
#include <string.h>

/* Lent once and used for every model: with these lengths no model is refused for the room that the editor has. */
static uint8_t set_masks[COVER_SETS], set_event[COVER_SETS];
static uint16_t set_from[COVER_SETS], profile_from[COVER_PROFILES];
static uint64_t profile_arrows[COVER_PROFILES], profile_marks[COVER_PROFILES];
static uint8_t profile_event[COVER_PROFILES], memory[COVER_WORDS];
static uint16_t from[COVER_ARROWS], to[COVER_ARROWS];
static uint8_t event[COVER_ARROWS], flags[COVER_STATES];

typedef struct {
  const char *name;
  size_t n, k;
  uint8_t start, home;
  uint64_t arrows[2];
  /* what document 01 says: how many sets and profiles, and u and v where the model is not covered */
  size_t sets, profiles;
  const char *u, *v;
} Model;

/* an arrow from p to q, and a state in a mask */
#define ARROW(p, q) ((uint64_t)1 << (8 * (p) + (q)))
#define STATE(q) ((uint8_t)(1 << (q)))

static const Model C = {"C", 2, 2, STATE(0), STATE(1), {ARROW(0, 1) | ARROW(1, 1), ARROW(0, 0) | ARROW(1, 0)}, 2, 3, "", " 1"};
static const Model before_c[] = {
    {"A", 1, 1, STATE(0), STATE(0), {ARROW(0, 0)}, 1, 1, NULL, NULL},
    {"B", 1, 1, STATE(0), 0, {ARROW(0, 0)}, 1, 1, "", " 0"},
};
static const Model after_c[] = {
    {"D", 1, 1, STATE(0), STATE(0), {0}, 2, 1, " 0", " 0"},
    {"E", 2, 1, STATE(0), STATE(1), {ARROW(0, 1) | ARROW(1, 0)}, 2, 3, NULL, NULL},
    {"F", 2, 1, STATE(0), STATE(1), {ARROW(0, 1) | ARROW(1, 1)}, 2, 1, NULL, NULL},
    {"G", 1, 1, 0, STATE(0), {ARROW(0, 0)}, 1, 1, "", " 0"},
    {"H", 2, 2, STATE(0), STATE(1), {ARROW(0, 0), ARROW(0, 0) | ARROW(0, 1) | ARROW(1, 1)}, 2, 3, "", " 0"},
};
/* not in document 01: u and v differ, so that it is seen which comes first */
static const Model differing = {"u and v that differ", 1, 2, STATE(0), STATE(0), {ARROW(0, 0), 0}, 2, 2, " 1", " 0"};
#define COUNT(list) (sizeof list / sizeof list[0])

/* What stands in memory before a call, so that it is seen what was written. */
#define UNTOUCHED 77

/* The verdict on a model with so much room. */
static CoverVerdict check(const Model *m, size_t set_room, size_t profile_room, size_t word_room) {
  memset(memory, UNTOUCHED, sizeof memory);
  return cover_verdict(m->n, m->k, m->start, m->home, m->arrows, 2, set_masks, set_room, set_from, set_room, set_event, set_room,
                       profile_arrows, profile_room, profile_marks, profile_room, profile_from, profile_room, profile_event, profile_room,
                       memory, word_room);
}

/* Something was written to the word memory past its first bytes. */
static int touched_past(size_t bytes) {
  for (size_t i = bytes; i < sizeof memory; i++)
    if (memory[i] != UNTOUCHED)
      return 1;
  return 0;
}

/* Each event of a word after a space. */
static void spell(const uint8_t *word, size_t letters, char *out) {
  *out = 0;
  for (size_t i = 0; i < letters; i++)
    out += sprintf(out, " %d", word[i]);
}

static int differs(const Model *m, CoverVerdict r, const char *u, const char *v) {
  if (r.number != COVER_DONE || r.sets != m->sets || r.profiles != m->profiles || touched_past(r.u + r.v))
    return 1;
  if (m->v == NULL)
    return r.verdict != COVER_COVERED || r.u != 0 || r.v != 0;
  return r.verdict != COVER_UNCOVERED || strcmp(u, m->u) != 0 || strcmp(v, m->v) != 0;
}

/* Checks a model, prints what the check says, and says whether document 01 says otherwise. */
static int show(const Model *m, size_t profile_room) {
  static char u[4 * COVER_WORDS + 1], v[4 * COVER_WORDS + 1];
  CoverVerdict r = check(m, COVER_SETS, profile_room, COVER_WORDS);
  if (r.u > COVER_WORDS || r.v > COVER_WORDS - r.u)
    return 1;
  spell(memory, r.u, u);
  spell(memory + r.u, r.v, v);
  printf("%s: sets %zu, profiles %zu, ", m->name, r.sets, r.profiles);
  if (r.number != COVER_DONE)
    printf("refused %d\n", r.number);
  else if (r.verdict == COVER_COVERED)
    printf("covered\n");
  else
    printf("uncovered, u%s, v%s\n", u, v);
  return differs(m, r, u, v);
}

typedef struct {
  const char *what;
  size_t set_room, profile_room, word_room;
  /* what document 01 says */
  uint8_t number;
  size_t sets, profiles;
} Refusal;

/* A refusal: its number and counts are what document 01 says, there is no verdict, and the word memory is as it was. */
static int show_refused(const Model *m, Refusal want) {
  CoverVerdict r = check(m, want.set_room, want.profile_room, want.word_room);
  printf("C %s: number %d, sets %zu, profiles %zu\n", want.what, r.number, r.sets, r.profiles);
  return r.number != want.number || r.sets != want.sets || r.profiles != want.profiles || r.verdict != COVER_NO_VERDICT || r.u != 0 ||
         r.v != 0 || touched_past(0);
}

static int show_edges(void) {
  const size_t S = COVER_SETS, P = COVER_PROFILES, W = COVER_WORDS;
  Model none = C, nine = C, no_event = C, seventeen = C, three = C, missing = C;
  none.n = 0;
  nine.n = 9;
  no_event.k = 0;
  seventeen.k = 17;
  three.k = 3;
  missing.start = STATE(2);
  return show_refused(&none, (Refusal){"without states", S, P, W, COVER_OUT_OF_RANGE, 0, 0}) +
         show_refused(&nine, (Refusal){"with 9 states", S, P, W, COVER_OUT_OF_RANGE, 0, 0}) +
         show_refused(&no_event, (Refusal){"without events", S, P, W, COVER_OUT_OF_RANGE, 0, 0}) +
         show_refused(&seventeen, (Refusal){"with 17 events", S, P, W, COVER_OUT_OF_RANGE, 0, 0}) +
         show_refused(&three, (Refusal){"with 3 events and 2 numbers of arrows", S, P, W, COVER_FEW_ARROWS, 0, 0}) +
         show_refused(&missing, (Refusal){"with a missing start state", S, P, W, COVER_MISSING_STATE, 0, 0}) +
         show_refused(&C, (Refusal){"with room for 1 set", 1, P, W, COVER_MORE_SETS, 1, 0}) +
         show_refused(&C, (Refusal){"with room for 2 profiles", S, 2, W, COVER_MORE_PROFILES, 2, 2}) +
         show_refused(&C, (Refusal){"without word memory", S, P, 0, COVER_MORE_LETTERS, 2, 3});
}

/* All seven slices of C's tables, each with a length of its own, and one place past the count, which keeps what stood there. */
static int show_tables(void) {
  uint8_t masks[4] = {9, 9, 9, 9}, events[6] = {9, 9, 9, 9, 9, 9}, last[10] = {9, 9, 9, 9, 9, 9, 9, 9, 9, 9};
  uint16_t from[5] = {9, 9, 9, 9, 9}, profile[9] = {9, 9, 9, 9, 9, 9, 9, 9, 9};
  uint64_t leads[7] = {9, 9, 9, 9, 9, 9, 9}, marks[8] = {9, 9, 9, 9, 9, 9, 9, 9};
  CoverVerdict r = cover_verdict(C.n, C.k, C.start, C.home, C.arrows, 2, masks, 4, from, 5, events, 6, leads, 7, marks, 8, profile, 9, last,
                                 10, memory, sizeof memory);
  if (r.number != COVER_DONE || r.sets != C.sets || r.profiles != C.profiles)
    return 1;
  for (size_t i = 0; i <= C.sets; i++)
    printf("C's set %zu: %d %d %d\n", i, masks[i], from[i], events[i]);
  for (size_t i = 0; i <= C.profiles; i++)
    printf("C's profile %zu: %llu %llu %d %d\n", i, (unsigned long long)leads[i], (unsigned long long)marks[i], profile[i], last[i]);
  /* worked by hand: {0} and {1}; event 0, event 1, and 0 then 1 */
  const uint8_t want_masks[3] = {1, 2, 9}, want_events[3] = {COVER_NO_EVENT, 0, 9}, want_last[4] = {0, 1, 1, 9};
  const uint16_t want_from[3] = {COVER_NO_ENTRY, 0, 9}, want_profile[4] = {COVER_NO_ENTRY, COVER_NO_ENTRY, 0, 9};
  const uint64_t want_leads[4] = {514, 257, 257, 9}, want_marks[4] = {514, 0, 257, 9};
  return memcmp(masks, want_masks, sizeof want_masks) || memcmp(from, want_from, sizeof want_from) ||
         memcmp(events, want_events, sizeof want_events) || memcmp(leads, want_leads, sizeof want_leads) ||
         memcmp(marks, want_marks, sizeof want_marks) || memcmp(profile, want_profile, sizeof want_profile) ||
         memcmp(last, want_last, sizeof want_last);
}

/* The opposite of a model with so much room. */
static CoverOpposite oppose(const Model *m, size_t from_room, size_t event_room, size_t to_room, size_t state_room) {
  memset(from, UNTOUCHED, sizeof from);
  memset(event, UNTOUCHED, sizeof event);
  memset(to, UNTOUCHED, sizeof to);
  memset(flags, UNTOUCHED, sizeof flags);
  return cover_opposite(m->n, m->k, m->start, m->home, m->arrows, 2, set_masks, COVER_SETS, set_from, COVER_SETS, set_event, COVER_SETS,
                        profile_arrows, COVER_PROFILES, profile_marks, COVER_PROFILES, profile_from, COVER_PROFILES, profile_event,
                        COVER_PROFILES, from, from_room, event, event_room, to, to_room, flags, state_room);
}

/* What document 01 lists: from, event, to. */
static const uint16_t arrows_of_c[][3] = {{0, 0, 1}, {0, 0, 3}, {0, 1, 0}, {0, 1, 4}, {1, 0, 1}, {1, 1, 0}, {2, 0, 3}, {2, 1, 2},
                                          {2, 1, 4}, {3, 0, 3}, {3, 1, 5}, {4, 0, 3}, {4, 1, 2}, {4, 1, 4}, {5, 0, 3}, {5, 1, 5}};

/* Something was written to the slices of the opposite past so many flags or arrows. */
static int touched_opposite(size_t states, size_t arrows) {
  for (size_t i = arrows; i < COVER_ARROWS; i++)
    if (from[i] != UNTOUCHED * 257 || event[i] != UNTOUCHED || to[i] != UNTOUCHED * 257)
      return 1;
  for (size_t i = states; i < COVER_STATES; i++)
    if (flags[i] != UNTOUCHED)
      return 1;
  return 0;
}

/* Prints the opposite of a model, its accepting states first, and says whether it has other counts than these, or anything is written past
 * them. */
static int show_opposite(const Model *m, size_t states, size_t arrows) {
  CoverOpposite r = oppose(m, COVER_ARROWS, COVER_ARROWS, COVER_ARROWS, COVER_STATES);
  if (r.states > COVER_STATES || r.arrows > COVER_ARROWS)
    return 1;
  printf("%s's opposite: number %d, states %zu, arrows %zu, accepting", m->name, r.number, r.states, r.arrows);
  for (size_t i = 0; i < r.states; i++)
    if (flags[i] == 1)
      printf(" %zu", i);
  printf("\n");
  for (size_t i = 0; i < r.arrows; i++)
    printf("%d %d %d\n", from[i], event[i], to[i]);
  return touched_opposite(r.states, r.arrows) || r.number != COVER_DONE || r.states != states || r.arrows != arrows || r.sets != m->sets || r.profiles != m->profiles;
}

/* What stands in the slices is not C's opposite as document 01 lists it, accepting only 2. */
static int differs_from_c(void) {
  for (size_t i = 0; i < COUNT(arrows_of_c); i++)
    if (from[i] != arrows_of_c[i][0] || event[i] != arrows_of_c[i][1] || to[i] != arrows_of_c[i][2])
      return 1;
  for (size_t i = 0; i < 6; i++)
    if (flags[i] != (i == 2))
      return 1;
  return 0;
}

static int show_opposite_of_c(void) { return show_opposite(&C, 6, COUNT(arrows_of_c)) + differs_from_c(); }

/* With this room C's opposite, which has 6 states and 16 arrows, is written or refused with 7, and then nothing of it is. */
static int show_room(const char *what, size_t from_room, size_t event_room, size_t to_room, size_t state_room, uint8_t number) {
  CoverOpposite r = oppose(&C, from_room, event_room, to_room, state_room);
  printf("C's opposite with %s: number %d, sets %zu, profiles %zu, states %zu, arrows %zu\n", what, r.number, r.sets, r.profiles, r.states,
         r.arrows);
  size_t states = number == COVER_DONE ? 6 : 0, arrows = number == COVER_DONE ? 16 : 0;
  return r.number != number || r.sets != C.sets || r.profiles != C.profiles || r.states != states || r.arrows != arrows ||
         touched_opposite(states, arrows) || (number == COVER_DONE && differs_from_c());
}

/* A model that is refused for itself has no opposite, and nothing is written. */
static int show_no_opposite(void) {
  Model none = C;
  none.n = 0;
  CoverOpposite r = oppose(&none, COVER_ARROWS, COVER_ARROWS, COVER_ARROWS, COVER_STATES);
  printf("C without states has no opposite: number %d\n", r.number);
  return r.number != COVER_OUT_OF_RANGE || r.sets != 0 || r.profiles != 0 || r.states != 0 || r.arrows != 0 || touched_opposite(0, 0);
}

static int show_opposites(const Model *d, const Model *h) {
  return show_opposite_of_c() + show_opposite(d, 2, 2) + show_opposite(h, 10, 30) + show_no_opposite() +
         show_room("just enough room", 16, 16, 16, 6, COVER_DONE) +
         show_room("one place too few for where arrows start", 15, 16, 16, 6, COVER_MORE_OPPOSITE) +
         show_room("one place too few for events", 16, 15, 16, 6, COVER_MORE_OPPOSITE) +
         show_room("one place too few for where arrows lead", 16, 16, 15, 6, COVER_MORE_OPPOSITE) +
         show_room("one place too few for flags", 16, 16, 16, 5, COVER_MORE_OPPOSITE);
}

/* C's file, as document 01 lists it. */
static const uint8_t file_of_c[] = {0x01, 1, 0, 2, 0x02, 1, 0, 2, 0x03, 1, 0, 1, 0x04, 1, 0, 2,
                                    0x05, 3, 0, 0, 2, 2, 0x05, 3, 0, 1, 1, 1, 0x7F, 0, 0};

/* Opens a file with room for so many of four arrow numbers, and says whether anything else is told than this, or a number that was not lent,
 * or any after a refusal, is not as it was. */
static int show_file(const char *what, const uint8_t *file, size_t bytes, size_t room, CoverReading want) {
  uint64_t arrows[4] = {UNTOUCHED, UNTOUCHED, UNTOUCHED, UNTOUCHED};
  CoverReading r = cover_read(file, bytes, arrows, room);
  printf("%s: number %d, offset %zu, n %zu, k %zu, start %d, home %d, arrows", what, r.number, r.offset, r.n, r.k, r.start, r.home);
  for (size_t i = 0; i < COUNT(arrows); i++)
    printf(" %llu", (unsigned long long)arrows[i]);
  printf("\n");
  int differs = r.number != want.number || r.offset != want.offset || r.n != want.n || r.k != want.k || r.start != want.start || r.home != want.home;
  for (size_t i = 0; i < COUNT(arrows); i++)
    differs |= arrows[i] != (r.number == COVER_DONE && i < C.k ? C.arrows[i] : UNTOUCHED);
  return differs;
}

static int show_files(void) {
  const size_t all = sizeof file_of_c;
  const CoverReading c = {COVER_DONE, 0, 2, 2, STATE(0), STATE(1)};
  uint8_t nine[sizeof file_of_c], third[sizeof file_of_c], more[sizeof file_of_c + 1];
  memcpy(nine, file_of_c, all);
  memcpy(third, file_of_c, all);
  memcpy(more, file_of_c, all);
  nine[3] = 9;
  third[20] = STATE(2);
  more[all] = 0;
  return show_file("C's file", file_of_c, all, 4, c) + show_file("C's file with just enough room", file_of_c, all, 2, c) +
         show_file("C's file with room for 1 number", file_of_c, all, 1, (CoverReading){COVER_FEW_ARROWS, 4, 0, 0, 0, 0}) +
         show_file("C's file with 9 states", nine, all, 4, (CoverReading){COVER_OUT_OF_RANGE, 0, 0, 0, 0, 0}) +
         show_file("C's file with an arrow to a missing state", third, all, 4, (CoverReading){COVER_MISSING_STATE, 16, 0, 0, 0, 0}) +
         show_file("C's file without its end", file_of_c, all - 3, 4, (CoverReading){COVER_BAD_FILE, all - 3, 0, 0, 0, 0}) +
         show_file("C's file and a byte more", more, all + 1, 4, (CoverReading){COVER_BAD_FILE, all, 0, 0, 0, 0}) +
         show_file("an empty file", file_of_c, 0, 4, (CoverReading){COVER_BAD_FILE, 0, 0, 0, 0, 0});
}

typedef struct {
  const char *u_shown, *v_shown;
  uint8_t u[3];
  size_t u_letters;
  uint8_t v[3];
  size_t v_letters;
  /* worked by hand: C is home after each 0 */
  uint8_t number, judgement;
} Tried;

static const Tried tried_of_c[] = {
    {"", " 0", {0}, 0, {0}, 1, COVER_DONE, COVER_ACCEPTED},
    {"", " 1", {0}, 0, {1}, 1, COVER_DONE, COVER_NOT_ACCEPTED},
    {" 0", " 1", {0}, 1, {1}, 1, COVER_DONE, COVER_NOT_ACCEPTED},
    {" 1 1", " 1 1 0", {1, 1}, 2, {1, 1, 0}, 3, COVER_DONE, COVER_ACCEPTED},
    {" 0", "", {0}, 1, {0}, 0, COVER_NO_ROUND, COVER_NO_JUDGEMENT},
    {" 2", "", {2}, 1, {0}, 0, COVER_NO_ROUND, COVER_NO_JUDGEMENT},
    {" 2", " 0", {2}, 1, {0}, 1, COVER_NO_SUCH_EVENT, COVER_NO_JUDGEMENT},
    {"", " 0 2", {0}, 0, {0, 2}, 2, COVER_NO_SUCH_EVENT, COVER_NO_JUDGEMENT},
};

/* Tries a course of a model, prints the judgement, and says whether it is another than it should be. */
static int show_course(const Model *m, const char *what, const Tried *t, uint8_t number, uint8_t judgement) {
  CoverCourse r = cover_course(m->n, m->k, m->start, m->home, m->arrows, 2, t->u, t->u_letters, t->v, t->v_letters);
  printf("%s, u%s, v%s: number %d, judgement %d\n", what, t->u_shown, t->v_shown, r.number, r.judgement);
  return r.number != number || r.judgement != judgement;
}

static int show_courses(void) {
  int faults = 0;
  for (size_t i = 0; i < COUNT(tried_of_c); i++)
    faults += show_course(&C, "C", &tried_of_c[i], tried_of_c[i].number, tried_of_c[i].judgement);
  Model none = C, three = C;
  none.n = 0;
  three.k = 3;
  /* what is refused of the model comes before what is refused of the course */
  return faults + show_course(&none, "C without states", &tried_of_c[4], COVER_OUT_OF_RANGE, COVER_NO_JUDGEMENT) +
         show_course(&three, "C with 3 events and 2 numbers of arrows", &tried_of_c[4], COVER_FEW_ARROWS, COVER_NO_JUDGEMENT);
}

int main(void) {
  int faults = 0;
  for (size_t i = 0; i < COUNT(before_c); i++)
    faults += show(&before_c[i], COVER_PROFILES);
  faults += show(&C, COVER_PROFILES);
  for (size_t i = 0; i < COUNT(after_c); i++)
    faults += show(&after_c[i], COVER_PROFILES);
  faults += show(&differing, COVER_PROFILES);
  faults += show_edges();
  /* one place more than the refusal above had */
  faults += show(&C, 3);
  faults += show_tables();
  faults += show_opposites(&after_c[0], &after_c[4]);
  faults += show_files();
  faults += show_courses();
  if (faults > 0)
    fprintf(stderr, "editor: %d of these are not what they should be\n", faults);
  return faults > 0;
}
