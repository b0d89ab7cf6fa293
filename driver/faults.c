/* Wrong libraries: this stands between the driver and the library and changes one thing in what goes in or comes back. The variable FAULT of
 * the environment says which; each line ends with the words that driver/faults tells of it. */
#include "cover.h"
#include <stdlib.h>

#define MODEL_TAKEN size_t n, size_t k, uint8_t start, uint8_t home, const uint64_t *arrows, size_t arrows_length
#define MODEL n, k, start, home, arrows, arrows_length
#define TABLES_TAKEN                                                                                                                           \
  uint8_t *set_masks, size_t set_masks_length, uint16_t *set_from, size_t set_from_length, uint8_t *set_event, size_t set_event_length,       \
      uint64_t *profile_arrows, size_t profile_arrows_length, uint64_t *profile_marks, size_t profile_marks_length,                           \
      uint16_t *profile_from, size_t profile_from_length, uint8_t *profile_event, size_t profile_event_length
#define TABLES                                                                                                                                 \
  set_masks, set_masks_length, set_from, set_from_length, set_event, set_event_length, profile_arrows, profile_arrows_length, profile_marks,  \
      profile_marks_length, profile_from, profile_from_length, profile_event, profile_event_length
#define WORDS_TAKEN uint8_t *memory, size_t memory_length
#define OPPOSITE_TAKEN                                                                                                                         \
  uint16_t *from, size_t from_length, uint8_t *event, size_t event_length, uint16_t *to, size_t to_length, uint8_t *flags, size_t flags_length
#define COURSE_TAKEN const uint8_t *u, size_t u_length, const uint8_t *v, size_t v_length
#define FILE_TAKEN const uint8_t *file, size_t file_length, uint64_t *arrows, size_t arrows_length

/* The linker gives the library's own calls these names, and the driver calls the others. */
CoverVerdict __real_cover_verdict(MODEL_TAKEN, TABLES_TAKEN, WORDS_TAKEN);
CoverVerdict __wrap_cover_verdict(MODEL_TAKEN, TABLES_TAKEN, WORDS_TAKEN);
CoverOpposite __real_cover_opposite(MODEL_TAKEN, TABLES_TAKEN, OPPOSITE_TAKEN);
CoverOpposite __wrap_cover_opposite(MODEL_TAKEN, TABLES_TAKEN, OPPOSITE_TAKEN);
CoverCourse __real_cover_course(MODEL_TAKEN, COURSE_TAKEN);
CoverCourse __wrap_cover_course(MODEL_TAKEN, COURSE_TAKEN);
CoverReading __real_cover_read(FILE_TAKEN);
CoverReading __wrap_cover_read(FILE_TAKEN);

static int fault(void) {
  static int number = -1;
  if (number < 0) {
    const char *text = getenv("FAULT");
    number = text == NULL ? 0 : atoi(text);
  }
  return number;
}

/* What is done where this fault is planted and the test holds. */
#define PLANT(number, test, change) \
  if (fault() == number && (test)) { \
    change; \
  }

CoverVerdict __wrap_cover_verdict(MODEL_TAKEN, TABLES_TAKEN, WORDS_TAKEN) {
  PLANT(29, 1, profile_marks_length &= 65535) /* verdict: a slice's length in 16 bits */
  CoverVerdict a = __real_cover_verdict(MODEL, TABLES, memory, memory_length);
  size_t letters = a.u + a.v;
  uint64_t *lent = (uint64_t *)arrows;
  PLANT(1, a.number == 4, a.number = 5) /* verdict: 4 told as 5 */
  PLANT(2, a.sets > 1, a.sets--) /* verdict: one set fewer told */
  PLANT(3, a.profiles > 1, a.profiles--) /* verdict: one profile fewer told */
  PLANT(4, a.u > 0, a.u--) /* verdict: one letter of u fewer told */
  PLANT(5, a.v > 1, a.v--) /* verdict: one letter of v fewer told */
  PLANT(6, a.verdict != 0, a.verdict = 3 - a.verdict) /* verdict: the verdict exchanged */
  PLANT(7, a.u > 0, memory[0] ^= 1) /* verdict: the first letter of u changed */
  PLANT(8, a.v > 0, memory[letters - 1] ^= 1) /* verdict: the last letter of v changed */
  PLANT(9, a.sets > 200, set_masks[a.sets / 2] ^= 1) /* verdict, more than 200 sets: a set in the middle changed */
  PLANT(10, a.sets > 1, set_from[a.sets / 2] ^= 1) /* verdict: a set's predecessor changed */
  PLANT(11, a.sets > 1, set_event[a.sets / 2] ^= 1) /* verdict: a set's event changed */
  PLANT(12, a.profiles > 0, profile_arrows[a.profiles / 2] ^= (uint64_t)1 << 63) /* verdict: a profile's arrows changed */
  PLANT(13, a.profiles > 0, profile_marks[a.profiles / 2] ^= 1) /* verdict: a profile's marks changed */
  PLANT(14, a.profiles > 1, profile_from[a.profiles - 1] ^= 256) /* verdict: the last profile's predecessor changed */
  PLANT(15, a.profiles > 0, profile_event[a.profiles - 1] ^= 1) /* verdict: the last profile's event changed */
  PLANT(16, set_masks_length > a.sets, set_masks[a.sets]++) /* verdict: the set place past the count changed */
  PLANT(17, profile_marks_length > a.profiles, profile_marks[a.profiles] ^= 1 << 20) /* verdict: the marks past the count changed */
  PLANT(18, memory_length > letters, memory[letters] = 255) /* verdict: the letter past the count written */
  PLANT(19, 1, set_from[-1] ^= 1) /* verdict: the guard before set_from changed */
  PLANT(20, 1, profile_event[profile_event_length] ^= 1) /* verdict: the guard behind profile_event changed */
  PLANT(21, memory_length == 0, memory[0] ^= 1) /* verdict, no word memory: the guard behind it changed */
  PLANT(22, a.number == 6 && memory_length > 0, memory[0] ^= 1) /* verdict, refused with 6: a letter written */
  PLANT(23, arrows_length > k, lent[k] ^= 1) /* verdict: an arrow number past k changed */
  PLANT(24, a.number == 2 && arrows_length > 0, lent[0] ^= 2) /* verdict, refused with 2: an arrow number changed */
  PLANT(25, profile_arrows_length > a.profiles, profile_arrows[profile_arrows_length - 1] = 0) /* verdict: the last place of a slice cleared */
  PLANT(26, profile_from_length > 65536, profile_from[65536] = 1) /* verdict, more than 65,536 places: the last one written */
  PLANT(27, a.number == 5 && a.profiles == 2048, a.number = 0) /* verdict, cut at 2,048 profiles: told as done */
  PLANT(28, a.number == 3, a.sets = 1) /* verdict, refused with 3: a set told */
  PLANT(30, a.number == 5 && memory_length == 0, a.number = 6) /* verdict, refused with 5 and no word memory: told as 6 */
  return a;
}

CoverOpposite __wrap_cover_opposite(MODEL_TAKEN, TABLES_TAKEN, OPPOSITE_TAKEN) {
  PLANT(47, 1, arrows_length = (uint16_t)arrows_length) /* opposite: how many arrow numbers are lent in 16 bits */
  CoverOpposite a = __real_cover_opposite(MODEL, TABLES, from, from_length, event, event_length, to, to_length, flags, flags_length);
  PLANT(31, a.number == 7, a.number = 0) /* opposite: 7 told as done */
  PLANT(32, a.states > 0, a.states++) /* opposite: one state more told */
  PLANT(33, a.arrows > 0, a.arrows++) /* opposite: one arrow more told */
  PLANT(34, a.sets > 0, a.sets++) /* opposite: one set more told */
  PLANT(35, a.profiles > 0, a.profiles--) /* opposite: one profile fewer told */
  PLANT(36, a.arrows > 0, from[a.arrows / 2] ^= 1) /* opposite: where an arrow starts changed */
  PLANT(37, a.arrows > 0, event[a.arrows - 1] ^= 1) /* opposite: the last arrow's event changed */
  PLANT(38, a.arrows > 0, to[a.arrows / 2] ^= 1) /* opposite: where an arrow leads changed */
  PLANT(39, a.states > 0, flags[a.states / 2] ^= 1) /* opposite: a flag changed */
  PLANT(40, to_length > a.arrows, to[a.arrows] ^= 1) /* opposite: an arrow too many */
  PLANT(41, a.number == 7 && flags_length > 0, flags[0] = 1) /* opposite, refused with 7: a flag written */
  PLANT(42, a.arrows == 65535, to[65534] ^= 1) /* opposite, 65,535 arrows: the last one changed */
  PLANT(43, 1, flags[flags_length] ^= 1) /* opposite: the guard behind the flags changed */
  PLANT(44, a.sets > 0, set_event[a.sets - 1] ^= 1) /* opposite: the last set's event changed */
  PLANT(45, from_length == 0, from[-1] ^= 1) /* opposite, no place for arrows: the guard before it changed */
  PLANT(46, a.profiles > 0, profile_marks[0] ^= 1) /* opposite: the first profile's marks changed */
  PLANT(48, a.number == 5 && a.profiles == 2048, a.number = 0) /* opposite, cut at 2,048 profiles: told as done */
  return a;
}

CoverCourse __wrap_cover_course(MODEL_TAKEN, COURSE_TAKEN) {
  CoverCourse a = __real_cover_course(MODEL, u, u_length, v, v_length);
  PLANT(51, a.judgement != 0, a.judgement = 3 - a.judgement) /* course: the judgement turned */
  PLANT(52, a.number == 10, a.number = 9) /* course: 10 told as 9 */
  PLANT(53, a.number == 9, a.judgement = 2) /* course, refused with 9: told as not accepted too */
  PLANT(54, u_length > 0, ((uint8_t *)u)[u_length - 1] ^= 1) /* course: the last letter of u changed */
  PLANT(55, v_length > 0, ((uint8_t *)v)[0] ^= 1) /* course: the first letter of v changed */
  PLANT(56, v_length > 65536 && a.judgement != 0, a.judgement = 3 - a.judgement) /* course, v above 65,536 letters: the judgement turned */
  PLANT(57, arrows_length > k, ((uint64_t *)arrows)[k] = 0) /* course: an arrow number past k cleared */
  return a;
}

CoverReading __wrap_cover_read(FILE_TAKEN) {
  PLANT(71, 1, file_length &= 65535) /* reader: the file's length in 16 bits */
  CoverReading a = __real_cover_read(file, file_length, arrows, arrows_length);
  PLANT(61, a.number == 8, a.offset++) /* reader: the offset one more */
  PLANT(62, a.number == 0, a.home ^= 1) /* reader: the home mask changed */
  PLANT(63, a.number == 0, a.start ^= 1) /* reader: the start mask changed */
  PLANT(64, a.number == 0, a.k--) /* reader: one event fewer told */
  PLANT(65, a.number == 3 && arrows_length > 0, arrows[0] ^= 1) /* reader, refused with 3: an arrow number written */
  PLANT(66, a.number == 0 && arrows_length > a.k, arrows[a.k] ^= 1) /* reader: an arrow number past k written */
  PLANT(67, a.number == 0, arrows[a.k - 1] ^= (uint64_t)1 << 9) /* reader: the last arrow number changed */
  PLANT(68, file_length > 0, ((uint8_t *)file)[file_length - 1] ^= 1) /* reader: the file's last byte changed */
  PLANT(69, a.number == 2, a.n = 2) /* reader, refused with 2: n told */
  PLANT(70, a.number == 1, a.number = 8) /* reader: 1 told as 8 */
  PLANT(72, arrows_length == 0, arrows[0] ^= 1) /* reader, no room: the guard behind it changed */
  return a;
}
