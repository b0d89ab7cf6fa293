/* Runs cases through the C interface and judges nothing. A case comes on standard input as 64-bit numbers, low byte first: the call, how often
 * it is timed, the seed, n, k, start and home, then for each slice its length and, where the call reads it, its contents. Back go the
 * answer's fields, the nanoseconds of each timed call, and all memory as the last call left it, guards and read slices included. */
#include "cover.h"
#include <stdio.h>
#include <stdlib.h>
#include <string.h>
#include <time.h>

/* So many filled places stand before each slice, and so many behind it. */
#define GUARD 8
#define MOST_SLICES 12
#define MOST_FIELDS 6

enum { VERDICT, OPPOSITE, COURSE, READ, CALLS };

/* The bytes of an element, a capital letter where the slice is read; the same order as in include/cover.h. */
static const char *const shapes[CALLS] = {"H12188211", "H12188212121", "HAA", "A8"};

typedef struct Slice {
  size_t width;
  size_t length;
  int is_read;
  uint8_t *contents;
  uint8_t *block;
  uint8_t *memory;
} Slice;

static Slice slices[MOST_SLICES];
static size_t slice_count;
static uint64_t fields[MOST_FIELDS];
static size_t field_count;
static uint64_t nanoseconds;

static void fail(const char *what) {
  fprintf(stderr, "driver: %s\n", what);
  exit(2);
}

/* Whether there was more to read. */
static int get(void *to, size_t bytes) {
  size_t count = fread(to, 1, bytes, stdin);
  if (count != 0 && count != bytes)
    fail("a case is cut");
  return count == bytes;
}

static uint64_t get_number(void) {
  uint64_t number;
  if (!get(&number, sizeof number))
    fail("a case is cut");
  return number;
}

static void put(const void *from, size_t bytes) {
  if (fwrite(from, 1, bytes, stdout) != bytes)
    fail("standard output is closed");
}

static void *room(void *before, size_t bytes) {
  free(before);
  void *memory = malloc(bytes);
  if (memory == NULL)
    fail("no memory");
  return memory;
}

static size_t bytes_of(const Slice *slice) {
  return (slice->length + 2 * GUARD) * slice->width;
}

static void get_slices(const char *shape) {
  slice_count = strlen(shape);
  for (size_t i = 0; i < slice_count; i++) {
    Slice *slice = &slices[i];
    slice->is_read = shape[i] >= 'A';
    slice->width = (size_t)(slice->is_read ? shape[i] - 'A' + 1 : shape[i] - '0');
    slice->length = get_number();
    /* One element further: no better aligned than the call may ask for. */
    slice->block = room(slice->block, slice->width + bytes_of(slice));
    slice->memory = slice->block + slice->width;
    if (!slice->is_read)
      continue;
    size_t bytes = slice->length * slice->width;
    slice->contents = room(slice->contents, bytes + 1);
    if (bytes != 0 && !get(slice->contents, bytes))
      fail("a case is cut");
  }
}

/* Another number in nearly every place, or zeros. */
static uint64_t noise(uint64_t seed, size_t slice, size_t place) {
  uint64_t mixed = (seed * 16 + slice) * 0x9E3779B97F4A7C15 + place * 0xBF58476D1CE4E5B9;
  mixed = (mixed ^ mixed >> 29) * 0x94D049BB133111EB;
  return seed == 0 ? 0 : mixed ^ mixed >> 32;
}

#define FILL(type) \
  for (size_t place = 0; place < places; place++) \
    ((type *)slice->memory)[place] = (type)noise(seed, i, place);

static void fill(uint64_t seed) {
  for (size_t i = 0; i < slice_count; i++) {
    Slice *slice = &slices[i];
    size_t places = slice->length + 2 * GUARD;
    if (slice->width == 1)
      FILL(uint8_t)
    else if (slice->width == 2)
      FILL(uint16_t)
    else
      FILL(uint64_t)
    if (slice->is_read)
      memcpy(slice->memory + GUARD * slice->width, slice->contents, slice->length * slice->width);
  }
}

static void *begin(size_t i) {
  return slices[i].memory + GUARD * slices[i].width;
}

static uint64_t now(void) {
  struct timespec time;
  clock_gettime(CLOCK_MONOTONIC, &time);
  return (uint64_t)time.tv_sec * 1000000000 + (uint64_t)time.tv_nsec;
}

static void answer(size_t count, const uint64_t *numbers) {
  field_count = count;
  memcpy(fields, numbers, count * sizeof *numbers);
}

#define LENT8(i) (uint8_t *)begin(i), slices[i].length
#define LENT16(i) (uint16_t *)begin(i), slices[i].length
#define LENT64(i) (uint64_t *)begin(i), slices[i].length
#define MODEL n, k, start, home, LENT64(0)
#define TABLES LENT8(1), LENT16(2), LENT8(3), LENT64(4), LENT64(5), LENT16(6), LENT8(7)

static void verdict(size_t n, size_t k, uint8_t start, uint8_t home) {
  uint64_t began = now();
  CoverVerdict a = cover_verdict(MODEL, TABLES, LENT8(8));
  nanoseconds = now() - began;
  answer(6, (uint64_t[]){a.number, a.verdict, a.sets, a.profiles, a.u, a.v});
}

static void opposite(size_t n, size_t k, uint8_t start, uint8_t home) {
  uint64_t began = now();
  CoverOpposite a = cover_opposite(MODEL, TABLES, LENT16(8), LENT8(9), LENT16(10), LENT8(11));
  nanoseconds = now() - began;
  answer(5, (uint64_t[]){a.number, a.sets, a.profiles, a.states, a.arrows});
}

static void course(size_t n, size_t k, uint8_t start, uint8_t home) {
  uint64_t began = now();
  CoverCourse a = cover_course(MODEL, LENT8(1), LENT8(2));
  nanoseconds = now() - began;
  answer(2, (uint64_t[]){a.number, a.judgement});
}

static void read(void) {
  uint64_t began = now();
  CoverReading a = cover_read(LENT8(0), LENT64(1));
  nanoseconds = now() - began;
  answer(6, (uint64_t[]){a.number, a.offset, a.n, a.k, a.start, a.home});
}

static void call(uint64_t which, const uint64_t *numbers) {
  uint8_t start = (uint8_t)numbers[2], home = (uint8_t)numbers[3];
  if (which == VERDICT)
    verdict(numbers[0], numbers[1], start, home);
  else if (which == OPPOSITE)
    opposite(numbers[0], numbers[1], start, home);
  else if (which == COURSE)
    course(numbers[0], numbers[1], start, home);
  else
    read();
}

int main(void) {
  uint64_t which;
  while (get(&which, sizeof which)) {
    if (which >= CALLS)
      fail("there is no such call");
    uint64_t times = get_number(), seed = get_number(), numbers[4], *took = room(NULL, (times + 1) * sizeof *took);
    for (int i = 0; i < 4; i++)
      numbers[i] = get_number();
    get_slices(shapes[which]);
    /* An untimed case is called once too. */
    for (uint64_t i = 0; i == 0 || i < times; i++) {
      fill(seed);
      call(which, numbers);
      took[i] = nanoseconds;
    }
    put(fields, field_count * sizeof *fields);
    put(took, times * sizeof *took);
    free(took);
    for (size_t i = 0; i < slice_count; i++)
      put(slices[i].memory, bytes_of(&slices[i]));
    /* Told at once, so that a call that never comes back is known by what is missing. */
    if (fflush(stdout) != 0)
      fail("standard output is closed");
  }
  return 0;
}
