/* For the kit's C compiler, which has no headers of its own: what the C programs here use of its C library. */
#pragma once
#define CLOCK_MONOTONIC 1
struct timespec {
  long tv_sec;
  long tv_nsec;
};
int clock_gettime(int clock, struct timespec *to);
