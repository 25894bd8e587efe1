// Checks that are counted, for the test programs. Not part of the library.
#ifndef CHECK_H
#define CHECK_H

#include <stdbool.h>
#include <stdio.h>

static unsigned passed, failed;

#define CHECK(condition) check(condition, #condition, __LINE__)

static void check(bool good, const char *what, int line) {
  if (good) {
    passed++;
  } else {
    failed++;
    printf("line %d: not so: %s\n", line, what);
  }
}

// Prints the counts; the program's exit status. No check at all is a failure.
static int report(void) {
  printf("%u passed, %u failed\n", passed, failed);
  return passed > 0 && failed == 0 ? 0 : 1;
}

#endif
