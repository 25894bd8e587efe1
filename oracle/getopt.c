// What glibc's getopt_long answers to the lines of a table (oracle/differences.txt), for docs/DIFFERENCES.md.
//
//     getopt FILE
//
// A row: name; short options as getopt's string; long options with `:` behind those that take a value; the arguments;
// what is expected here; the form; what this project answers. The last two are the oracle's to test. Spaces separate, `-`
// is an empty column, `\xHH` is a byte.
//
// An answer is one word a step: `v` an option, `w=7` with its value, `--label=x` a long one, `?x` or `?--lab` refused;
// then `|` and the operands.
#include <getopt.h>
#include <stdio.h>
#include <stdlib.h>
#include <string.h>

enum { COLUMNS = 7, WORDS = 32, LENGTH = 512 };

static char *trimmed(char *s) {
  while (*s == ' ') s++;
  char *end = s + strlen(s);
  while (end > s && (end[-1] == ' ' || end[-1] == '\n')) *--end = 0;
  return strcmp(s, "-") ? s : end;
}

// `\xHH` becomes the byte, in place.
static void unescape(char *s) {
  char *out = s;
  while (*s) {
    if (s[0] == '\\' && s[1] == 'x') {
      char digits[3] = {s[2], s[3], 0};
      *out++ = (char)strtol(digits, NULL, 16);
      s += 4;
    } else {
      *out++ = *s++;
    }
  }
  *out = 0;
}

static int words(char *s, char **to) {
  int n = 0;
  for (char *w = strtok(s, " "); w && n < WORDS; w = strtok(NULL, " ")) {
    unescape(w);
    to[n++] = w;
  }
  to[n] = NULL;
  return n;
}

static void add(char *answer, const char *what, const char *value) {
  size_t used = strlen(answer);
  snprintf(answer + used, LENGTH - used, "%s%s%s%s", used ? " " : "", what, value ? "=" : "", value ? value : "");
}

static void steps(int argc, char **argv, const char *shorts, const struct option *longs, char *answer) {
  int c, which = 0;
  optind = 0; // glibc: begin anew
  opterr = 0;
  while (1) {
    const char *at = argv[optind ? optind : 1];
    c = getopt_long(argc, argv, shorts, longs, &which);
    if (c == -1) break;
    char what[LENGTH];
    if (c == '?' || c == ':') {
      if (optopt && !(at && !strncmp(at, "--", 2))) snprintf(what, sizeof what, "?%c", optopt);
      else snprintf(what, sizeof what, "?%s", at);
      add(answer, what, NULL);
    } else {
      if (c == 1000) snprintf(what, sizeof what, "--%s", longs[which].name);
      else snprintf(what, sizeof what, "%c", c);
      add(answer, what, optarg);
    }
  }
  add(answer, "|", NULL);
  for (; optind < argc; optind++) add(answer, argv[optind], NULL);
}

static int row(char *line) {
  char *column[COLUMNS], *rest = line;
  for (int k = 0; k < COLUMNS; k++) {
    char *end = k == COLUMNS - 1 ? rest + strlen(rest) : strstr(rest, " ; ");
    if (!end) return printf("a row with too few columns: %s\n", line), 0;
    column[k] = rest;
    rest = *end ? end + 3 : end;
    *end = 0;
    column[k] = trimmed(column[k]);
  }
  char shorts[LENGTH], *names[WORDS + 1], *argv[WORDS + 2] = {"line"}, answer[LENGTH] = "";
  snprintf(shorts, sizeof shorts, "%s", column[1]);
  unescape(shorts);
  struct option longs[WORDS + 1] = {0};
  int count = words(column[2], names);
  for (int k = 0; k < count; k++) {
    size_t length = strlen(names[k]);
    int valued = names[k][length - 1] == ':';
    if (valued) names[k][length - 1] = 0;
    longs[k] = (struct option){names[k], valued ? required_argument : no_argument, NULL, 1000};
  }
  int argc = 1 + words(column[3], argv + 1);
  char expected[LENGTH];
  snprintf(expected, sizeof expected, "%s", column[4]);
  unescape(expected);
  steps(argc, argv, shorts, longs, answer);
  if (!strcmp(answer, expected)) return 1;
  printf("DIFFERS %s: glibc answers `%s`, the table says `%s`\n", column[0], answer, expected);
  return 0;
}

int main(int argc, char **argv) {
  FILE *file = argc == 2 ? fopen(argv[1], "r") : NULL;
  if (!file) return fprintf(stderr, "getopt FILE\n"), 2;
  char line[2048];
  int rows = 0, good = 0;
  while (fgets(line, sizeof line, file)) {
    if (line[0] == '#' || line[0] == '\n') continue;
    rows++;
    good += row(line);
  }
  printf("getopt: %d rows, %d differ\n", rows, rows - good);
  return rows == 0 || rows != good;
}
