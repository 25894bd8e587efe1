// A worked example: the order `wear`, read from this program's own arguments.
//
//     example [-l LIMIT | --limit LIMIT] [-1] [-2] [-3] [-4] [-5] [-6] LABEL [PART..]
//
// Prints the order, with what used each option and word of the line, and exits with 0; or says what is wrong with the line and
// exits with 1. A limit is 1 to 9999. A label or part that begins with a dash stands behind `--`; `-` alone need not.
#include <inttypes.h>
#include <stdio.h>
#include <string.h>

#include "silverpoise.h"

enum { CRADLES = 6, DEFAULT_LIMIT = 500 };

// Which options exist. A node names its children by their numbers, and children come first.
static const uint8_t FORM[] = {
  // 12 nodes, 9 fields, 8 names, 12 bytes in the area
  SILVERPOISE_U16(12), SILVERPOISE_U16(9), SILVERPOISE_U16(8), SILVERPOISE_U16(12),
  // the node of each field: limit, cradles 1 to 6, label, parts
  SILVERPOISE_U16(2), SILVERPOISE_U16(3), SILVERPOISE_U16(4), SILVERPOISE_U16(5), SILVERPOISE_U16(6), SILVERPOISE_U16(7),
  SILVERPOISE_U16(8), SILVERPOISE_U16(9), SILVERPOISE_U16(11),
  // 0 to 2: the number argument with the two names from 0 on, its guard, and that it may be absent
  SILVERPOISE_NODE(SILVERPOISE_NODE_ARGUMENT, 0, 2, SILVERPOISE_VALUE_NUMBER, 0, 0),
  SILVERPOISE_NODE(SILVERPOISE_NODE_GUARD, 0, 0, 0, 1, 9999),
  SILVERPOISE_NODE(SILVERPOISE_NODE_OPTIONAL, 1, 0, 0, 0, 0),
  // 3 to 8: the cradles, each with one of the names 2 to 7
  SILVERPOISE_NODE(SILVERPOISE_NODE_FLAG, 2, 1, SILVERPOISE_FLAG_SWITCH, 0, 0),
  SILVERPOISE_NODE(SILVERPOISE_NODE_FLAG, 3, 1, SILVERPOISE_FLAG_SWITCH, 0, 0),
  SILVERPOISE_NODE(SILVERPOISE_NODE_FLAG, 4, 1, SILVERPOISE_FLAG_SWITCH, 0, 0),
  SILVERPOISE_NODE(SILVERPOISE_NODE_FLAG, 5, 1, SILVERPOISE_FLAG_SWITCH, 0, 0),
  SILVERPOISE_NODE(SILVERPOISE_NODE_FLAG, 6, 1, SILVERPOISE_FLAG_SWITCH, 0, 0),
  SILVERPOISE_NODE(SILVERPOISE_NODE_FLAG, 7, 1, SILVERPOISE_FLAG_SWITCH, 0, 0),
  // 9: the label. 10 and 11: a part, and many of them
  SILVERPOISE_NODE(SILVERPOISE_NODE_POSITIONAL, SILVERPOISE_POSITIONAL_UNRESTRICTED, 0, SILVERPOISE_VALUE_TEXT, 0, 0),
  SILVERPOISE_NODE(SILVERPOISE_NODE_POSITIONAL, SILVERPOISE_POSITIONAL_UNRESTRICTED, 0, SILVERPOISE_VALUE_TEXT, 0, 0),
  SILVERPOISE_NODE(SILVERPOISE_NODE_MANY, 10, 0, 0, 0, 0),
  // the names: type, then offset and length in the area
  SILVERPOISE_NAME(SILVERPOISE_NAME_SHORT, 0, 1), SILVERPOISE_NAME(SILVERPOISE_NAME_LONG, 1, 5),
  SILVERPOISE_NAME(SILVERPOISE_NAME_SHORT, 6, 1), SILVERPOISE_NAME(SILVERPOISE_NAME_SHORT, 7, 1),
  SILVERPOISE_NAME(SILVERPOISE_NAME_SHORT, 8, 1), SILVERPOISE_NAME(SILVERPOISE_NAME_SHORT, 9, 1),
  SILVERPOISE_NAME(SILVERPOISE_NAME_SHORT, 10, 1), SILVERPOISE_NAME(SILVERPOISE_NAME_SHORT, 11, 1),
  // the area
  'l', 'l', 'i', 'm', 'i', 't', '1', '2', '3', '4', '5', '6'};

// The fields by name, in the form's order.
static const char *const FIELD_NAMES[] = {
  "limit", "cradle-1", "cradle-2", "cradle-3", "cradle-4", "cradle-5", "cradle-6", "label", "parts"};

// One command line and what the reader writes about it.
struct line {
  uint8_t sheet[SILVERPOISE_MAX_SHEET];
  size_t length; // of the sheet
  uint32_t items[SILVERPOISE_ITEM_SLICE];
  uint32_t answers[SILVERPOISE_ANSWER_SLICE];
  uint32_t list[SILVERPOISE_LIST_SLICE]; // of what is missing
};

static void put_u16(uint8_t *to, size_t x) {
  to[0] = x & 255;
  to[1] = (x >> 8) & 255;
}

// Writes the arguments as a sheet and returns its length. A line too long for a sheet is left to the reader to refuse: of too
// many arguments it gets the count (refusal 6), of too many bytes nothing (refusal 5).
static size_t make_sheet(uint8_t *sheet, int count, char **arguments) {
  if (count > SILVERPOISE_MAX_ARGUMENTS) {
    put_u16(sheet, SILVERPOISE_MAX_ARGUMENTS + 1);
    return 2;
  }
  uint8_t *offset = sheet + 2, *area = offset + 2 * (count + 1);
  size_t used = 0;
  put_u16(sheet, (size_t)count);
  put_u16(offset, 0);
  for (int i = 0; i < count; i++) {
    size_t length = strlen(arguments[i]);
    if (length > SILVERPOISE_MAX_SHEET_AREA - used) return 0;
    memcpy(area + used, arguments[i], length);
    used += length;
    put_u16(offset += 2, used);
  }
  return (size_t)(area - sheet) + used;
}

static SilverpoiseItemRecord item_at(const struct line *line, uint32_t place) {
  SilverpoiseItemRecord item;
  memcpy(&item, line->items + SILVERPOISE_RECORD_WORDS * place, sizeof item);
  return item;
}

static SilverpoiseTextPart text_of(const struct line *line, uint32_t word) {
  return silverpoise_text(FORM, sizeof FORM, line->sheet, line->length, line->items, SILVERPOISE_ITEM_SLICE, word);
}

// Prints the text of an answer word. It is not copied: it stands in the sheet, or in the form if it is a fallback's.
static void print_text(const struct line *line, uint32_t word, FILE *to) {
  SilverpoiseTextPart part = text_of(line, word);
  const uint8_t *source = part.source == SILVERPOISE_SOURCE_SHEET ? line->sheet : FORM;
  fwrite(source + part.offset, 1, part.length, to);
}

// Prints the argument that an item came from. A later letter of a cluster such as `-12` has an empty text, and a value behind a
// `=` only its own; the whole argument is the text of an item before it.
static void print_argument(const struct line *line, uint32_t place, FILE *to) {
  for (; place > 0; place--) {
    SilverpoiseItemRecord item = item_at(line, place);
    bool later_letter = item.kind == SILVERPOISE_ITEM_SHORT && item.text_length == 0;
    if (!later_letter && item.kind != SILVERPOISE_ITEM_ARG_WORD) break;
  }
  print_text(line, place, to);
}

// Why nothing takes the item at a place, in words for this form. It gives rise to no other reason.
static const char *reason_in_words(struct line *line, uint32_t place) {
  SilverpoiseWhyAnswer why =
      silverpoise_why(FORM, sizeof FORM, line->sheet, line->length, place, line->items, SILVERPOISE_ITEM_SLICE, line->answers,
                      SILVERPOISE_ANSWER_SLICE, line->list, SILVERPOISE_LIST_SLICE);
  switch (why.reason) {
  case SILVERPOISE_REASON_GIVEN_EARLIER: return "an option is given twice";
  case SILVERPOISE_REASON_KEY_USED: return "a cradle takes no value";
  case SILVERPOISE_REASON_UNNAMED: return "there is no such option";
  default: return "the limit is given by its other name already";
  }
}

// Prints a letter of the text at a place as it stands there.
static void print_letter(const struct line *line, uint32_t place, uint32_t letter, FILE *to) {
  SilverpoiseTextPart part = text_of(line, place);
  const uint8_t *text = line->sheet + part.offset;
  size_t at = 0;
  SilverpoiseDecoding next = silverpoise_utf8_decode(text, part.length, at);
  while (next.found && next.character != letter) {
    at += next.size;
    next = silverpoise_utf8_decode(text, part.length, at);
  }
  fwrite(text + at, 1, next.size, to);
}

// Prints why an argument that looks like options, such as `-12x`, was read as a word.
static void print_cause(const struct line *line, SilverpoiseCarefulAnswer answer, FILE *to) {
  if (answer.letter == 0) {
    fputs("its name is not UTF-8; ", to);
    return;
  }
  fputs("no option has the letter ", to);
  print_letter(line, answer.place - 1, answer.letter - 1, to);
  fputs("; ", to);
}

// What is wrong, in words for this form. It gives rise to no other refusal. What is misread is always the label or a part: the
// limit is a number, so that `-l -17` is a 25. Where an option has a text, the mark of the place in the state tells that the
// option took it, and the words would be: it can be given as `--name=-17` or `-n-17`.
static const char *in_words(struct line *line, SilverpoiseCarefulAnswer answer) {
  switch (answer.number) {
  case SILVERPOISE_REFUSED_SHEET: return "the arguments have more than 32768 bytes";
  case SILVERPOISE_REFUSED_ARGUMENTS: return "there are more than 256 arguments";
  case SILVERPOISE_REFUSED_ITEMS: return "there are more than 256 options and words";
  case SILVERPOISE_REFUSED_MISSING: return "the label is missing";
  case SILVERPOISE_REFUSED_NO_ARGUMENT: return "no value follows";
  case SILVERPOISE_REFUSED_PARSE_FAILED: return "not a number, or too large";
  case SILVERPOISE_REFUSED_GUARD_FAILED: return "the limit is not from 1 to 9999";
  case SILVERPOISE_REFUSED_UNCONSUMED: return reason_in_words(line, answer.place - 1);
  case SILVERPOISE_REFUSED_MISREAD: return "as a label or part it stands behind --";
  default: return "the form is not well made";
  }
}

static int refuse(struct line *line, SilverpoiseCarefulAnswer answer) {
  fputs("wear: ", stderr);
  // the places of lower refusals are name records and nodes of the form
  if (answer.number >= SILVERPOISE_REFUSED_AMBIGUOUS && answer.place > 0) {
    print_argument(line, answer.place - 1, stderr);
    fputs(": ", stderr);
  }
  if (answer.number == SILVERPOISE_REFUSED_MISREAD) print_cause(line, answer, stderr);
  fprintf(stderr, "%s (refusal %" PRIu32 ")\n", in_words(line, answer), answer.number);
  return 1;
}

// Prints which field used each item. The line is accepted, so every item is used: by a field, or it is the opening `--`.
static void print_users(const SilverpoiseState *state) {
  printf("used by:");
  for (uint32_t place = 0; place < state->count; place++) {
    uint16_t mark = state->marks[place];
    printf(" %s", mark == SILVERPOISE_MARK_MARKER ? "--" : FIELD_NAMES[mark - SILVERPOISE_MARK_FIELD]);
  }
  printf("\n");
}

// Reads the answer words, field after field, and prints the order.
static int print_order(const struct line *line, const SilverpoiseState *state) {
  const uint32_t *word = line->answers;
  bool limited = *word++ == 1;
  uint32_t limit = limited ? *word++ : DEFAULT_LIMIT;
  const uint32_t *cradles = word;
  const uint32_t *label = cradles + CRADLES;
  const uint32_t *parts = label + 1; // their count, then each

  printf("limit: %" PRIu32 "\ncradles:", limit);
  for (int i = 0; i < CRADLES; i++) {
    if (cradles[i] == 1) printf(" %d", i + 1);
  }
  printf("\nlabel: ");
  print_text(line, *label, stdout);
  for (uint32_t i = 1; i <= parts[0]; i++) {
    printf("\npart: ");
    print_text(line, parts[i], stdout);
  }
  printf("\n");
  print_users(state);
  return fflush(stdout) == 0 ? 0 : 1;
}

int main(int argc, char **argv) {
  static struct line line;
  line.length = make_sheet(line.sheet, argc > 0 ? argc - 1 : 0, argv + 1);
  // by silverpoise_run `-12x` would be a label, since no option has the letter x
  SilverpoiseCarefulAnswer answer =
      silverpoise_careful(FORM, sizeof FORM, line.sheet, line.length, line.items, SILVERPOISE_ITEM_SLICE, line.answers,
                          SILVERPOISE_ANSWER_SLICE, line.list, SILVERPOISE_LIST_SLICE);
  return answer.number == SILVERPOISE_ACCEPTED ? print_order(&line, &answer.state) : refuse(&line, answer);
}
