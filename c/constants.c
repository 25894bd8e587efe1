// Compares the constants of silverpoise.h with what the library answers: limits, refusals, and the numbers of nodes, names,
// items, marks, kinds and reasons. Prints each check that fails, then the counts; exits with 1 if one failed.
#include <string.h>

#include "check.h"
#include "sheet.h"
#include "silverpoise.h"

#define U16 SILVERPOISE_U16
#define NODE SILVERPOISE_NODE
#define NAME SILVERPOISE_NAME

// A form whose only name is the short v. Its last node is its only field.
#define FORM(nodes, ...) \
  {U16(nodes), U16(1), U16(1), U16(1), U16((nodes)-1), __VA_ARGS__, NAME(SILVERPOISE_NAME_SHORT, 0, 1), 'v'}
#define FLAG_V(r) NODE(SILVERPOISE_NODE_FLAG, 0, 1, r, 0, 0)
#define ARGUMENT_V(r) NODE(SILVERPOISE_NODE_ARGUMENT, 0, 1, r, 0, 0)
#define POSITIONAL(p, r) NODE(SILVERPOISE_NODE_POSITIONAL, p, 0, r, 0, 0)
#define ABOVE(child, kind, r) NODE(kind, child, 0, r, 0, 0)

static uint8_t form[SILVERPOISE_MAX_FORM + 64], sheet[SILVERPOISE_MAX_SHEET + 64]; // with room for one more of everything
static uint32_t items[SILVERPOISE_ITEM_SLICE], answers[SILVERPOISE_ANSWER_SLICE], list[SILVERPOISE_LIST_SLICE];

// Writes the sheet of a line and returns its length.
static size_t make_sheet(const char *line) { return write_sheet(sheet, line); }

#define RUN(bytes, line) run(bytes, sizeof bytes, line, SILVERPOISE_LIST_SLICE)

static SilverpoiseRunAnswer run(const uint8_t *bytes, size_t length, const char *line, size_t list_count) {
  size_t sheet_length = make_sheet(line);
  return silverpoise_run(bytes, length, sheet, sheet_length, items, SILVERPOISE_ITEM_SLICE, answers, SILVERPOISE_ANSWER_SLICE,
                         list, list_count);
}

static uint32_t item_kind(size_t place) { return items[SILVERPOISE_RECORD_WORDS * place]; }

// Writes a form of as many of everything and returns its length: a number positional for each field, the last of them beneath
// guards that make up the other nodes, and empty texts as names.
static size_t make_form(size_t nodes, size_t fields, size_t names, size_t area) {
  uint8_t *to = put_u16(put_u16(put_u16(put_u16(form, nodes), fields), names), area);
  for (size_t i = 1; i < fields; i++) to = put_u16(to, i - 1);
  to = put_u16(to, nodes - 1);
  memset(to, 0, 16 * nodes + 6 * names + area);
  for (size_t i = 0; i < nodes; i++, to += 16) {
    put_u16(to, i < fields ? SILVERPOISE_NODE_POSITIONAL : SILVERPOISE_NODE_GUARD);
    put_u16(to + 2, i < fields ? SILVERPOISE_POSITIONAL_UNRESTRICTED : i - 1);
    put_u16(to + 6, i < fields ? SILVERPOISE_VALUE_NUMBER : 0);
  }
  for (size_t i = 0; i < names; i++, to += 6) put_u16(to, SILVERPOISE_NAME_TEXT);
  return (size_t)(to - form) + area;
}

// Writes so many times the same entry, behind their count and offsets of four bytes, and returns the length.
static size_t make_entries(uint8_t *start, size_t count, const uint8_t *entry, size_t size) {
  uint8_t *to = put_u16(start, count);
  for (size_t i = 0; i <= count; i++) to = put_u16(put_u16(to, i * size), 0);
  for (size_t i = 0; i < count; i++, to += size) memcpy(to, entry, size);
  return (size_t)(to - start);
}

// Writes a table of so many entries and returns its length: each has the long name `a` and the form of one positional.
static size_t make_table(uint8_t *table, size_t count) {
  static const uint8_t entry[] = {
    U16(1), U16(1), NAME(SILVERPOISE_NAME_LONG, 0, 1), 'a', U16(1), U16(1), U16(0), U16(0), U16(0), POSITIONAL(0, 0)};
  return make_entries(table, count, entry, sizeof entry);
}

// The number of a batch of so many sheets `-v`, with so many words for the records; in the other slices there is room for one
// sheet more than there may be. The answer word of the last sheet goes to `last`.
static uint32_t batch_number(size_t count, size_t record_words, uint32_t *last) {
  enum { ROOM = SILVERPOISE_MAX_SHEETS + 1 };
  static const uint8_t flag[] = FORM(1, FLAG_V(SILVERPOISE_FLAG_REQUIRED)), v[] = {U16(1), U16(0), U16(2), '-', 'v'};
  static uint8_t batch[16 * (ROOM + 1)];
  static uint32_t records[SILVERPOISE_BATCH_RECORD_WORDS * ROOM], parts[SILVERPOISE_ITEM_SLICE * ROOM];
  static uint32_t words[SILVERPOISE_ANSWER_SLICE * ROOM], lists[SILVERPOISE_LIST_SLICE * ROOM];
  SilverpoiseRefused r =
      silverpoise_run_batch(flag, sizeof flag, batch, make_entries(batch, count, v, sizeof v), records, record_words, parts,
                            SILVERPOISE_ITEM_SLICE * ROOM, words, SILVERPOISE_ANSWER_SLICE * ROOM, lists,
                            SILVERPOISE_LIST_SLICE * ROOM);
  *last = words[SILVERPOISE_ANSWER_SLICE * (count - 1)];
  return r.number;
}

static uint32_t form_number(size_t nodes, size_t fields, size_t names, size_t area) {
  size_t length = make_form(nodes, fields, names, area);
  return silverpoise_form_check(form, length).number;
}

// A sheet of so many arguments, of which the last has all the bytes.
static uint32_t sheet_number(size_t count, size_t area, size_t *length) {
  uint8_t *offset = put_u16(sheet, count);
  for (size_t i = 0; i < count; i++) offset = put_u16(offset, 0);
  offset = put_u16(offset, area);
  *length = (size_t)(offset - sheet) + area;
  return silverpoise_sheet_check(sheet, *length).number;
}

static void limits(void) {
  enum { NODES = SILVERPOISE_MAX_NODES, FIELDS = SILVERPOISE_MAX_FIELDS, NAMES = SILVERPOISE_MAX_NAMES };
  enum { AREA = SILVERPOISE_MAX_FORM_AREA };
  CHECK(make_form(NODES, FIELDS, NAMES, AREA) == SILVERPOISE_MAX_FORM);
  CHECK(form_number(NODES, FIELDS, NAMES, AREA) == SILVERPOISE_ACCEPTED);
  CHECK(form_number(NODES + 1, FIELDS, NAMES, AREA) == SILVERPOISE_REFUSED_FORM);
  CHECK(form_number(NODES, FIELDS + 1, NAMES, AREA) == SILVERPOISE_REFUSED_FORM);
  CHECK(form_number(NODES, FIELDS, NAMES + 1, AREA) == SILVERPOISE_REFUSED_FORM);
  CHECK(form_number(NODES, FIELDS, NAMES, AREA + 1) == SILVERPOISE_REFUSED_FORM);

  size_t length;
  CHECK(sheet_number(SILVERPOISE_MAX_ARGUMENTS, SILVERPOISE_MAX_SHEET_AREA, &length) == SILVERPOISE_ACCEPTED);
  CHECK(length == SILVERPOISE_MAX_SHEET);
  CHECK(sheet_number(SILVERPOISE_MAX_ARGUMENTS + 1, SILVERPOISE_MAX_SHEET_AREA, &length) == SILVERPOISE_REFUSED_ARGUMENTS);
  CHECK(sheet_number(SILVERPOISE_MAX_ARGUMENTS, SILVERPOISE_MAX_SHEET_AREA + 1, &length) == SILVERPOISE_REFUSED_SHEET);

  static const uint8_t many[] = FORM(2, FLAG_V(SILVERPOISE_FLAG_REQUIRED), ABOVE(0, SILVERPOISE_NODE_MANY, 0));
  char cluster[SILVERPOISE_MAX_ITEMS + 3] = "-";
  memset(cluster + 1, 'v', SILVERPOISE_MAX_ITEMS);
  CHECK(RUN(many, cluster).number == SILVERPOISE_ACCEPTED && answers[0] == SILVERPOISE_MAX_ITEMS);
  cluster[SILVERPOISE_MAX_ITEMS + 1] = 'v';
  CHECK(RUN(many, cluster).number == SILVERPOISE_REFUSED_ITEMS);
}

static void limits_of_entries(void) {
  static uint8_t table[64 * (SILVERPOISE_MAX_COMMANDS + 2)];
  CHECK(silverpoise_commands_check(table, make_table(table, SILVERPOISE_MAX_COMMANDS)).number == SILVERPOISE_ACCEPTED);
  CHECK(silverpoise_commands_check(table, make_table(table, SILVERPOISE_MAX_COMMANDS + 1)).number == SILVERPOISE_REFUSED_TABLE);

  enum { SHEETS = SILVERPOISE_MAX_SHEETS, RECORDS = SILVERPOISE_BATCH_RECORD_WORDS * SHEETS };
  uint32_t last;
  CHECK(batch_number(SHEETS, RECORDS, &last) == SILVERPOISE_ACCEPTED && last == 1);
  CHECK(batch_number(SHEETS, RECORDS - 1, &last) == SILVERPOISE_REFUSED_BATCH && last == 0);
  CHECK(batch_number(SHEETS + 1, RECORDS + SILVERPOISE_BATCH_RECORD_WORDS, &last) == SILVERPOISE_REFUSED_BATCH && last == 0);
}

static void refusals_of_input(void) {
  static const uint8_t name[] = {
    U16(1), U16(1), U16(1), U16(0), U16(0), POSITIONAL(0, 0), NAME(SILVERPOISE_NAME_TEXT + 1, 0, 0)};
  static const uint8_t node[] = FORM(1, NODE(SILVERPOISE_NODE_GUARD + 1, 0, 0, 0, 0, 0));
  static const uint8_t use[] = FORM(2, FLAG_V(SILVERPOISE_FLAG_SWITCH), FLAG_V(SILVERPOISE_FLAG_SWITCH));
  // the letter v is both a flag's and an argument's
  static const uint8_t both[] = {
    U16(2), U16(2), U16(1), U16(1), U16(0), U16(1), FLAG_V(SILVERPOISE_FLAG_SWITCH), ARGUMENT_V(SILVERPOISE_VALUE_TEXT),
    NAME(SILVERPOISE_NAME_SHORT, 0, 1), 'v'};
  CHECK(RUN(name, "").number == SILVERPOISE_REFUSED_NAME);
  CHECK(RUN(node, "").number == SILVERPOISE_REFUSED_NODE);
  CHECK(RUN(use, "").number == SILVERPOISE_REFUSED_USE);
  CHECK(RUN(both, "-vv").number == SILVERPOISE_REFUSED_AMBIGUOUS);
  CHECK(run(both, sizeof both, "-vv", SILVERPOISE_LIST_SLICE - 1).number == SILVERPOISE_REFUSED_LIST);
  CHECK(silverpoise_split(both, sizeof both, sheet, make_sheet(""), items, 0).number == SILVERPOISE_REFUSED_SLICE);
}

static void refusals_of_runs(void) {
  static const uint8_t flag[] = FORM(1, FLAG_V(SILVERPOISE_FLAG_REQUIRED));
  static const uint8_t switched[] = FORM(1, FLAG_V(SILVERPOISE_FLAG_SWITCH));
  static const uint8_t text[] = FORM(1, ARGUMENT_V(SILVERPOISE_VALUE_TEXT));
  static const uint8_t adjacent[] = FORM(1, ARGUMENT_V(SILVERPOISE_VALUE_ADJACENT_TEXT));
  static const uint8_t adjacent_number[] = FORM(1, ARGUMENT_V(SILVERPOISE_VALUE_ADJACENT_NUMBER));
  static const uint8_t strict[] = FORM(1, POSITIONAL(SILVERPOISE_POSITIONAL_STRICT, SILVERPOISE_VALUE_TEXT));
  static const uint8_t non_strict[] = FORM(1, POSITIONAL(SILVERPOISE_POSITIONAL_NON_STRICT, SILVERPOISE_VALUE_TEXT));
  static const uint8_t some[] = FORM(2, FLAG_V(SILVERPOISE_FLAG_REQUIRED), ABOVE(0, SILVERPOISE_NODE_SOME, 0));
  static const uint8_t guard[] = FORM(2, POSITIONAL(SILVERPOISE_POSITIONAL_UNRESTRICTED, SILVERPOISE_VALUE_NUMBER),
                                      NODE(SILVERPOISE_NODE_GUARD, 0, 0, 0, 70000, 4294967295));
  static const uint8_t caught[] = FORM(2, POSITIONAL(SILVERPOISE_POSITIONAL_UNRESTRICTED, SILVERPOISE_VALUE_NUMBER),
                                       ABOVE(0, SILVERPOISE_NODE_OPTIONAL, SILVERPOISE_CATCH));
  CHECK(RUN(flag, "").number == SILVERPOISE_REFUSED_MISSING);
  CHECK(RUN(some, "").number == SILVERPOISE_REFUSED_PARSE_SOME);
  CHECK(RUN(text, "-v").number == SILVERPOISE_REFUSED_NO_ARGUMENT);
  CHECK(RUN(strict, "a").number == SILVERPOISE_REFUSED_STRICT_POS);
  CHECK(RUN(non_strict, "-- a").number == SILVERPOISE_REFUSED_NON_STRICT_POS);
  CHECK(RUN(guard, "a").number == SILVERPOISE_REFUSED_PARSE_FAILED);
  CHECK(RUN(guard, "69999").number == SILVERPOISE_REFUSED_GUARD_FAILED);
  CHECK(RUN(guard, "70000").number == SILVERPOISE_ACCEPTED && answers[0] == 70000);
  CHECK(RUN(guard, "4294967295").number == SILVERPOISE_ACCEPTED && answers[0] == 4294967295);
  CHECK(RUN(switched, "a").number == SILVERPOISE_REFUSED_UNCONSUMED);
  CHECK(RUN(caught, "a").number == SILVERPOISE_REFUSED_UNCONSUMED);
  CHECK(RUN(adjacent, "-v 7").number == SILVERPOISE_REFUSED_MISSING);
  CHECK(RUN(adjacent, "-va").number == SILVERPOISE_ACCEPTED);
  CHECK(RUN(adjacent_number, "-v 7").number == SILVERPOISE_REFUSED_MISSING);
  CHECK(RUN(adjacent_number, "-va").number == SILVERPOISE_REFUSED_PARSE_FAILED);
}

static SilverpoiseCommandAnswer run_commands(const uint8_t *table, size_t length, const char *line) {
  size_t sheet_length = make_sheet(line);
  return silverpoise_run_commands(table, length, sheet, sheet_length, items, SILVERPOISE_ITEM_SLICE, answers,
                                  SILVERPOISE_ANSWER_SLICE, list, SILVERPOISE_LIST_SLICE);
}

static void refusals_of_commands(void) {
  static uint8_t table[64];
  size_t length = make_table(table, 1);
  CHECK(run_commands(table, length - 1, "a b").number == SILVERPOISE_REFUSED_TABLE);
  CHECK(run_commands(table, length, "b b").number == SILVERPOISE_REFUSED_COMMAND);
  SilverpoiseCommandAnswer r = run_commands(table, length, "a b");
  CHECK(r.number == SILVERPOISE_ACCEPTED && answers[0] == 1 && r.state.marks[0] == SILVERPOISE_MARK_COMMAND);
}

#define WHY(bytes, line, place) why(bytes, sizeof bytes, line, place)

static SilverpoiseWhyAnswer why(const uint8_t *bytes, size_t length, const char *line, size_t place) {
  size_t sheet_length = make_sheet(line);
  return silverpoise_why(bytes, length, sheet, sheet_length, place, items, SILVERPOISE_ITEM_SLICE, answers,
                         SILVERPOISE_ANSWER_SLICE, list, SILVERPOISE_LIST_SLICE);
}

static void reasons(void) {
  static const uint8_t switched[] = FORM(1, FLAG_V(SILVERPOISE_FLAG_SWITCH));
  static const uint8_t number[] = FORM(2, POSITIONAL(SILVERPOISE_POSITIONAL_UNRESTRICTED, SILVERPOISE_VALUE_NUMBER),
                                       ABOVE(0, SILVERPOISE_NODE_OPTIONAL, SILVERPOISE_CATCH));
  // the argument v, or a word
  static const uint8_t choice[] = FORM(3, ARGUMENT_V(SILVERPOISE_VALUE_TEXT),
                                       POSITIONAL(SILVERPOISE_POSITIONAL_UNRESTRICTED, SILVERPOISE_VALUE_TEXT),
                                       NODE(SILVERPOISE_NODE_CHOICE, 0, 1, 0, 0, 0));
  SilverpoiseWhyAnswer w = WHY(choice, "a -v b", 1);
  CHECK(w.reason == SILVERPOISE_REASON_LOST_CHOICE && w.detail == 0 + 1);
  w = WHY(switched, "-v a -v -v", 3);
  CHECK(w.reason == SILVERPOISE_REASON_GIVEN_EARLIER && w.detail == 2 + 1);
  CHECK(WHY(switched, "-v=7", 1).reason == SILVERPOISE_REASON_KEY_USED);
  CHECK(WHY(switched, "--v", 0).reason == SILVERPOISE_REASON_UNNAMED);
  CHECK(WHY(switched, "-xy", 0).reason == SILVERPOISE_REASON_NO_POSITIONAL);
  w = WHY(number, "-xy", 0);
  CHECK(w.reason == SILVERPOISE_REASON_UNKNOWN_LETTER && w.detail == 'x');
  CHECK(WHY(number, "a", 0).reason == SILVERPOISE_REASON_NONE_OF_THESE);
  CHECK(WHY(switched, "-v", 0).number == SILVERPOISE_REFUSED_NOT_THERE);
}

static SilverpoiseCarefulAnswer careful(const uint8_t *bytes, size_t length, const char *line) {
  size_t sheet_length = make_sheet(line);
  return silverpoise_careful(bytes, length, sheet, sheet_length, items, SILVERPOISE_ITEM_SLICE, answers,
                             SILVERPOISE_ANSWER_SLICE, list, SILVERPOISE_LIST_SLICE);
}

static void refusal_of_the_careful_run(void) {
  static const uint8_t value[] = FORM(1, ARGUMENT_V(SILVERPOISE_VALUE_TEXT));
  SilverpoiseCarefulAnswer a = careful(value, sizeof value, "-v -xy");
  CHECK(a.number == SILVERPOISE_REFUSED_MISREAD && a.letter == 'x' + 1 && item_kind(1) == SILVERPOISE_ITEM_WORD);
  CHECK(a.state.marks[1] == SILVERPOISE_MARK_FIELD + 0);
  CHECK(careful(value, sizeof value, "-v-xy").number == SILVERPOISE_ACCEPTED);
  CHECK(RUN(value, "-v -xy").number == SILVERPOISE_ACCEPTED);
}

static void refusals_of_calls(void) {
  static const uint8_t flag[] = FORM(1, FLAG_V(SILVERPOISE_FLAG_REQUIRED));
  SilverpoiseState state = RUN(flag, "-v").state;
  size_t length = make_sheet("-v");
  CHECK(silverpoise_remove(state, 0, 0).number == SILVERPOISE_ACCEPTED);
  CHECK(silverpoise_remove(state, 1, 0).number == SILVERPOISE_REFUSED_NOT_THERE);
  CHECK(silverpoise_remove(state, 0, SILVERPOISE_MAX_FIELDS - 1).number == SILVERPOISE_ACCEPTED);
  CHECK(silverpoise_remove(state, 0, SILVERPOISE_MAX_FIELDS).number == SILVERPOISE_REFUSED_NOT_THERE);
  state.marks[0] = SILVERPOISE_MARK_CONFLICT + 1; // there is no place 1
  CHECK(silverpoise_remove(state, 0, 0).number == SILVERPOISE_REFUSED_STATE);
  items[0] = SILVERPOISE_ITEM_POS_WORD + 1;
  CHECK(silverpoise_get(sheet, length, items, SILVERPOISE_ITEM_SLICE, state, 0).number == SILVERPOISE_REFUSED_RECORD);
}

// The form with all eleven kinds, and its line, of docs/FORMAT.md 7.1.
static const uint8_t ALL_KINDS[] = {
  U16(17), U16(8), U16(8), U16(11), U16(0), U16(2), U16(4), U16(6), U16(8), U16(11), U16(14), U16(16),
  NODE(SILVERPOISE_NODE_FLAG, 0, 1, SILVERPOISE_FLAG_REQUIRED, 0, 0),
  NODE(SILVERPOISE_NODE_ARGUMENT, 1, 1, SILVERPOISE_VALUE_TEXT, 0, 0),
  ABOVE(1, SILVERPOISE_NODE_OPTIONAL, 0),
  NODE(SILVERPOISE_NODE_ARGUMENT, 2, 1, SILVERPOISE_VALUE_ADJACENT_NUMBER, 0, 0),
  ABOVE(3, SILVERPOISE_NODE_MANY, 0),
  NODE(SILVERPOISE_NODE_FLAG, 3, 1, SILVERPOISE_FLAG_SWITCH, 0, 0),
  ABOVE(5, SILVERPOISE_NODE_COUNT, 0),
  NODE(SILVERPOISE_NODE_ARGUMENT, 4, 1, SILVERPOISE_VALUE_TEXT, 0, 0),
  ABOVE(7, SILVERPOISE_NODE_LAST, 0),
  NODE(SILVERPOISE_NODE_FLAG, 5, 1, SILVERPOISE_FLAG_REQUIRED, 0, 0),
  NODE(SILVERPOISE_NODE_FLAG, 6, 1, SILVERPOISE_FLAG_SWITCH, 0, 0),
  NODE(SILVERPOISE_NODE_CHOICE, 9, 10, 0, 0, 0),
  NODE(SILVERPOISE_NODE_ARGUMENT, 7, 1, SILVERPOISE_VALUE_NUMBER, 0, 0),
  NODE(SILVERPOISE_NODE_FALLBACK, 12, 0, 0, 9, 0),
  NODE(SILVERPOISE_NODE_GUARD, 13, 0, 0, 1, 9),
  POSITIONAL(SILVERPOISE_POSITIONAL_STRICT, SILVERPOISE_VALUE_TEXT),
  ABOVE(15, SILVERPOISE_NODE_SOME, 0),
  NAME(SILVERPOISE_NAME_SHORT, 0, 1), NAME(SILVERPOISE_NAME_SHORT, 1, 1), NAME(SILVERPOISE_NAME_SHORT, 2, 1),
  NAME(SILVERPOISE_NAME_SHORT, 3, 1), NAME(SILVERPOISE_NAME_LONG, 4, 4), NAME(SILVERPOISE_NAME_SHORT, 8, 1),
  NAME(SILVERPOISE_NAME_SHORT, 9, 1), NAME(SILVERPOISE_NAME_SHORT, 10, 1),
  'f', 't', 'n', 'c', 'l', 'a', 's', 't', 'x', 'y', 'w'};

static void all_kinds(void) {
  static const uint32_t words[] = {1, 1, 11, 2, 3, 4, 2, 9, 1, 9, 1, 13};
  SilverpoiseRunAnswer a = RUN(ALL_KINDS, "-f -ccx -n=3 -n=4 --last z -tu -- s");
  CHECK(a.number == SILVERPOISE_ACCEPTED && a.tries == 15 && a.words == 12);
  CHECK(memcmp(answers, words, sizeof words) == 0);
  CHECK(item_kind(0) == SILVERPOISE_ITEM_SHORT && item_kind(5) == SILVERPOISE_ITEM_ARG_WORD);
  CHECK(item_kind(8) == SILVERPOISE_ITEM_LONG && item_kind(9) == SILVERPOISE_ITEM_WORD);
  CHECK(item_kind(13) == SILVERPOISE_ITEM_POS_WORD);
}

static void value_kinds(void) {
  static const uint8_t options[] =
      FORM(3, FLAG_V(0), ABOVE(0, SILVERPOISE_NODE_OPTIONAL, 0), ABOVE(1, SILVERPOISE_NODE_MANY, 0));
  static const uint8_t list[] =
      FORM(3, FLAG_V(0), ABOVE(0, SILVERPOISE_NODE_MANY, 0), ABOVE(1, SILVERPOISE_NODE_OPTIONAL, 0));
  CHECK(silverpoise_kind(ALL_KINDS, sizeof ALL_KINDS, 0).answer == SILVERPOISE_KIND_YES_NO);
  CHECK(silverpoise_kind(ALL_KINDS, sizeof ALL_KINDS, 1).answer == SILVERPOISE_KIND_TEXT);
  CHECK(silverpoise_kind(ALL_KINDS, sizeof ALL_KINDS, 2).answer == SILVERPOISE_KIND_TEXT + SILVERPOISE_KIND_OPTIONAL);
  CHECK(silverpoise_kind(ALL_KINDS, sizeof ALL_KINDS, 3).answer == SILVERPOISE_KIND_NUMBER);
  CHECK(silverpoise_kind(ALL_KINDS, sizeof ALL_KINDS, 4).answer == SILVERPOISE_KIND_NUMBER + SILVERPOISE_KIND_LIST);
  CHECK(silverpoise_kind(options, sizeof options, 2).answer == SILVERPOISE_KIND_YES_NO + SILVERPOISE_KIND_LIST_OF_OPTIONAL);
  CHECK(silverpoise_kind(list, sizeof list, 2).answer == SILVERPOISE_KIND_YES_NO + SILVERPOISE_KIND_OPTIONAL_LIST);
}

// The word a stands first, so its side of the choice wins; the key v and its value lost to place 0.
static void marks(void) {
  static const uint8_t choice[] =
      FORM(3, ARGUMENT_V(SILVERPOISE_VALUE_TEXT), POSITIONAL(SILVERPOISE_POSITIONAL_UNRESTRICTED, SILVERPOISE_VALUE_TEXT),
           NODE(SILVERPOISE_NODE_CHOICE, 0, 1, 0, 0, 0));
  SilverpoiseState state = RUN(choice, "a -v 7 b --").state;
  CHECK(state.marks[0] == SILVERPOISE_MARK_FIELD + 0 && state.marks[1] == SILVERPOISE_MARK_CONFLICT + 0);
  CHECK(state.marks[2] == SILVERPOISE_MARK_CONFLICT + 0 && state.marks[3] == SILVERPOISE_MARK_UNPARSED);
  CHECK(state.marks[4] == SILVERPOISE_MARK_MARKER);

  // the Word v is the text of the only name
  state = silverpoise_split(choice, sizeof choice, sheet, make_sheet("v"), items, SILVERPOISE_ITEM_SLICE).state;
  state = silverpoise_take_cmd(choice, sizeof choice, sheet, make_sheet("v"), items, SILVERPOISE_ITEM_SLICE, state, 0).state;
  CHECK(state.marks[0] == SILVERPOISE_MARK_COMMAND);
}

// Of a form with as many fields as there may be each has its own mark; the marks beside those that are used are at fault.
static void marks_of_fields(void) {
  enum { FIELDS = SILVERPOISE_MAX_FIELDS };
  size_t length = make_form(FIELDS, FIELDS, 0, 0);
  SilverpoiseState state = run(form, length, "0 1 2 3 4 5 6 7 8 9 10 11 12 13 14 15", SILVERPOISE_LIST_SLICE).state;
  bool own = state.count == FIELDS;
  for (int k = 0; k < FIELDS; k++) own = own && state.marks[k] == SILVERPOISE_MARK_FIELD + k;
  CHECK(own);

  state.marks[0] = SILVERPOISE_MARK_FIELD + FIELDS;
  CHECK(silverpoise_remove(state, 0, 0).number == SILVERPOISE_REFUSED_STATE);
  state.marks[0] = SILVERPOISE_MARK_MARKER - 1;
  CHECK(silverpoise_remove(state, 0, 0).number == SILVERPOISE_REFUSED_STATE);
  state.marks[0] = SILVERPOISE_MARK_COMMAND;
  CHECK(silverpoise_remove(state, 0, 0).number == SILVERPOISE_ACCEPTED);
}

// Neither side of the choice finds anything. Each has its entry: node plus 1, and the scope, here all of the two items.
static void missing(void) {
  static const uint8_t choice[] =
      FORM(3, ARGUMENT_V(SILVERPOISE_VALUE_TEXT), POSITIONAL(SILVERPOISE_POSITIONAL_UNRESTRICTED, SILVERPOISE_VALUE_TEXT),
           NODE(SILVERPOISE_NODE_CHOICE, 0, 1, 0, 0, 0));
  const uint32_t *second = list + SILVERPOISE_ENTRY_WORDS, *third = second + SILVERPOISE_ENTRY_WORDS;
  CHECK(RUN(choice, "-x --y").number == SILVERPOISE_REFUSED_MISSING);
  CHECK(list[0] == 0 + 1 && list[1] == 0 && list[2] == 2);
  CHECK(second[0] == 1 + 1 && second[1] == 0 && second[2] == 2);
  CHECK(third[0] == 0 && third[1] == 0 && third[2] == 0);
}

// A sheet of so many arguments of so many bytes each, over an alphabet of so many letters, into an output of so many bytes.
static uint32_t short_number(size_t arguments, size_t bytes, size_t letters, size_t room) {
  uint8_t *to = put_u16(sheet, arguments), out[SILVERPOISE_MAX_SHORT_SHEET];
  for (size_t i = 0; i <= arguments; i++) to = put_u16(to, i * bytes);
  memset(to, 'a', arguments * bytes);
  return silverpoise_next_sheet((const uint8_t *)"abcdefghi", letters, sheet, (size_t)(to - sheet) + arguments * bytes, out, room).number;
}

static void short_limits(void) {
  enum { ARGUMENTS = SILVERPOISE_MAX_SHORT_ARGUMENTS, BYTES = SILVERPOISE_MAX_SHORT_ARGUMENT };
  enum { LETTERS = SILVERPOISE_MAX_LETTERS, ROOM = SILVERPOISE_MAX_SHORT_SHEET };
  CHECK(short_number(ARGUMENTS, BYTES, LETTERS, ROOM) == SILVERPOISE_ACCEPTED);
  CHECK(2 + 2 * (ARGUMENTS + 1) + ARGUMENTS * BYTES == ROOM);
  CHECK(short_number(ARGUMENTS, BYTES, LETTERS + 1, ROOM) == SILVERPOISE_REFUSED_ALPHABET);
  CHECK(short_number(ARGUMENTS + 1, BYTES, LETTERS, ROOM) == SILVERPOISE_REFUSED_LONG);
  CHECK(short_number(ARGUMENTS, BYTES + 1, LETTERS, ROOM) == SILVERPOISE_REFUSED_LONG);
  CHECK(short_number(ARGUMENTS, BYTES, LETTERS, ROOM - 1) == SILVERPOISE_REFUSED_OUTPUT);
}

// The number of a joining of two forms, of halves of all that there may be and of so many more, into an output of so many bytes.
static uint32_t join_number(size_t nodes, size_t fields, size_t names, size_t area, size_t room) {
  enum { NODES = SILVERPOISE_MAX_NODES / 2, FIELDS = SILVERPOISE_MAX_FIELDS / 2, NAMES = SILVERPOISE_MAX_NAMES / 2 };
  enum { AREA = SILVERPOISE_MAX_FORM_AREA / 2 };
  static uint8_t half[SILVERPOISE_MAX_FORM], out[SILVERPOISE_MAX_FORM];
  size_t length = make_form(NODES, FIELDS, NAMES, AREA);
  memcpy(half, form, length);
  SilverpoiseJoined r =
      silverpoise_join(half, length, form, make_form(NODES + nodes, FIELDS + fields, NAMES + names, AREA + area), out, room);
  return r.number == SILVERPOISE_ACCEPTED && r.length != SILVERPOISE_MAX_FORM ? 100 : r.number;
}

static void join_limits(void) {
  CHECK(join_number(0, 0, 0, 0, SILVERPOISE_MAX_FORM) == SILVERPOISE_ACCEPTED);
  CHECK(join_number(0, 0, 0, 0, SILVERPOISE_MAX_FORM - 1) == SILVERPOISE_REFUSED_JOIN);
  CHECK(join_number(1, 0, 0, 0, SILVERPOISE_MAX_FORM) == SILVERPOISE_REFUSED_JOIN);
  CHECK(join_number(0, 1, 0, 0, SILVERPOISE_MAX_FORM) == SILVERPOISE_REFUSED_JOIN);
  CHECK(join_number(0, 0, 1, 0, SILVERPOISE_MAX_FORM) == SILVERPOISE_REFUSED_JOIN);
  CHECK(join_number(0, 0, 0, 1, SILVERPOISE_MAX_FORM) == SILVERPOISE_REFUSED_JOIN);
}

int main(void) {
  limits();
  short_limits();
  join_limits();
  limits_of_entries();
  refusals_of_input();
  refusals_of_runs();
  refusals_of_commands();
  reasons();
  refusal_of_the_careful_run();
  refusals_of_calls();
  all_kinds();
  value_kinds();
  marks();
  marks_of_fields();
  missing();
  return report();
}
