// Calls every function of silverpoise.h and compares with known answers, most of them those of docs/FORMAT.md (4.6, 7.1, 10.6):
// a wrong declaration shows as a wrong answer. Prints each check that fails, then the counts; exits with 1 if one failed.
//
// The form is that of 7.1, the line `-vw7`, whose items are 0 Short v, 1 Short w, 2 Word `7`. S is the state after the split;
// S0, S1 and S2 are S with place 0, 1 or 2 used: 0 by field 0, the others by field 2.
#include <stdlib.h>
#include <string.h>

#include "check.h"
#include "sheet.h"
#include "silverpoise.h"

#define U16 SILVERPOISE_U16
#define U32 SILVERPOISE_U32
#define NODE SILVERPOISE_NODE
#define NAME SILVERPOISE_NAME

// switch v, switch q, optional number argument w, optional required flag b, optional text argument b
static const uint8_t FORM_BYTES[] = {
  U16(8), U16(5), U16(5), U16(5), U16(0), U16(1), U16(3), U16(5), U16(7),
  NODE(SILVERPOISE_NODE_FLAG, 0, 1, SILVERPOISE_FLAG_SWITCH, 0, 0),
  NODE(SILVERPOISE_NODE_FLAG, 1, 1, SILVERPOISE_FLAG_SWITCH, 0, 0),
  NODE(SILVERPOISE_NODE_ARGUMENT, 2, 1, SILVERPOISE_VALUE_NUMBER, 0, 0),
  NODE(SILVERPOISE_NODE_OPTIONAL, 2, 0, 0, 0, 0),
  NODE(SILVERPOISE_NODE_FLAG, 3, 1, SILVERPOISE_FLAG_REQUIRED, 0, 0),
  NODE(SILVERPOISE_NODE_OPTIONAL, 4, 0, 0, 0, 0),
  NODE(SILVERPOISE_NODE_ARGUMENT, 4, 1, SILVERPOISE_VALUE_TEXT, 0, 0),
  NODE(SILVERPOISE_NODE_OPTIONAL, 6, 0, 0, 0, 0),
  NAME(SILVERPOISE_NAME_SHORT, 0, 1), NAME(SILVERPOISE_NAME_SHORT, 1, 1), NAME(SILVERPOISE_NAME_SHORT, 2, 1),
  NAME(SILVERPOISE_NAME_SHORT, 3, 1), NAME(SILVERPOISE_NAME_SHORT, 4, 1), 'v', 'q', 'w', 'b', 'b'};
static const uint8_t SHEET_BYTES[] = {U16(1), U16(0), U16(4), '-', 'v', 'w', '7'};

// fallback `dd` of the text argument +
static const uint8_t FALLBACK[] = {
  U16(2), U16(1), U16(2), U16(3), U16(1), NODE(SILVERPOISE_NODE_ARGUMENT, 0, 1, SILVERPOISE_VALUE_TEXT, 0, 0),
  NODE(SILVERPOISE_NODE_FALLBACK, 0, 0, 1, 0, 0), NAME(SILVERPOISE_NAME_SHORT, 0, 1), NAME(SILVERPOISE_NAME_TEXT, 1, 2),
  '+', 'd', 'd'};
// switch -6, and switch -W
#define SWITCH(letter) U16(1), U16(1), U16(1), U16(1), U16(0), NODE(SILVERPOISE_NODE_FLAG, 0, 1, SILVERPOISE_FLAG_SWITCH, 0, 0), \
  NAME(SILVERPOISE_NAME_SHORT, 0, 1), letter
static const uint8_t DIGIT[] = {SWITCH('6')}, VENDORS[] = {SWITCH('W')};
static const uint8_t NO_ARGUMENTS[] = {U16(0), U16(0)};
static const uint8_t THREE_WORDS[] = {U16(3), U16(0), U16(1), U16(2), U16(3), 'a', 'b', 'c'};
// switch v, then required flag x: nodes 0 and 1
static const uint8_t REQUIRED[] = {
  U16(2), U16(2), U16(2), U16(2), U16(0), U16(1), NODE(SILVERPOISE_NODE_FLAG, 0, 1, SILVERPOISE_FLAG_SWITCH, 0, 0),
  NODE(SILVERPOISE_NODE_FLAG, 1, 1, SILVERPOISE_FLAG_REQUIRED, 0, 0),
  NAME(SILVERPOISE_NAME_SHORT, 0, 1), NAME(SILVERPOISE_NAME_SHORT, 1, 1), 'v', 'x'};
// switch v and a text positional: nodes 0 and 1
static const uint8_t WITH_WORD[] = {
  U16(2), U16(2), U16(1), U16(1), U16(0), U16(1), NODE(SILVERPOISE_NODE_FLAG, 0, 1, SILVERPOISE_FLAG_SWITCH, 0, 0),
  NODE(SILVERPOISE_NODE_POSITIONAL, SILVERPOISE_POSITIONAL_UNRESTRICTED, 0, SILVERPOISE_VALUE_TEXT, 0, 0),
  NAME(SILVERPOISE_NAME_SHORT, 0, 1), 'v'};
// optional text argument with the names l and limit, switch v, and any number of words: the fields 0, 1 and 2
#define LIMIT_FORM \
  U16(5), U16(3), U16(3), U16(6), U16(1), U16(2), U16(4), NODE(SILVERPOISE_NODE_ARGUMENT, 0, 2, SILVERPOISE_VALUE_TEXT, 0, 0), \
  NODE(SILVERPOISE_NODE_OPTIONAL, 0, 0, 0, 0, 0), NODE(SILVERPOISE_NODE_FLAG, 2, 1, SILVERPOISE_FLAG_SWITCH, 0, 0), \
  NODE(SILVERPOISE_NODE_POSITIONAL, SILVERPOISE_POSITIONAL_UNRESTRICTED, 0, SILVERPOISE_VALUE_TEXT, 0, 0), \
  NODE(SILVERPOISE_NODE_MANY, 3, 0, 0, 0, 0), NAME(SILVERPOISE_NAME_SHORT, 0, 1), NAME(SILVERPOISE_NAME_LONG, 0, 5), \
  NAME(SILVERPOISE_NAME_SHORT, 5, 1), 'l', 'i', 'm', 'i', 't', 'v'
static const uint8_t LIMIT[] = {LIMIT_FORM};
// choice of text argument x and text argument y: nodes 0 and 1, and the choice 2
static const uint8_t CHOICE[] = {
  U16(3), U16(1), U16(2), U16(2), U16(2), NODE(SILVERPOISE_NODE_ARGUMENT, 0, 1, SILVERPOISE_VALUE_TEXT, 0, 0),
  NODE(SILVERPOISE_NODE_ARGUMENT, 1, 1, SILVERPOISE_VALUE_TEXT, 0, 0), NODE(SILVERPOISE_NODE_CHOICE, 0, 1, 0, 0, 0),
  NAME(SILVERPOISE_NAME_SHORT, 0, 1), NAME(SILVERPOISE_NAME_SHORT, 1, 1), 'x', 'y'};
// two commands: `pair` or `p` with the switch -b, and `log` with the required text argument -b
enum { PAIR = 4 + 2 * 6 + 5 + sizeof DIGIT, LOG = 4 + 6 + 3 + sizeof DIGIT };
#define ENTRIES(second_type) U16(2), U32(0), U32(PAIR), U32(PAIR + LOG), \
  U16(2), U16(5), NAME(SILVERPOISE_NAME_LONG, 0, 4), NAME(SILVERPOISE_NAME_SHORT, 4, 1), 'p', 'a', 'i', 'r', 'p', SWITCH('b'), \
  U16(1), U16(3), NAME(second_type, 0, 3), 'l', 'o', 'g'
#define ARGUMENT_FORM(kind) U16(1), U16(1), U16(1), U16(1), U16(0), NODE(kind, 0, 1, SILVERPOISE_VALUE_TEXT, 0, 0), \
  NAME(SILVERPOISE_NAME_SHORT, 0, 1), 'b'
static const uint8_t TABLE_BYTES[] = {ENTRIES(SILVERPOISE_NAME_LONG), ARGUMENT_FORM(SILVERPOISE_NODE_ARGUMENT)};
// with a node of no kind in the form of `log`, and with `log` as a text besides
static const uint8_t FORM_AT_FAULT[] = {ENTRIES(SILVERPOISE_NAME_LONG), ARGUMENT_FORM(0)};
static const uint8_t NAME_AT_FAULT[] = {ENTRIES(SILVERPOISE_NAME_TEXT), ARGUMENT_FORM(0)};
// two commands: `set` with the form above, and `-17` with the switch -6
enum { SET = 4 + 6 + 3 + sizeof LIMIT, BELOW = 4 + 6 + 3 + sizeof DIGIT };
static const uint8_t LOOKS[] = {
  U16(2), U32(0), U32(SET), U32(SET + BELOW), U16(1), U16(3), NAME(SILVERPOISE_NAME_LONG, 0, 3), 's', 'e', 't', LIMIT_FORM,
  U16(1), U16(3), NAME(SILVERPOISE_NAME_LONG, 0, 3), '-', '1', '7', SWITCH('6')};
// three sheets: the one above, `-vw`, and one that is cut off
enum { SHEETS = 3, SECOND = sizeof SHEET_BYTES, THIRD = SECOND + 9, END = THIRD + 2, HEADER = 2 + 4 * (SHEETS + 1) };
#define BATCH_HEADER(count, o0, o1, o2, o3) U16(count), U32(o0), U32(o1), U32(o2), U32(o3)
#define BATCH_SHEETS U16(1), U16(0), U16(4), '-', 'v', 'w', '7', U16(1), U16(0), U16(3), '-', 'v', 'w', U16(1)
static const uint8_t BATCH_BYTES[] = {BATCH_HEADER(SHEETS, 0, SECOND, THIRD, END), BATCH_SHEETS};

// Slices of exactly the lengths that are lent, on the heap, so that valgrind sees a read or write outside of them.
static uint8_t *form, *sheet, *table, *batch;
static uint32_t *items, *answers, *list;
#define FORM form, sizeof FORM_BYTES
#define SHEET sheet, sizeof SHEET_BYTES
#define TABLE table, sizeof TABLE_BYTES
#define BATCH batch, sizeof BATCH_BYTES
#define ITEMS items, SILVERPOISE_ITEM_SLICE
#define ANSWERS answers, SILVERPOISE_ANSWER_SLICE
#define LIST list, SILVERPOISE_LIST_SLICE

static SilverpoiseState S, S0, S1, S2;

// The marks of what the five fields of the form use.
enum { BY_V = 512, BY_Q, BY_W, BY_FLAG_B, BY_TEXT_B };

static void *lend(const void *bytes, size_t size) {
  void *copy = malloc(size);
  if (copy == NULL) exit(2);
  if (bytes != NULL) memcpy(copy, bytes, size);
  return copy;
}

// A state over the three items.
static SilverpoiseState state(uint16_t mark0, uint16_t mark1, uint16_t mark2, uint32_t remaining, uint32_t current) {
  SilverpoiseState s = {{mark0, mark1, mark2}, 3, remaining, current, 0, 3};
  return s;
}

// A state has no padding.
static bool same(SilverpoiseState a, SilverpoiseState b) { return memcmp(&a, &b, sizeof a) == 0; }

static bool is(SilverpoiseAnswer a, uint32_t number, uint32_t place, uint32_t found, uint32_t first, uint32_t second) {
  return a.number == number && a.place == place && a.found == found && a.first == first && a.second == second;
}

static bool leaves(SilverpoiseStateAnswer a, uint32_t number, uint32_t place, uint32_t found, uint32_t first, uint32_t second,
                   SilverpoiseState s) {
  return a.number == number && a.place == place && a.found == found && a.first == first && a.second == second &&
         same(a.state, s);
}

// A preview beside the take itself on the same state, and its places.
static bool shows(SilverpoisePreviewAnswer p, SilverpoiseStateAnswer a, uint32_t places, uint32_t lower, uint32_t upper) {
  return leaves(a, p.number, p.place, p.found, p.first, p.second, p.state) && p.places == places && p.lower == lower &&
         p.upper == upper;
}

static bool refused(SilverpoiseRefused r, uint32_t number, uint32_t place) { return r.number == number && r.place == place; }

static bool told(SilverpoiseTold t, uint32_t number, uint32_t answer) {
  return t.number == number && t.place == 0 && t.answer == answer;
}

static bool idle(SilverpoiseIdleAnswer a, uint32_t number, uint32_t place, uint64_t nodes) {
  return a.number == number && a.place == place && a.nodes == nodes;
}

static bool ran(SilverpoiseRunAnswer r, uint32_t number, uint32_t place, uint32_t tries, uint32_t words, SilverpoiseState s) {
  return r.number == number && r.place == place && r.tries == tries && r.words == words && same(r.state, s);
}

static bool commanded(SilverpoiseCommandAnswer r, uint32_t number, uint32_t place, uint32_t tries, uint32_t words,
                      uint32_t comparisons, uint32_t entry, SilverpoiseState s) {
  return r.number == number && r.place == place && r.tries == tries && r.words == words && r.comparisons == comparisons &&
         r.entry == entry && same(r.state, s);
}

static bool table_refused(SilverpoiseTableRefused r, uint32_t number, uint32_t place, uint32_t entry) {
  return r.number == number && r.place == place && r.entry == entry;
}

static bool form_stands(SilverpoiseFormPart p, uint32_t number, size_t offset, size_t length) {
  return p.number == number && p.place == 0 && p.offset == offset && p.length == length;
}

static bool stands(SilverpoiseTextPart p, uint32_t number, uint32_t source, uint32_t offset, uint32_t length) {
  return p.number == number && p.place == 0 && p.source == source && p.offset == offset && p.length == length;
}

// Whether a slice begins with these words and all behind them, up to `count`, are `rest`.
static bool holds(const uint32_t *slice, size_t count, const uint32_t *words, size_t known, uint32_t rest) {
  for (size_t i = 0; i < count; i++) {
    if (slice[i] != (i < known ? words[i] : rest)) return false;
  }
  return true;
}

static void fill(uint32_t *slice, size_t count, uint32_t word) {
  for (size_t i = 0; i < count; i++) slice[i] = word;
}

static void utf8(void) {
  uint8_t *text = (uint8_t *)lend("a\xc3\xa9", 3);
  CHECK(silverpoise_utf8_valid(text, 3));
  CHECK(!silverpoise_utf8_valid(text, 2));
  CHECK(silverpoise_utf8_valid(NULL, 0));
  SilverpoiseDecoding d = silverpoise_utf8_decode(text, 3, 1);
  CHECK(d.found && d.character == 0xe9 && d.size == 2);
  d = silverpoise_utf8_decode(text, 3, 2);
  CHECK(!d.found && d.character == 0 && d.size == 0);
  free(text);
}

static void refusals(void) {
  const SilverpoiseRefused missing = {20, 0}, at_4 = {20, 5}, at_6 = {20, 7}, key = {22, 1}, word = {24, 2}, text = {25, 3};
  CHECK(silverpoise_can_catch(24) && !silverpoise_can_catch(25));
  CHECK(!silverpoise_can_catch(20 + 256)); // a number of more than eight bits
  CHECK(silverpoise_wrong_input(27) && !silverpoise_wrong_input(26));
  CHECK(!silverpoise_wrong_input(27 + 256));
  CHECK(refused(silverpoise_combine_with(at_4, at_6), 20, 0));
  CHECK(refused(silverpoise_combine_with(word, text), 25, 3));
  CHECK(refused(silverpoise_combine_with(key, missing), 22, 1));
}

static void checks(void) {
  // node 0 is used twice: as both children of the choice
  static const uint8_t shared[] = {
    U16(2), U16(1), U16(1), U16(1), U16(1), NODE(SILVERPOISE_NODE_FLAG, 0, 1, SILVERPOISE_FLAG_REQUIRED, 0, 0),
    NODE(SILVERPOISE_NODE_CHOICE, 0, 0, 0, 0, 0), NAME(SILVERPOISE_NAME_SHORT, 0, 1), 'v'};
  static const uint8_t count_257[] = {U16(257)};
  CHECK(refused(silverpoise_form_check(FORM), 0, 0));
  CHECK(refused(silverpoise_form_check(shared, sizeof shared), 4, 1));
  CHECK(refused(silverpoise_form_check(NULL, 0), 1, 0));
  CHECK(refused(silverpoise_sheet_check(SHEET), 0, 0));
  CHECK(refused(silverpoise_sheet_check(count_257, sizeof count_257), 6, 0));
  CHECK(refused(silverpoise_sheet_check(NULL, 0), 5, 0));
  CHECK(told(silverpoise_kind(FORM, 3), 0, SILVERPOISE_KIND_NUMBER + SILVERPOISE_KIND_OPTIONAL));
  CHECK(told(silverpoise_kind(FORM, 3 + ((size_t)1 << 32)), 28, 0)); // a number of 64 bits
  CHECK(told(silverpoise_portable(FORM), 0, 1));
  CHECK(told(silverpoise_portable(FALLBACK, sizeof FALLBACK), 0, 0)); // + is not alphanumeric
  CHECK(told(silverpoise_portable(DIGIT, sizeof DIGIT), 0, 1));
  CHECK(told(silverpoise_portable(VENDORS, sizeof VENDORS), 0, 0)); // W is reserved
  CHECK(idle(silverpoise_idle_repeats(FORM), 0, 0, 0)); // no repeat
  CHECK(idle(silverpoise_idle_repeats(LIMIT, sizeof LIMIT), 0, 0, 0)); // many of a positional
  CHECK(idle(silverpoise_idle_repeats(shared, sizeof shared), 4, 1, 0));
  CHECK(idle(silverpoise_idle_repeats(NULL, 0), 1, 0, 0));
}

// Count of a switch, many of a choice of a required flag and a switch, some of a guard of a fallback: nodes 1, 5 and 9. Not last of a
// required flag, nor an optional by itself.
static void idle_repeats(void) {
  static const uint8_t bytes[] = {
    U16(14), U16(5), U16(1), U16(1), U16(1), U16(5), U16(9), U16(11), U16(13),
    NODE(SILVERPOISE_NODE_FLAG, 0, 1, SILVERPOISE_FLAG_SWITCH, 0, 0), NODE(SILVERPOISE_NODE_COUNT, 0, 0, 0, 0, 0),
    NODE(SILVERPOISE_NODE_FLAG, 0, 1, SILVERPOISE_FLAG_REQUIRED, 0, 0), NODE(SILVERPOISE_NODE_FLAG, 0, 1, SILVERPOISE_FLAG_SWITCH, 0, 0),
    NODE(SILVERPOISE_NODE_CHOICE, 2, 3, 0, 0, 0), NODE(SILVERPOISE_NODE_MANY, 4, 0, 0, 0, 0),
    NODE(SILVERPOISE_NODE_ARGUMENT, 0, 1, SILVERPOISE_VALUE_NUMBER, 0, 0), NODE(SILVERPOISE_NODE_FALLBACK, 6, 0, 0, 7, 0),
    NODE(SILVERPOISE_NODE_GUARD, 7, 0, 0, 1, 9), NODE(SILVERPOISE_NODE_SOME, 8, 0, 0, 0, 0),
    NODE(SILVERPOISE_NODE_FLAG, 0, 1, SILVERPOISE_FLAG_REQUIRED, 0, 0), NODE(SILVERPOISE_NODE_LAST, 10, 0, 0, 0, 0),
    NODE(SILVERPOISE_NODE_ARGUMENT, 0, 1, SILVERPOISE_VALUE_TEXT, 0, 0), NODE(SILVERPOISE_NODE_OPTIONAL, 12, 0, 0, 0, 0),
    NAME(SILVERPOISE_NAME_SHORT, 0, 1), 'v'};
  CHECK(idle(silverpoise_idle_repeats(bytes, sizeof bytes), 0, 0, 1u << 1 | 1u << 5 | 1u << 9));

  // as many nodes as a form may have: many of a choice of 32 switches, which is node 63
  static const uint8_t head[] = {U16(64), U16(1), U16(1), U16(1), U16(63)}, tail[] = {NAME(SILVERPOISE_NAME_SHORT, 0, 1), 'v'};
  static const uint8_t flag[] = {NODE(SILVERPOISE_NODE_FLAG, 0, 1, SILVERPOISE_FLAG_SWITCH, 0, 0)};
  static const uint8_t choice[] = {NODE(SILVERPOISE_NODE_CHOICE, 0, 1, 0, 0, 0)}, many[] = {NODE(SILVERPOISE_NODE_MANY, 62, 0, 0, 0, 0)};
  uint8_t wide[sizeof head + 64 * sizeof flag + sizeof tail], *node = wide + sizeof head;
  memcpy(wide, head, sizeof head);
  for (int n = 0; n < 64; n++, node += sizeof flag) {
    memcpy(node, n < 32 ? flag : n < 63 ? choice : many, sizeof flag);
    if (n > 32 && n < 63) node[2] = (uint8_t)(n - 1), node[4] = (uint8_t)(n - 31);
  }
  memcpy(node, tail, sizeof tail);
  CHECK(idle(silverpoise_idle_repeats(wide, sizeof wide), 0, 0, (uint64_t)1 << 63));
}

static void splitting(void) {
  static const uint32_t records[] = {1, 0, 'v', 0, 0, 0, 4, 1, 1, 'w', 0, 0, 0, 4, 4, 0, 0, 0, 0, 3, 1};
  static const uint32_t ambiguous[] = {1, 0, 'v', 0, 0, 0, 3, 4, 0, 0, 0, 0, 0, 3};
  static const uint8_t both[] = {U16(1), U16(0), U16(3), '-', 'v', 'b'};
  // `-v` `--` `--`: only the first `--` opens
  static const uint8_t dashes[] = {U16(3), U16(0), U16(2), U16(4), U16(6), '-', 'v', '-', '-', '-', '-'};
  const SilverpoiseState empty = {{0}, 0, 0, 0, 0, 0}, two = {{0}, 2, 2, 0, 0, 2};

  fill(ITEMS, 7);
  SilverpoiseSplitAnswer a = silverpoise_split(FORM, SHEET, ITEMS);
  CHECK(a.number == 0 && a.place == 0 && same(a.state, state(0, 0, 0, 3, 0)));
  CHECK(holds(ITEMS, records, 21, 0));

  fill(ITEMS, 7);
  a = silverpoise_split(FORM, both, sizeof both, ITEMS);
  CHECK(a.number == 9 && a.place == 2 && same(a.state, two));
  CHECK(holds(ITEMS, ambiguous, 14, 0));
  a = silverpoise_split(FORM, dashes, sizeof dashes, ITEMS);
  CHECK(a.number == 0 && a.place == 0 && same(a.state, state(0, 510, 0, 2, 0)));

  fill(ITEMS, 7);
  a = silverpoise_split(FORM, SHEET, items, SILVERPOISE_ITEM_SLICE - 1);
  CHECK(a.number == 7 && a.place == 0 && same(a.state, empty));
  CHECK(holds(items, SILVERPOISE_ITEM_SLICE - 1, NULL, 0, 0) && items[SILVERPOISE_ITEM_SLICE - 1] == 7);
  CHECK(silverpoise_split(FORM, SHEET, NULL, 0).number == 7);
}

static void running(void) {
  static const uint32_t values[] = {1, 0, 1, 7, 0, 0}, fallback[] = {257};
  static const uint8_t no_value[] = {U16(1), U16(0), U16(3), '-', 'v', 'w'};
  const SilverpoiseState empty = {{0}, 0, 0, 0, 0, 0}, one_left = {{BY_V}, 2, 1, 1, 0, 2};

  fill(ANSWERS, 7);
  SilverpoiseRunAnswer a =
      silverpoise_run(FALLBACK, sizeof FALLBACK, NO_ARGUMENTS, sizeof NO_ARGUMENTS, ITEMS, ANSWERS, LIST);
  CHECK(ran(a, 0, 0, 1, 1, empty));
  CHECK(holds(ANSWERS, fallback, 1, 0));
  SilverpoiseTextPart part = silverpoise_text(FALLBACK, sizeof FALLBACK, NO_ARGUMENTS, sizeof NO_ARGUMENTS, ITEMS, answers[0]);
  CHECK(stands(part, 0, SILVERPOISE_SOURCE_FORM, sizeof FALLBACK - 2, 2));

  fill(ANSWERS, 7);
  fill(LIST, 7);
  CHECK(ran(silverpoise_run(FORM, no_value, sizeof no_value, ITEMS, ANSWERS, LIST), 22, 2, 3, 0, one_left));
  CHECK(items[0] == SILVERPOISE_ITEM_SHORT && holds(ANSWERS, NULL, 0, 0) && holds(LIST, NULL, 0, 0));

  fill(ANSWERS, 7);
  fill(LIST, 7);
  CHECK(ran(silverpoise_run(FORM, SHEET, ITEMS, answers, SILVERPOISE_ANSWER_SLICE - 1, LIST), 7, 0, 0, 0, empty));
  CHECK(holds(ITEMS, NULL, 0, 0) && holds(answers, SILVERPOISE_ANSWER_SLICE - 1, NULL, 0, 0) && holds(LIST, NULL, 0, 0));

  // last, since the checks that follow use the items that it leaves
  fill(ANSWERS, 7);
  fill(LIST, 7);
  CHECK(ran(silverpoise_run(FORM, SHEET, ITEMS, ANSWERS, LIST), 0, 0, 5, 6, state(BY_V, BY_W, BY_W, 0, 3)));
  CHECK(holds(ANSWERS, values, 6, 0) && holds(LIST, NULL, 0, 0));
  CHECK(stands(silverpoise_text(FORM, SHEET, ITEMS, 2), 0, SILVERPOISE_SOURCE_SHEET, 9, 1));
  CHECK(stands(silverpoise_text(FORM, SHEET, ITEMS, 3), 28, 0, 0, 0));
}

// The list of what is missing: node plus 1, scope start, scope end for each that looked in vain, the first side first.
static void missing(void) {
  static const uint32_t one[] = {2, 0, 3}, both_sides[] = {1, 0, 3, 2, 0, 3};
  const SilverpoiseState all = state(0, 0, 0, 3, 0), empty = {{0}, 0, 0, 0, 0, 0};

  fill(LIST, 7);
  SilverpoiseRunAnswer a =
      silverpoise_run(REQUIRED, sizeof REQUIRED, THREE_WORDS, sizeof THREE_WORDS, ITEMS, ANSWERS, LIST);
  CHECK(ran(a, 20, 0, 2, 0, all));
  CHECK(holds(ANSWERS, NULL, 0, 0) && holds(LIST, one, 3, 0));

  fill(LIST, 7);
  a = silverpoise_run(CHOICE, sizeof CHOICE, THREE_WORDS, sizeof THREE_WORDS, ITEMS, ANSWERS, LIST);
  CHECK(ran(a, 20, 0, 2, 0, all));
  CHECK(holds(ANSWERS, NULL, 0, 0) && holds(LIST, both_sides, 6, 0));

  // 14 stands right behind 7, and leaves what 7 leaves; no word behind the slice is touched
  fill(ITEMS, 7);
  fill(ANSWERS, 7);
  fill(LIST, 7);
  CHECK(ran(silverpoise_run(FORM, SHEET, ITEMS, ANSWERS, list, SILVERPOISE_LIST_SLICE - 1), 14, 0, 0, 0, empty));
  CHECK(holds(ITEMS, NULL, 0, 0) && holds(ANSWERS, NULL, 0, 0));
  CHECK(holds(list, SILVERPOISE_LIST_SLICE - 1, NULL, 0, 0) && list[SILVERPOISE_LIST_SLICE - 1] == 7);
  CHECK(silverpoise_run(FORM, SHEET, ITEMS, ANSWERS, NULL, 0).number == 14);
  CHECK(silverpoise_run(FORM, SHEET, items, SILVERPOISE_ITEM_SLICE - 1, ANSWERS, NULL, 0).number == 7);
}

static void evaluation(void) {
  static const uint32_t value[] = {1, 7}, in_scope[] = {5, 1, 3};
  SilverpoiseState scoped = S;
  scoped.start = 1;
  scoped.remaining = 2;

  fill(ANSWERS, 9);
  fill(LIST, 9);
  CHECK(ran(silverpoise_eval(FORM, SHEET, ITEMS, ANSWERS, LIST, S, 8), 28, 0, 0, 0, S));
  CHECK(ran(silverpoise_eval(FORM, SHEET, ITEMS, ANSWERS, list, SILVERPOISE_LIST_SLICE - 1, S, 8), 14, 0, 0, 0, S));
  items[0] += SILVERPOISE_ITEM_POS_WORD; // a record at fault
  CHECK(ran(silverpoise_eval(FORM, SHEET, ITEMS, ANSWERS, LIST, S, 3), 30, 0, 0, 0, S));
  CHECK(ran(silverpoise_eval(FORM, SHEET, ITEMS, ANSWERS, list, SILVERPOISE_LIST_SLICE - 1, S, 3), 14, 0, 0, 0, S));
  items[0] -= SILVERPOISE_ITEM_POS_WORD;
  CHECK(holds(ANSWERS, NULL, 0, 9) && holds(LIST, NULL, 0, 9));
  CHECK(ran(silverpoise_eval(FORM, SHEET, ITEMS, ANSWERS, LIST, S2, 3), 22, 2, 1, 0, S2));
  CHECK(holds(ANSWERS, NULL, 0, 0) && holds(LIST, NULL, 0, 0));

  fill(LIST, 9);
  CHECK(ran(silverpoise_eval(FORM, SHEET, ITEMS, ANSWERS, LIST, scoped, 4), 20, 0, 1, 0, scoped));
  CHECK(holds(ANSWERS, NULL, 0, 0) && holds(LIST, in_scope, 3, 0));
  CHECK(ran(silverpoise_eval(FORM, SHEET, ITEMS, ANSWERS, LIST, S, 3), 0, 0, 1, 2, state(0, BY_W, BY_W, 1, 3)));
  CHECK(holds(ANSWERS, value, 2, 0) && holds(LIST, NULL, 0, 0));
  // a child has the number of its field
  CHECK(ran(silverpoise_eval(FORM, SHEET, ITEMS, ANSWERS, LIST, S, 2), 0, 0, 1, 1, state(0, BY_W, BY_W, 1, 3)));
}

static void tables(void) {
  CHECK(table_refused(silverpoise_commands_check(TABLE), 0, 0, 0));
  CHECK(table_refused(silverpoise_commands_check(NULL, 0), 11, 0, 0));
  CHECK(table_refused(silverpoise_commands_check(table, sizeof TABLE_BYTES - 1), 11, 0, 0)); // an offset is beyond the end
  CHECK(table_refused(silverpoise_commands_check(FORM_AT_FAULT, sizeof FORM_AT_FAULT), 3, 1, 2));
  CHECK(table_refused(silverpoise_commands_check(NAME_AT_FAULT, sizeof NAME_AT_FAULT), 11, 0, 0)); // before 3
  CHECK(form_stands(silverpoise_command_form(TABLE, 0), 0, 14 + PAIR - sizeof DIGIT, sizeof DIGIT));
  CHECK(form_stands(silverpoise_command_form(TABLE, 1), 0, sizeof TABLE_BYTES - sizeof DIGIT, sizeof DIGIT));
  CHECK(form_stands(silverpoise_command_form(TABLE, 2), 28, 0, 0));
  CHECK(form_stands(silverpoise_command_form(TABLE, 1 + ((size_t)1 << 32)), 28, 0, 0)); // a number of 64 bits
  CHECK(form_stands(silverpoise_command_form(NULL, 0, 2), 11, 0, 0));
}

// The commands of TABLE: the names are tried in the order `pair`, `p`, `log`.
static void commands(void) {
  static const uint8_t p[] = {U16(2), U16(0), U16(1), U16(3), 'p', '-', 'b'};
  static const uint8_t log_x[] = {U16(3), U16(0), U16(3), U16(5), U16(6), 'l', 'o', 'g', '-', 'b', 'x'};
  static const uint8_t log_only[] = {U16(1), U16(0), U16(3), 'l', 'o', 'g'};
  static const uint8_t log_cluster[] = {U16(2), U16(0), U16(3), U16(6), 'l', 'o', 'g', '-', 'b', 'b'};
  static const uint8_t lock[] = {U16(2), U16(0), U16(4), U16(6), 'l', 'o', 'c', 'k', '-', 'b'};
  static const uint32_t yes[] = {1}, place_2[] = {2}, missing_b[] = {1, 0, 1};
  static const uint32_t lock_items[] = {4, 0, 0, 0, 0, 0, 4, 1, 0, 'b', 0, 0, 4, 2};
  const SilverpoiseState empty = {{0}, 0, 0, 0, 0, 0}, two = {{0}, 2, 2, 0, 0, 2};
  const SilverpoiseState switched = {{511, 512}, 2, 0, 2, 0, 2}, word = {{511}, 1, 0, 1, 0, 1};

  fill(ANSWERS, 7);
  CHECK(commanded(silverpoise_run_commands(TABLE, p, sizeof p, ITEMS, ANSWERS, LIST), 0, 0, 1, 1, 2, 1, switched));
  CHECK(holds(ANSWERS, yes, 1, 0) && holds(LIST, NULL, 0, 0));
  SilverpoiseCommandAnswer a = silverpoise_run_commands(TABLE, log_x, sizeof log_x, ITEMS, ANSWERS, LIST);
  CHECK(commanded(a, 0, 0, 1, 1, 3, 2, state(511, 512, 512, 0, 3)) && holds(ANSWERS, place_2, 1, 0));

  // a text is found with the form of the entry
  SilverpoiseFormPart log_form = silverpoise_command_form(TABLE, a.entry - 1);
  SilverpoiseTextPart x =
      silverpoise_text(table + log_form.offset, log_form.length, log_x, sizeof log_x, ITEMS, answers[0]);
  CHECK(stands(x, 0, SILVERPOISE_SOURCE_SHEET, sizeof log_x - 1, 1));

  fill(ANSWERS, 7);
  CHECK(commanded(silverpoise_run_commands(TABLE, log_only, sizeof log_only, ITEMS, ANSWERS, LIST), 20, 0, 1, 0, 3, 2, word));
  CHECK(holds(ANSWERS, NULL, 0, 0) && holds(LIST, missing_b, 3, 0));
  // b is a flag of `pair`, so a cluster of `log` cannot have it
  a = silverpoise_run_commands(TABLE, log_cluster, sizeof log_cluster, ITEMS, ANSWERS, LIST);
  CHECK(commanded(a, 9, 2, 0, 0, 0, 0, two));

  fill(ITEMS, 7);
  fill(LIST, 7);
  CHECK(commanded(silverpoise_run_commands(TABLE, lock, sizeof lock, ITEMS, ANSWERS, LIST), 31, 0, 0, 0, 3, 0, two));
  CHECK(holds(ITEMS, lock_items, 14, 0) && holds(ANSWERS, NULL, 0, 0) && holds(LIST, NULL, 0, 0));
  a = silverpoise_run_commands(TABLE, NO_ARGUMENTS, sizeof NO_ARGUMENTS, ITEMS, ANSWERS, LIST);
  CHECK(commanded(a, 31, 0, 0, 0, 3, 0, empty));
}

// Refused before a command is looked for: every slice that is lent is all 0.
static void commands_refused(void) {
  const SilverpoiseState empty = {{0}, 0, 0, 0, 0, 0};
  fill(ITEMS, 7);
  fill(ANSWERS, 7);
  fill(LIST, 7);
  CHECK(commanded(silverpoise_run_commands(NULL, 0, NULL, 0, items, 3, ANSWERS, LIST), 11, 0, 0, 0, 0, 0, empty));
  CHECK(items[2] == 0 && items[3] == 7 && holds(ANSWERS, NULL, 0, 0) && holds(LIST, NULL, 0, 0));
  SilverpoiseCommandAnswer a =
      silverpoise_run_commands(FORM_AT_FAULT, sizeof FORM_AT_FAULT, NULL, 0, ITEMS, ANSWERS, LIST);
  CHECK(commanded(a, 3, 1, 0, 0, 0, 2, empty) && holds(ITEMS, NULL, 0, 0));
  CHECK(silverpoise_run_commands(TABLE, NULL, 0, ITEMS, ANSWERS, LIST).number == 5);
  CHECK(silverpoise_run_commands(TABLE, SHEET, items, 1791, ANSWERS, LIST).number == 7);
  CHECK(silverpoise_run_commands(TABLE, SHEET, ITEMS, ANSWERS, list, 191).number == 14);
}

// The slices that a batch is lent, in order, and what a sheet has of each: its record, and its parts of the other three.
enum { SLICES = 4 };
static const size_t PARTS[SLICES] = {
  SILVERPOISE_BATCH_RECORD_WORDS, SILVERPOISE_ITEM_SLICE, SILVERPOISE_ANSWER_SLICE, SILVERPOISE_LIST_SLICE};
typedef struct {
  uint32_t *words[SLICES];
  size_t counts[SLICES];
} BatchSlices;

// Slices with room for so many sheets, and each with some words more. None of the words is 0.
static BatchSlices lend_slices(size_t sheets, size_t more) {
  BatchSlices s;
  for (int i = 0; i < SLICES; i++) {
    s.counts[i] = PARTS[i] * sheets + more;
    s.words[i] = (uint32_t *)lend(NULL, s.counts[i] * sizeof *s.words[i]);
    fill(s.words[i], s.counts[i], 7);
  }
  return s;
}

static void free_slices(BatchSlices s) {
  for (int i = 0; i < SLICES; i++) free(s.words[i]);
}

static SilverpoiseRefused run_batch(const uint8_t *form, size_t form_count, const uint8_t *batch, size_t batch_count,
                                    BatchSlices s) {
  return silverpoise_run_batch(form, form_count, batch, batch_count, s.words[0], s.counts[0], s.words[1], s.counts[1],
                               s.words[2], s.counts[2], s.words[3], s.counts[3]);
}

// Whether of all slices every word behind those of so many sheets is 0.
static bool cleared(BatchSlices s, size_t sheets) {
  for (int i = 0; i < SLICES; i++) {
    size_t used = PARTS[i] * sheets;
    if (!holds(s.words[i] + used, s.counts[i] - used, NULL, 0, 0)) return false;
  }
  return true;
}

// Whether record k is this, and the parts k are the slices of a single run.
static bool has_parts(BatchSlices s, size_t k, uint32_t number, uint32_t place, uint32_t tries, uint32_t words) {
  const uint32_t record[] = {number, place, tries, words};
  const uint32_t *single[SLICES] = {record, items, answers, list};
  for (int i = 0; i < SLICES; i++) {
    if (!holds(s.words[i] + PARTS[i] * k, PARTS[i], single[i], PARTS[i], 0)) return false;
  }
  return true;
}

// Whether a sheet has in record and parts k what a single run of it answers and leaves.
static bool as_single(const uint8_t *form, size_t form_count, const uint8_t *sheet, size_t sheet_count, BatchSlices s,
                      size_t k) {
  SilverpoiseRunAnswer a = silverpoise_run(form, form_count, sheet, sheet_count, ITEMS, ANSWERS, LIST);
  return has_parts(s, k, a.number, a.place, a.tries, a.words);
}

// The batch under a form, whose records are known, in slices that are longer than they need be, and in others that are not.
static void runs_batch(const uint8_t *form, size_t form_count, const uint32_t *records) {
  static const size_t offsets[] = {0, SECOND, THIRD, END};
  BatchSlices s = lend_slices(SHEETS, 1), exact = lend_slices(SHEETS, 0);
  CHECK(refused(run_batch(form, form_count, BATCH, s), 0, 0) && cleared(s, SHEETS));
  CHECK(holds(s.words[0], s.counts[0], records, SILVERPOISE_BATCH_RECORD_WORDS * SHEETS, 0));
  for (size_t k = 0; k < SHEETS; k++) {
    CHECK(as_single(form, form_count, batch + HEADER + offsets[k], offsets[k + 1] - offsets[k], s, k));
  }
  CHECK(refused(run_batch(form, form_count, BATCH, exact), 0, 0));
  for (int i = 0; i < SLICES; i++) CHECK(holds(exact.words[i], exact.counts[i], s.words[i], s.counts[i], 0));
  free_slices(s);
  free_slices(exact);
}

static void batches(void) {
  static const uint32_t records[] = {0, 0, 5, 6, 22, 2, 3, 0, 5, 0, 0, 0}; // those of docs/FORMAT.md, 13.4
  static const uint32_t missing[] = {20, 0, 2, 0, 20, 0, 2, 0, 5, 0, 0, 0}, at_fault[] = {3, 1, 0, 0, 3, 1, 0, 0, 3, 1, 0, 0};
  static const uint8_t no_kind[] = {ARGUMENT_FORM(0)}, no_sheets[] = {U16(0), U32(0)};
  const BatchSlices none = {{NULL}, {0}};
  runs_batch(FORM, records);
  runs_batch(CHOICE, sizeof CHOICE, missing); // with lists of what is missing
  runs_batch(no_kind, sizeof no_kind, at_fault);

  // a text is found with the sheet and its part of the items
  BatchSlices s = lend_slices(SHEETS, 0);
  CHECK(refused(run_batch(FORM, BATCH, s), 0, 0));
  SilverpoiseTextPart part = silverpoise_text(FORM, batch + HEADER, SECOND, s.words[1], SILVERPOISE_ITEM_SLICE, 2);
  CHECK(stands(part, 0, SILVERPOISE_SOURCE_SHEET, 9, 1));

  CHECK(refused(run_batch(no_kind, sizeof no_kind, no_sheets, sizeof no_sheets, s), 0, 0) && cleared(s, 0));
  CHECK(refused(run_batch(FORM, no_sheets, sizeof no_sheets, none), 0, 0));
  CHECK(refused(run_batch(FORM, BATCH, none), 15, 0));
  CHECK(refused(run_batch(NULL, 0, NULL, 0, none), 15, 0));
  free_slices(s);
}

// Without a form: 15 comes before 1. It leaves every slice all 0.
static void refused_batch(const uint8_t *bytes, size_t count) {
  BatchSlices s = lend_slices(SHEETS, 1);
  uint8_t *exact = (uint8_t *)lend(bytes, count);
  CHECK(refused(run_batch(NULL, 0, exact, count, s), 15, 0) && cleared(s, 0));
  free(exact);
  free_slices(s);
}

static void batches_refused(void) {
  static const uint8_t begins_late[] = {BATCH_HEADER(SHEETS, 1, SECOND, THIRD, END), BATCH_SHEETS};
  static const uint8_t falls[] = {BATCH_HEADER(SHEETS, 0, THIRD, SECOND, END), BATCH_SHEETS};
  static const uint8_t left_over[] = {BATCH_HEADER(SHEETS, 0, SECOND, THIRD, END), BATCH_SHEETS, 0};
  static const uint8_t one_less[] = {BATCH_HEADER(SHEETS, 0, SECOND, THIRD, END - 1), BATCH_SHEETS};
  static const uint8_t too_many[2 + 4 * 34] = {U16(33)};
  refused_batch(batch, 0);
  refused_batch(batch, 1);
  refused_batch(batch, HEADER - 1);
  refused_batch(batch, sizeof BATCH_BYTES - 1);
  refused_batch(begins_late, sizeof begins_late);
  refused_batch(falls, sizeof falls);
  refused_batch(left_over, sizeof left_over);
  refused_batch(one_less, sizeof one_less);
  refused_batch(too_many, sizeof too_many);

  // a slice with one word too few, and no word behind it is touched
  for (int i = 0; i < SLICES; i++) {
    BatchSlices s = lend_slices(SHEETS, 0);
    s.counts[i]--;
    CHECK(refused(run_batch(FORM, BATCH, s), 15, 0) && cleared(s, 0) && s.words[i][s.counts[i]] == 7);
    free_slices(s);
  }
}

static bool gives(SilverpoiseWhyAnswer w, uint32_t reason, uint32_t detail) {
  return w.number == 0 && w.place == 0 && w.reason == reason && w.detail == detail;
}

static bool gives_none(SilverpoiseWhyAnswer w, uint32_t number, uint32_t place) {
  return w.number == number && w.place == place && w.reason == 0 && w.detail == 0;
}

// Asks why a place was left over, and sees that each slice holds what a run leaves there.
static SilverpoiseWhyAnswer why(const uint8_t *form, size_t form_count, const uint8_t *sheet, size_t sheet_count,
                                size_t place) {
  BatchSlices s = lend_slices(1, 0);
  SilverpoiseWhyAnswer w = silverpoise_why(form, form_count, sheet, sheet_count, place, s.words[1], s.counts[1], s.words[2],
                                           s.counts[2], s.words[3], s.counts[3]);
  silverpoise_run(form, form_count, sheet, sheet_count, ITEMS, ANSWERS, LIST);
  CHECK(holds(ITEMS, s.words[1], s.counts[1], 0) && holds(ANSWERS, s.words[2], s.counts[2], 0));
  CHECK(holds(LIST, s.words[3], s.counts[3], 0));
  free_slices(s);
  return w;
}

// Every reason of docs/FORMAT.md, 14.2.
static void reasons(void) {
  // `-v` `-v=7` `-x` `-x` `a` `--` `-v`: places 0 to 7, of which 1 and 2 are from one argument
  static const uint8_t left[] = {U16(7), U16(0), U16(2), U16(6), U16(8), U16(10), U16(11), U16(13), U16(15), '-', 'v', '-',
                                 'v', '=', '7', '-', 'x', '-', 'x', 'a', '-', '-', '-', 'v'};
  static const uint8_t value[] = {U16(1), U16(0), U16(5), '-', 'v', 'w', '=', '7'};
  static const uint8_t both[] = {U16(4), U16(0), U16(2), U16(3), U16(5), U16(6), '-', 'x', '1', '-', 'y', '2'};
  static const uint8_t cluster[] = {U16(2), U16(0), U16(1), U16(6), 'a', '-', 'v', 0xc3, 0xa9, 'x'}; // `a` `-véx`
  CHECK(gives(why(CHOICE, sizeof CHOICE, both, sizeof both, 2), SILVERPOISE_REASON_LOST_CHOICE, 1));
  CHECK(gives(why(FORM, left, sizeof left, 1), SILVERPOISE_REASON_GIVEN_EARLIER, 1));
  CHECK(gives(why(FORM, left, sizeof left, 2), SILVERPOISE_REASON_NONE_OF_THESE, 0)); // an ArgWord whose key is not used
  CHECK(gives(why(FORM, left, sizeof left, 3), SILVERPOISE_REASON_UNNAMED, 0));
  CHECK(gives(why(FORM, left, sizeof left, 4), SILVERPOISE_REASON_GIVEN_EARLIER, 4));
  CHECK(gives(why(FORM, left, sizeof left, 5), SILVERPOISE_REASON_NO_POSITIONAL, 0));
  CHECK(gives(why(FORM, left, sizeof left, 7), SILVERPOISE_REASON_NO_POSITIONAL, 0));
  CHECK(gives(why(FORM, value, sizeof value, 1), SILVERPOISE_REASON_KEY_USED, 0));
  CHECK(gives(why(WITH_WORD, sizeof WITH_WORD, cluster, sizeof cluster, 1), SILVERPOISE_REASON_UNKNOWN_LETTER, 0xe9));
  CHECK(gives(why(WITH_WORD, sizeof WITH_WORD, THREE_WORDS, sizeof THREE_WORDS, 2), SILVERPOISE_REASON_NONE_OF_THESE, 0));

  // used: by a field, and the opening `--`; and no such place, also with 64 bits
  static const size_t not_left[] = {0, 6, 8, 3 + ((size_t)1 << 32)};
  for (int i = 0; i < 4; i++) CHECK(gives_none(why(FORM, left, sizeof left, not_left[i]), 28, 0));
}

// Where the run does not end in 27 there is no reason; what it is refused with comes first, and with it its place.
static void no_reasons(void) {
  static const uint8_t no_value[] = {U16(1), U16(0), U16(3), '-', 'v', 'w'};
  static const uint8_t ambiguous[] = {U16(1), U16(0), U16(3), '-', 'v', 'b'}, no_kind[] = {ARGUMENT_FORM(0)};
  CHECK(gives_none(why(FORM, SHEET, 0), 28, 0)); // accepted
  CHECK(gives_none(why(FORM, no_value, sizeof no_value, 1), 28, 0)); // 22, at a place that is present
  CHECK(gives_none(why(REQUIRED, sizeof REQUIRED, THREE_WORDS, sizeof THREE_WORDS, 0), 28, 0)); // 20, with its list
  CHECK(gives_none(why(FORM, ambiguous, sizeof ambiguous, 0), 9, 2));
  CHECK(gives_none(why(no_kind, sizeof no_kind, NULL, 0, 0), 3, 1) && gives_none(why(NULL, 0, NULL, 0, 9), 1, 0));
  CHECK(gives_none(why(FORM, NULL, 0, 9), 5, 0));
  CHECK(gives_none(silverpoise_why(FORM, SHEET, 9, items, SILVERPOISE_ITEM_SLICE - 1, ANSWERS, NULL, 0), 7, 0));
  CHECK(gives_none(silverpoise_why(FORM, SHEET, 9, ITEMS, answers, SILVERPOISE_ANSWER_SLICE - 1, LIST), 7, 0));

  fill(ITEMS, 7);
  fill(ANSWERS, 7);
  fill(LIST, 7);
  CHECK(gives_none(silverpoise_why(FORM, SHEET, 9, ITEMS, ANSWERS, list, SILVERPOISE_LIST_SLICE - 1), 14, 0));
  CHECK(holds(ITEMS, NULL, 0, 0) && holds(ANSWERS, NULL, 0, 0));
  CHECK(holds(list, SILVERPOISE_LIST_SLICE - 1, NULL, 0, 0) && list[SILVERPOISE_LIST_SLICE - 1] == 7);
}

static bool careful_is(SilverpoiseCarefulAnswer c, uint32_t number, uint32_t place, uint32_t letter) {
  return c.number == number && c.place == place && c.letter == letter;
}

// Runs a line carefully, in slices that are longer than they need be, and sees that it answers and leaves what a run does: all
// of it, or after 50 all but the answers, where the run is accepted.
static SilverpoiseCarefulAnswer careful(const uint8_t *form, size_t form_count, const uint8_t *sheet, size_t sheet_count) {
  BatchSlices s = lend_slices(1, 1);
  SilverpoiseCarefulAnswer c = silverpoise_careful(form, form_count, sheet, sheet_count, s.words[1], s.counts[1], s.words[2],
                                                   s.counts[2], s.words[3], s.counts[3]);
  SilverpoiseRunAnswer r = silverpoise_run(form, form_count, sheet, sheet_count, ITEMS, ANSWERS, LIST);
  bool misread = c.number == 50;
  CHECK(misread ? r.number == 0 : careful_is(c, r.number, r.place, 0));
  CHECK(c.tries == r.tries && c.words == (misread ? 0 : r.words) && same(c.state, r.state));
  CHECK(holds(s.words[1], s.counts[1], ITEMS, 0) && holds(s.words[3], s.counts[3], LIST, 0));
  CHECK(holds(s.words[2], s.counts[2], answers, misread ? 0 : SILVERPOISE_ANSWER_SLICE, 0));
  free_slices(s);
  return c;
}

// A line of LIMIT, run carefully. Its arguments are separated by one space each.
static SilverpoiseCarefulAnswer careful_line(const char *line) {
  uint8_t bytes[64];
  size_t count = write_sheet(bytes, line);
  uint8_t *exact = (uint8_t *)lend(bytes, count);
  SilverpoiseCarefulAnswer c = careful(LIMIT, sizeof LIMIT, exact, count);
  free(exact);
  return c;
}

static bool misread(const char *line, uint32_t place, uint32_t letter) {
  return careful_is(careful_line(line), 50, place + 1, letter);
}

// What is refused with 50, most of it that of docs/FORMAT.md, 15.4, and why it is a word.
static void misread_lines(void) {
  // as a word, and as the value of an option
  CHECK(misread("-17", 0, '1' + 1) && misread("a -17", 1, '1' + 1));
  CHECK(misread("-l -17", 1, '1' + 1) && misread("--limit -17", 1, '1' + 1));
  // the first letter that is not known, wherever it stands
  CHECK(misread("-vx", 0, 'x' + 1) && misread("-xv", 0, 'x' + 1) && misread("-xy", 0, 'x' + 1));
  CHECK(misread("-v\xc3\xa9x", 0, 0xe9 + 1) && misread("-v-", 0, '-' + 1));
  // a name that is not UTF-8
  CHECK(misread("-\xff", 0, 0) && misread("-vx\xff", 0, 0) && misread("--\xff", 0, 0) && misread("--\xff=7", 0, 0));
  CHECK(misread("-\xc3\xa9=7", 0, 0)); // the first byte of the letter is its name
  // the lowest place; not that of `-`, nor of the rest behind -l
  CHECK(misread("a -l-17 - -x7 -18 -- -19", 4, 'x' + 1));

  static const uint32_t records[] = {1, 0, 'l', 0, 0, 0, 2, 4, 0, 0, 0, 0, 2, 3, 4, 0, 0, 0, 0, 5, 1};
  SilverpoiseCarefulAnswer c = careful_line("-l -x7 a");
  CHECK(careful_is(c, 50, 2, 'x' + 1) && c.tries == 4 && c.words == 0 && same(c.state, state(512, 512, 514, 0, 3)));
  CHECK(holds(ITEMS, records, 21, 0)); // the run's, which are the same
}

// Whether a line is accepted with these four answer words.
static bool accepts(const char *line, uint32_t word0, uint32_t word1, uint32_t word2, uint32_t word3) {
  const uint32_t words[] = {word0, word1, word2, word3};
  SilverpoiseCarefulAnswer c = careful_line(line);
  return careful_is(c, 0, 0, 0) && c.words == 4 && holds(ANSWERS, words, 4, 0); // the run's answers, which are the same
}

// What is accepted, as the run accepts it.
static void careful_lines(void) {
  CHECK(accepts("-l-17", 1, 1, 0, 0) && accepts("-l=-17", 1, 1, 0, 0) && accepts("--limit=-17", 1, 1, 0, 0));
  CHECK(accepts("-l-foo", 1, 1, 0, 0) && accepts("-l -", 1, 1, 0, 0) && accepts("-vl-17", 1, 2, 1, 0));
  CHECK(accepts("-l\xff=7", 1, 1, 0, 0) && accepts("-l=-\xff", 1, 1, 0, 0) && accepts("--limit=-\xff", 1, 1, 0, 0));
  CHECK(accepts("-- -17", 0, 0, 1, 1) && accepts("-", 0, 0, 1, 0) && accepts("a", 0, 0, 1, 0));
  CHECK(accepts("-v ", 0, 1, 1, 1)); // with an empty word

  SilverpoiseCarefulAnswer c = careful_line("-l-17 -");
  CHECK(c.number == 0 && c.tries == 4 && c.words == 5 && same(c.state, state(512, 512, 514, 0, 3)));
  CHECK(careful_is(careful_line(""), 0, 0, 0));
}

// Where the run is refused, its refusal is the answer: 50 comes last.
static void careful_refused(void) {
  static const uint8_t ambiguous[] = {U16(1), U16(0), U16(3), '-', 'v', 'b'}, no_kind[] = {ARGUMENT_FORM(0)};
  static const uint8_t below_0[] = {U16(2), U16(0), U16(2), U16(5), '-', 'w', '-', '1', '7'}, count_257[] = {U16(257)};
  CHECK(careful_is(careful_line("-x"), 27, 1, 0) && careful_is(careful_line("-17 -x"), 27, 2, 0));
  CHECK(careful_is(careful_line("-17 -l"), 22, 2, 0));
  CHECK(careful_is(careful(FORM, below_0, sizeof below_0), 25, 2, 0)); // -17 is no number
  CHECK(careful_is(careful(REQUIRED, sizeof REQUIRED, THREE_WORDS, sizeof THREE_WORDS), 20, 0, 0)); // with its list
  CHECK(careful_is(careful(FORM, ambiguous, sizeof ambiguous), 9, 2, 0));
  CHECK(careful_is(careful(NULL, 0, NULL, 0), 1, 0, 0) && careful_is(careful(no_kind, sizeof no_kind, NULL, 0), 3, 1, 0));
  CHECK(careful_is(careful(FORM, NULL, 0), 5, 0, 0) && careful_is(careful(FORM, count_257, sizeof count_257), 6, 0, 0));
}

// Short slices, on a line that would be refused with 50: each is all 0, and no word behind it is touched.
static void careful_slices(void) {
  static const uint8_t word[] = {U16(1), U16(0), U16(3), '-', '1', '7'};
  static const uint32_t numbers[SLICES] = {0, 7, 7, 14};
  for (int i = 1; i < SLICES; i++) {
    BatchSlices s = lend_slices(1, 0);
    s.counts[i]--;
    SilverpoiseCarefulAnswer c =
        silverpoise_careful(LIMIT, sizeof LIMIT, word, sizeof word, s.words[1], s.counts[1], s.words[2], s.counts[2],
                            s.words[3], s.counts[3]);
    CHECK(careful_is(c, numbers[i], 0, 0) && c.tries == 0 && c.words == 0 && c.state.count == 0);
    for (int k = 1; k < SLICES; k++) CHECK(holds(s.words[k], s.counts[k], NULL, 0, 0));
    CHECK(s.words[i][s.counts[i]] == 7);
    free_slices(s);
  }
  CHECK(silverpoise_careful(LIMIT, sizeof LIMIT, word, sizeof word, NULL, 0, NULL, 0, NULL, 0).number == 7);
}

static bool careful_command_is(SilverpoiseCarefulCommandAnswer c, uint32_t number, uint32_t place, uint32_t letter) {
  return c.number == number && c.place == place && c.letter == letter;
}

// As careful, of a line under a table.
static SilverpoiseCarefulCommandAnswer careful_commands(const uint8_t *table, size_t table_count, const char *line) {
  uint8_t bytes[64];
  size_t count = write_sheet(bytes, line);
  uint8_t *exact = (uint8_t *)lend(bytes, count);
  BatchSlices s = lend_slices(1, 1);
  SilverpoiseCarefulCommandAnswer c = silverpoise_careful_commands(table, table_count, exact, count, s.words[1], s.counts[1],
                                                                   s.words[2], s.counts[2], s.words[3], s.counts[3]);
  SilverpoiseCommandAnswer r = silverpoise_run_commands(table, table_count, exact, count, ITEMS, ANSWERS, LIST);
  bool misread = c.number == 50;
  CHECK(misread ? r.number == 0 : careful_command_is(c, r.number, r.place, 0));
  CHECK(c.tries == r.tries && c.words == (misread ? 0 : r.words) && same(c.state, r.state));
  CHECK(c.comparisons == r.comparisons && c.entry == r.entry);
  CHECK(holds(s.words[1], s.counts[1], ITEMS, 0) && holds(s.words[3], s.counts[3], LIST, 0));
  CHECK(holds(s.words[2], s.counts[2], answers, misread ? 0 : SILVERPOISE_ANSWER_SLICE, 0));
  free_slices(s);
  free(exact);
  return c;
}

// A line under the commands `set` and `-17`: its number, its place and its letter.
static bool careful_set(const char *line, uint32_t number, uint32_t place, uint32_t letter) {
  return careful_command_is(careful_commands(LOOKS, sizeof LOOKS, line), number, place, letter);
}

// A table's careful run: behind the command word all is as for one form, by the letters of all forms.
static void careful_commands_lines(void) {
  CHECK(careful_set("set -17", 50, 2, '1' + 1) && careful_set("set -l -17", 50, 3, '1' + 1));
  CHECK(careful_set("set a -x -- -17", 27, 3, 0) && careful_set("set a -xy - -17 -- -18", 50, 3, 'x' + 1));
  CHECK(careful_set("set -6x", 50, 2, 'x' + 1));                                      // -6 is the other command's
  CHECK(careful_set("set -\xff", 50, 2, 0) && careful_set("set --\xff=7", 50, 2, 0)); // a name that is not UTF-8
  CHECK(careful_set("set", 0, 0, 0) && careful_set("set - -l-17 -v", 0, 0, 0));
  CHECK(careful_set("set - -vl-17 -- -17", 0, 0, 0));
  // the command word may look like options; the same word behind it may not
  CHECK(careful_set("-17", 0, 0, 0) && careful_set("-17 -6", 0, 0, 0) && careful_set("-17 -17", 27, 2, 0));
  CHECK(careful_set("-18", 31, 0, 0) && careful_set("", 31, 0, 0) && careful_set("-v set", 31, 0, 0));
  SilverpoiseCarefulCommandAnswer c = careful_commands(LOOKS, sizeof LOOKS, "set -17 a");
  CHECK(careful_command_is(c, 50, 2, '1' + 1) && c.comparisons == 1 && c.entry == 1 && c.words == 0 && c.state.count == 3);
  c = careful_commands(LOOKS, sizeof LOOKS, "-17 -6");
  CHECK(c.comparisons == 2 && c.entry == 2 && c.words == 1);
  CHECK(careful_command_is(careful_commands(TABLE, "log -bb"), 9, 2, 0));
  c = careful_commands(FORM_AT_FAULT, sizeof FORM_AT_FAULT, "log");
  CHECK(careful_command_is(c, 3, 1, 0) && c.entry == 2);
}

// As careful_slices, and no table at all.
static void careful_commands_slices(void) {
  static const uint8_t word[] = {U16(2), U16(0), U16(3), U16(6), 's', 'e', 't', '-', '1', '7'};
  static const uint32_t numbers[SLICES] = {0, 7, 7, 14};
  for (int i = 1; i < SLICES; i++) {
    BatchSlices s = lend_slices(1, 0);
    s.counts[i]--;
    SilverpoiseCarefulCommandAnswer c =
        silverpoise_careful_commands(LOOKS, sizeof LOOKS, word, sizeof word, s.words[1], s.counts[1], s.words[2], s.counts[2],
                                     s.words[3], s.counts[3]);
    CHECK(careful_command_is(c, numbers[i], 0, 0) && c.tries == 0 && c.words == 0 && c.state.count == 0);
    for (int k = 1; k < SLICES; k++) CHECK(holds(s.words[k], s.counts[k], NULL, 0, 0));
    CHECK(s.words[i][s.counts[i]] == 7);
    free_slices(s);
  }
  CHECK(silverpoise_careful_commands(NULL, 0, NULL, 0, NULL, 0, NULL, 0, NULL, 0).number == 11);
}

static SilverpoiseRefused careful_batch(const uint8_t *form, size_t form_count, const uint8_t *batch, size_t batch_count,
                                        BatchSlices s) {
  return silverpoise_careful_batch(form, form_count, batch, batch_count, s.words[0], s.counts[0], s.words[1], s.counts[1],
                                   s.words[2], s.counts[2], s.words[3], s.counts[3]);
}

// A batch under a form, read carefully: each sheet has what the careful run of it answers and leaves, but for the letter. Its
// items and lists are those of the run of the batch.
static void reads_batch(const uint8_t *form, size_t form_count, const uint8_t *bytes, const size_t *ends, size_t sheets,
                        const uint32_t *numbers, const uint32_t *places) {
  size_t from = 2 + 4 * (sheets + 1);
  BatchSlices s = lend_slices(sheets, 1), plain = lend_slices(sheets, 1);
  uint8_t *exact = (uint8_t *)lend(bytes, ends[sheets - 1]);
  CHECK(refused(careful_batch(form, form_count, exact, ends[sheets - 1], s), 0, 0) && cleared(s, sheets));
  CHECK(refused(run_batch(form, form_count, exact, ends[sheets - 1], plain), 0, 0));
  for (int i = 1; i < SLICES; i += 2) CHECK(holds(s.words[i], s.counts[i], plain.words[i], s.counts[i], 0));
  for (size_t k = 0; k < sheets; k++) {
    SilverpoiseCarefulAnswer c = silverpoise_careful(form, form_count, exact + from, ends[k] - from, ITEMS, ANSWERS, LIST);
    CHECK(c.number == numbers[k] && c.place == places[k] && has_parts(s, k, numbers[k], places[k], c.tries, c.words));
    from = ends[k];
  }
  free(exact);
  free_slices(s);
  free_slices(plain);
}

static void careful_batches(void) {
  enum { LINES = 6 };
  static const char *const lines[LINES] = {"-17", "a -v", "-v -l -x7 a", "-l", "-- -17", "a -l-17 - -18 -19"};
  static const uint32_t numbers[LINES] = {50, 0, 50, 22, 0, 50}, places[LINES] = {1, 0, 3, 1, 0, 5};
  uint8_t bytes[256], *to = put_u16(put_u16(put_u16(bytes, LINES), 0), 0);
  size_t first = 2 + 4 * (LINES + 1), end = first, ends[LINES];
  for (size_t k = 0; k < LINES; k++) {
    ends[k] = end += write_sheet(bytes + end, lines[k]);
    to = put_u16(put_u16(to, end - first), 0);
  }
  reads_batch(LIMIT, sizeof LIMIT, bytes, ends, LINES, numbers, places);

  // refused in every record, as the form is; and 15, which leaves every slice 0
  static const uint8_t no_kind[] = {ARGUMENT_FORM(0)};
  static const uint32_t threes[LINES] = {3, 3, 3, 3, 3, 3}, ones[LINES] = {1, 1, 1, 1, 1, 1};
  reads_batch(no_kind, sizeof no_kind, bytes, ends, LINES, threes, ones);
  for (int i = 0; i < SLICES; i++) {
    BatchSlices s = lend_slices(LINES, 0);
    s.counts[i]--;
    CHECK(refused(careful_batch(LIMIT, sizeof LIMIT, bytes, end, s), 15, 0) && cleared(s, 0) && s.words[i][s.counts[i]] == 7);
    free_slices(s);
  }
  const BatchSlices none = {{NULL}, {0}};
  CHECK(refused(careful_batch(NULL, 0, NULL, 0, none), 15, 0));
}

static void states(void) {
  SilverpoiseState scoped = S;
  scoped.start = 1;
  scoped.remaining = 2;
  CHECK(leaves(silverpoise_remove(S, 0, 0), 0, 0, 1, 0, 0, S0));
  CHECK(leaves(silverpoise_remove(S, 0, 15), 0, 0, 1, 0, 0, state(512 + 15, 0, 0, 2, 1)));
  CHECK(leaves(silverpoise_remove(S, 0, 16), 28, 0, 0, 0, 0, S));
  CHECK(leaves(silverpoise_remove(S, 0, (size_t)1 << 32), 28, 0, 0, 0, 0, S)); // a number of 64 bits
  CHECK(leaves(silverpoise_remove(S0, 0, 1), 0, 0, 1, 0, 0, S0));              // used already, so the mark stays
  CHECK(leaves(silverpoise_remove(S, 3, 0), 28, 0, 0, 0, 0, S));
  CHECK(is(silverpoise_pick_winner(S1, S0), 0, 0, 0, 1, 0));
  CHECK(is(silverpoise_pick_winner(S0, S1), 0, 0, 1, 1, 0));
  CHECK(leaves(silverpoise_save_conflicts(S0, S1, 0), 0, 0, 1, 0, 0, state(BY_V, 2, 0, 2, 1)));
  // used is used, whoever did it; and what lost a choice may be used by a field
  CHECK(is(silverpoise_pick_winner(S0, state(BY_Q, 0, 0, 2, 1)), 0, 0, 1, 0, 0));
  CHECK(leaves(silverpoise_save_conflicts(S0, state(BY_Q, BY_Q, 0, 1, 2), 0), 0, 0, 1, 0, 0, state(BY_V, 2, 0, 2, 1)));
  CHECK(leaves(silverpoise_remove(state(BY_V, 2, 0, 2, 1), 1, 2), 0, 0, 1, 0, 0, state(BY_V, BY_W, 0, 1, 2)));
  CHECK(leaves(silverpoise_set_scope(S, 1, 3), 0, 0, 1, 0, 0, scoped));
  CHECK(leaves(silverpoise_set_scope(S, 3, 1), 28, 0, 0, 0, 0, S));
  CHECK(is(silverpoise_adjacent_scope(S0, S), 0, 0, 1, 0, 1));
  CHECK(is(silverpoise_adjacently_available_from(S1, 0), 0, 0, 1, 0, 1));
  CHECK(is(silverpoise_adjacently_available_from(S, 4), 28, 0, 0, 0, 0));
  scoped.remaining = 3;
  CHECK(leaves(silverpoise_remove(scoped, 9, 16), 29, 0, 0, 0, 0, scoped));
}

// Marks that nobody wrote: which of them a state may have. Without a form there may be 16 fields; the form has five.
static void forged_marks(void) {
  static const uint16_t good[] = {510, 511, 512, 512 + 4}, bad[] = {1, 2 + 3, 258, 509, 512 + 16, 65535};
  for (size_t i = 0; i < sizeof good / sizeof *good; i++) {
    SilverpoiseState s = state(good[i], 0, good[i], 1, 0);
    CHECK(leaves(silverpoise_set_scope(s, 0, 3), 0, 0, 1, 0, 0, s));
    CHECK(leaves(silverpoise_take_flag(FORM, SHEET, ITEMS, s, 0, 0), 0, 0, 0, 0, 0, s));
  }
  for (size_t i = 0; i < sizeof bad / sizeof *bad; i++) {
    for (uint32_t remaining = 2; remaining <= 3; remaining++) { // right if it were used, or if it were present
      SilverpoiseState s = state(bad[i], 0, 0, remaining, 0);
      CHECK(leaves(silverpoise_remove(s, 1, 0), 29, 0, 0, 0, 0, s));
      CHECK(leaves(silverpoise_take_flag(FORM, SHEET, ITEMS, s, 0, 0), 29, 0, 0, 0, 0, s));
    }
  }
  SilverpoiseState s = state(512 + 5, 0, 0, 2, 0);
  CHECK(leaves(silverpoise_set_scope(s, 0, 3), 0, 0, 1, 0, 0, s));
  CHECK(leaves(silverpoise_take_flag(FORM, SHEET, ITEMS, s, 0, 0), 29, 0, 0, 0, 0, s));
  CHECK(ran(silverpoise_eval(FORM, SHEET, ITEMS, ANSWERS, LIST, s, 0), 29, 0, 0, 0, s));
}

static void item_calls(void) {
  static const uint32_t w[] = {1, 1, 'w', 0, 0, 0, 4};
  static const uint8_t twice[] = {U16(3), U16(0), U16(2), U16(4), U16(6), '-', 'q', '-', 'v', '-', 'v'};
  SilverpoiseGot got = silverpoise_get(SHEET, ITEMS, S, 1);
  CHECK(got.number == 0 && got.place == 0 && holds(got.item, SILVERPOISE_RECORD_WORDS, w, 7, 0));
  got = silverpoise_get(SHEET, ITEMS, S1, 1);
  CHECK(got.number == 0 && got.place == 0 && holds(got.item, SILVERPOISE_RECORD_WORDS, NULL, 0, 0));
  got = silverpoise_get(SHEET, ITEMS, S, 3);
  CHECK(got.number == 28 && got.place == 0 && holds(got.item, SILVERPOISE_RECORD_WORDS, NULL, 0, 0));
  CHECK(is(silverpoise_conflict(SHEET, ITEMS, state(BY_V, 2, 0, 2, 1)), 0, 0, 1, 1, 0));
  CHECK(leaves(silverpoise_take_positional_word(SHEET, ITEMS, S, 15), 0, 0, 1, 2, 0, state(0, 0, 512 + 15, 2, 3)));
  CHECK(leaves(silverpoise_take_positional_word(SHEET, ITEMS, S, 16), 28, 0, 0, 0, 0, S));
  CHECK(leaves(silverpoise_take_positional_word(SHEET, ITEMS, S2, 0), 20, 0, 0, 0, 0, S2));
  CHECK(leaves(silverpoise_take_positional_word(SHEET, ITEMS, S2, 16), 28, 0, 0, 0, 0, S2)); // before 20
  CHECK(is(silverpoise_only_once(SHEET, ITEMS, 1), 0, 0, 0, 0, 0));

  uint32_t *three = (uint32_t *)lend(NULL, SILVERPOISE_ITEM_SLICE * sizeof *three);
  silverpoise_split(FORM, twice, sizeof twice, three, SILVERPOISE_ITEM_SLICE);
  CHECK(is(silverpoise_only_once(twice, sizeof twice, three, SILVERPOISE_ITEM_SLICE, 2), 0, 0, 1, 1, 0));
  free(three);
}

static void form_calls(void) {
  // the Word `v` is the text of name record 0
  static const uint8_t command[] = {U16(1), U16(0), U16(1), 'v'};
  static const uint32_t word[SILVERPOISE_ITEM_SLICE] = {SILVERPOISE_ITEM_WORD, 0, 0, 0, 0, 0, 1};
  const SilverpoiseState one = {{0}, 1, 1, 0, 0, 1}, taken = {{511}, 1, 0, 1, 0, 1};

  CHECK(is(silverpoise_matches_arg(FORM, SHEET, ITEMS, S, 2, 1), 0, 0, 1, 0, 0));
  CHECK(is(silverpoise_matches_arg(FORM, SHEET, ITEMS, S, 1, 2), 0, 0, 0, 0, 0));
  // the field is told, and need not be the node's own
  CHECK(leaves(silverpoise_take_flag(FORM, SHEET, ITEMS, S, 0, 0), 0, 0, 1, 0, 0, S0));
  CHECK(leaves(silverpoise_take_flag(FORM, SHEET, ITEMS, S, 0, 4), 0, 0, 1, 0, 0, state(BY_TEXT_B, 0, 0, 2, 1)));
  CHECK(leaves(silverpoise_take_flag(FORM, SHEET, ITEMS, S, 0, 5), 28, 0, 0, 0, 0, S));
  CHECK(leaves(silverpoise_take_flag(FORM, SHEET, ITEMS, S, 1, 1), 0, 0, 0, 0, 0, S));
  CHECK(leaves(silverpoise_take_flag(FORM, SHEET, ITEMS, S, 2, 0), 28, 0, 0, 0, 0, S));
  CHECK(leaves(silverpoise_take_arg(FORM, SHEET, ITEMS, S, 2, 2), 0, 0, 1, 2, 0, state(0, BY_W, BY_W, 1, 3)));
  CHECK(leaves(silverpoise_take_arg(FORM, SHEET, ITEMS, S, 2, 5), 28, 0, 0, 0, 0, S));
  CHECK(leaves(silverpoise_take_arg(FORM, SHEET, ITEMS, S2, 2, 2), 22, 2, 0, 0, 0, S2));
  CHECK(leaves(silverpoise_take_arg(FORM, SHEET, ITEMS, S2, 2, 5), 28, 0, 0, 0, 0, S2)); // before 22
  CHECK(leaves(silverpoise_take_cmd(FORM, SHEET, ITEMS, S0, 2), 0, 0, 0, 0, 0, state(BY_V, 0, 0, 2, 0)));
  SilverpoiseStateAnswer a = silverpoise_take_cmd(FORM, command, sizeof command, word, SILVERPOISE_ITEM_SLICE, one, 0);
  CHECK(leaves(a, 0, 0, 1, 0, 0, taken));
}

// What a take would do, and the take.
#define FLAG(s, node, field)                                  \
  silverpoise_preview_flag(FORM, SHEET, ITEMS, s, node, field), \
      silverpoise_take_flag(FORM, SHEET, ITEMS, s, node, field)
#define ARG(s, node, field)                                  \
  silverpoise_preview_arg(FORM, SHEET, ITEMS, s, node, field), \
      silverpoise_take_arg(FORM, SHEET, ITEMS, s, node, field)
#define OPERAND(s, field)                                   \
  silverpoise_preview_positional_word(SHEET, ITEMS, s, field), \
      silverpoise_take_positional_word(SHEET, ITEMS, s, field)
#define CMD(s, record)                                  \
  silverpoise_preview_cmd(FORM, SHEET, ITEMS, s, record), \
      silverpoise_take_cmd(FORM, SHEET, ITEMS, s, record)

static void previews(void) {
  CHECK(shows(FLAG(S, 0, 0), 1, 0, 0) && shows(FLAG(S0, 0, 0), 0, 0, 0));
  CHECK(shows(ARG(S, 2, 2), 2, 1, 2) && shows(ARG(S1, 2, 2), 0, 0, 0));
  CHECK(shows(OPERAND(S, 15), 1, 2, 0));
  // places in conflict are present: they are used, or they stay
  SilverpoiseState lost = state(2, 3, 4, 3, 2);
  CHECK(shows(ARG(lost, 2, 2), 2, 1, 2) && shows(OPERAND(lost, 0), 1, 2, 0) && shows(FLAG(lost, 0, 4), 1, 0, 0));
  SilverpoisePreviewAnswer p = silverpoise_preview_arg(FORM, SHEET, ITEMS, lost, 2, 2);
  CHECK(p.first == 2 && same(p.state, state(2, BY_W, BY_W, 1, 3)));
  // a command that is not taken: no refusal, and `current` is cleared
  CHECK(shows(CMD(S0, 2), 0, 0, 0));
  p = silverpoise_preview_cmd(FORM, SHEET, ITEMS, S0, 2);
  CHECK(p.number == 0 && p.found == 0 && same(p.state, state(BY_V, 0, 0, 2, 0)));
  // refused as the takes are: no places, the state as it was given
  CHECK(shows(ARG(S2, 2, 2), 0, 0, 0) && shows(ARG(S2, 2, 5), 0, 0, 0) && shows(OPERAND(S2, 0), 0, 0, 0));
  p = silverpoise_preview_arg(FORM, SHEET, ITEMS, S2, 2, 2);
  CHECK(p.number == 22 && p.place == 2 && same(p.state, S2));
  p = silverpoise_preview_flag(FORM, SHEET, ITEMS, S, 0, 5);
  CHECK(p.number == 28 && p.place == 0 && p.places == 0 && same(p.state, S));
  p = silverpoise_preview_positional_word(SHEET, ITEMS, S2, 0);
  CHECK(p.number == 20 && p.place == 0 && p.places == 0 && same(p.state, S2));
  lost.count = 4;
  CHECK(shows(FLAG(lost, 0, 0), 0, 0, 0) && shows(CMD(lost, 2), 0, 0, 0));
  p = silverpoise_preview_cmd(FORM, SHEET, ITEMS, lost, 2);
  CHECK(p.number == 29 && p.places == 0 && same(p.state, lost));
}

static void lent_calls(void) {
  SilverpoiseState *lent = (SilverpoiseState *)lend(&S, sizeof S);
  SilverpoiseItemRecord *records = (SilverpoiseItemRecord *)lend(items, 3 * sizeof *records);
  CHECK(is(silverpoise_remove_in_place(lent, 1, 2), 0, 0, 1, 0, 0) && same(*lent, S1));
  CHECK(is(silverpoise_remove_in_place(lent, 3, 2), 28, 0, 0, 0, 0) && same(*lent, S1));
  CHECK(is(silverpoise_remove_in_place(lent, 2, 16), 28, 0, 0, 0, 0) && same(*lent, S1));
  CHECK(is(silverpoise_take_flag_in_place(lent, FORM, SHEET, ITEMS, 0, 5), 28, 0, 0, 0, 0) && same(*lent, S1));
  CHECK(is(silverpoise_take_flag_in_place(lent, FORM, SHEET, ITEMS, 0, 1), 0, 0, 1, 0, 0));
  CHECK(same(*lent, state(BY_Q, BY_W, 0, 1, 1)));
  CHECK(is(silverpoise_remove_in_place(lent, 2, 15), 0, 0, 1, 0, 0) && same(*lent, state(BY_Q, BY_W, 512 + 15, 0, 3)));
  // the form has no field 15
  CHECK(is(silverpoise_take_flag_in_place(lent, FORM, SHEET, ITEMS, 0, 0), 29, 0, 0, 0, 0));
  lent->marks[0] = 1;
  CHECK(is(silverpoise_remove_in_place(lent, 2, 0), 29, 0, 0, 0, 0) && same(*lent, state(1, BY_W, 512 + 15, 0, 3)));
  CHECK(is(silverpoise_find(FORM, SHEET, records, 3, S, 2), 0, 0, 1, 1, 0));
  CHECK(is(silverpoise_find(FORM, SHEET, records, 3, S1, 2), 0, 0, 0, 0, 0));
  CHECK(is(silverpoise_find(FORM, SHEET, records, 2, S, 2), 29, 0, 0, 0, 0));
  free(lent);
  free(records);
}

static const uint8_t EMPTY[] = {U16(0), U16(0)}, ONE_EMPTY[] = {U16(1), U16(0), U16(0)};
static const uint8_t CARRIED[] = {U16(2), U16(0), U16(1), U16(3), '=', '-', '-'};
static const uint8_t BEHIND_IT[] = {U16(2), U16(0), U16(1), U16(3), '-', '=', '='};
static const uint8_t LAST_BYTES[] = {U16(2), U16(0), U16(0), U16(4), '-', '-', '-', '-'};
static const uint8_t MORE_BYTES[] = {U16(2), U16(0), U16(1), U16(1), '='};
#define DASHES '-', '-', '-', '-'
static const uint8_t NOT_LAST[] = {U16(3), U16(0), U16(4), U16(8), U16(12), DASHES, DASHES, '-', '-', '-', '='};
static const uint8_t LAST_OF_ALL[] = {U16(3), U16(0), U16(4), U16(8), U16(12), DASHES, DASHES, DASHES};

// A step over `=-` into an output that is full of 0xff: the number, whether the sheet was the last, and what is written.
static bool steps(const char *alphabet, const uint8_t *from, size_t from_count, size_t room, uint32_t number, uint32_t last,
                  const uint8_t *to, size_t to_count) {
  uint8_t *letters = (uint8_t *)lend(alphabet, strlen(alphabet)), *given = (uint8_t *)lend(from, from_count);
  uint8_t *out = (uint8_t *)lend(NULL, room);
  if (room > 0) memset(out, 0xff, room);
  SilverpoiseNextSheet r = silverpoise_next_sheet(letters, strlen(alphabet), given, from_count, out, room);
  bool good = r.number == number && r.place == 0 && r.last == last && r.length == to_count;
  for (size_t i = 0; i < room; i++) good = good && out[i] == (i < to_count ? to[i] : 0);
  free(letters);
  free(given);
  free(out);
  return good;
}

static void short_sheets(void) {
  CHECK(steps("=-", EMPTY, sizeof EMPTY, 22, 0, 0, ONE_EMPTY, sizeof ONE_EMPTY));
  CHECK(steps("=-", CARRIED, sizeof CARRIED, 22, 0, 0, BEHIND_IT, sizeof BEHIND_IT)); // by place, not by value
  CHECK(steps("=-", LAST_BYTES, sizeof LAST_BYTES, 300, 0, 0, MORE_BYTES, sizeof MORE_BYTES));
  CHECK(steps("=-", LAST_OF_ALL, sizeof LAST_OF_ALL, 23, 0, 1, NULL, 0));
  CHECK(steps("-=", LAST_OF_ALL, sizeof LAST_OF_ALL, 22, 0, 0, NOT_LAST, sizeof NOT_LAST));
  CHECK(steps("==", EMPTY, 0, 0, 16, 0, NULL, 0)); // 16 before 17 and 19
  CHECK(steps("", EMPTY, sizeof EMPTY, 30, 16, 0, NULL, 0));
  CHECK(steps("vw", CARRIED, sizeof CARRIED, 0, 17, 0, NULL, 0)); // 17 before 19
  CHECK(steps("=-", CARRIED, sizeof CARRIED - 1, 30, 17, 0, NULL, 0));
  CHECK(steps("=-", LAST_OF_ALL, sizeof LAST_OF_ALL, 21, 19, 0, NULL, 0)); // 19 before the last
}

// switch with the names v and on, and an optional text argument x, with a text that no node uses: 3 nodes, 2 fields, 4 names, 5 bytes
#define FIRST_NODES NODE(SILVERPOISE_NODE_FLAG, 0, 2, SILVERPOISE_FLAG_SWITCH, 0, 0), \
  NODE(SILVERPOISE_NODE_ARGUMENT, 2, 1, SILVERPOISE_VALUE_TEXT, 0, 0), NODE(SILVERPOISE_NODE_OPTIONAL, 1, 0, 0, 0, 0)
#define FIRST_NAMES NAME(SILVERPOISE_NAME_SHORT, 0, 1), NAME(SILVERPOISE_NAME_LONG, 1, 2), NAME(SILVERPOISE_NAME_SHORT, 3, 1), \
  NAME(SILVERPOISE_NAME_TEXT, 4, 1)
static const uint8_t FIRST[] = {
  U16(3), U16(2), U16(4), U16(5), U16(0), U16(2), FIRST_NODES, FIRST_NAMES, 'v', 'o', 'n', 'x', 'z'};
// fallback `d`, name 0, of a strict text positional; choice of required q and required y; fallback 9 of a non-strict number
// positional; its numbers as they are, and moved up behind the first form
#define SECOND_NODES(nodes, names) \
  NODE(SILVERPOISE_NODE_POSITIONAL, SILVERPOISE_POSITIONAL_STRICT, 0, SILVERPOISE_VALUE_TEXT, 0, 0), \
  NODE(SILVERPOISE_NODE_FALLBACK, nodes + 0, 0, names + 0, 0, 0), \
  NODE(SILVERPOISE_NODE_FLAG, names + 1, 1, SILVERPOISE_FLAG_REQUIRED, 0, 0), \
  NODE(SILVERPOISE_NODE_FLAG, names + 2, 1, SILVERPOISE_FLAG_REQUIRED, 0, 0), \
  NODE(SILVERPOISE_NODE_CHOICE, nodes + 2, nodes + 3, 0, 0, 0), \
  NODE(SILVERPOISE_NODE_POSITIONAL, SILVERPOISE_POSITIONAL_NON_STRICT, 0, SILVERPOISE_VALUE_NUMBER, 0, 0), \
  NODE(SILVERPOISE_NODE_FALLBACK, nodes + 5, 0, 0, 9, 0)
#define SECOND_NAMES(area) \
  NAME(SILVERPOISE_NAME_TEXT, area + 0, 1), NAME(SILVERPOISE_NAME_SHORT, area + 1, 1), NAME(SILVERPOISE_NAME_SHORT, area + 2, 1)
static const uint8_t MOVED[] = {
  U16(7), U16(3), U16(3), U16(3), U16(1), U16(4), U16(6), SECOND_NODES(0, 0), SECOND_NAMES(0), 'd', 'q', 'y'};
static const uint8_t JOINED[] = {
  U16(10), U16(5), U16(7), U16(8), U16(0), U16(2), U16(4), U16(7), U16(9), FIRST_NODES, SECOND_NODES(3, 4), FIRST_NAMES,
  SECOND_NAMES(5), 'v', 'o', 'n', 'x', 'z', 'd', 'q', 'y'};
// each of 2, 3 and 4 at the record or node 0
static const uint8_t BAD_NAME[] = {
  U16(1), U16(1), U16(1), U16(0), U16(0), NODE(SILVERPOISE_NODE_POSITIONAL, 0, 0, 0, 0, 0), NAME(3, 0, 0)};
static const uint8_t BAD_NODE[] = {U16(1), U16(1), U16(0), U16(0), U16(0), NODE(12, 0, 0, 0, 0, 0)};
static const uint8_t BAD_USE[] = {
  U16(1), U16(2), U16(0), U16(0), U16(0), U16(0), NODE(SILVERPOISE_NODE_POSITIONAL, 0, 0, 0, 0, 0)};
// 33 nodes: a number positional beneath guards
enum { GUARDS = 32, GUARDED = 8 + 2 + 16 * (GUARDS + 1) };

// A joining into an output that is full of 0xff: the answer, and what is written.
static bool joins(const uint8_t *first, size_t first_count, const uint8_t *second, size_t second_count, size_t room,
                  SilverpoiseJoined want, const uint8_t *to) {
  uint8_t *a = (uint8_t *)lend(first, first_count), *b = (uint8_t *)lend(second, second_count);
  uint8_t *out = (uint8_t *)lend(NULL, room);
  if (room > 0) memset(out, 0xff, room);
  SilverpoiseJoined r = silverpoise_join(a, first_count, b, second_count, out, room);
  bool good = r.number == want.number && r.place == want.place && r.length == want.length && r.form == want.form;
  for (size_t i = 0; i < room; i++) good = good && out[i] == (i < want.length ? to[i] : 0);
  free(a);
  free(b);
  free(out);
  return good;
}

// A form at fault, as the first, as the second, and as the first beside another.
static bool not_joined(const uint8_t *bad, size_t bad_count, size_t room, uint32_t number, uint32_t place) {
  SilverpoiseJoined first = {number, place, 0, 1}, second = {number, place, 0, 2};
  return joins(bad, bad_count, FIRST, sizeof FIRST, room, first, NULL) &&
         joins(FIRST, sizeof FIRST, bad, bad_count, room, second, NULL) &&
         joins(bad, bad_count, BAD_USE, 0, room, first, NULL);
}

static void joined_forms(void) {
  SilverpoiseJoined whole = {0, 0, sizeof JOINED, 0}, refused = {18, 0, 0, 0};
  CHECK(joins(FIRST, sizeof FIRST, MOVED, sizeof MOVED, SILVERPOISE_MAX_FORM, whole, JOINED));
  CHECK(joins(FIRST, sizeof FIRST, MOVED, sizeof MOVED, 6500, whole, JOINED));
  // however short the form is
  CHECK(joins(FIRST, sizeof FIRST, MOVED, sizeof MOVED, SILVERPOISE_MAX_FORM - 1, refused, NULL));
  CHECK(joins(FIRST, sizeof FIRST, MOVED, sizeof MOVED, 0, refused, NULL));
  CHECK(not_joined(FIRST, sizeof FIRST - 1, SILVERPOISE_MAX_FORM, 1, 0));
  CHECK(not_joined(BAD_NAME, sizeof BAD_NAME, SILVERPOISE_MAX_FORM, 2, 1));
  CHECK(not_joined(BAD_NODE, sizeof BAD_NODE, SILVERPOISE_MAX_FORM, 3, 1));
  CHECK(not_joined(BAD_USE, sizeof BAD_USE, 6500, 4, 1));
  CHECK(not_joined(BAD_USE, sizeof BAD_USE, 1, 4, 1)); // before 18

  uint8_t guarded[GUARDED], *to = put_u16(put_u16(put_u16(put_u16(put_u16(guarded, GUARDS + 1), 1), 0), 0), GUARDS);
  memset(to, 0, 16 * (GUARDS + 1));
  for (size_t i = 0; i <= GUARDS; i++, to += 16) put_u16(put_u16(to, i == 0 ? 3 : 11), i == 0 ? 0 : i - 1);
  put_u16(guarded + 10 + 6, SILVERPOISE_VALUE_NUMBER);
  CHECK(joins(guarded, GUARDED, guarded, GUARDED, SILVERPOISE_MAX_FORM, refused, NULL)); // 66 nodes
}

// A line under the joined form: what the second form tells is told with the numbers of both.
static void joined_line(void) {
  static const uint8_t line[] = {U16(1), U16(0), U16(4), '-', 'q', 'x', 'a'}; // a cluster of letters of both
  static const uint32_t words[] = {0, 1, 2, 256 + 4, 1, 9}, missing[] = {5 + 1, 0, 0, 6 + 1, 0, 0, 0};
  SilverpoiseRunAnswer r = silverpoise_run(JOINED, sizeof JOINED, line, sizeof line, ITEMS, ANSWERS, LIST);
  CHECK(ran(r, 0, 0, 6, 6, state(512 + 3, 512 + 1, 512 + 1, 0, 1)) && memcmp(answers, words, sizeof words) == 0);
  r = silverpoise_run(JOINED, sizeof JOINED, NO_ARGUMENTS, sizeof NO_ARGUMENTS, ITEMS, ANSWERS, LIST);
  CHECK(r.number == 20 && memcmp(list, missing, sizeof missing) == 0);
}

int main(void) {
  form = (uint8_t *)lend(FORM_BYTES, sizeof FORM_BYTES);
  sheet = (uint8_t *)lend(SHEET_BYTES, sizeof SHEET_BYTES);
  table = (uint8_t *)lend(TABLE_BYTES, sizeof TABLE_BYTES);
  batch = (uint8_t *)lend(BATCH_BYTES, sizeof BATCH_BYTES);
  items = (uint32_t *)lend(NULL, SILVERPOISE_ITEM_SLICE * sizeof *items);
  answers = (uint32_t *)lend(NULL, SILVERPOISE_ANSWER_SLICE * sizeof *answers);
  list = (uint32_t *)lend(NULL, SILVERPOISE_LIST_SLICE * sizeof *list);
  S = state(0, 0, 0, 3, 0);
  S0 = state(BY_V, 0, 0, 2, 1);
  S1 = state(0, BY_W, 0, 2, 2);
  S2 = state(0, 0, BY_W, 2, 3);

  utf8();
  refusals();
  checks();
  idle_repeats();
  splitting();
  missing();
  tables();
  commands();
  commands_refused();
  batches();
  batches_refused();
  reasons();
  no_reasons();
  misread_lines();
  careful_lines();
  careful_refused();
  careful_slices();
  careful_commands_lines();
  careful_commands_slices();
  careful_batches();
  joined_forms();
  joined_line();
  running();
  evaluation();
  states();
  forged_marks();
  item_calls();
  form_calls();
  previews();
  short_sheets();
  lent_calls();

  free(form);
  free(sheet);
  free(table);
  free(batch);
  free(items);
  free(answers);
  free(list);
  return report();
}
