// Silverpoise for C99 and C++: command lines read under a form, answered with values or a numbered refusal.
//
// Link with target/staticlib/libexports.a (whole forms and lines: `tools/libraries exports` makes it), for commands with
// target/staticlib/libexports_commands.a (`tools/libraries exports_commands`), for many lines in one call with
// target/staticlib/libexports_batch.a (`tools/libraries exports_batch`), for what looks at a line that was run, which is the
// careful run and why a place was left over, with target/staticlib/libexports_why.a (`tools/libraries exports_why`) and for the
// single calls with target/staticlib/libexports_calls.a (`tools/libraries exports_calls`), on x86-64. docs/FORMAT.md has the
// formats, the rules and the refusals; numbers in brackets here are its sections. c/example.c reads a whole line.
//
// What holds of every call:
// - A slice is a pointer and a count of elements. What is written, a slice or a lent state, must not overlap anything else that
//   is lent. With the count 0 the pointer may be NULL.
// - Nothing is asked of the bytes and numbers that are given: what is not well made is refused under its number.
// - `number` is 0 where the call was accepted, else a refusal (enum SilverpoiseRefusal). `place` is a place plus 1, or 0 for
//   none; for the refusals 2, 3 and 4 it is the number of the name record or node plus 1.
// - A state goes by value, and the answer has the new one. Only the calls that end in `_in_place` change the caller's.
// - Nothing is allocated, no pointer is kept and there are no global variables: threads need no lock.
#ifndef SILVERPOISE_H
#define SILVERPOISE_H

#include <stdbool.h>
#include <stddef.h>
#include <stdint.h>

#ifdef __cplusplus
extern "C" {
#endif

// ---- Lengths and limits ----

enum {
  // the least lengths of the slices that are lent, in uint32_t
  SILVERPOISE_ITEM_SLICE = 1792,   // 256 item records of seven words
  SILVERPOISE_ANSWER_SLICE = 8240, // the answer words of any form
  SILVERPOISE_LIST_SLICE = 192,    // 64 entries of three words

  SILVERPOISE_RECORD_WORDS = 7, // the item at place k begins at word 7 * k of the item slice
  SILVERPOISE_ENTRY_WORDS = 3,  // entry k of the list of what is missing begins at word 3 * k of the list slice
  SILVERPOISE_MAX_ITEMS = 256,

  // a sheet (2)
  SILVERPOISE_MAX_ARGUMENTS = 256,
  SILVERPOISE_MAX_SHEET_AREA = 32768, // bytes of all arguments together
  SILVERPOISE_MAX_SHEET = 33284,      // bytes of the longest sheet

  // a form (3.1)
  SILVERPOISE_MAX_NODES = 64,
  SILVERPOISE_MAX_FIELDS = 16,
  SILVERPOISE_MAX_NAMES = 128,
  SILVERPOISE_MAX_FORM_AREA = 4096, // bytes of all names together
  SILVERPOISE_MAX_FORM = 5928,      // bytes of the longest form

  // a command table (12); the names of an entry have the limits of a form's
  SILVERPOISE_MAX_COMMANDS = 32,

  // a batch (13)
  SILVERPOISE_MAX_SHEETS = 32,
  SILVERPOISE_BATCH_RECORD_WORDS = 4, // the record of sheet k begins at word 4 * k of the record slice

  // a short sheet (16), and its alphabet
  SILVERPOISE_MAX_SHORT_ARGUMENTS = 3,
  SILVERPOISE_MAX_SHORT_ARGUMENT = 4, // bytes of one argument
  SILVERPOISE_MAX_SHORT_SHEET = 22,   // bytes of the longest short sheet
  SILVERPOISE_MAX_LETTERS = 8         // bytes of an alphabet
};

// ---- Refusals (9) ----

enum SilverpoiseRefusal {
  SILVERPOISE_ACCEPTED = 0,

  // because of the input, tested in this order but for 6, which comes before 5, 14, which comes before 8, and 11 and 15, which
  // come before 1
  SILVERPOISE_REFUSED_FORM = 1,      // the form's length or counts
  SILVERPOISE_REFUSED_NAME = 2,      // a name record of the form; place: the lowest at fault
  SILVERPOISE_REFUSED_NODE = 3,      // a node of the form; place: the lowest at fault
  SILVERPOISE_REFUSED_USE = 4,       // a field number (no place), or a node that is not used once; place: the lowest such
  SILVERPOISE_REFUSED_SHEET = 5,     // the sheet's counts, offsets or length
  SILVERPOISE_REFUSED_ARGUMENTS = 6, // more than 256 arguments
  SILVERPOISE_REFUSED_SLICE = 7,     // the item slice or the answer slice is too short
  SILVERPOISE_REFUSED_ITEMS = 8,     // more than 256 items
  SILVERPOISE_REFUSED_AMBIGUOUS = 9, // a letter in a cluster is both a flag's and an argument's; place: the cluster's Word
  SILVERPOISE_REFUSED_TABLE = 11,    // a command table: its count, its offsets, or the names of an entry
  SILVERPOISE_REFUSED_LIST = 14,     // the list slice is too short
  SILVERPOISE_REFUSED_BATCH = 15,    // a batch: its count, its offsets, or a slice without room for each of its sheets

  // because of what silverpoise_next_sheet is given, tested in this order
  SILVERPOISE_REFUSED_ALPHABET = 16, // an alphabet that is empty, has more than eight bytes, or a byte twice
  SILVERPOISE_REFUSED_LONG = 17,     // a sheet that is not a short one over the alphabet, damaged or not
  SILVERPOISE_REFUSED_OUTPUT = 19,   // an output of less than 22 bytes

  // because of what silverpoise_join is given, after 1 to 4 of the first form and then of the second
  SILVERPOISE_REFUSED_JOIN = 18, // both forms together pass a limit, or an output of less than SILVERPOISE_MAX_FORM bytes

  // because of the state
  SILVERPOISE_REFUSED_MISSING = 20,        // a required flag, an argument or a positional is not there: see the list
  SILVERPOISE_REFUSED_PARSE_SOME = 21,     // `some` has no element
  SILVERPOISE_REFUSED_NO_ARGUMENT = 22,    // an argument has no value; place: its key
  SILVERPOISE_REFUSED_STRICT_POS = 23,     // a strict positional took a Word; place: the Word
  SILVERPOISE_REFUSED_NON_STRICT_POS = 24, // a non-strict positional took a PosWord; place: the PosWord
  SILVERPOISE_REFUSED_PARSE_FAILED = 25,   // a text is not a number; place: the text
  SILVERPOISE_REFUSED_GUARD_FAILED = 26,   // a number is outside its guard; place: `current` of the state, perhaps none
  SILVERPOISE_REFUSED_UNCONSUMED = 27,     // nothing takes an item; place: the first left over

  // because of a single call, that is, any call but silverpoise_split and those that run a line; tested in the order 30, 29, 28
  SILVERPOISE_REFUSED_NOT_THERE = 28, // no such node, name record, place, scope, field or entry; silverpoise_why has it too
  SILVERPOISE_REFUSED_STATE = 29,     // a state does not hold together, or does not fit the items or the form
  SILVERPOISE_REFUSED_RECORD = 30,    // an item record is at fault

  // because of the command word, found after 9 and before 20
  SILVERPOISE_REFUSED_COMMAND = 31, // the line begins with no command of the table

  // because of how a word looks, found after all others, and only by the careful runs
  SILVERPOISE_REFUSED_MISREAD = 50 // an argument that looks like options was read as a word; place: the lowest such
};

// ---- Forms (3): the numbers of nodes and names ----

enum {
  SILVERPOISE_NODE_FLAG = 1,
  SILVERPOISE_NODE_ARGUMENT = 2,
  SILVERPOISE_NODE_POSITIONAL = 3,
  SILVERPOISE_NODE_OPTIONAL = 4,
  SILVERPOISE_NODE_MANY = 5,
  SILVERPOISE_NODE_SOME = 6,
  SILVERPOISE_NODE_COUNT = 7,
  SILVERPOISE_NODE_LAST = 8,
  SILVERPOISE_NODE_CHOICE = 9,
  SILVERPOISE_NODE_FALLBACK = 10,
  SILVERPOISE_NODE_GUARD = 11
};

enum {
  // r of a flag
  SILVERPOISE_FLAG_REQUIRED = 0,
  SILVERPOISE_FLAG_SWITCH = 1,

  // r of an argument, or of a positional, which cannot be adjacent
  SILVERPOISE_VALUE_TEXT = 0,
  SILVERPOISE_VALUE_ADJACENT_TEXT = 1,
  SILVERPOISE_VALUE_NUMBER = 2,
  SILVERPOISE_VALUE_ADJACENT_NUMBER = 3,

  // p of a positional
  SILVERPOISE_POSITIONAL_UNRESTRICTED = 0,
  SILVERPOISE_POSITIONAL_STRICT = 1,
  SILVERPOISE_POSITIONAL_NON_STRICT = 2,

  // r of optional, many and some; 0 is no catch
  SILVERPOISE_CATCH = 1
};

enum {
  SILVERPOISE_NAME_SHORT = 0, // one character
  SILVERPOISE_NAME_LONG = 1,
  SILVERPOISE_NAME_TEXT = 2 // the text of a fallback
};

// The bytes of a form, for the initializer of an array of uint8_t. In this order: counts of nodes, fields, names and bytes of
// the area, each a U16; the fields, a U16 each; a NODE each; a NAME each, with offset and length in the area; the area.
#define SILVERPOISE_U16(x) ((x) & 255), (((x) >> 8) & 255)
#define SILVERPOISE_U32(x) ((x) & 255), (((x) >> 8) & 255), (((x) >> 16) & 255), (((x) >> 24) & 255)
#define SILVERPOISE_NODE(kind, p, q, r, lo, hi) \
  SILVERPOISE_U16(kind), SILVERPOISE_U16(p), SILVERPOISE_U16(q), SILVERPOISE_U16(r), SILVERPOISE_U32(lo), SILVERPOISE_U32(hi)
#define SILVERPOISE_NAME(type, offset, length) SILVERPOISE_U16(type), SILVERPOISE_U16(offset), SILVERPOISE_U16(length)

// ---- Items and answers ----

enum {
  SILVERPOISE_ITEM_SHORT = 1,    // an option by its character
  SILVERPOISE_ITEM_LONG = 2,     // an option by its long name
  SILVERPOISE_ITEM_ARG_WORD = 3, // a value behind a `=`
  SILVERPOISE_ITEM_WORD = 4,     // any other word
  SILVERPOISE_ITEM_POS_WORD = 5  // a word from `--` on
};

// An item as the seven words of its record (4.4). Offsets count from the start of the sheet's area.
typedef struct {
  uint32_t kind;
  uint32_t adjacent;                 // 1: the next item is its value, from the same argument
  uint32_t character;                // of a Short
  uint32_t name_offset, name_length; // of a Long
  uint32_t text_offset, text_length;
} SilverpoiseItemRecord;

enum {
  // present
  SILVERPOISE_MARK_UNPARSED = 0,
  SILVERPOISE_MARK_CONFLICT = 2, // plus the place that decided a choice against this one

  // used: all marks from 510 on
  SILVERPOISE_MARK_MARKER = 510,  // the opening `--`, used from the start
  SILVERPOISE_MARK_COMMAND = 511, // a command word, by silverpoise_run_commands or silverpoise_take_cmd
  SILVERPOISE_MARK_FIELD = 512    // plus the number of the field that used the place, from 0
};

// Which places are used, and by whom (5). A mark is one of
//
//   0            the place is not used
//   2 + w        not used either: a choice was decided against it by the place w, which is below the count
//   510          used: the opening `--`
//   511          used: a command word
//   512 + k      used by field number k, which is below the form's count of fields, and below 16 where a call has no form
//
// So a place is used if its mark is 510 or more, else it is present. A state with any other mark is refused with 29.
typedef struct {
  uint16_t marks[SILVERPOISE_MAX_ITEMS];
  uint32_t count;      // of items; the marks behind are 0
  uint32_t remaining;  // present places in scope
  uint32_t current;    // the place used last plus 1, or 0
  uint32_t start, end; // the scope: from start up to, not including, end
} SilverpoiseState;

typedef struct {
  uint32_t number, place;
} SilverpoiseRefused;

// An answer that is a number; refused, it is 0.
typedef struct {
  uint32_t number, place;
  uint32_t answer;
} SilverpoiseTold;

// A set of nodes: node n is bit n. Refused, it is 0.
typedef struct {
  uint32_t number, place;
  uint64_t nodes;
} SilverpoiseIdleAnswer;

// An answer in three numbers, whose meaning is said at each call. Where found is 0 the other two are 0, except that
// silverpoise_pick_winner may give a place. Refused, all three are 0.
typedef struct {
  uint32_t number, place;
  uint32_t found, first, second;
} SilverpoiseAnswer;

// The same with the new state; refused, the state is the one that was given.
typedef struct {
  uint32_t number, place;
  uint32_t found, first, second;
  SilverpoiseState state;
} SilverpoiseStateAnswer;

// What a take would do: its own answer; how many places it would use, and the two, the lower one first; and the state that would
// result. A place that there is not is 0. Refused, there are none, and the state is the one that was given.
typedef struct {
  uint32_t number, place;
  uint32_t found, first, second;
  uint32_t places, lower, upper;
  SilverpoiseState state;
} SilverpoisePreviewAnswer;

typedef struct {
  uint32_t number, place;
  SilverpoiseState state;
} SilverpoiseSplitAnswer;

typedef struct {
  uint32_t number, place;
  uint32_t tries; // evaluations of flags, arguments and positionals
  uint32_t words; // answer words; refused, 0
  SilverpoiseState state;
} SilverpoiseRunAnswer;

typedef struct {
  uint32_t number, place;
  uint32_t tries, words; // as in SilverpoiseRunAnswer
  uint32_t comparisons;  // names that were compared with the line's first word
  uint32_t entry;        // of the command PLUS 1, or 0 for none
  SilverpoiseState state;
} SilverpoiseCommandAnswer;

// The answer of the careful run (15). `letter` says why the argument at the place of 50 was read as a word: it is the first
// letter of it that no option has, PLUS 1, or 0 where its name is not UTF-8. There is no third cause. After any other number it
// is 0.
typedef struct {
  uint32_t number, place;
  uint32_t tries, words; // as in SilverpoiseRunAnswer
  uint32_t letter;
  SilverpoiseState state;
} SilverpoiseCarefulAnswer;

// The same of a table's careful run: `letter` is one that no option of ANY form of the table has.
typedef struct {
  uint32_t number, place;
  uint32_t tries, words;       // as in SilverpoiseRunAnswer
  uint32_t comparisons, entry; // as in SilverpoiseCommandAnswer
  uint32_t letter;
  SilverpoiseState state;
} SilverpoiseCarefulCommandAnswer;

// What a run of a batch writes of a sheet, as the four words of its record: what SilverpoiseRunAnswer has, but the state.
typedef struct {
  uint32_t number, place;
  uint32_t tries, words;
} SilverpoiseBatchRecord;

// Why a place was left over (14). The first of these that holds is given.
enum {
  SILVERPOISE_REASON_LOST_CHOICE = 1,    // a choice was decided against it; detail: the place that decided it, PLUS 1
  SILVERPOISE_REASON_GIVEN_EARLIER = 2,  // its name was given earlier too; detail: the nearest such place, PLUS 1
  SILVERPOISE_REASON_KEY_USED = 3,       // an ArgWord, and the place before it, its key, is used
  SILVERPOISE_REASON_UNNAMED = 4,        // a Short or Long that no flag and no argument of the form names
  SILVERPOISE_REASON_NO_POSITIONAL = 5,  // a Word or PosWord, and the form has no positional
  SILVERPOISE_REASON_UNKNOWN_LETTER = 6, // a Word that is a cluster with an unknown letter; detail: the first such, a character
  SILVERPOISE_REASON_NONE_OF_THESE = 7
};

// A reason, 1 to 7, and its detail, which is 0 where none is said. Refused, both are 0.
typedef struct {
  uint32_t number, place;
  uint32_t reason, detail;
} SilverpoiseWhyAnswer;

// Why a table was refused. For 1 to 4 `entry` is the number PLUS 1 of the entry whose form is at fault, else 0.
typedef struct {
  uint32_t number, place;
  uint32_t entry;
} SilverpoiseTableRefused;

// Where the form of an entry stands. The offset counts from the first byte of the table. Refused, both are 0.
typedef struct {
  uint32_t number, place;
  size_t offset, length;
} SilverpoiseFormPart;

enum {
  SILVERPOISE_SOURCE_SHEET = 0,
  SILVERPOISE_SOURCE_FORM = 1
};

// Where a text stands. The offset counts from the first byte of the sheet or form, not of its area. Refused, all are 0.
typedef struct {
  uint32_t number, place;
  uint32_t source, offset, length;
} SilverpoiseTextPart;

// A step through all short sheets: whether the sheet that was given is the last (1) or not (0), and the length of the sheet that was
// written. Refused, or after the last, it is 0. There is never a place.
typedef struct {
  uint32_t number, place;
  uint32_t last, length;
} SilverpoiseNextSheet;

// A joining of two forms: the length of the form that was written; refused, it is 0. For 1 to 4 `form` says which form is at
// fault, 1 the first or 2 the second, else it is 0.
typedef struct {
  uint32_t number, place;
  uint32_t length, form;
} SilverpoiseJoined;

// The words of an item record; all 0 for none and where refused.
typedef struct {
  uint32_t number, place;
  uint32_t item[SILVERPOISE_RECORD_WORDS];
} SilverpoiseGot;

// A character of a UTF-8 text and its size in bytes; none: false, 0, 0.
typedef struct {
  bool found;
  uint32_t character, size;
} SilverpoiseDecoding;

// ---- UTF-8 ----

// Whether the bytes are well-formed.
bool silverpoise_utf8_valid(const uint8_t *s, size_t s_count);

// The character that begins at byte `at`. None where the bytes there are not well-formed, and at or behind the end.
SilverpoiseDecoding silverpoise_utf8_decode(const uint8_t *s, size_t s_count, size_t at);

// ---- A form or a sheet alone ----

// 0, or 1 to 4.
SilverpoiseRefused silverpoise_form_check(const uint8_t *form, size_t form_count);

// 0, 5 or 6.
SilverpoiseRefused silverpoise_sheet_check(const uint8_t *sheet, size_t sheet_count);

// What silverpoise_kind answers: a base, 1 to 3, and added to it 3 to 12 for what is made of it.
enum {
  SILVERPOISE_KIND_YES_NO = 1,
  SILVERPOISE_KIND_TEXT = 2,
  SILVERPOISE_KIND_NUMBER = 3,

  SILVERPOISE_KIND_OPTIONAL = 3,
  SILVERPOISE_KIND_LIST = 6,
  SILVERPOISE_KIND_LIST_OF_OPTIONAL = 9,
  SILVERPOISE_KIND_OPTIONAL_LIST = 12
};

// The kind of a node's value, which says how to read its answer words (8). Refused: 1 to 4, 28.
SilverpoiseTold silverpoise_kind(const uint8_t *form, size_t form_count, size_t node);

// 1 if every short name of the form is one of 0..9, A..Z, a..z, and none is W (3.6), else 0. Refused: 1 to 4.
SilverpoiseTold silverpoise_portable(const uint8_t *form, size_t form_count);

// Values from nothing: the repeats (kinds 5 to 8) whose child may be idle, that is, may have a value although it uses nothing of
// the line. A switch, an optional and a fallback may be; a required flag, an argument and a positional not; a guard as its child; a
// choice if either side may. Each of these has one element on the empty line, unless a guard refuses it. Refused: 1 to 4.
SilverpoiseIdleAnswer silverpoise_idle_repeats(const uint8_t *form, size_t form_count);

// ---- Two forms made one (17) ----

// The first form's nodes, names and fields and then the second's, whose references to nodes, names and bytes of the area are
// moved up. It is written to `out`, with zeros behind it to the end; `out` has at least SILVERPOISE_MAX_FORM bytes, however short
// the form is. The joined form is accepted, and each field has the kind that it had.
//
// Its run is the first's fields and then the second's on one line, split with the short names of BOTH: a letter that is a flag in
// one form and an argument in the other is refused with 9 in a cluster. Where the first form has f fields, n nodes and m names,
// field k of the second is field f + k (a mark), its node k is node n + k (an entry of `list`), and the text of its name record k
// is the answer word 256 + m + k.
//
// Refused: 1 to 4 of the first form, then 1 to 4 of the second, then 18; `out` is then all 0.
SilverpoiseJoined silverpoise_join(const uint8_t *first, size_t first_count, const uint8_t *second, size_t second_count,
                                   uint8_t *out, size_t out_count);

// ---- A form and a sheet ----

// Splits a line into items, written to `items`, and gives the state they start in: only the opening `--` is used, with the
// mark SILVERPOISE_MARK_MARKER. Refused: 1 to 4, 6, 5, 7, then 8 or 9. After 1 to 8 the item slice is all 0 and the state
// empty. After 9 the slice has the items up to the Word, and none is used. In every case the words behind the last item are 0.
SilverpoiseSplitAnswer silverpoise_split(const uint8_t *form, size_t form_count, const uint8_t *sheet, size_t sheet_count,
                                         uint32_t *items, size_t item_count);

// Reads a line: splits it, evaluates every field, and asks whether an item is left over. The values are written to `answers`,
// field after field:
//
//   yes, no            1, 0
//   number             itself
//   text               a word for silverpoise_text: an item's place, or 256 plus the name record of a fallback
//   optional           0; or 1 and then the value
//   list               the count of elements, then each element
//
// In `state` a place that field k used has the mark SILVERPOISE_MARK_FIELD + k, so it tells which field took which word.
//
// An argument such as `-17`, where no option has the letter 1, is a word by bpaf's rules, and may be taken as one:
// silverpoise_careful refuses the line.
//
// The words behind the last value are 0. Refused: as silverpoise_split, with 14 right behind 7, then one of 20 to 27. Refused,
// the answer slice is all 0 and so is `words`. After 1 to 9 item slice and state are as silverpoise_split leaves them, and
// `tries` is 0; after 14 as after 7. After 20 to 27 the item slice has the items, and `state` and `tries` are those reached.
//
// After 20 `list` has what is missing (9.2): an entry of three words for each flag, argument and positional that looked in
// vain, in the order in which they were evaluated. Its words are the number of the node PLUS 1, and the scope that was looked
// in, from its start up to, not including, its end. The words behind the last entry are 0, and after every other answer all.
SilverpoiseRunAnswer silverpoise_run(const uint8_t *form, size_t form_count, const uint8_t *sheet, size_t sheet_count,
                                     uint32_t *items, size_t item_count, uint32_t *answers, size_t answer_count,
                                     uint32_t *list, size_t list_count);

// One node on a state, any node of the form; its value is written to `answers`. Refused with 1 to 4, 6, 5, 7, 14, 30, 29 or
// 28: answer slice and list slice are as they were and the state is the given one. Refused with 20 to 26: the answer slice is
// all 0 and the state the one that the node left. Accepted, and after 20 to 26, `list` has what silverpoise_run writes there.
// What the node uses gets the mark of its field: every node of a form belongs to one.
SilverpoiseRunAnswer silverpoise_eval(const uint8_t *form, size_t form_count, const uint8_t *sheet, size_t sheet_count,
                                      const uint32_t *items, size_t item_count, uint32_t *answers, size_t answer_count,
                                      uint32_t *list, size_t list_count, SilverpoiseState state, size_t node);

// Where the text of an answer word stands. Any item's text is found by its place. Refused: 1 to 4, 6, 5, 7, 30, 28.
SilverpoiseTextPart silverpoise_text(const uint8_t *form, size_t form_count, const uint8_t *sheet, size_t sheet_count,
                                     const uint32_t *items, size_t item_count, uint32_t word);

// ---- A command table (12): several forms, each under the names of its command ----
//
// For the initializer of an array of uint8_t: the count of entries, a U16; their offsets, counted from the first entry, a U32
// each, the last of them the end of the table; the entries. An entry: the count of its names and the bytes of their area, a
// U16 each; a NAME each; the area; and then its form. A long name is written without dashes, as it is given on the line, and
// so is a short one, which is one character. Every entry has a long name.

// 0; 11; or 1 to 4 with the place of silverpoise_form_check and the entry whose form is at fault.
SilverpoiseTableRefused silverpoise_commands_check(const uint8_t *table, size_t table_count);

// Where the form of an entry stands, for the calls that take a form: silverpoise_text after a run, silverpoise_portable. The
// form itself is not checked. Refused: 11, 28.
SilverpoiseFormPart silverpoise_command_form(const uint8_t *table, size_t table_count, size_t entry);

// Reads a line whose first word is a command, by the form of its entry. The line is split by the short names of ALL forms of
// the table: a letter that is a flag in one and an argument in another is refused with 9 in a cluster under every command.
// Then the names are compared with the first item: entry after entry, in each the long names before the short ones. The first
// that is its text chooses the form; the item has the mark SILVERPOISE_MARK_COMMAND, and the fields get what follows.
//
// `comparisons` is the number of the name that matched, counted from 1 in that order, or that of all names after 31, and 0
// where the line was refused before. `entry` is that of the form at fault for 1 to 4, that of the command for 0 and 20 to 27.
//
// The slices, `tries`, `words` and `state` are as silverpoise_run leaves them for the chosen form. Refused: 11, leaving what 1
// leaves; 1 to 4, form by form; 6, 5, 7, 14; 8 or 9; 31; then one of 20 to 27. After 31 the item slice has the items and
// `state` is that of the split; the answer slice and the list are all 0, and so is `tries`.
SilverpoiseCommandAnswer silverpoise_run_commands(const uint8_t *table, size_t table_count, const uint8_t *sheet,
                                                  size_t sheet_count, uint32_t *items, size_t item_count, uint32_t *answers,
                                                  size_t answer_count, uint32_t *list, size_t list_count);

// The careful run (15) of a table: as silverpoise_run_commands, and refused with 50 where that is accepted and an argument that
// looks like options was read as a word, as silverpoise_careful does. The command word itself may look so. After 50 the item
// slice, `state`, `tries`, `comparisons` and `entry` are as after an accepted line; the answer slice and the list are all 0, and
// so is `words`. Refused: as silverpoise_run_commands; then 50.
SilverpoiseCarefulCommandAnswer silverpoise_careful_commands(const uint8_t *table, size_t table_count, const uint8_t *sheet,
                                                             size_t sheet_count, uint32_t *items, size_t item_count,
                                                             uint32_t *answers, size_t answer_count, uint32_t *list,
                                                             size_t list_count);

// ---- A batch (13): several sheets, read with one form ----
//
// For the initializer of an array of uint8_t: the count of sheets, a U16; their offsets, counted from the first sheet, a U32
// each, the last of them the end of the batch; the sheets.

// Reads every sheet of a batch as silverpoise_run does. Of sheet k, counted from 0, `records` has the record at word
// SILVERPOISE_BATCH_RECORD_WORDS * k, and each other slice the part that begins at k times the least length: `items` at word
// SILVERPOISE_ITEM_SLICE * k, and so on. The record is what silverpoise_run answers, and the parts what it leaves in slices of
// the least lengths; the state is not reported. Behind the records and behind the parts all is 0.
//
// No sheet stops another: the refusal of a sheet, also of one at fault (5 or 6), stands in its own record, and that of a form
// (1 to 4) in each. So the answer is 0, or 15 without a place: the batch is not as said above, or has more than
// SILVERPOISE_MAX_SHEETS, or a slice has no room for a record or a part of each sheet. 15 comes before all else, and leaves
// every slice all 0.
//
// A call that reads items, such as silverpoise_text, is lent the sheet and its part of `items`, not the whole slice.
SilverpoiseRefused silverpoise_run_batch(const uint8_t *form, size_t form_count, const uint8_t *batch, size_t batch_count,
                                         uint32_t *records, size_t record_count, uint32_t *items, size_t item_count,
                                         uint32_t *answers, size_t answer_count, uint32_t *list, size_t list_count);

// The same, but reads every sheet as silverpoise_careful does (15). So a record may have 50 and its place, with the tries of
// the run and no words: then the part of `answers` is all 0, and those of `items` and `list` are as the run left them. A record
// has no room for the letter of 50: silverpoise_careful tells it, lent that sheet. 15 comes where silverpoise_run_batch has it.
SilverpoiseRefused silverpoise_careful_batch(const uint8_t *form, size_t form_count, const uint8_t *batch, size_t batch_count,
                                             uint32_t *records, size_t record_count, uint32_t *items, size_t item_count,
                                             uint32_t *answers, size_t answer_count, uint32_t *list, size_t list_count);

// ---- Why a place was left over (14) ----

// Reads a line as silverpoise_run does, and where that ends in 27 gives one reason why `place`, itself and not plus 1, was left
// over. It need not be the place of the 27: any place that is present will do. The reason is the first that holds of the form,
// the sheet, the items and the marks that the run left.
//
// The slices are those of silverpoise_run, and hold what it leaves in them. Refused: as silverpoise_run with 1 to 9 and 14, and
// their place; then 28, with no place: there is no such place, or it is used, or the run did not end in 27. So 28 may leave the
// answers of an accepted line, or a list of what is missing.
SilverpoiseWhyAnswer silverpoise_why(const uint8_t *form, size_t form_count, const uint8_t *sheet, size_t sheet_count,
                                     size_t place, uint32_t *items, size_t item_count, uint32_t *answers, size_t answer_count,
                                     uint32_t *list, size_t list_count);

// ---- The careful run (15) ----

// Reads a line as silverpoise_run does, and refuses it with 50 where that is accepted and an argument that looks like options
// was read as a word: an item is a Word that is a whole argument, begins with a dash and is longer than `-`. This rule is ours
// and not bpaf's. It does not matter who took the Word: where no option has the letter 1, `-l` `-17` is refused too. What
// cannot be meant as options is not: `-l-17`, `-l=-17`, `--limit=-17`, `-` alone, and all that stands behind `--`.
//
// The answer and the slices are those of silverpoise_run. After 50 the item slice, `state` and `tries` are as after an accepted
// line; the answer slice and the list are all 0, and so is `words`. Refused: as silverpoise_run; then 50.
SilverpoiseCarefulAnswer silverpoise_careful(const uint8_t *form, size_t form_count, const uint8_t *sheet, size_t sheet_count,
                                             uint32_t *items, size_t item_count, uint32_t *answers, size_t answer_count,
                                             uint32_t *list, size_t list_count);

// ---- The field of a single call ----
//
// The calls below that use places are told the number of the field that does so, as `field`: they write the mark
// SILVERPOISE_MARK_FIELD + field. It must be below the form's count of fields, and below SILVERPOISE_MAX_FIELDS where the call
// has no form; else 28. silverpoise_take_cmd is told none and writes SILVERPOISE_MARK_COMMAND.

// ---- States alone; refused with 29, then 28 ----

// Uses a place. A place that is used already or out of scope changes nothing, and that is no refusal. found 1.
SilverpoiseStateAnswer silverpoise_remove(SilverpoiseState state, size_t place, size_t field);

// Which of two states a choice takes. found: 1 the first, 0 the second. first: the place that decided PLUS 1, or 0 for none.
SilverpoiseAnswer silverpoise_pick_winner(SilverpoiseState state, SilverpoiseState other);

// Marks every place that the loser used and `state` did not as lost to the place `winner`. found 1.
SilverpoiseStateAnswer silverpoise_save_conflicts(SilverpoiseState state, SilverpoiseState loser, size_t winner);

// Sets the scope and counts `remaining` anew. found 1.
SilverpoiseStateAnswer silverpoise_set_scope(SilverpoiseState state, size_t from, size_t to);

// The scope from its start up to the first place that is present in both states. found: 1; 0 if there is no such place, or if
// that is the scope already. first, second: the scope.
SilverpoiseAnswer silverpoise_adjacent_scope(SilverpoiseState state, SilverpoiseState original);

// The present places from `from` on without a gap. found 1; first, second: the scope, which may be empty.
SilverpoiseAnswer silverpoise_adjacently_available_from(SilverpoiseState state, size_t from);

// ---- A sheet, items that are only read, and a state; refused with 6, 5, 7, 30, 29, 28 ----
//
// The items are all whole records of the slice up to the last that is not all 0, here and wherever items are only read.
// Lend no more than the slice of one line: what stands behind it would be read too (30, or 29 for more than 256 items).

// The item at a place, if the place is in scope and present.
SilverpoiseGot silverpoise_get(const uint8_t *sheet, size_t sheet_count, const uint32_t *items, size_t item_count,
                               SilverpoiseState state, size_t place);

// Whether the first present place in scope lost a choice. found 1 or 0; first: the place, second: the winner's.
SilverpoiseAnswer silverpoise_conflict(const uint8_t *sheet, size_t sheet_count, const uint32_t *items, size_t item_count,
                                       SilverpoiseState state);

// Takes the first present Word or PosWord in scope; refused with 20 if there is none. found 1; first: its place; second: 1
// for a PosWord.
SilverpoiseStateAnswer silverpoise_take_positional_word(const uint8_t *sheet, size_t sheet_count, const uint32_t *items,
                                                        size_t item_count, SilverpoiseState state, size_t field);

// The nearest earlier place with the same character or name as the Short or Long at a place. found 1 or 0; first: that place.
// There is no state, so the items may be more than 256.
SilverpoiseAnswer silverpoise_only_once(const uint8_t *sheet, size_t sheet_count, const uint32_t *items, size_t item_count,
                                        size_t place);

// ---- A form too; refused with 1 to 4, 6, 5, 7, 30, 29, 28 ----

// Whether the item at a place has one of the names of a flag or argument. found 1 or 0.
SilverpoiseAnswer silverpoise_matches_arg(const uint8_t *form, size_t form_count, const uint8_t *sheet, size_t sheet_count,
                                          const uint32_t *items, size_t item_count, SilverpoiseState state, size_t node,
                                          size_t place);

// Takes a flag. found: 1 taken, 0 not there.
SilverpoiseStateAnswer silverpoise_take_flag(const uint8_t *form, size_t form_count, const uint8_t *sheet,
                                             size_t sheet_count, const uint32_t *items, size_t item_count,
                                             SilverpoiseState state, size_t node, size_t field);

// Takes an argument and its value. found: 1 taken, 0 not there; first: the value's place. Refused with 22 at the key if there
// is no value.
SilverpoiseStateAnswer silverpoise_take_arg(const uint8_t *form, size_t form_count, const uint8_t *sheet, size_t sheet_count,
                                            const uint32_t *items, size_t item_count, SilverpoiseState state, size_t node,
                                            size_t field);

// Takes the first present item in scope if it is a Word, a Short or a Long that is not adjacent, and its text is that of a
// short or long name record. found: 1 taken; 0 not taken, and `current` of the state becomes none.
SilverpoiseStateAnswer silverpoise_take_cmd(const uint8_t *form, size_t form_count, const uint8_t *sheet, size_t sheet_count,
                                            const uint32_t *items, size_t item_count, SilverpoiseState state, size_t record);

// ---- What a take would do ----
//
// Each is given and answers what the take of the same name is and does, and is refused as that is. The places are exactly those
// that are present in the given state and used in the one that would result: none; one; or two, of an argument its key and its
// value. A place that lost a choice is present. Every other mark stays.
SilverpoisePreviewAnswer silverpoise_preview_flag(const uint8_t *form, size_t form_count, const uint8_t *sheet,
                                                  size_t sheet_count, const uint32_t *items, size_t item_count,
                                                  SilverpoiseState state, size_t node, size_t field);
SilverpoisePreviewAnswer silverpoise_preview_arg(const uint8_t *form, size_t form_count, const uint8_t *sheet,
                                                 size_t sheet_count, const uint32_t *items, size_t item_count,
                                                 SilverpoiseState state, size_t node, size_t field);
SilverpoisePreviewAnswer silverpoise_preview_positional_word(const uint8_t *sheet, size_t sheet_count, const uint32_t *items,
                                                             size_t item_count, SilverpoiseState state, size_t field);

// A command that is not taken has number 0, found 0 and no places, and `current` of the state is none, as after the take.
SilverpoisePreviewAnswer silverpoise_preview_cmd(const uint8_t *form, size_t form_count, const uint8_t *sheet,
                                                 size_t sheet_count, const uint32_t *items, size_t item_count,
                                                 SilverpoiseState state, size_t record);

// ---- A state that is lent, and items as structs ----

// As silverpoise_remove and silverpoise_take_flag. Refused, the lent state is as it was.
SilverpoiseAnswer silverpoise_remove_in_place(SilverpoiseState *state, size_t place, size_t field);
SilverpoiseAnswer silverpoise_take_flag_in_place(SilverpoiseState *state, const uint8_t *form, size_t form_count,
                                                 const uint8_t *sheet, size_t sheet_count, const uint32_t *items,
                                                 size_t item_count, size_t node, size_t field);

// The first present item in scope that matches a flag or argument. `item_count` is that of the structs, of which those behind
// the last that is not all 0 are left out. found 1 or 0; first: the place. Refused: 1 to 4, 6, 5, 30, 29, 28.
SilverpoiseAnswer silverpoise_find(const uint8_t *form, size_t form_count, const uint8_t *sheet, size_t sheet_count,
                                   const SilverpoiseItemRecord *items, size_t item_count, SilverpoiseState state,
                                   size_t node);

// ---- Refusals, as bpaf ranks them ----

// True for 20, 21 and 24.
bool silverpoise_can_catch(uint32_t number);

// True for 9, 22, 23, 24 and 27.
bool silverpoise_wrong_input(uint32_t number);

// Which of two refusals is left: the second if the first can be caught, else the first. Two 20s give 20 with no place.
SilverpoiseRefused silverpoise_combine_with(SilverpoiseRefused first, SilverpoiseRefused second);

// ---- All short sheets (16) ----

// The short sheet behind `sheet`: of those of up to three arguments of up to four bytes each, all of the alphabet, by the number of
// arguments, then by their lengths from the left, then by their bytes in the order of the alphabet. It is written to `out`, with zeros
// behind it to the end. The first one is the empty sheet, U16(0), U16(0); from it the steps reach every other once. After the last one
// `last` is 1 and `out` all 0. Refused: 16, 17, 19, in this order; `out` is then all 0.
SilverpoiseNextSheet silverpoise_next_sheet(const uint8_t *alphabet, size_t alphabet_count, const uint8_t *sheet,
                                            size_t sheet_count, uint8_t *out, size_t out_count);

// ---- The layout that the library was compiled with ----

#if defined(__cplusplus) && __cplusplus >= 201103L
#define SILVERPOISE_ASSERT static_assert
#elif !defined(__cplusplus) && defined(__STDC_VERSION__) && __STDC_VERSION__ >= 201112L
#define SILVERPOISE_ASSERT _Static_assert
#endif

#ifdef SILVERPOISE_ASSERT
SILVERPOISE_ASSERT(sizeof(size_t) == 8, "counts and numbers of nodes and places have 64 bits");
SILVERPOISE_ASSERT(sizeof(SilverpoiseItemRecord) == 28, "an item record has seven words");
SILVERPOISE_ASSERT(offsetof(SilverpoiseItemRecord, name_offset) == 12, "name_offset");
SILVERPOISE_ASSERT(offsetof(SilverpoiseItemRecord, text_offset) == 20, "text_offset");
SILVERPOISE_ASSERT(sizeof(SilverpoiseState) == 532, "a state has 256 marks and five words");
SILVERPOISE_ASSERT(offsetof(SilverpoiseState, count) == 512, "count");
SILVERPOISE_ASSERT(offsetof(SilverpoiseState, end) == 528, "end");
SILVERPOISE_ASSERT(sizeof(SilverpoiseRefused) == 8, "SilverpoiseRefused");
SILVERPOISE_ASSERT(sizeof(SilverpoiseTold) == 12, "SilverpoiseTold");
SILVERPOISE_ASSERT(sizeof(SilverpoiseIdleAnswer) == 16, "SilverpoiseIdleAnswer");
SILVERPOISE_ASSERT(offsetof(SilverpoiseIdleAnswer, nodes) == 8, "nodes of SilverpoiseIdleAnswer");
SILVERPOISE_ASSERT(sizeof(SilverpoiseAnswer) == 20, "SilverpoiseAnswer");
SILVERPOISE_ASSERT(sizeof(SilverpoiseStateAnswer) == 552, "SilverpoiseStateAnswer");
SILVERPOISE_ASSERT(offsetof(SilverpoiseStateAnswer, state) == 20, "state of SilverpoiseStateAnswer");
SILVERPOISE_ASSERT(sizeof(SilverpoisePreviewAnswer) == 564, "SilverpoisePreviewAnswer");
SILVERPOISE_ASSERT(offsetof(SilverpoisePreviewAnswer, places) == 20, "places of SilverpoisePreviewAnswer");
SILVERPOISE_ASSERT(offsetof(SilverpoisePreviewAnswer, state) == 32, "state of SilverpoisePreviewAnswer");
SILVERPOISE_ASSERT(sizeof(SilverpoiseSplitAnswer) == 540, "SilverpoiseSplitAnswer");
SILVERPOISE_ASSERT(offsetof(SilverpoiseSplitAnswer, state) == 8, "state of SilverpoiseSplitAnswer");
SILVERPOISE_ASSERT(sizeof(SilverpoiseRunAnswer) == 548, "SilverpoiseRunAnswer");
SILVERPOISE_ASSERT(offsetof(SilverpoiseRunAnswer, state) == 16, "state of SilverpoiseRunAnswer");
SILVERPOISE_ASSERT(sizeof(SilverpoiseCommandAnswer) == 556, "SilverpoiseCommandAnswer");
SILVERPOISE_ASSERT(offsetof(SilverpoiseCommandAnswer, state) == 24, "state of SilverpoiseCommandAnswer");
SILVERPOISE_ASSERT(sizeof(SilverpoiseCarefulAnswer) == 552, "SilverpoiseCarefulAnswer");
SILVERPOISE_ASSERT(offsetof(SilverpoiseCarefulAnswer, letter) == 16, "letter of SilverpoiseCarefulAnswer");
SILVERPOISE_ASSERT(offsetof(SilverpoiseCarefulAnswer, state) == 20, "state of SilverpoiseCarefulAnswer");
SILVERPOISE_ASSERT(sizeof(SilverpoiseCarefulCommandAnswer) == 560, "SilverpoiseCarefulCommandAnswer");
SILVERPOISE_ASSERT(offsetof(SilverpoiseCarefulCommandAnswer, letter) == 24, "letter of SilverpoiseCarefulCommandAnswer");
SILVERPOISE_ASSERT(offsetof(SilverpoiseCarefulCommandAnswer, state) == 28, "state of SilverpoiseCarefulCommandAnswer");
SILVERPOISE_ASSERT(sizeof(SilverpoiseBatchRecord) == 16, "a record of a batch has four words");
SILVERPOISE_ASSERT(sizeof(SilverpoiseWhyAnswer) == 16, "SilverpoiseWhyAnswer");
SILVERPOISE_ASSERT(offsetof(SilverpoiseWhyAnswer, reason) == 8, "reason of SilverpoiseWhyAnswer");
SILVERPOISE_ASSERT(sizeof(SilverpoiseTableRefused) == 12, "SilverpoiseTableRefused");
SILVERPOISE_ASSERT(sizeof(SilverpoiseFormPart) == 24, "SilverpoiseFormPart");
SILVERPOISE_ASSERT(offsetof(SilverpoiseFormPart, offset) == 8, "offset of SilverpoiseFormPart");
SILVERPOISE_ASSERT(sizeof(SilverpoiseTextPart) == 20, "SilverpoiseTextPart");
SILVERPOISE_ASSERT(sizeof(SilverpoiseNextSheet) == 16, "SilverpoiseNextSheet");
SILVERPOISE_ASSERT(offsetof(SilverpoiseNextSheet, length) == 12, "length of SilverpoiseNextSheet");
SILVERPOISE_ASSERT(sizeof(SilverpoiseJoined) == 16, "SilverpoiseJoined");
SILVERPOISE_ASSERT(offsetof(SilverpoiseJoined, form) == 12, "form of SilverpoiseJoined");
SILVERPOISE_ASSERT(sizeof(SilverpoiseGot) == 36, "SilverpoiseGot");
SILVERPOISE_ASSERT(sizeof(SilverpoiseDecoding) == 12, "SilverpoiseDecoding");
SILVERPOISE_ASSERT(offsetof(SilverpoiseDecoding, character) == 4, "character of SilverpoiseDecoding");
#undef SILVERPOISE_ASSERT
#endif

#ifdef __cplusplus
}
#endif

#endif
