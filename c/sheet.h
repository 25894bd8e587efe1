// Sheets of lines, for the test programs. Not part of the library.
#ifndef SHEET_H
#define SHEET_H

#include <stddef.h>
#include <stdint.h>

static uint8_t *put_u16(uint8_t *to, size_t x) {
  to[0] = x & 255;
  to[1] = (x >> 8) & 255;
  return to + 2;
}

// Writes the sheet of a line, whose arguments are separated by one space each, and returns its length.
static size_t write_sheet(uint8_t *sheet, const char *line) {
  size_t count = line[0] != 0;
  for (const char *c = line; *c; c++) count += *c == ' ';
  uint8_t *offset = put_u16(put_u16(sheet, count), 0), *area = offset + 2 * count, *to = area;
  for (; *line; line++) {
    if (*line == ' ') {
      offset = put_u16(offset, (size_t)(to - area));
    } else {
      *to++ = (uint8_t)*line;
    }
  }
  if (count > 0) put_u16(offset, (size_t)(to - area));
  return (size_t)(to - sheet);
}

#endif
