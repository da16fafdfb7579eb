/* Pekonusit's calls from C. To build it:
 *   cc -Iinclude examples/calls.c -Ltarget/staticlib -lsignatures -o calls
 *   calls canon TABLE, or calls canon_numbered TABLE
 *   calls root TABLE ID SIGN
 *   calls recheck OLD NEW LISTING, or calls recheck_numbered OLD NEW LISTING
 * It prints the text, or `refused`, the number and the line; the exit status is 0, 1, or 2 where it was called wrongly. */
#include <pekonusit.h>
#include <stdio.h>
#include <stdlib.h>
#include <string.h>

/* One byte more than a table or a listing may have, so that a longer file is refused. */
#define TEXT 65537

static uint8_t texts[3][TEXT], out[PEKONUSIT_OUTPUT], draft[PEKONUSIT_DRAFT];
static uint32_t old[PEKONUSIT_TABLE], table[PEKONUSIT_TABLE], work[PEKONUSIT_WORK];
static uint32_t arena[PEKONUSIT_RECHECK_ARENA]; /* the longer one serves all calls */

static size_t read_text(const char *path, uint8_t *text) {
  FILE *file = fopen(path, "rb");
  if (file == NULL) {
    perror(path);
    exit(2);
  }
  size_t length = fread(text, 1, TEXT, file);
  fclose(file);
  return length;
}

static uint64_t canon(char **words, int numbered) {
  size_t length = read_text(words[0], texts[0]);
  return (numbered ? pekonusit_canon_numbered : pekonusit_canon)(texts[0], length, out, PEKONUSIT_OUTPUT, draft, PEKONUSIT_DRAFT, table,
                                                                 PEKONUSIT_TABLE, arena, PEKONUSIT_ARENA, work, PEKONUSIT_WORK);
}

static uint64_t canon_root(char **words) {
  size_t length = read_text(words[0], texts[0]);
  uint32_t id = (uint32_t)strtoul(words[1], NULL, 10), sign = strcmp(words[2], "+") != 0;
  return pekonusit_canon_root(texts[0], length, id, sign, out, PEKONUSIT_OUTPUT, draft, PEKONUSIT_DRAFT, table, PEKONUSIT_TABLE, arena,
                              PEKONUSIT_ARENA, work, PEKONUSIT_WORK);
}

static uint64_t recheck(char **words, int numbered) {
  size_t lengths[3];
  for (int i = 0; i < 3; i++) lengths[i] = read_text(words[i], texts[i]);
  return (numbered ? pekonusit_recheck_numbered : pekonusit_recheck)(
      texts[0], lengths[0], texts[1], lengths[1], texts[2], lengths[2], out, PEKONUSIT_OUTPUT, draft, PEKONUSIT_DRAFT, old, PEKONUSIT_TABLE, table,
      PEKONUSIT_TABLE, arena, PEKONUSIT_RECHECK_ARENA, work, PEKONUSIT_WORK);
}

/* Whether so many words come, and the first names this call. */
static int asks(int count, char **words, int expected, const char *call) { return count == expected && strcmp(words[1], call) == 0; }

int main(int count, char **words) {
  uint64_t answer;
  if (asks(count, words, 3, "canon")) {
    answer = canon(words + 2, 0);
  } else if (asks(count, words, 3, "canon_numbered")) {
    answer = canon(words + 2, 1);
  } else if (asks(count, words, 5, "root")) {
    answer = canon_root(words + 2);
  } else if (asks(count, words, 5, "recheck")) {
    answer = recheck(words + 2, 0);
  } else if (asks(count, words, 5, "recheck_numbered")) {
    answer = recheck(words + 2, 1);
  } else {
    fprintf(stderr, "usage: calls canon[_numbered] TABLE, calls root TABLE ID SIGN, or calls recheck[_numbered] OLD NEW LISTING\n");
    return 2;
  }
  if (pekonusit_refused(answer) != 0) {
    printf("refused\t%u\t%u\n", pekonusit_refused(answer), pekonusit_line(answer));
    return 1;
  }
  fwrite(out, 1, pekonusit_length(answer), stdout);
  return 0;
}
