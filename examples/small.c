/* Outputs of every size from 0 to 300 and inputs cut at every place give what one call gives; what a fault read does not depend
 * on either; no form is larger than its bound; memory that is no state is refused; NULL with length 0 is taken. */
#include "nfstream.h"
#include <stdio.h>
#include <stdlib.h>
#include <string.h>

static void must(int holds, const char *what) {
  if (!holds) {
    fprintf(stderr, "small: %s\n", what);
    exit(1);
  }
}

/* Blocks of exactly the size, so that AddressSanitizer sees a step beyond. */
static uint8_t *block(size_t len) { return malloc(len ? len : 1) + (len ? 0 : 1); }
static void drop(uint8_t *bytes, size_t len) { free(bytes - (len ? 0 : 1)); }

/* The form of the text, in pieces of `cut` bytes and through an output of `room` bytes; 0 where a byte found no room. */
static size_t run(uint32_t form, const uint8_t *text, size_t len, size_t cut, size_t room, uint8_t *whole) {
  struct nf_state state;
  struct nf_moved moved;
  size_t at = 0, out = 0;
  uint32_t status;
  uint8_t *bytes = block(room);
  must(nf_start(&state, form, NF_AS_IS, 0) == NF_DONE, "start");
  while (at < len) {
    size_t some = len - at < cut ? len - at : cut;
    uint8_t *piece = block(some);
    memcpy(piece, text + at, some);
    status = nf_feed(&state, piece, some, bytes, room, &moved);
    drop(piece, some);
    must(status == NF_DONE || status == NF_FULL, "feed");
    must((status == NF_DONE) == (moved.read == some), "all is read");
    must(moved.read <= some && moved.written <= room, "within");
    memcpy(whole + out, bytes, moved.written);
    at += moved.read;
    out += moved.written;
    if (moved.read == 0) { /* less room than 256 bytes may be too little for one byte of input: go on with more */
      must(room < NF_LEAST_ROOM, "one byte gets on");
      drop(bytes, room);
      room = NF_LEAST_ROOM;
      bytes = block(room);
    }
  }
  while ((status = nf_finish(&state, bytes, room, &moved)) == NF_FULL) {
    must(room < NF_LEAST_ROOM && moved.written == 0, "the end has room");
    drop(bytes, room);
    room = NF_LEAST_ROOM;
    bytes = block(room);
  }
  must(status == NF_DONE, "finish");
  memcpy(whole + out, bytes, moved.written);
  drop(bytes, room);
  return out + moved.written;
}

/* How many bytes are read before the fault at `at`, in pieces of `cut` bytes and through an output of `room` bytes. */
static size_t read_to_fault(const uint8_t *text, size_t len, size_t cut, size_t room, uint64_t at) {
  static uint8_t out[8192];
  struct nf_state state;
  struct nf_moved moved;
  size_t read = 0;
  uint32_t status = NF_DONE;
  must(nf_start(&state, NF_NFC, NF_AS_IS, 0) == NF_DONE, "start");
  while (status == NF_DONE || status == NF_FULL) {
    must(read < len, "a fault");
    status = nf_feed(&state, text + read, len - read < cut ? len - read : cut, out, room, &moved);
    read += moved.read;
  }
  must(status == NF_BAD_BYTE && moved.at == at, "the place of the fault");
  return read;
}

/* The text of `times` times `some` is converted in the room of its bound: how many bytes of that are left. */
static size_t left_of_bound(uint32_t form, const char *some, size_t times) {
  static uint8_t text[1 << 16], out[1 << 20];
  struct nf_moved moved;
  size_t len = 0, bound;
  for (size_t i = 0; i < times; i++) len += (size_t)sprintf((char *)text + len, "%s", some);
  bound = NF_BOUND(form, len);
  must(bound <= sizeof out && nf_convert(form, NF_REPLACE, text, len, out, bound, &moved) == NF_DONE, "the bound is room enough");
  return bound - moved.written;
}

static void refused(struct nf_state state, const char *what) {
  struct nf_state before = state;
  struct nf_moved moved;
  uint8_t out[256];
  must(nf_feed(&state, (const uint8_t *)"a", 1, out, sizeof out, &moved) == NF_NO_STATE && moved.read == 0 && moved.written == 0, what);
  must(nf_finish(&state, out, sizeof out, &moved) == NF_NO_STATE && memcmp(&state, &before, sizeof state) == 0, what);
}

/* Memory that no call has filled, or that another version filled, and states with one thing changed. */
static void states(void) {
  struct nf_state zeros, fresh, some, state;
  struct nf_moved moved;
  uint8_t out[256];
  memset(&zeros, 0, sizeof zeros);
  memset(&state, 0xAB, sizeof state);
  memset(&fresh, 0, sizeof fresh);
  refused(zeros, "zeros are no state");
  refused(state, "garbage is no state");
  state = zeros;
  state.form = NF_NFC;
  refused(state, "zeros with a form are no state");
  must(nf_start(&fresh, NF_NFC, NF_AS_IS, 1000) == NF_DONE && fresh.unicode == nf_unicode_version(), "start");
  state = fresh;
  state.unicode = 170000;
  refused(state, "another version of Unicode");
  state = fresh;
  state.magic = 0;
  refused(state, "no word");
  state = fresh;
  state.starter = 'A';
  refused(state, "a starter before the first byte");
  state = fresh;
  memcpy(state.held, "\xf0\x9f\x98", state.held_len = 3);
  refused(state, "held bytes before the first byte");
  state = fresh;
  state.chars = state.put = 1000;
  refused(state, "counts before the first byte");
  some = fresh;
  must(nf_feed(&some, (const uint8_t *)"q\xcc\xa3\xcc\x81", 5, out, sizeof out, &moved) == NF_DONE && some.marks_len == 2, "marks are pending");
  state = some;
  state.marks[0] += 1u << 21;
  refused(state, "a mark of another class");
  state = some;
  state.marks[0] = some.marks[1];
  state.marks[1] = some.marks[0];
  refused(state, "marks out of order");
  state = some;
  state.marks[0] &= 0x1FFFFF;
  refused(state, "a mark of class 0");
  must(nf_feed(&some, (const uint8_t *)"z", 1, out, sizeof out, &moved) == NF_DONE && moved.written == 5, "and as it was it goes on");
}

int main(void) {
  static uint8_t text[4096], due[1 << 16], got[1 << 16];
  size_t len = 0, due_len;
  struct nf_state state;
  struct nf_moved moved;
  /* ASCII, a letter with 70 marks in falling order of class, Hangul letters, and U+FDFA, which NFKC makes 18 code points of. */
  len += (size_t)sprintf((char *)text, "plain Vie\xcc\x82\xcc\xa3t q");
  for (int i = 0; i < 35; i++) len += (size_t)sprintf((char *)text + len, "\xcc\x81\xcc\xa3");
  len += (size_t)sprintf((char *)text + len, "\xe1\x84\x92\xe1\x85\xa1\xe1\x86\xab \xef\xb7\xba\xef\xb7\xba \xf0\x9d\x85\x9e\xef\xac\x81 end\n");
  for (uint32_t form = NF_NFC; form <= NF_NFKD; form++) {
    due_len = run(form, text, len, len, sizeof due / 2, due);
    for (size_t room = 0; room <= 300; room++) must(run(form, text, len, len, room, got) == due_len && memcmp(due, got, due_len) == 0, "each size of output");
    for (size_t cut = 1; cut < len; cut++) must(run(form, text, len, cut, 256, got) == due_len && memcmp(due, got, due_len) == 0, "each cut");
  }
  /* A whole text by one call: the same, in just its room; one byte less is too little, and what is there is a front of it. */
  for (uint32_t form = NF_NFC; form <= NF_NFKD; form++) {
    due_len = run(form, text, len, len, sizeof due / 2, due);
    for (size_t room = 0; room <= due_len; room++) {
      uint8_t *bytes = block(room);
      uint32_t status = nf_convert(form, NF_AS_IS, text, len, bytes, room, &moved);
      must(status == (room == due_len ? NF_DONE : NF_FULL), "room for the whole");
      must(moved.written <= room && memcmp(due, bytes, moved.written) == 0, "a front of the whole");
      must(room < due_len || (moved.written == due_len && moved.read == len), "the whole");
      drop(bytes, room);
    }
  }
  must(nf_convert(0, NF_AS_IS, text, len, got, sizeof got, &moved) == NF_NO_FORM && nf_convert(NF_NFC, 4, text, len, got, sizeof got, &moved) == NF_NO_POLICY, "convert to no form");
  must(nf_convert(NF_NFC, NF_AS_IS, (const uint8_t *)"ab\xff", 3, got, sizeof got, &moved) == NF_BAD_BYTE && moved.at == 2 && moved.written == 1, "convert a bad byte");
  must(nf_convert(NF_NFC, NF_AS_IS, (const uint8_t *)"ab\xc3", 3, got, sizeof got, &moved) == NF_CUT && moved.at == 3 && moved.start == 2, "convert a cut");
  must(nf_convert(NF_NFC, NF_REPLACE, (const uint8_t *)"\xff", 1, got, sizeof got, &moved) == NF_DONE && moved.written == 3 && memcmp(got, "\xef\xbf\xbd", 3) == 0, "convert and replace");
  must(nf_convert(NF_NFC, NF_AS_IS, text, 0, got, 0, &moved) == NF_DONE && moved.written == 0, "convert nothing");
  /* The 31st mark after "plain Vi", e, two marks, "t q" stands at byte 16 + 2 * 30. */
  must(nf_check(text, len, &moved) == NF_UNSAFE && moved.at == 76 && moved.start == 76 && moved.read == 0 && moved.written == 0, "unsafe");
  must(nf_check(text, 76, &moved) == NF_DONE && moved.read == 76, "safe");
  must(nf_check((const uint8_t *)"ab\xff", 3, &moved) == NF_BAD_BYTE && moved.at == 2, "check a bad byte");
  must(nf_check((const uint8_t *)"ab\xc3", 3, &moved) == NF_CUT && moved.at == 3 && moved.start == 2, "check a cut");
  /* Each form is in itself. NFC composes the e at byte 8, and NFD puts the marks after it in order. */
  for (uint32_t form = NF_NFC; form <= NF_NFKD; form++) {
    due_len = run(form, text, len, len, sizeof due / 2, due);
    must(nf_check_form(form, NF_ASSIGNED, due, due_len, &moved) == NF_DONE && moved.read == due_len && moved.at == 0, "in the form");
    must(nf_check_form(form, NF_AS_IS, text, 8, &moved) == NF_DONE && moved.read == 8, "plain is in each form");
    must(nf_check_form(form, NF_AS_IS, text, len, &moved) == NF_NOT_NORMALIZED && moved.at == (form % 2 ? 8 : 9) && moved.start == moved.at, "not in the form");
    must(moved.read == 0 && moved.written == 0, "nothing is read of what is not in the form");
  }
  must(nf_check_form(5, NF_AS_IS, text, len, &moved) == NF_NO_FORM && nf_check_form(NF_NFC, NF_REPLACE, text, len, &moved) == NF_NO_POLICY, "check no form");
  must(nf_check_form(NF_NFC, NF_AS_IS, (const uint8_t *)"ab\xff", 3, &moved) == NF_BAD_BYTE && moved.at == 2, "check the form of a bad byte");
  must(nf_check_form(NF_NFC, NF_AS_IS, (const uint8_t *)"ab\xc3", 3, &moved) == NF_CUT && moved.at == 3 && moved.start == 2, "check the form of a cut");
  must(nf_check_form(NF_NFC, NF_ASSIGNED, (const uint8_t *)"a\xcd\xb8", 3, &moved) == NF_UNASSIGNED && moved.at == 1, "check the form of what is unassigned");
  states();
  /* 1,620 bytes, a bad one and 500 more: the call that meets it tells those before it, whatever it tried. */
  memset(got, 'a', 2121);
  got[1620] = 0xFF;
  for (size_t room = 256; room <= 8192; room *= 2)
    for (size_t cut = 1; cut <= 2121; cut += cut < 5 ? 1 : 77) must(read_to_fault(got, 2121, cut, room, 1620) == 1620, "bytes before the fault");
  for (uint32_t form = NF_NFC; form <= NF_NFKD; form++) {
    static const char *const texts[] = {"\xce\x90", "\xf0\x9d\x85\xa0", "\xef\xb7\xba", "\xcd\x84", "\xff", "\xea\xb0\x81", "\xef\xb7\xba\xcd\x84"};
    for (size_t i = 0; i < sizeof texts / sizeof *texts; i++)
      for (size_t times = 1; times <= 100; times++) left_of_bound(form, texts[i], times);
  }
  must(left_of_bound(NF_NFD, "\xce\x90", 100) == 0 && left_of_bound(NF_NFC, "\xff", 100) == 0 && left_of_bound(NF_NFKC, "\xef\xb7\xba", 100) == 0, "the bound is reached");
  must(nf_start(&state, NF_NFC, NF_AS_IS, 0) == NF_DONE && nf_feed(&state, NULL, 0, NULL, 0, &moved) == NF_DONE && nf_finish(&state, NULL, 0, &moved) == NF_DONE, "NULL with length 0");
  must(nf_convert(NF_NFC, NF_AS_IS, NULL, 0, NULL, 0, &moved) == NF_DONE && nf_check(NULL, 0, &moved) == NF_DONE && nf_check_form(NF_NFC, NF_AS_IS, NULL, 0, &moved) == NF_DONE, "NULL as a whole text");
  must(nf_start(&state, 0, NF_AS_IS, 0) == NF_NO_FORM && nf_start(&state, 5, NF_AS_IS, 0) == NF_NO_FORM, "no form");
  must(nf_start(&state, NF_NFC, 4, 0) == NF_NO_POLICY, "no policy");
  must(nf_start(&state, NF_NFC, NF_AS_IS, 7) == NF_DONE, "start");
  must(nf_feed(&state, text, 0, got, 0, &moved) == NF_DONE, "nothing to feed");
  must(nf_feed(&state, (const uint8_t *)"ab\xc3(", 4, got, sizeof got, &moved) == NF_BAD_BYTE, "a bad byte");
  must(moved.at == 10 && moved.start == 9 && moved.written == 1 && got[0] == 'a', "its place");
  must(nf_feed(&state, text, 1, got, sizeof got, &moved) == NF_SPENT && nf_finish(&state, got, sizeof got, &moved) == NF_SPENT, "spent");
  must(nf_start(&state, NF_NFC, NF_AS_IS, 0) == NF_DONE && nf_feed(&state, (const uint8_t *)"ab\xc3", 3, got, sizeof got, &moved) == NF_DONE, "a part");
  must(nf_finish(&state, got, sizeof got, &moved) == NF_CUT && moved.at == 3 && moved.start == 2, "cut");
  must(nf_start(&state, NF_NFC, NF_REPLACE, 0) == NF_DONE && nf_feed(&state, (const uint8_t *)"ab\xff\xc3", 4, got, sizeof got, &moved) == NF_DONE, "replaced");
  must(moved.written == 2 && nf_finish(&state, got, sizeof got, &moved) == NF_DONE && moved.written == 6 && memcmp(got, "\xef\xbf\xbd\xef\xbf\xbd", 6) == 0, "two replacements");
  must(nf_start(&state, NF_NFC, NF_ASSIGNED, 0) == NF_DONE && nf_feed(&state, (const uint8_t *)"a\xcd\xb8", 3, got, sizeof got, &moved) == NF_UNASSIGNED && moved.at == 1, "unassigned");
  must(nf_start(&state, NF_NFC, NF_AS_IS, UINT64_MAX - 2000) == NF_DONE && nf_feed(&state, text, 1, got, sizeof got, &moved) == NF_DONE, "not too long");
  must(nf_feed(&state, due, 2000, got, sizeof got, &moved) == NF_TOO_LONG && moved.read == 0 && moved.written == 0 && state.offset == UINT64_MAX - 1999, "too long: nothing is read");
  must(nf_version() == NF_VERSION && nf_unicode_version() == 180000 && strcmp(nf_strerror(NF_CUT), nf_strerror(99)) != 0, "versions");
  puts("small outputs, cuts, faults and garbage: as they should be");
  return 0;
}
