/* A filter from standard input to standard output: cat FORM [replace] [assigned], with FORM as nfc, nfd, nfkc or nfkd.
 * CAT_IN and CAT_OUT are the sizes of its buffers. With CAT_WHOLE the input, of at most CAT_IN bytes, is converted by one call. */
#include "nfstream.h"
#include <stdio.h>
#include <string.h>

#ifndef CAT_IN
#define CAT_IN 65536
#endif
#ifndef CAT_OUT
#define CAT_OUT 65536
#endif

static uint8_t in[CAT_IN], out[CAT_OUT];

static int fault(uint32_t status, const struct nf_moved *moved) {
  fprintf(stderr, "cat: status %u at %llu, start %llu\n", (unsigned)status, (unsigned long long)moved->at,
          (unsigned long long)moved->start);
  return 3;
}

static int put(size_t len) { return fwrite(out, 1, len, stdout) == len; }

int main(int argc, char **argv) {
  static const char *const forms[] = {"nfc", "nfd", "nfkc", "nfkd"};
  struct nf_state state;
  struct nf_moved moved;
  uint32_t form = 0, policy = NF_AS_IS, status;
  size_t len, at;
  for (uint32_t i = 0; argc > 1 && i < 4; i++)
    if (strcmp(argv[1], forms[i]) == 0) form = i + 1;
  for (int i = 2; i < argc; i++) policy |= strcmp(argv[i], "replace") == 0 ? NF_REPLACE : NF_ASSIGNED;
#ifdef CAT_WHOLE
  (void)state, (void)at;
  len = fread(in, 1, sizeof in, stdin);
  if (ferror(stdin) || !feof(stdin)) return 4;
  status = nf_convert(form, policy, in, len, out, sizeof out, &moved);
  if (!put(moved.written) || fflush(stdout) != 0) return 4;
  return status == NF_DONE ? 0 : fault(status, &moved);
#else
  setvbuf(stdin, NULL, _IONBF, 0); /* pieces of this size need no other buffer */
  setvbuf(stdout, NULL, _IONBF, 0);
  if (nf_start(&state, form, policy, 0) != NF_DONE) return 2;
  while ((len = fread(in, 1, sizeof in, stdin)) > 0)
    for (at = 0; at < len; at += moved.read) {
      status = nf_feed(&state, in + at, len - at, out, sizeof out, &moved);
      if (!put(moved.written)) return 4;
      if (status != NF_DONE && status != NF_FULL) return fault(status, &moved);
    }
  if (ferror(stdin)) return 4;
  status = nf_finish(&state, out, sizeof out, &moved);
  if (!put(moved.written) || fflush(stdout) != 0) return 4;
  return status == NF_DONE ? 0 : fault(status, &moved);
#endif
}
