/* nfstream: UTF-8 that comes in pieces, made stream-safe (UAX #15, section 13) and brought into a normalization form.
 *
 * The state lies in the caller's memory, as does all input and output. No call allocates, and none keeps a pointer. A state may
 * be copied, kept in a file of the same machine, and used by one thread at a time.
 *
 * What the caller owes: each pointer is valid for its length, and with length 0 it may be NULL; `state`, `in`, `out` and `moved`
 * of a call do not overlap, not even by a byte, and no other thread writes to them while the call runs. Else the behaviour is
 * undefined, as a call in place or an input that changes is: a text is looked at once to see that it is well-formed, and what
 * is done with it afterwards relies on that, so it may read past its end. No call fails for anything else: numbers that mean
 * nothing, and memory that holds no state, are refused by a status.
 *
 * The library runs on x86-64 with SSSE3, SSE4.1 and POPCNT (all of x86-64-v2 has them), and looks for none of them. This header
 * is C99 and later, and C++98 and later with <stdint.h>. */
#ifndef NFSTREAM_H
#define NFSTREAM_H

#include <stddef.h>
#include <stdint.h>

#ifdef __cplusplus
extern "C" {
#endif

#define NF_VERSION 2

enum nf_form { NF_NFC = 1, NF_NFD = 2, NF_NFKC = 3, NF_NFKD = 4 };

/* To be joined by |. NF_REPLACE: each maximal subpart of ill-formed bytes, and a character that the end cuts, is read as one
 * U+FFFD (The Unicode Standard, section 3.9). NF_ASSIGNED: a character that Unicode has not assigned is refused. */
enum nf_policy { NF_AS_IS = 0, NF_REPLACE = 1, NF_ASSIGNED = 2 };

enum nf_status {
  NF_DONE = 0,       /* all was read */
  NF_NO_FORM = 1,    /* the number is that of no form */
  NF_NO_POLICY = 2,  /* the number is that of no policy */
  NF_FULL = 3,       /* the output is full: go on with what was not read, and other room */
  NF_BAD_BYTE = 4,   /* the byte at `at` is ill-formed, in a character begun at `start` */
  NF_CUT = 5,        /* the text ends at `at`, in a character begun at `start` */
  NF_UNASSIGNED = 6, /* the character at `at` is not assigned */
  NF_SPENT = 7,      /* an earlier call ended the text */
  NF_NO_STATE = 8,   /* the memory holds no state */
  NF_TOO_LONG = 9,   /* the offset would pass 2^64 - 1: nothing was read, and the state is as it was */
  NF_UNSAFE = 10,    /* the text is not in the Stream-Safe Text Format: U+034F would be put at `at` */
  NF_NOT_NORMALIZED = 11 /* the text is not in the form, or not stream-safe: it is changed from `at` on */
};

/* Where a text stands. The fields may be read, and are the library's to change; once `spent` is 1 the others say nothing.
 *
 * NF_NO_STATE is the answer to exactly these: memory without the word of this layout, so zeros too; a state made under another
 * version of Unicode; a number that means nothing (a form, policy or `spent`; more than 3 bytes, 30 marks or a count of 30; a
 * starter or mark that is no scalar value, a class above 255); `base` above `offset`; and held bytes that begin no character
 * (The Unicode Standard, Table 3-7). And where `spent` is 0: more bytes held than offset - base, or more `chars` than are left
 * of those; `put` above `chars`; `marks_len` above `count`, or in NFKC and NFKD other than `count`; a starter or a count where
 * `chars` is 0; no starter, and chars + put above `marks_len`; a starter that the data gives a class other than 0; a mark of
 * class 0, of another class than the data gives it, or of a smaller one than the mark before it.
 * Whatever else is in a state is taken as it is: no call reads or writes elsewhere for it, but what is written may then be the
 * form of no text, and what is told the truth of none. So a state is to be trusted as far as the one who kept it. */
struct nf_state {
  uint32_t magic;     /* a word that marks a state of this layout, and that zeros do not have */
  uint32_t unicode;   /* nf_unicode_version() of the library that made it */
  uint64_t base;      /* the offset of the first byte */
  uint64_t offset;    /* that of the next */
  uint64_t chars;     /* the characters taken */
  uint64_t put;       /* how many U+034F were put */
  uint32_t starter;   /* what is not settled: a starter, or 2^32 - 1 for none, */
  uint32_t marks[30]; /* and the marks after it: class times 2^21, and the code point */
  uint8_t held[3];    /* the bytes of a begun character */
  uint8_t held_len;
  uint8_t marks_len;
  uint8_t count; /* the non-starters that the stream-safe text's NFKD ends in, 0 to 30 */
  uint8_t form;
  uint8_t policy;
  uint8_t spent;
};

/* What a call read and wrote, and the place of a fault, in bytes from the base. After the first `written` bytes of `out` a
 * call may leave anything: what found no room was tried there. */
struct nf_moved {
  size_t read;
  size_t written;
  uint64_t at;
  uint64_t start;
};

/* Room in which a call always gets on by a byte at least, and in which nf_finish is never full. */
#define NF_LEAST_ROOM 256

/* The most bytes that nf_convert makes of `len`, in a form and under any policy: so much room is never too little. A call of
 * nf_feed may also write what earlier calls left unsettled: NF_LEAST_ROOM more. This was tested, not proved. The product must
 * be a size_t: `len` is at most SIZE_MAX / 11. */
#define NF_BOUND(form, len) ((size_t)(len) * ((form) == NF_NFC || (form) == NF_NFD ? 3 : 11))

/* Makes a state that has read nothing. The first byte has the offset `base`. */
uint32_t nf_start(struct nf_state *state, uint32_t form, uint32_t policy, uint64_t base);

/* Reads `in` as far as there is room, and writes what that settles of the form to the front of `out`. What is written after
 * NF_DONE and NF_FULL is the settled part of what was read, no more and no less, and the state stands after that. At
 * NF_BAD_BYTE and NF_UNASSIGNED what is settled before the place was written, and the state is spent: `read` is then the number
 * of bytes of `in` before `at`, and 0 where the character at `at` began in an earlier call. */
uint32_t nf_feed(struct nf_state *state, const uint8_t *in, size_t in_len, uint8_t *out, size_t out_len,
                 struct nf_moved *moved);

/* Writes the rest of the form, at the text's end, after which the state is spent. At NF_FULL `written` is 0, and the
 * state is as it was. */
uint32_t nf_finish(struct nf_state *state, uint8_t *out, size_t out_len, struct nf_moved *moved);

/* Writes the form of the whole text `in` to the front of `out`: nf_start with base 0, nf_feed and nf_finish in one. At NF_DONE
 * the whole form was written. At NF_FULL it needs more room than `out` has: `moved` tells how much was read, and what is
 * settled of that was written; no state is kept, so call again with more room. Other statuses are those of the three, and
 * `read` is then `at`. */
uint32_t nf_convert(uint32_t form, uint32_t policy, const uint8_t *in, size_t in_len, uint8_t *out, size_t out_len,
                    struct nf_moved *moved);

/* Whether the whole text `in` is in the Stream-Safe Text Format (UAX #15, section 13): NF_DONE, or NF_UNSAFE with the place
 * where U+034F would be put, or a fault that stands before that: NF_BAD_BYTE or NF_CUT. `read` is in_len at NF_DONE, and else
 * 0. Nothing is written. */
uint32_t nf_check(const uint8_t *in, size_t in_len, struct nf_moved *moved);

/* Whether the whole text `in` is in a form and stream-safe, so that nf_convert would leave it as it is: NF_DONE, or
 * NF_NOT_NORMALIZED with the place of the first character that the form changes, or a fault that comes before that is settled:
 * NF_BAD_BYTE, NF_CUT, and under NF_ASSIGNED NF_UNASSIGNED. NF_REPLACE is NF_NO_POLICY, since a place in what was replaced is
 * none in the text. `read` is in_len at NF_DONE, and else 0. Nothing is written. */
uint32_t nf_check_form(uint32_t form, uint32_t policy, const uint8_t *in, size_t in_len, struct nf_moved *moved);

/* NF_VERSION of the library. */
uint32_t nf_version(void);

/* The version of Unicode that the library's data is of: its three numbers as in 180000, which is 18.0.0. */
uint32_t nf_unicode_version(void);

/* What a status says, in English. */
static inline const char *nf_strerror(uint32_t status) {
  switch (status) {
    case NF_DONE: return "done";
    case NF_NO_FORM: return "the number is that of no form";
    case NF_NO_POLICY: return "the number is that of no policy";
    case NF_FULL: return "the output is full";
    case NF_BAD_BYTE: return "ill-formed UTF-8";
    case NF_CUT: return "the text ends within a character";
    case NF_UNASSIGNED: return "a character that Unicode has not assigned";
    case NF_SPENT: return "an earlier call ended the text";
    case NF_NO_STATE: return "the memory holds no state";
    case NF_TOO_LONG: return "the text is longer than offsets can count";
    case NF_UNSAFE: return "the text is not in the Stream-Safe Text Format";
    case NF_NOT_NORMALIZED: return "the text is not in the form, or not stream-safe";
    default: return "no status";
  }
}

#ifdef __cplusplus
}
#endif

/* The layout that the library was built for: an array of length -1 is refused. */
#define NF_ASSERT_(holds, name) typedef char nf_assert_##name[(holds) ? 1 : -1]
NF_ASSERT_(sizeof(struct nf_state) == 176, state);
NF_ASSERT_(offsetof(struct nf_state, base) == 8, base);
NF_ASSERT_(offsetof(struct nf_state, starter) == 40, starter);
NF_ASSERT_(offsetof(struct nf_state, marks) == 44, marks);
NF_ASSERT_(offsetof(struct nf_state, held) == 164, held);
NF_ASSERT_(offsetof(struct nf_state, held_len) == 167, held_len);
NF_ASSERT_(offsetof(struct nf_state, spent) == 172, spent);
NF_ASSERT_(sizeof(struct nf_moved) == 2 * sizeof(size_t) + 16, moved);
NF_ASSERT_(offsetof(struct nf_moved, at) == 2 * sizeof(size_t), at);
#undef NF_ASSERT_

#endif
