/* The scan of YSON values, for C. Link libabi.a, which `scripts/native abi_c target/staticlib/libabi.a` writes. */
#ifndef ONIONSAIL_H
#define ONIONSAIL_H

#include <stddef.h>
#include <stdint.h>

#ifdef __cplusplus
extern "C" {
#endif

/* Format numbers. */
#define YSON_BINARY UINT64_C(0)
#define YSON_TEXT UINT64_C(1)

/* The answer where the bytes end inside the value, or before it. */
#define YSON_INCOMPLETE INT64_C(0)

/* Refusals: the answer is minus one of these. */
#define YSON_BAD_BYTE INT64_C(1)         /* a byte that starts no token */
#define YSON_NEGATIVE_LENGTH INT64_C(2)  /* a string's length is below zero */
#define YSON_LONG_VARINT INT64_C(3)      /* a varint of more than ten bytes */
#define YSON_WIDE_VARINT INT64_C(4)      /* a varint of more than 64 bits */
#define YSON_BAD_HEX_ESCAPE INT64_C(5)   /* what stands after \x is no hex number */
#define YSON_BAD_UINT64 INT64_C(6)       /* number text with u that is no uint64 */
#define YSON_BAD_DOUBLE INT64_C(7)       /* number text with a point or an exponent that is no double */
#define YSON_BAD_INT64 INT64_C(8)        /* other number text that is no int64 */
#define YSON_UNKNOWN_WORD INT64_C(9)     /* an unknown word after % */
#define YSON_NOT_VALUE INT64_C(10)       /* a token that starts no value where one is due */
#define YSON_NOT_KEY INT64_C(11)         /* a token that is no string where a key is due */
#define YSON_NOT_EQUALS INT64_C(12)      /* a token other than = after a key */
#define YSON_TOO_DEEP INT64_C(13)        /* a block that would be the 129th open */
#define YSON_BAD_CALL INT64_C(29)        /* a format number neither 0 nor 1, or over 2^63 - 1 bytes */

/*
 * The length of the first value of the bytes, which is never 0 and never above `length`; 0 where the bytes end inside the
 * value or before it; or minus the number of a refusal. In text the length counts blanks and comments before the value.
 * A separator before the value is not passed over: that is for the caller. In binary an answer other than 0 stays the same
 * whatever bytes follow; in text it may rest on where the bytes end, as `12` may be the beginning of `123`.
 *
 * The caller's duties: `bytes` points to `length` bytes that can be read and that nothing writes to during the call.
 * Where `length` is 0 no byte is read, but `bytes` must not be NULL. The rest is not the caller's: any format number, any
 * length and any bytes have an answer. The call writes nothing, keeps nothing, allocates nothing, and may be made from any
 * number of threads at once.
 */
int64_t yson_scan(uint64_t format, const uint8_t *bytes, size_t length);

#ifdef __cplusplus
}
#endif

#endif
