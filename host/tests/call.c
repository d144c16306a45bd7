/* The header from C: the format numbers, an answer of each kind, and each refusal that a short input can get. */
#include "onionsail.h"

#include <stdio.h>
#include <string.h>

static int wrong;

static void is(uint64_t format, const char *bytes, size_t length, int64_t expected) {
    int64_t found = yson_scan(format, (const uint8_t *)bytes, length);
    if (found != expected) {
        printf("format %d, %d bytes: expected %d, found %d\n", (int)format, (int)length, (int)expected, (int)found);
        wrong = 1;
    }
}

static void text(const char *bytes, int64_t expected) { is(YSON_TEXT, bytes, strlen(bytes), expected); }

int main(void) {
    is(YSON_BINARY, "\x01\x02" "a", 3, 3);
    is(YSON_BINARY, "\x01\x02", 2, YSON_INCOMPLETE);
    is(YSON_BINARY, "", 0, YSON_INCOMPLETE);
    is(YSON_BINARY, "\x01\x01", 2, -YSON_NEGATIVE_LENGTH);
    is(YSON_BINARY, "\x02\x80\x80\x80\x80\x80\x80\x80\x80\x80\x80\x00", 12, -YSON_LONG_VARINT);
    is(YSON_BINARY, "\x02\x80\x80\x80\x80\x80\x80\x80\x80\x80\x02", 11, -YSON_WIDE_VARINT);
    text(" [1; 2]", 7);
    text("[1", YSON_INCOMPLETE);
    text("!", -YSON_BAD_BYTE);
    text("\"\\xzz\"", -YSON_BAD_HEX_ESCAPE);
    text("-0u", -YSON_BAD_UINT64);
    text("1e", -YSON_BAD_DOUBLE);
    text("-", -YSON_BAD_INT64);
    text("%tr", -YSON_UNKNOWN_WORD);
    text("]", -YSON_NOT_VALUE);
    text("{1", -YSON_NOT_KEY);
    text("{a;", -YSON_NOT_EQUALS);
    {
        char deep[129];
        memset(deep, '[', sizeof deep);
        is(YSON_BINARY, deep, 128, YSON_INCOMPLETE);
        is(YSON_BINARY, deep, 129, -YSON_TOO_DEEP);
    }
    is(2, "#", 1, -YSON_BAD_CALL);
    is(UINT64_MAX, "#", 1, -YSON_BAD_CALL);
    is(YSON_BINARY, "#", (size_t)INT64_MAX + 1, -YSON_BAD_CALL);
    if (!wrong) {
        puts("ok");
    }
    return wrong;
}
