/* Reads the request or the reply in a file so many times, as a plain parser in C does: the head in one pass over its bytes, and then
   a body of as many bytes as it says, or in chunks, into room of its own. It checks the classes of bytes and no limits but its own
   room, and keeps no places. Words: the file's path, how many times. Prints how many times it was whole. */
#include <stdio.h>
#include <stdlib.h>
#include <string.h>
#include <strings.h>

struct span { const char *at; size_t size; };
struct field { struct span name, value; };

static char token[256], value[256];

static int is_crlf(const char **at, const char *end) {
    if (*at < end && **at == '\r') ++*at;
    if (*at == end || **at != '\n') return 0;
    ++*at;
    return 1;
}

static struct span run(const char **at, const char *end, const char *class) {
    const char *from = *at;
    while (*at < end && class[(unsigned char)**at]) ++*at;
    return (struct span){from, *at - from};
}

/* The number of fields of a head that begins there, or -1. */
static int head(const char **at, const char *end, struct field *fields, int room) {
    run(at, end, value);
    if (!is_crlf(at, end)) return -1;
    for (int count = 0;; ++count) {
        if (is_crlf(at, end)) return count;
        if (count == room) return -1;
        fields[count].name = run(at, end, token);
        if (!fields[count].name.size || *at == end || *(*at)++ != ':') return -1;
        while (*at < end && (**at == ' ' || **at == '\t')) ++*at;
        fields[count].value = run(at, end, value);
        if (!is_crlf(at, end)) return -1;
    }
}

/* The size of a body in chunks that was copied, or -1. */
static long chunks(const char *at, const char *end, char *body) {
    for (long size = 0;;) {
        long more = 0;
        const char *from = at;
        for (; at < end; ++at) {
            int digit = *at >= '0' && *at <= '9' ? *at - '0' : (*at | 32) >= 'a' && (*at | 32) <= 'f' ? (*at | 32) - 'a' + 10 : -1;
            if (digit < 0) break;
            more = more * 16 + digit;
        }
        if (at == from || !is_crlf(&at, end)) return -1;
        if (more == 0) return is_crlf(&at, end) ? size : -1;
        if (more > end - at || size + more > 262144) return -1;
        memcpy(body + size, at, more);
        size += more;
        at += more;
        if (!is_crlf(&at, end)) return -1;
    }
}

static long message(const char *bytes, size_t size, char *body) {
    const char *at = bytes, *end = bytes + size;
    struct field fields[64];
    int count = head(&at, end, fields, 64);
    for (int n = 0; n < count; ++n) {
        if (fields[n].name.size == 14 && !strncasecmp(fields[n].name.at, "content-length", 14)) {
            long length = strtol(fields[n].value.at, 0, 10);
            if (length > end - at || length > 262144) return -1;
            memcpy(body, at, length);
            return length;
        }
        if (fields[n].name.size == 17 && !strncasecmp(fields[n].name.at, "transfer-encoding", 17)) return chunks(at, end, body);
    }
    return -1;
}

int main(int words, char **word) {
    static char text[1 << 20], body[262144];
    if (words != 3) return 1;
    FILE *file = fopen(word[1], "rb");
    if (!file) return 1;
    size_t size = fread(text, 1, sizeof text, file);
    for (int byte = 0; byte < 256; ++byte) {
        token[byte] = byte && (strchr("!#$%&'*+-.^_`|~", byte) || (byte >= '0' && byte <= '9') || ((byte | 32) >= 'a' && (byte | 32) <= 'z'));
        value[byte] = byte == '\t' || (byte >= ' ' && byte != 127);
    }
    long times = atol(word[2]), whole = 0;
    for (long n = 0; n < times; ++n) whole += message(text, size, body) >= 0;
    printf("%ld of %ld whole\n", whole, times);
    return 0;
}
