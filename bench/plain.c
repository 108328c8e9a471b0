/* A plain loop of the same work as `kelfhoam convert`, for the benchmark: packed events to lines and back, checking lengths only. */
#include <stdio.h>
#include <stdlib.h>
#include <string.h>
#include <sys/stat.h>

static const char *const names[11] = {"", "+STR", "-STR", "+DOC", "-DOC", "=ALI", "=VAL", "+SEQ", "-SEQ", "+MAP", "-MAP"};
static const char hex[] = "0123456789ABCDEF";

static unsigned char *put_text(unsigned char *o, char sign, const unsigned char *t, size_t n) {
    *o++ = ' ';
    *o++ = (unsigned char)sign;
    for (size_t i = 0; i < n; i++) {
        if (t[i] < 33 || t[i] > 126 || t[i] == '\\') {
            *o++ = '\\';
            *o++ = (unsigned char)hex[t[i] >> 4];
            *o++ = (unsigned char)hex[t[i] & 15];
        } else {
            *o++ = t[i];
        }
    }
    return o;
}

static size_t to_lines(const unsigned char *p, size_t n, unsigned char *out) {
    unsigned char *o = out;
    size_t at = 0;
    while (at + 9 <= n) {
        const unsigned char *h = p + at;
        size_t a = (size_t)h[3] << 8 | h[4], t = (size_t)h[5] << 8 | h[6], v = (size_t)h[7] << 8 | h[8];
        if (h[0] < 1 || h[0] > 10 || at + 9 + a + t + v > n) exit(1);
        memcpy(o, names[h[0]], 4);
        o += 4;
        *o++ = ' ';
        *o++ = (unsigned char)('0' + h[1]);
        *o++ = ' ';
        *o++ = (unsigned char)('0' + h[2]);
        if (a) o = put_text(o, '&', h + 9, a);
        if (t) o = put_text(o, '<', h + 9 + a, t);
        if (h[0] == 6) o = put_text(o, ':', h + 9 + a + t, v);
        *o++ = '\n';
        at += 9 + a + t + v;
    }
    return (size_t)(o - out);
}

static int unhex(unsigned char c) { return c >= 'A' ? c - 'A' + 10 : c - '0'; }

static const unsigned char *get_text(const unsigned char *p, const unsigned char *end, unsigned char *o, size_t *n) {
    size_t k = 0;
    while (p < end && *p > 32) {
        if (*p == '\\' && p + 2 < end) {
            o[k++] = (unsigned char)(unhex(p[1]) << 4 | unhex(p[2]));
            p += 3;
        } else {
            o[k++] = *p++;
        }
    }
    *n = k;
    return p;
}

static size_t to_packed(const unsigned char *p, size_t n, unsigned char *out) {
    const unsigned char *end = p + n;
    unsigned char *o = out;
    while (p + 9 <= end) {
        int k = 1;
        while (k < 11 && memcmp(p, names[k], 4) != 0) k++;
        if (k == 11) exit(1);
        size_t a = 0, t = 0, v = 0;
        unsigned char *h = o;
        h[0] = (unsigned char)k;
        h[1] = (unsigned char)(p[5] - '0');
        h[2] = (unsigned char)(p[7] - '0');
        o += 9;
        p += 8;
        if (p + 1 < end && p[0] == ' ' && p[1] == '&') p = get_text(p + 2, end, o, &a), o += a;
        if (p + 1 < end && p[0] == ' ' && p[1] == '<') p = get_text(p + 2, end, o, &t), o += t;
        if (p + 1 < end && p[0] == ' ' && p[1] == ':') p = get_text(p + 2, end, o, &v), o += v;
        if (p >= end || *p != '\n') exit(1);
        p++;
        h[3] = (unsigned char)(a >> 8), h[4] = (unsigned char)a;
        h[5] = (unsigned char)(t >> 8), h[6] = (unsigned char)t;
        h[7] = (unsigned char)(v >> 8), h[8] = (unsigned char)v;
    }
    return (size_t)(o - out);
}

int main(int argc, char **argv) {
    if (argc != 4) return 2;
    FILE *f = fopen(argv[2], "rb");
    struct stat s;
    if (!f || fstat(fileno(f), &s)) return 1;
    size_t n = (size_t)s.st_size;
    unsigned char *in = malloc(n + 1), *out = malloc(4 * n + 64);
    if (!in || !out || fread(in, 1, n, f) != n) return 1;
    fclose(f);
    size_t m = strcmp(argv[1], "lines") == 0 ? to_lines(in, n, out) : to_packed(in, n, out);
    f = fopen(argv[3], "wb");
    if (!f || fwrite(out, 1, m, f) != m || fclose(f)) return 1;
    return 0;
}
