/* SMAC in C: registers as four 32-bit words, F by four tables of 256 words, sigma inside F's look-ups. */
#include "smac.h"
#include <string.h>

static uint32_t T[4][256];

typedef struct { uint32_t w[4]; } Block;
typedef struct { Block p1, a2, a3; } Regs; /* A1 = sigma(p1) */

static uint8_t xtime(uint8_t b) { return (uint8_t)((b << 1) ^ ((b >> 7) * 0x1b)); }

static uint8_t times(uint8_t a, uint8_t b) {
    uint8_t r = 0;
    for (; b; b >>= 1, a = xtime(a))
        if (b & 1) r ^= a;
    return r;
}

void smac_tables(void) {
    for (int b = 0; b < 256; b++) {
        uint8_t inv = 0;
        for (int i = 1; i < 256 && b; i++)
            if (times((uint8_t)b, (uint8_t)i) == 1) inv = (uint8_t)i;
        uint8_t s = 0x63;
        for (int k = 0; k < 5; k++) s ^= (uint8_t)((inv << k) | (inv >> (8 - k)));
        uint8_t s2 = xtime(s), s3 = s2 ^ s;
        T[0][b] = (uint32_t)s2 | (uint32_t)s << 8 | (uint32_t)s << 16 | (uint32_t)s3 << 24;
        for (int k = 1; k < 4; k++) T[k][b] = T[k - 1][b] << 8 | T[k - 1][b] >> 24;
    }
}

static inline uint8_t byte(Block x, int i) { return (uint8_t)(x.w[i / 4] >> (8 * (i % 4))); }
static inline Block load(const uint8_t *p) { Block b; memcpy(b.w, p, 16); return b; }
static inline Block xor2(Block x, Block y) {
    for (int i = 0; i < 4; i++) x.w[i] ^= y.w[i];
    return x;
}

#define COLUMN(x, a, b, c, d) (T[0][byte(x, a)] ^ T[1][byte(x, b)] ^ T[2][byte(x, c)] ^ T[3][byte(x, d)])

static inline Block F(Block x) {
    Block r = {{COLUMN(x, 0, 5, 10, 15), COLUMN(x, 4, 9, 14, 3), COLUMN(x, 8, 13, 2, 7), COLUMN(x, 12, 1, 6, 11)}};
    return r;
}

/* F after each sigma, and sigma undone. */
static inline Block F1(Block x) {
    Block r = {{COLUMN(x, 0, 13, 6, 9), COLUMN(x, 4, 15, 2, 11), COLUMN(x, 8, 5, 14, 1), COLUMN(x, 12, 7, 10, 3)}};
    return r;
}
static inline Block F34(Block x) {
    Block r = {{COLUMN(x, 7, 13, 1, 9), COLUMN(x, 12, 6, 2, 10), COLUMN(x, 4, 11, 15, 0), COLUMN(x, 8, 14, 3, 5)}};
    return r;
}
static inline Block F12(Block x) {
    Block r = {{COLUMN(x, 0, 4, 8, 12), COLUMN(x, 6, 3, 10, 14), COLUMN(x, 9, 2, 7, 15), COLUMN(x, 13, 11, 1, 5)}};
    return r;
}

static const uint8_t PI1[16] = {0, 7, 14, 11, 4, 13, 10, 1, 8, 15, 6, 3, 12, 5, 2, 9};
static const uint8_t PI34[16] = {7, 14, 15, 10, 12, 13, 3, 0, 4, 6, 1, 5, 8, 11, 2, 9};
static const uint8_t PI12[16] = {0, 11, 7, 14, 6, 4, 1, 15, 9, 3, 8, 5, 13, 2, 10, 12};

static Block unmoved(const uint8_t *pi, const uint8_t *a) {
    uint8_t out[16];
    for (int i = 0; i < 16; i++) out[pi[i]] = a[i];
    return load(out);
}

#define ROUND(s, m, FS) ({ Regs n; n.p1 = xor2(xor2((s).a2, (s).a3), m); n.a2 = xor2(FS((s).p1), m); n.a3 = xor2(F((s).a2), m); n; })
static const Block DUMMY = {{1, 0, 0, 0}};

static Regs xor3(Regs s, Regs t) {
    s.p1 = xor2(s.p1, t.p1), s.a2 = xor2(s.a2, t.a2), s.a3 = xor2(s.a3, t.a3);
    return s;
}

#define DUMMIES(s, n, FS) for (int i_ = 0; i_ < (n); i_++) (s) = ROUND(s, DUMMY, FS)

static void lengths(uint8_t out[16], size_t len) {
    uint64_t bits = 8 * (uint64_t)len;
    memset(out, 0, 16);
    memcpy(out + 8, &bits, 8);
}

#define SINGLE(NAME, PI, FS, AFTER)                                                                            \
    static void NAME(const uint8_t key[32], const uint8_t iv[16], const uint8_t *body, size_t len, uint8_t *tag) { \
        Regs s = {unmoved(PI, key + 16), load(key), load(iv)}, c = s;                                          \
        DUMMIES(s, 9, FS);                                                                                     \
        s = xor3(s, c);                                                                                        \
        uint8_t last[16] = {0};                                                                                \
        size_t i = 0, n = len / 16;                                                                            \
        for (; i < n; i++) { s = ROUND(s, load(body + 16 * i), FS); AFTER }                                    \
        if (len % 16) { memcpy(last, body + 16 * n, len % 16); s = ROUND(s, load(last), FS); AFTER i++; }      \
        lengths(last, len);                                                                                    \
        s = ROUND(s, load(last), FS);                                                                          \
        AFTER                                                                                                  \
        c = s;                                                                                                 \
        DUMMIES(s, 9, FS);                                                                                     \
        s = xor3(s, c);                                                                                        \
        memcpy(tag, s.a2.w, 16);                                                                               \
        memcpy(tag + 16, s.a3.w, 16);                                                                          \
    }

SINGLE(smac1, PI1, F1, )
SINGLE(smac34, PI34, F34, if (i % 3 == 2) s = ROUND(s, DUMMY, F34);)
SINGLE(smac12, PI12, F12, s = ROUND(s, DUMMY, F12);)

static void smac1x(int n, const uint8_t key[32], const uint8_t iv[16], const uint8_t *body, size_t len, uint8_t *tag) {
    Regs s[16], first = {{{0}}, {{0}}, {{0}}};
    for (int k = 0; k < n; k++) {
        uint8_t own[16];
        memcpy(own, iv, 16);
        own[15] = (uint8_t)(16 * (n - 1) + k);
        Regs r = {unmoved(PI1, key + 16), load(key), load(own)};
        if (k == 0) first = r;
        DUMMIES(r, 8, F1);
        s[k] = xor3(r, first);
    }
    uint8_t last[16] = {0}, zero[16] = {0};
    int t = 0;
#define TAKE(p) (s[t] = ROUND(s[t], load(p), F1), t = t + 1 == n ? 0 : t + 1)
    for (size_t i = 0; i < len / 16; i++) TAKE(body + 16 * i);
    if (len % 16) { memcpy(last, body + len / 16 * 16, len % 16); TAKE(last); }
    lengths(last, len);
    TAKE(last);
    while (t) TAKE(zero);
    Regs sum = {{{0}}, {{0}}, {{0}}};
    for (int k = 0; k < n; k++) {
        DUMMIES(s[k], 6, F1);
        sum = xor3(sum, s[k]);
    }
    Block kept = sum.a2;
    DUMMIES(sum, 8, F1);
    kept = xor2(kept, sum.a2);
    memcpy(tag, kept.w, 16);
}

void smac_tag(int mode, int streams, const uint8_t key[32], const uint8_t iv[16], const uint8_t *body, size_t len, uint8_t tag[32]) {
    memset(tag, 0, 32);
    if (mode == 1) smac1(key, iv, body, len, tag);
    if (mode == 2) smac34(key, iv, body, len, tag);
    if (mode == 3) smac12(key, iv, body, len, tag);
    if (mode == 4) smac1x(streams, key, iv, body, len, tag);
}
