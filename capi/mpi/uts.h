/* uts.h: the trees of UTS, the Unbalanced Tree Search benchmark (S. Olivier and others, 2006): a node is 20 bytes of SHA-1. */
#ifndef UTS_H
#define UTS_H
#include <math.h>
#include <stdint.h>
#include <string.h>

typedef struct node {
    uint8_t state[20];
    int32_t height;
} node;

typedef struct tree {
    int type; /* 0 binomial, 1 geometric of fixed shape */
    double b;
    double q;
    int m;
    int depth;
    int seed;
    const char *name;
    uint64_t nodes, leaves;
    int deepest;
} tree;

static const tree T1 = {1, 4, 0, 0, 10, 19, "T1", 4130071, 3305118, 10};
static const tree T3 = {0, 2000, 0.124875, 8, 0, 42, "T3", 4112897, 3599034, 1572};
/* T1 cut at depth 7, for quick runs: counted in one process */
static const tree T0 = {1, 4, 0, 0, 7, 19, "T0", 63914, 51124, 7};

static inline const tree *uts_tree(const char *name) { return !strcmp(name, "T3") ? &T3 : !strcmp(name, "T0") ? &T0 : &T1; }

static inline uint32_t rol(uint32_t x, int k) { return x << k | x >> (32 - k); }

/* SHA-1 of at most 55 bytes. */
static void sha1_short(const uint8_t *text, int length, uint8_t out[20]) {
    uint8_t block[64] = {0};
    uint32_t w[80], a = 0x67452301, b = 0xefcdab89, c = 0x98badcfe, d = 0x10325476, e = 0xc3d2e1f0;
    memcpy(block, text, length);
    block[length] = 0x80;
    block[62] = (uint8_t)(length * 8 >> 8);
    block[63] = (uint8_t)(length * 8);
    for (int i = 0; i < 16; i++)
        w[i] = (uint32_t)block[4 * i] << 24 | block[4 * i + 1] << 16 | block[4 * i + 2] << 8 | block[4 * i + 3];
    for (int i = 16; i < 80; i++) w[i] = rol(w[i - 3] ^ w[i - 8] ^ w[i - 14] ^ w[i - 16], 1);
#define ROUND(f, k)                                  \
    do {                                             \
        uint32_t t = rol(a, 5) + (f) + e + k + w[i]; \
        e = d; d = c; c = rol(b, 30); b = a; a = t;  \
    } while (0)
    int i = 0;
    for (; i < 20; i++) ROUND((b & c) | (~b & d), 0x5a827999);
    for (; i < 40; i++) ROUND(b ^ c ^ d, 0x6ed9eba1);
    for (; i < 60; i++) ROUND((b & c) | (b & d) | (c & d), 0x8f1bbcdc);
    for (; i < 80; i++) ROUND(b ^ c ^ d, 0xca62c1d6);
#undef ROUND
    uint32_t h[5] = {a + 0x67452301, b + 0xefcdab89, c + 0x98badcfe, d + 0x10325476, e + 0xc3d2e1f0};
    for (int k = 0; k < 5; k++) {
        out[4 * k] = h[k] >> 24;
        out[4 * k + 1] = h[k] >> 16;
        out[4 * k + 2] = h[k] >> 8;
        out[4 * k + 3] = h[k];
    }
}

static void put_number(uint8_t *at, uint32_t x) {
    at[0] = x >> 24; at[1] = x >> 16; at[2] = x >> 8; at[3] = x;
}

static inline node uts_root(const tree *t) {
    node n;
    uint8_t text[20] = {0};
    put_number(text + 16, (uint32_t)t->seed);
    sha1_short(text, 20, n.state);
    n.height = 0;
    return n;
}

static inline node uts_child(const node *parent, int k) {
    node n;
    uint8_t text[24];
    memcpy(text, parent->state, 20);
    put_number(text + 20, (uint32_t)k);
    sha1_short(text, 24, n.state);
    n.height = parent->height + 1;
    return n;
}

static inline int uts_children(const tree *t, const node *n) {
    uint32_t v = ((uint32_t)n->state[16] << 24 | n->state[17] << 16 | n->state[18] << 8 | n->state[19]) & 0x7fffffff;
    double u = (double)v / 2147483648.0;
    if (t->type == 0) return n->height == 0 ? (int)floor(t->b) : (u < t->q ? t->m : 0);
    double b = n->height == 0 || n->height < t->depth ? t->b : 0;
    double p = 1.0 / (1.0 + b);
    int many = (int)floor(log(1 - u) / log(1 - p));
    return many > 100 ? 100 : many;
}
#endif
