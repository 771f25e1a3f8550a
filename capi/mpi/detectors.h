/* detectors.h: detectors with one interface: the proved one, a hand-written one with the same four counters, S. Safra's
 * ring (E. W. Dijkstra, W. H. J. Feijen and A. J. M. van Gasteren; EWD 998), hand-written, and, if mpi.h is included
 * before this file, repeated reductions of the four counters. The first three send gerfmuod_control_message. */
#ifndef DETECTORS_H
#define DETECTORS_H
#include <gerfmuod/process.h>
#include <stdlib.h>
#include <string.h>

enum { PROVED = 0, BY_HAND = 1, SAFRA = 2, REDUCTIONS = 3 };

typedef gerfmuod_control_message control;

/* the four counters over the same tree, hand-written without a proof */
typedef struct by_hand {
    int me, n, children, waiting, here, over, known;
    uint64_t pending, sent, received, wave, all_sent, all_received, last_received;
    int down, notified;
} by_hand;

static void hand_visit(by_hand *p, uint64_t wave) {
    p->wave = wave;
    p->here = 1;
    p->all_sent = p->all_received = 0;
    p->waiting = p->children;
    p->down = 0;
}

static int hand_next(by_hand *p, control *c) {
    memset(c, 0, sizeof *c);
    c->from = (uint64_t)p->me;
    if (p->over) {
        if (p->notified == p->children) return GERFMUOD_PROCESS_ENDED;
        c->to = (uint64_t)(2 * p->me + 1 + p->notified++);
        c->token = GERFMUOD_PROCESS_TOKEN_OVER;
        return GERFMUOD_PROCESS_SEND;
    }
    if (p->me == 0 && !p->here && p->pending == 0) hand_visit(p, p->wave + 1);
    c->wave = p->wave;
    if (p->here && p->down < p->children) {
        c->to = (uint64_t)(2 * p->me + 1 + p->down++);
        c->token = GERFMUOD_PROCESS_TOKEN_DOWN;
        return GERFMUOD_PROCESS_SEND;
    }
    if (!p->here || p->waiting || p->pending) return GERFMUOD_PROCESS_NOTHING;
    p->here = 0;
    if (p->me) {
        c->to = (uint64_t)((p->me - 1) / 2);
        c->token = GERFMUOD_PROCESS_TOKEN_UP;
        c->sent = p->all_sent + p->sent;
        c->received = p->all_received + p->received;
        return GERFMUOD_PROCESS_SEND;
    }
    if (p->known && p->last_received == p->all_sent + p->sent) p->over = 1;
    p->known = 1;
    p->last_received = p->all_received + p->received;
    return GERFMUOD_PROCESS_AGAIN;
}

static void hand_take(by_hand *p, const control *c) {
    if (c->token == GERFMUOD_PROCESS_TOKEN_DOWN) {
        hand_visit(p, c->wave);
    } else if (c->token == GERFMUOD_PROCESS_TOKEN_UP) {
        p->waiting--;
        p->all_sent += c->sent;
        p->all_received += c->received;
    } else {
        p->over = 1;
    }
}

/* a token goes n - 1, n - 2, .. 0 */
typedef struct safra {
    int me, n, black, has_token, token_black, started, over, has_notified;
    uint64_t pending, waves;
    int64_t count, token;
} safra;

static int safra_next(safra *p, control *c) {
    memset(c, 0, sizeof *c);
    c->from = (uint64_t)p->me;
    if (p->over) {
        if (p->has_notified || p->me == p->n - 1) return GERFMUOD_PROCESS_ENDED;
        p->has_notified = 1;
        c->to = (uint64_t)(p->me + 1);
        c->token = GERFMUOD_PROCESS_TOKEN_OVER;
        return GERFMUOD_PROCESS_SEND;
    }
    if (!p->has_token || p->pending) return GERFMUOD_PROCESS_NOTHING;
    if (p->me == 0) {
        if (p->started && !p->token_black && !p->black && p->token + p->count == 0) {
            p->over = 1;
            return GERFMUOD_PROCESS_AGAIN;
        }
        p->started = 1;
        p->waves++;
        p->black = 0;
        if (p->n == 1) {
            p->token = p->token_black = 0;
            return GERFMUOD_PROCESS_AGAIN;
        }
        p->has_token = 0;
        c->to = (uint64_t)(p->n - 1);
        return GERFMUOD_PROCESS_SEND;
    }
    p->has_token = 0;
    c->to = (uint64_t)(p->me - 1);
    c->sent = (uint64_t)(p->token + p->count);
    c->received = p->token_black || p->black;
    p->black = 0;
    return GERFMUOD_PROCESS_SEND;
}

static void safra_take(safra *p, const control *c) {
    if (c->token == GERFMUOD_PROCESS_TOKEN_OVER) {
        p->over = 1;
        return;
    }
    p->has_token = 1;
    p->token = (int64_t)c->sent;
    p->token_black = (int)c->received;
}

#ifdef MPI_VERSION
/* Repeated MPI_Iallreduce of the numbers of messages sent and received: the end is known once the four numbers of two
 * consecutive reductions are equal. A process joins the next reduction when it is idle. */
typedef struct reductions {
    int over, known, is_open;
    uint64_t pending, own[2], sums[2], last[2], count;
    MPI_Request request;
} reductions;

static int reductions_next(reductions *p) {
    int is_done;
    if (p->over) return GERFMUOD_PROCESS_ENDED;
    if (!p->is_open) {
        if (p->pending) return GERFMUOD_PROCESS_NOTHING;
        p->sums[0] = p->own[0];
        p->sums[1] = p->own[1];
        MPI_Iallreduce(MPI_IN_PLACE, p->sums, 2, MPI_UINT64_T, MPI_SUM, MPI_COMM_WORLD, &p->request);
        p->is_open = 1;
        p->count++;
    }
    MPI_Test(&p->request, &is_done, MPI_STATUS_IGNORE);
    if (!is_done) return GERFMUOD_PROCESS_NOTHING;
    p->is_open = 0;
    p->over = p->known && p->sums[0] == p->sums[1] && p->last[0] == p->sums[0] && p->last[1] == p->sums[1];
    p->known = 1;
    memcpy(p->last, p->sums, sizeof p->last);
    return GERFMUOD_PROCESS_AGAIN;
}
#endif

typedef struct detector {
    int kind;
    gerfmuod_process proved;
    by_hand hand;
    safra ring;
#ifdef MPI_VERSION
    reductions reduced;
#endif
    uint64_t controls;
} detector;

static inline int detector_named(const char *name) {
    static const char *const names[] = {"proved", "hand", "safra", "reductions"};
    int kind = PROVED;
    while (kind < REDUCTIONS && strcmp(name, names[kind])) kind++;
    return kind;
}

static void detector_new(detector *d, int kind, int me, int n) {
    memset(d, 0, sizeof *d);
    d->kind = kind;
    if (gerfmuod_process_init(&d->proved, (uint32_t)me, (uint32_t)n)) exit(9);
    d->hand.me = d->ring.me = me;
    d->hand.n = d->ring.n = n;
    d->hand.children = (2 * me + 1 < n) + (2 * me + 2 < n);
    d->hand.pending = d->ring.pending = 1;
    d->ring.has_token = me == 0;
    d->ring.black = 1;
#ifdef MPI_VERSION
    d->reduced.pending = 1;
#endif
}

static inline unsigned detector_finish_work(detector *d) {
    if (d->kind == PROVED) return gerfmuod_process_finish_work(&d->proved);
#ifdef MPI_VERSION
    if (d->kind == REDUCTIONS) d->reduced.pending--;
#endif
    if (d->kind == BY_HAND) d->hand.pending--;
    if (d->kind == SAFRA) d->ring.pending--;
    return 0;
}

static inline unsigned detector_sent(detector *d) {
    if (d->kind == PROVED) return gerfmuod_process_count_sent(&d->proved);
#ifdef MPI_VERSION
    if (d->kind == REDUCTIONS) d->reduced.own[0]++;
#endif
    if (d->kind == BY_HAND) d->hand.sent++;
    if (d->kind == SAFRA) d->ring.count++;
    return 0;
}

static inline unsigned detector_received(detector *d) {
    if (d->kind == PROVED) return gerfmuod_process_count_received(&d->proved, d->proved.epoch);
#ifdef MPI_VERSION
    if (d->kind == REDUCTIONS) {
        d->reduced.own[1]++;
        d->reduced.pending++;
    }
#endif
    if (d->kind == BY_HAND) {
        d->hand.received++;
        d->hand.pending++;
    }
    if (d->kind == SAFRA) {
        d->ring.count--;
        d->ring.black = 1;
        d->ring.pending++;
    }
    return 0;
}

static inline unsigned detector_take(detector *d, const control *c) {
    if (d->kind == PROVED) return gerfmuod_process_take(&d->proved, c);
    if (d->kind == BY_HAND) hand_take(&d->hand, c);
    if (d->kind == SAFRA) safra_take(&d->ring, c);
    return 0;
}

static inline unsigned detector_next(detector *d, control *c) {
    unsigned next;
    switch (d->kind) {
#ifdef MPI_VERSION
    case REDUCTIONS: return (unsigned)reductions_next(&d->reduced);
#endif
    case BY_HAND: next = (unsigned)hand_next(&d->hand, c); break;
    case SAFRA: next = (unsigned)safra_next(&d->ring, c); break;
    default: next = gerfmuod_process_next(&d->proved, c);
    }
    d->controls += next == GERFMUOD_PROCESS_SEND;
    return next;
}

/* Returns the number of waves, rounds of the token, or reductions that this process knows of. */
static inline uint64_t detector_waves(const detector *d) {
#ifdef MPI_VERSION
    if (d->kind == REDUCTIONS) return d->reduced.count;
#endif
    return d->kind == PROVED ? d->proved.wave : d->kind == BY_HAND ? d->hand.wave : d->ring.waves;
}
#endif
