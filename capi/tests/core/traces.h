/* traces.h: a model of gerfmuod_audit in plain C over model.h, for fuzz.c. It reads a trace by the rules of docs/TRACES.md. */
#ifndef TRACES_H
#define TRACES_H
#include "model.h"
#include <stdio.h>

/* The lines of a trace by the kinds of steps, and how many numbers follow the word in version 1. */
static const struct {
    const char *word;
    uint32_t numbers;
} forms[] = {{"insert", 3}, {"supply", 1}, {"begin", 1}, {"done", 1}, {"open", 2}, {"close", 2}, {"ready", 1}, {"send", 3},
             {"recv", 2}, {"end", 2}, {"start", 0}, {"down", 1}, {"give", 1}, {"up", 1}, {"judge", 0}, {"reopen", 0}};

/* A line: its step, and the wave of a judgement, 0 for `judge not`. */
typedef struct {
    uint32_t kind, number[4], wave;
} trace_line;

typedef struct {
    const char *at, *end;
    uint32_t line, version, nodes, steps, inserted, done, sent, received, wave;
    model world;
} trace_reader;

static bool trace_word(trace_reader *r, const char *word) {
    size_t length = strlen(word);
    if ((size_t)(r->end - r->at) < length || memcmp(r->at, word, length)) return false;
    r->at += length;
    return true;
}

/* One to six digits without a leading zero. */
static bool trace_number(trace_reader *r, uint32_t *number) {
    const char *first = r->at;
    *number = 0;
    while (r->at < r->end && *r->at >= '0' && *r->at <= '9' && r->at - first < 7) *number = *number * 10 + (uint32_t)(*r->at++ - '0');
    size_t digits = (size_t)(r->at - first);
    return digits >= 1 && digits <= 6 && (digits == 1 || *first != '0');
}

static bool trace_judgement(trace_reader *r, trace_line *line) {
    if (trace_word(r, " not\n")) return true;
    return trace_word(r, " ended ") && trace_number(r, &line->wave) && line->wave > 0 && trace_word(r, "\n");
}

static bool trace_form(trace_reader *r, uint32_t kind, trace_line *line) {
    bool is_of_message = kind == GERFMUOD_STEP_SEND || kind == GERFMUOD_STEP_RECEIVE || kind == GERFMUOD_STEP_MESSAGE_END;
    uint32_t numbers = forms[kind].numbers + (is_of_message && r->version == 2);
    const char *first = r->at;
    memset(line, 0, sizeof *line);
    line->kind = kind;
    bool is_well = trace_word(r, forms[kind].word);
    if (is_well && kind == GERFMUOD_STEP_JUDGE) return trace_judgement(r, line);
    for (uint32_t k = 0; is_well && k < numbers; k++) is_well = trace_word(r, " ") && trace_number(r, &line->number[k]);
    is_well = is_well && trace_word(r, "\n") && (kind != GERFMUOD_STEP_REOPEN || r->version == 2);
    if (!is_well) r->at = first;
    return is_well && (kind != GERFMUOD_STEP_INSERT || line->number[2] <= GERFMUOD_MAX_INPUTS);
}

static bool trace_next(trace_reader *r, trace_line *line) {
    const char *first = r->at;
    for (uint32_t kind = 0; kind <= GERFMUOD_STEP_REOPEN; kind++) {
        r->at = first;
        if (trace_form(r, kind, line)) return true;
    }
    return false;
}

/* Reads the first two lines; returns the number of the first that is not of the grammar, or 0. */
static uint32_t trace_begin(trace_reader *r, const char *text, size_t length) {
    memset(r, 0, sizeof *r);
    r->at = text;
    r->end = text + length;
    r->version = length > 6 && text[6] == '2' ? 2 : 1;
    if (!trace_word(r, r->version == 2 ? "trace 2\n" : "trace 1\n")) return 1;
    if (!trace_word(r, "nodes ") || !trace_number(r, &r->nodes) || !trace_word(r, "\n")) return 2;
    r->line = 2;
    return model_open(&r->world, r->nodes, true) ? 2 : 0;
}

/* The line of the first error of syntax, or 0. */
static uint32_t trace_syntax(const char *text, size_t length) {
    trace_reader r;
    trace_line line;
    uint32_t fault = trace_begin(&r, text, length);
    while (!fault && r.at < r.end) {
        r.line++;
        if (!trace_next(&r, &line)) fault = r.line;
    }
    return fault;
}

/* Takes a step; writes what is wrong with it. Returns whether it is right. */
static bool trace_step(trace_reader *r, const trace_line *line, char *text, size_t room) {
    uint32_t generation = line->number[line->kind == GERFMUOD_STEP_SEND ? 3 : 2];
    const uint32_t *n = line->number;
    gerfmuod_step_result answer = model_step(&r->world, line->kind, n[0], n[1], n[2], r->version == 2 ? generation : 1);
    const char *name = gerfmuod_refusal_text(answer.refused);
    r->steps++;
    r->inserted += line->kind == GERFMUOD_STEP_INSERT;
    r->done += line->kind == GERFMUOD_STEP_DONE;
    r->sent += line->kind == GERFMUOD_STEP_SEND;
    r->received += line->kind == GERFMUOD_STEP_RECEIVE;
    if (answer.refused) snprintf(text, room, "line %u refused %u %.*s\n", r->line, answer.refused, (int)strcspn(name, ":"), name);
    else if (line->kind == GERFMUOD_STEP_JUDGE && answer.number != line->wave) snprintf(text, room, "line %u unjustified\n", r->line);
    else {
        if (line->kind == GERFMUOD_STEP_JUDGE || line->kind == GERFMUOD_STEP_REOPEN) r->wave = line->wave;
        return true;
    }
    return false;
}

/* Writes what gerfmuod_audit has to write. Returns whether the trace is sound. */
static bool model_audit(const char *text, size_t length, char *result, size_t room) {
    trace_reader r;
    trace_line line;
    uint32_t fault = trace_syntax(text, length);
    if (fault) return snprintf(result, room, "syntax line %u\n", fault), false;
    trace_begin(&r, text, length);
    while (r.at < r.end) {
        r.line++;
        trace_next(&r, &line);
        if (!trace_step(&r, &line, result, room)) return false;
    }
    int at = snprintf(result, room, "steps %u\ntasks %u done %u\n", r.steps, r.inserted, r.done);
    at += snprintf(result + at, room - (size_t)at, "messages %u received %u\n", r.sent, r.received);
    if (r.version == 2) at += snprintf(result + at, room - (size_t)at, "generation %u\n", r.world.generation);
    snprintf(result + at, room - (size_t)at, r.wave ? "ended %u\n" : "not ended\n", r.wave);
    return true;
}

#endif
