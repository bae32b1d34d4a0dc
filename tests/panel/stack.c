/* How many bytes of stack each call needs, with the largest timetable and 200 notices: each is made on a thread whose stack was painted
 * before. Prints a line a call, and counts whether the call was accepted and needs no more than TTG_STACK_BYTES. */
#define _DEFAULT_SOURCE
#include <pthread.h>
#include <stdint.h>
#include <stdio.h>
#include <stdlib.h>
#include <string.h>

#include "ttg.h"

#define ROOM (1 << 20)
#define STOPS TTG_MOST_STOPS
#define RIDES TTG_MOST_RIDES
#define NOTICES 200

static uint8_t file[TTG_FILE_BYTES(STOPS, RIDES)], notices[TTG_NOTICES_BYTES], graph[TTG_GRAPH_BYTES(STOPS, RIDES)];
static uint8_t work[TTG_WORK_BYTES(RIDES)], journey[TTG_JOURNEY_BYTES(RIDES)], text[TTG_TEXT_BYTES], made[sizeof file];
static size_t text_len;
static uint64_t answer; /* of the last call */

#define BOTH file, sizeof file, notices, sizeof notices, graph, sizeof graph

static void put(size_t at, unsigned value)
{
    file[at] = (uint8_t)(value % 256);
    file[at + 1] = (uint8_t)(value / 256);
}

static void make_file(void)
{
    memcpy(file, "TTG", 3);
    put(3, 1);
    put(5, STOPS);
    put(7, RIDES);
    for (unsigned c = 0; c < RIDES; c++) {
        size_t at = 9 + 2 * STOPS + 10 * c;
        put(at, c);
        put(at + 2, c % STOPS);
        put(at + 4, (c + 1) % STOPS);
        put(at + 6, 300 + c);
        put(at + 8, 310 + c);
    }
}

static void *nothing(void *unused) { return unused; }
static void *check(void *unused) { answer = ttg_check(file, sizeof file); return unused; }
static void *build(void *unused) { answer = ttg_build(BOTH); return unused; }
static void *post(void *unused) { answer = ttg_post(BOTH, NOTICES, 1, 10); return unused; }
static void *correct(void *unused) { answer = ttg_post(BOTH, NOTICES, 1, 1440); return unused; }
static void *withdraw(void *unused) { answer = ttg_withdraw(BOTH, NOTICES); return unused; }
static void *enquire(void *unused) { answer = ttg_enquire(BOTH, work, sizeof work, journey, sizeof journey, 0, 5, 0); return unused; }
static void *margin(void *unused) { answer = (uint64_t)ttg_margin(BOTH, 0, 1); return unused; }
static void *why(void *unused) { answer = ttg_why(file, sizeof file, notices, sizeof notices, 1); return unused; }

static void *export(void *unused) { answer = ttg_export(file, sizeof file, text, sizeof text); return unused; }
static void *import(void *unused)
{
    answer = ttg_import(text, text_len, file + 9, TTG_CHANGE_BYTES(STOPS), made, sizeof made);
    return unused;
}

static size_t used(void *(*call)(void *))
{
    uint8_t *stack = aligned_alloc(4096, ROOM);
    pthread_attr_t attributes;
    pthread_t thread;
    size_t low = 0;
    if (!stack) abort();
    memset(stack, 0xA5, ROOM);
    pthread_attr_init(&attributes);
    if (pthread_attr_setstack(&attributes, stack, ROOM) || pthread_create(&thread, &attributes, call, NULL)) abort();
    pthread_join(thread, NULL);
    while (low < ROOM && stack[low] == 0xA5) low++;
    free(stack);
    return ROOM - low;
}

int main(void)
{
    static const struct { const char *name; void *(*call)(void *); } calls[] = {
        { "check", check }, { "build", build }, { "post", post }, { "correct", correct }, { "withdraw", withdraw }, { "enquire", enquire },
        { "margin", margin }, { "why", why }, { "export", export }, { "import", import },
    };
    unsigned passed = 0, failed = 0;
    make_file();
    size_t none = used(nothing);
    for (size_t i = 0; i < sizeof calls / sizeof calls[0]; i++) {
        size_t bytes = used(calls[i].call) - none;
        int ok = TTG_NUMBER(answer) == TTG_ACCEPTED && bytes <= TTG_STACK_BYTES;
        printf("%-9s%7zu%s\n", calls[i].name, bytes, ok ? "" : " WRONG");
        ok ? passed++ : failed++;
        if (calls[i].call == export)
            text_len = TTG_BYTES(answer);
        for (uint16_t n = 1; calls[i].call == build && n < NOTICES; n++)
            if (TTG_NUMBER(ttg_post(BOTH, n, n, 1440)) != TTG_ACCEPTED) abort();
    }
    printf("%u passed, %u failed\n", passed, failed);
    return failed > 0;
}
