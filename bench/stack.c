/* The deepest stack of each call on patterns at the limits, what its caller passes on the stack included. */
#define _GNU_SOURCE
#include "mbyasoka.h"
#include <pthread.h>
#include <stdio.h>
#include <string.h>

enum { STACK = 1 << 20, FILL = 0xa5 };

static _Alignas(4096) uint8_t stack[STACK];
static uint8_t mesh[MBYASOKA_MESH_BYTES], out[MBYASOKA_MESH_BYTES], script[MBYASOKA_SCRIPT_BYTES], counts[4];
static int8_t m1[MBYASOKA_SIZE], m2[MBYASOKA_SIZE], m3[MBYASOKA_SIZE];
static int32_t chain[MBYASOKA_SIDE], carried[MBYASOKA_SIDE];
static size_t mesh_length, script_length, number;
static uint8_t text[MBYASOKA_OFF_BYTES + 1];
static int32_t coordinates[MBYASOKA_COORDINATES];
static size_t text_length;
static uint16_t ran;
static uint32_t place;
static int16_t euler;
static uint8_t refusal;

#if defined(__aarch64__)
#define STACK_POINTER(p) __asm__ volatile("mov %0, sp" : "=r"(p))
#elif defined(__x86_64__)
#define STACK_POINTER(p) __asm__ volatile("mov %%rsp, %0" : "=r"(p))
#endif

#define LENT m1, sizeof m1, m2, sizeof m2, m3, sizeof m3

static void *check(void *x) { refusal = mbyasoka_check(counts, LENT); return x; }
static void *read_mesh(void *x) { refusal = mbyasoka_read_mesh(counts, LENT, mesh, mesh_length, &number, &place); return x; }
static void *write_mesh(void *x) { refusal = mbyasoka_write_mesh(counts, LENT, out, sizeof out, &number); return x; }
static void *euler_number(void *x) { refusal = mbyasoka_euler(counts, LENT, &euler); return x; }
static void *run_script(void *x) { refusal = mbyasoka_run_script(counts, LENT, script, script_length, &ran, &place); return x; }
static void *apply_split(void *x)
{
    static const uint8_t split[] = {0x33, 0, 1, 0};
    refusal = mbyasoka_apply_operator(counts, LENT, split, sizeof split, &place);
    return x;
}
static void *boundary(void *x) { refusal = mbyasoka_boundary(counts, LENT, 2, chain, 96, carried, 96); return x; }
static void *carry(void *x)
{
    static const uint8_t split[] = {0x33, 0, 1, 0};
    refusal = mbyasoka_carry(counts, LENT, split, sizeof split, 3, chain, 96, carried, 96, &place);
    return x;
}

static void *import_off(void *x)
{
    refusal = mbyasoka_import_off(counts, LENT, coordinates, MBYASOKA_COORDINATES, text, text_length);
    return x;
}
static void *export_off(void *x)
{
    refusal = mbyasoka_export_off(counts, LENT, coordinates, MBYASOKA_COORDINATES, out, sizeof out, &number);
    return x;
}

/* n cells of each dimension, each panel and block with as many faces; panel j is plus or minus the same ring, by turns. */
static void make_mesh(uint8_t n, uint8_t faces)
{
    size_t at = 0;
    mesh[at++] = n;
    mesh[at++] = n;
    for (int i = 0; i < n; i++, at += 2)
        memcpy(mesh + at, "\0\1", 2);
    for (int turning = 1; turning >= 0; turning--) {
        mesh[at++] = n;
        for (int j = 0; j < n; j++) {
            mesh[at++] = faces;
            for (int i = 0; i < faces; i++) {
                mesh[at++] = (uint8_t)i;
                mesh[at++] = (uint8_t)(1 + (turning * i + j) % 2);
            }
        }
    }
    mesh_length = at;
}

/* The longest OFF text. */
static void make_text(void)
{
    char *at = (char *)text;
    at += sprintf(at, "OFF\n96 96 96\n");
    for (int i = 0; i < 96; i++)
        at += sprintf(at, "-1048576 -1048576 -1048576\n");
    for (int j = 0; j < 96; j++) {
        at += sprintf(at, "96");
        for (int i = 0; i < 96; i++)
            at += sprintf(at, " %d", i * 35 % 96);
        at += sprintf(at, "\n");
    }
    text_length = (size_t)(at - (char *)text);
}

/* 1,024 operators: every kind in every dimension. */
static void make_script(uint8_t n)
{
    const uint8_t round[][4] = {{2, 0x10}, {3, 0x20, n}, {4, 0x11, 0, 1}, {3, 0x21, n}, {3, 0x31, 0}, {3, 0x40, n}, {3, 0x51, 0}, {3, 0x51, 0}};
    const uint8_t lists[][6] = {{5, 0x32, 0, 1, 0}, {3, 0x41, n}, {5, 0x33, 0, 1, 0}, {3, 0x42, n}, {3, 0x52, 3}, {3, 0x52, 3}, {3, 0x53, 3}, {3, 0x53, 3}};
    script_length = 7;
    memcpy(script, (const uint8_t[]){4, n, n, n, n, 0, 4}, 7);
    for (int i = 0; i < 1024; i++) {
        const uint8_t *o = i % 16 < 8 ? round[i % 8] : lists[i % 8];
        memcpy(script + script_length, o + 1, o[0] - 1);
        script_length += o[0] - 1;
    }
}

static void *(*call)(void *);
static size_t deepest;

/* Fills the stack below itself, calls, and looks how far down it was written to; all with no other call in between. */
static void *measured(void *x)
{
    volatile uint8_t *top, *at;
    STACK_POINTER(top);
    for (at = stack; at < top; at++)
        *at = FILL;
    call(x);
    for (at = stack; at < top && *at == FILL; at++)
        ;
    deepest = (size_t)(top - at);
    return x;
}

static int failed;

static void row(const char *name, void *(*measure)(void *))
{
    pthread_attr_t attributes;
    pthread_t thread;
    call = measure;
    pthread_attr_init(&attributes);
    if (pthread_attr_setstack(&attributes, stack, sizeof stack) || pthread_create(&thread, &attributes, measured, NULL) || pthread_join(thread, NULL))
        failed = 1;
    if (refusal != 0)
        failed = 1;
    printf("| %s | %zu |\n", name, deepest);
}

int main(void)
{
    puts("| call | deepest stack, bytes |\n|---|---|");
    make_mesh(96, 96);
    row("read_mesh", read_mesh);
    row("check", check);
    row("write_mesh", write_mesh);
    row("euler", euler_number);
    row("boundary", boundary);
    make_mesh(95, 94);
    read_mesh(NULL);
    make_script(95);
    row("run_script", run_script);
    if (ran != 1024)
        failed = 1;
    row("carry", carry);
    row("apply_operator", apply_split);
    make_text();
    row("import_off", import_off);
    row("export_off", export_off);
    if (number != MBYASOKA_OFF_BYTES || memcmp(out, text, number) != 0)
        failed = 1;
    return failed;
}
