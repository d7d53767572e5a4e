/*
 * The calls of teaselram.h for the tests: each sends its request to serve.c, which runs with the proved library in a second
 * process, and copies back the answer and the whole of `out`. The tests link this in the
 * library's place, so nothing here looks at what it carries.
 *
 * The program that serves is part of this one, byte for byte as tests/emulated/build linked it, so that no other can be
 * found in its place, wherever this one is copied. One process serves all threads, started by the first call; it ends when
 * this program does, as its input ends then.
 */
#define _GNU_SOURCE

#include <errno.h>
#include <pthread.h>
#include <spawn.h>
#include <stdio.h>
#include <stdlib.h>
#include <string.h>
#include <sys/mman.h>
#include <sys/socket.h>
#include <unistd.h>

#include "request.h"
#include "teaselram.h"

#if !defined(EMULATE) || !defined(SERVE)
#error "tests/emulated/build says how this machine runs x86-64 code, and where the program that serves is"
#endif

extern char **environ;

/* The program that serves, which is x86-64 code and only data here. */
extern const uint64_t serve_len;
extern const uint8_t serve[];
__asm__(".pushsection .rodata\n"
        ".balign 8\n"
        "serve_len: .quad 2f - 1f\n"
        "serve:\n"
        "1: .incbin \"" SERVE "\"\n"
        "2: .popsection\n");

/* Held for a whole call, as replies come in the order of requests. */
static pthread_mutex_t one_at_a_time = PTHREAD_MUTEX_INITIALIZER;

/* This end of the connection; there is none before the first call. */
static int connection = -1;

/* A whole request, so that it goes by one system call, and a whole reply. */
static uint8_t goes[sizeof(struct request) + 3 * LONGEST_SLICE];
static uint8_t came[ANSWER_LEN + LONGEST_SLICE];

/* The slices of a call, those that it has. */
struct slices {
    const uint8_t *file;
    const uint8_t *kinds;
    uint8_t *out;
};

/* An answer that is wrong for this reason would look like one of the library's, so there is none. */
static _Noreturn void fail(const char *what, int number)
{
    fprintf(stderr, "teaselram under the emulator: %s%s%s\n", what, number ? ": " : "", number ? strerror(number) : "");
    abort();
}

/* Writes the program that serves to a file without a name, which stays open in the processes that are started. */
static int open_serve(void)
{
    int program = memfd_create("serve", 0);
    size_t done = 0;
    if (program < 0)
        fail("there is no file for the program that serves", errno);
    while (done < serve_len) {
        ssize_t written = write(program, serve + done, serve_len - done);
        if (written <= 0)
            fail("there is no room for the program that serves", errno);
        done += (size_t)written;
    }
    return program;
}

/* Starts the process that serves. The sockets are closed in every other process that a thread starts meanwhile. */
static void start(void)
{
    char path[32];
    char *arguments[] = {EMULATE, path, NULL};
    posix_spawn_file_actions_t actions;
    int ends[2], failed, program = open_serve();
    pid_t process;
    snprintf(path, sizeof path, "/proc/self/fd/%d", program);
    if (socketpair(AF_UNIX, SOCK_STREAM | SOCK_CLOEXEC, 0, ends) != 0)
        fail("no connection", errno);
    failed = posix_spawn_file_actions_init(&actions);
    if (!failed)
        failed = posix_spawn_file_actions_adddup2(&actions, ends[1], STDIN_FILENO);
    if (!failed)
        failed = posix_spawn_file_actions_adddup2(&actions, ends[1], STDOUT_FILENO);
    if (!failed)
        failed = posix_spawn(&process, arguments[0], &actions, NULL, arguments, environ);
    if (failed)
        fail("the program that serves does not start", failed);
    posix_spawn_file_actions_destroy(&actions);
    close(program);
    close(ends[1]);
    connection = ends[0];
}

/* Sends without the signal that ends a program silently when nobody reads. */
static void send_whole(const uint8_t *bytes, size_t count)
{
    while (count > 0) {
        ssize_t sent = send(connection, bytes, count, MSG_NOSIGNAL);
        if (sent < 0 && errno == EINTR)
            continue;
        if (sent <= 0)
            fail("the request is not taken", errno);
        bytes += sent;
        count -= (size_t)sent;
    }
}

static void receive_whole(uint8_t *bytes, size_t count)
{
    while (count > 0) {
        ssize_t received = recv(connection, bytes, count, MSG_WAITALL);
        if (received < 0 && errno == EINTR)
            continue;
        if (received <= 0)
            fail("there is no whole reply", received < 0 ? errno : 0);
        bytes += received;
        count -= (size_t)received;
    }
}

/* Adds bytes to the request; answers where the next ones go. */
static uint8_t *add(uint8_t *to, const void *bytes, size_t count)
{
    if (count > 0)
        memcpy(to, bytes, count);
    return to + count;
}

/* Makes one call by the process that serves. `answer` has eight bytes. */
static void forward(const struct request *request, struct slices slices, void *answer)
{
    uint8_t *end = goes;
    if (request->file_len > LONGEST_SLICE || request->kinds_len > LONGEST_SLICE || request->out_len > LONGEST_SLICE)
        fail("a slice is longer than LONGEST_SLICE of request.h", 0);
    pthread_mutex_lock(&one_at_a_time);
    if (connection < 0)
        start();
    end = add(end, request, sizeof *request);
    end = add(end, slices.file, request->file_len);
    end = add(end, slices.kinds, request->kinds_len);
    end = add(end, slices.out, request->out_len);
    send_whole(goes, (size_t)(end - goes));
    receive_whole(came, ANSWER_LEN + request->out_len);
    memcpy(answer, came, ANSWER_LEN);
    add(slices.out, came + ANSWER_LEN, request->out_len);
    pthread_mutex_unlock(&one_at_a_time);
}

static struct teaselram_head forward_read(enum call call, const uint8_t *file, size_t file_len)
{
    struct request request = {.call = call, .file_len = file_len};
    struct slices slices = {.file = file};
    struct teaselram_head head;
    forward(&request, slices, &head);
    return head;
}

static struct teaselram_kind forward_kind(enum call call, const uint8_t *file, size_t file_len, uint64_t which)
{
    struct request request = {.call = call, .which = which, .file_len = file_len};
    struct slices slices = {.file = file};
    struct teaselram_kind kind;
    forward(&request, slices, &kind);
    return kind;
}

static struct teaselram_answer forward_call(const struct request *request, struct slices slices)
{
    struct teaselram_answer answer;
    forward(request, slices, &answer);
    return answer;
}

struct teaselram_head teaselram_read_sheet(const uint8_t *sheet, size_t sheet_len)
{
    return forward_read(READ_SHEET, sheet, sheet_len);
}

struct teaselram_head teaselram_read_table(const uint8_t *table, size_t table_len)
{
    return forward_read(READ_TABLE, table, table_len);
}

struct teaselram_kind teaselram_sheet_kind(const uint8_t *sheet, size_t sheet_len, uint64_t kind)
{
    return forward_kind(SHEET_KIND, sheet, sheet_len, kind);
}

struct teaselram_kind teaselram_table_kind(const uint8_t *table, size_t table_len, uint64_t kind)
{
    return forward_kind(TABLE_KIND, table, table_len, kind);
}

struct teaselram_answer teaselram_row(const uint8_t *table, size_t table_len, uint64_t state)
{
    struct request request = {.call = ROW, .which = state, .file_len = table_len};
    struct slices slices = {.file = table};
    return forward_call(&request, slices);
}

struct teaselram_answer teaselram_place_by_rules(const uint8_t *sheet, size_t sheet_len, const uint8_t *kinds,
                                                 size_t kinds_len, uint8_t *out, size_t out_len)
{
    struct request request = {
        .call = PLACE_BY_RULES, .file_len = sheet_len, .kinds_len = kinds_len, .out_len = out_len};
    struct slices slices = {.file = sheet, .kinds = kinds, .out = out};
    return forward_call(&request, slices);
}

struct teaselram_answer teaselram_place_by_table(const uint8_t *table, size_t table_len, const uint8_t *kinds,
                                                 size_t kinds_len, uint8_t *out, size_t out_len)
{
    struct request request = {
        .call = PLACE_BY_TABLE, .file_len = table_len, .kinds_len = kinds_len, .out_len = out_len};
    struct slices slices = {.file = table, .kinds = kinds, .out = out};
    return forward_call(&request, slices);
}

struct teaselram_answer teaselram_build(const uint8_t *sheet, size_t sheet_len, uint8_t *out, size_t out_len)
{
    struct request request = {.call = BUILD, .file_len = sheet_len, .out_len = out_len};
    struct slices slices = {.file = sheet, .out = out};
    return forward_call(&request, slices);
}

struct teaselram_answer teaselram_judge(const uint8_t *table, size_t table_len, uint8_t *out, size_t out_len)
{
    struct request request = {.call = JUDGE, .file_len = table_len, .out_len = out_len};
    struct slices slices = {.file = table, .out = out};
    return forward_call(&request, slices);
}
