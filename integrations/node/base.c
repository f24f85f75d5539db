#define _GNU_SOURCE
#include "base.h"
#include <errno.h>
#include <stdarg.h>
#include <stdio.h>
#include <stdlib.h>
#include <string.h>
#include <sys/epoll.h>
#include <time.h>
#include <unistd.h>

struct settings settings = {
    .nodes = 3, .files = MOST_FILES, .lease_ms = 4000, .margin_ms = 400, .beat_ms = 100, .grace_ms = 50, .threads = 4,
    .fences = true, .policy = "wide", .cluster = "nuvatsimo",
};
void (*before_death)(void);

void *room_for(size_t count, size_t size) {
    void *room = calloc(count, size);
    if (!room)
        die("no memory");
    return room;
}

void add(struct buffer *buffer, const void *bytes, size_t length) {
    if (buffer->length + length > buffer->room) {
        buffer->room = (buffer->length + length) * 2 + 4096;
        buffer->bytes = realloc(buffer->bytes, buffer->room);
        if (!buffer->bytes)
            die("no memory");
    }
    if (length)
        memcpy(buffer->bytes + buffer->length, bytes, length);
    buffer->length += length;
}

void add_words(struct buffer *buffer, const char *format, va_list words) {
    char *text;
    int length = vasprintf(&text, format, words);
    if (length < 0)
        die("no memory");
    add(buffer, text, length);
    free(text);
}

void add_text(struct buffer *buffer, const char *format, ...) {
    va_list words;
    va_start(words, format);
    add_words(buffer, format, words);
    va_end(words);
}

void take_off(struct buffer *buffer, size_t length) {
    if (length && length < buffer->length)
        memmove(buffer->bytes, buffer->bytes + length, buffer->length - length);
    buffer->length -= length;
}

void drop_buffer(struct buffer *buffer) {
    free(buffer->bytes);
    *buffer = (struct buffer){0};
}

char *next_line(struct buffer *buffer, size_t *at, size_t *length) {
    if (*at >= buffer->length)
        return NULL;
    char *line = buffer->bytes + *at, *end = memchr(line, '\n', buffer->length - *at);
    if (!end)
        return NULL;
    *end = 0;
    *length = end - line;
    *at += *length + 1;
    return line;
}

int64_t now(void) {
    struct timespec time;
    clock_gettime(CLOCK_BOOTTIME, &time);
    return time.tv_sec * INT64_C(1000000000) + time.tv_nsec;
}

static void say_words(const char *format, va_list words) {
    char text[1024];
    vsnprintf(text, sizeof text, format, words);
    int64_t time = now();
    fprintf(stderr, "node %d at %lld.%03lld: %s\n", settings.me, (long long)(time / 1000 / MS), (long long)(time / MS % 1000), text);
}

void say(const char *format, ...) {
    va_list words;
    va_start(words, format);
    say_words(format, words);
    va_end(words);
}

void die(const char *format, ...) {
    va_list words;
    va_start(words, format);
    say_words(format, words);
    va_end(words);
    if (before_death && gettid() == getpid())       // (seats are the loop's, which is the first thread)
        before_death();
    _exit(3);
}

enum { EVENTS = 64, BURIED = 256 };
static int waiting = -1;
static void *buried[BURIED];
static int buried_count;

void loop_begin(void) {
    waiting = epoll_create1(EPOLL_CLOEXEC);
    if (waiting < 0)
        die("epoll: %m");
}

void watch(struct source *source, uint32_t events) {
    struct epoll_event event = {.events = events, .data.ptr = source};
    if (epoll_ctl(waiting, EPOLL_CTL_ADD, source->fd, &event))
        die("epoll: %m");
}

void watch_for(struct source *source, uint32_t events) {
    struct epoll_event event = {.events = events, .data.ptr = source};
    if (epoll_ctl(waiting, EPOLL_CTL_MOD, source->fd, &event))
        die("epoll: %m");
}

void unwatch(struct source *source) {
    if (source->fd >= 0)
        epoll_ctl(waiting, EPOLL_CTL_DEL, source->fd, NULL);
}

void free_later(void *room) {
    if (buried_count == BURIED)
        return;     // (rather a leak than a use after it)
    buried[buried_count++] = room;
}

void loop_turn(void) {
    struct epoll_event events[EVENTS];
    int count = epoll_wait(waiting, events, EVENTS, -1);
    if (count < 0 && errno != EINTR)
        die("epoll: %m");
    for (int k = 0; k < count; k++) {
        struct source *source = events[k].data.ptr;
        if (source->fd >= 0)
            source->ready(source, events[k].events);
    }
    while (buried_count)
        free(buried[--buried_count]);
}
