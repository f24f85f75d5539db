// What every part of the daemon uses: what the command line asked for, text that grows, clocks, and words to the operator.
#ifndef BASE_H
#define BASE_H
#include <stdarg.h>
#include <stdbool.h>
#include <stddef.h>
#include <stdint.h>

enum { MOST_NODES = 64, MOST_FILES = 256, MOST_PROCESSES = 256, MOST_DESCRIPTORS = 64, TICK_MS = 5, PROTOCOL = 1 };
enum { MS = 1000000 };              // nanoseconds of a millisecond

struct settings {
    int me, nodes, files, lease_ms, margin_ms, beat_ms, grace_ms, threads, loss;
    bool fences, by_cpg;
    const char *program, *policy, *backing, *folder, *mountpoint, *cluster, *members, *key, *hook;
};
extern struct settings settings;

struct buffer {
    char *bytes;
    size_t length, room;
};
void add(struct buffer *buffer, const void *bytes, size_t length);
void add_words(struct buffer *buffer, const char *format, va_list words) __attribute__((format(printf, 2, 0)));
void add_text(struct buffer *buffer, const char *format, ...) __attribute__((format(printf, 2, 3)));
void take_off(struct buffer *buffer, size_t length);
void drop_buffer(struct buffer *buffer);
// The next line of a buffer, with a zero in place of its line feed, and its length; NULL where none is whole. `at` moves behind it.
char *next_line(struct buffer *buffer, size_t *at, size_t *length);

void *room_for(size_t count, size_t size);
int64_t now(void);                  // nanoseconds since the machine began, those included in which it slept
void say(const char *format, ...) __attribute__((format(printf, 1, 2)));
_Noreturn void die(const char *format, ...) __attribute__((format(printf, 1, 2)));
// Runs before die ends the process, by the first thread: seats are killed, and their logs cut to what was read.
extern void (*before_death)(void);

// Something that the first thread waits for: a seat, another node, the clock. `ready` is told which events of epoll came.
struct source {
    int fd;
    void (*ready)(struct source *source, uint32_t events);
    void *of;
};
void loop_begin(void);
void watch(struct source *source, uint32_t events);
void watch_for(struct source *source, uint32_t events);
void unwatch(struct source *source);
// Memory that holds a source is given back only once nothing of this turn can name it.
void free_later(void *room);
void loop_turn(void);
#endif
