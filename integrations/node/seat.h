// The programs that answer lines: `lockreplay seat` of a node or of a file's token server, and `lockreplay members`.
#ifndef SEAT_H
#define SEAT_H
#include "base.h"
#include <sys/types.h>

// What a line was told for: its block is taken by that.
enum told { TOLD_START, TOLD_CHANGE, TOLD_MESSAGE, TOLD_TICK, TOLD_SPAWN, TOLD_OPEN, TOLD_CALL, TOLD_INTERRUPT };
struct told_line {
    enum told what;
    uint64_t of;
};

enum seat_kind { SEAT_NODE, SEAT_SERVER, SEAT_MEMBERS };
struct seat {
    enum seat_kind kind;
    int number;
    pid_t pid;
    struct source in, out;
    struct buffer to, from;
    struct told_line *told;             // a ring of what is not answered yet
    size_t first, count, room;
    long blocks;                        // that were read
    char log[512], reply[192];
    bool replied, made_entry, ticks, is_full, ended;
    int rests;                          // ticks in a row that made no entry
    void (*ended_block)(struct seat *seat, struct told_line line, const char *refused);
    struct seat *next;                  // of all that run
};
struct seat *seat_start(enum seat_kind kind, int number, int starts);
void seat_tell(struct seat *seat, enum told what, uint64_t of, const char *format, ...) __attribute__((format(printf, 4, 5)));
void seat_tick(struct seat *seat);
void seat_end(struct seat *seat);
void seats_flush(void);
void seats_kill_and_cut(void);
extern struct seat *node_seat, *server_seats[MOST_FILES + 1];

// Messages of seats: each is brought to the seat that it is for, on this node or another.
void mail_came(const char *line);           // `n N MESSAGE` or `s F MESSAGE`, from another node
#endif
