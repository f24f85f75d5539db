// Lock calls of the kernel, by their owners. Nothing of the file system is here: it is tested against a seat by itself.
// The kernel names an owner by 64 bits: a process's table of descriptors, or an open file description. Each owner is a process of the node.
#ifndef LOCKS_H
#define LOCKS_H
#include "seat.h"
#include <fcntl.h>

enum lock_op { LOCK_SET, LOCK_WAIT, LOCK_UNLOCK, LOCK_QUERY, LOCK_CLOSE };
struct lock_call {
    enum lock_op op;
    uint64_t owner, inode, id;
    pid_t pid;                                              // of the caller, for F_GETLK of this node
    bool writes;
    int64_t start, length;                                  // as in struct flock: length 0 is to the end
    void (*done)(struct lock_call *call, int error, const struct flock *found);
    void *of;
    // what follows is of locks.c
    struct lock_call *next;
    bool interrupted, exits;
    int asked;                                              // for how many ticks for a number of its file
};
void locks_take(struct lock_call *call);
void locks_interrupt(uint64_t id);                          // by a signal of the caller
void locks_answered(uint64_t tag, const char *reply);
void locks_block(struct seat *seat, struct told_line line, const char *refused);
void locks_tick(void);
void locks_file_came(uint64_t inode);                       // it has a number now
bool locks_have(int file);                                  // whether an owner has the file open
#endif
