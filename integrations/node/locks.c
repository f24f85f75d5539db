#define _GNU_SOURCE
#include "cluster.h"
#include "locks.h"
#include <errno.h>
#include <stdio.h>
#include <stdlib.h>
#include <string.h>

// Who locks: the owners of a node, each with its queue of calls, and the files that it has open.
struct owner {
    uint64_t id;
    bool used, spawned, poked;
    int process;                                            // its number in the node, from 1
    uint32_t tags;                                          // that it gave
    pid_t pid;
    int files[MOST_DESCRIPTORS];                            // by descriptor; 0 where it is free
    struct lock_call *first, *last, *current;
    uint64_t tag;                                           // of the current call
    int64_t since;                                          // when that was told to the seat
};
static struct owner owners[MOST_PROCESSES + 1];

static struct owner *owner_of(uint64_t id, bool make) {
    static struct owner *last;          // (most calls come from the one before)
    struct owner *spare = NULL;
    if (last && last->used && last->id == id)
        return last;
    for (int k = 1; k <= MOST_PROCESSES; k++) {
        if (owners[k].used && owners[k].id == id)
            return last = &owners[k];
        if (!owners[k].used && !spare)
            spare = &owners[k];
    }
    if (!make || !spare)
        return NULL;
    uint32_t tags = spare->tags;
    *spare = (struct owner){.id = id, .used = true, .process = (int)(spare - owners), .tags = tags};
    return last = spare;
}

static struct owner *owner_of_tag(uint64_t tag) {
    uint64_t process = tag >> 32;
    if (process < 1 || process > MOST_PROCESSES)
        return NULL;
    struct owner *owner = &owners[process];
    return owner->current && owner->tag == tag ? owner : NULL;
}

// -1 where there is none.
static int owner_descriptor(const struct owner *owner, int file) {
    for (int k = 0; k < MOST_DESCRIPTORS; k++)
        if (owner->files[k] == file)
            return k;
    return -1;
}

static bool owner_has_other(const struct owner *owner, int descriptor) {
    for (int k = 0; k < MOST_DESCRIPTORS; k++)
        if (owner->files[k] && k != descriptor)
            return true;
    return false;
}

static void owner_queue(struct owner *owner, struct lock_call *call) {
    call->next = NULL;
    if (owner->last)
        owner->last->next = call;
    else
        owner->first = call;
    owner->last = call;
}

static struct lock_call *owner_unqueue(struct owner *owner, uint64_t id) {
    struct lock_call *before = NULL;
    for (struct lock_call *call = owner->first; call; before = call, call = call->next) {
        if (call->id != id)
            continue;
        if (before)
            before->next = call->next;
        else
            owner->first = call->next;
        if (owner->last == call)
            owner->last = before;
        return call;
    }
    return NULL;
}

enum { TRIES = 1000 };              // ticks for which a call asks for a number of its file (a machine under load may answer none for a hundred)
static const int64_t TURN = 20 * (int64_t)MS;       // of a wait, where another call of its owner is queued behind it

static void go(struct owner *owner);

static bool gives_back(const struct lock_call *call) { return call->op == LOCK_UNLOCK || call->op == LOCK_CLOSE || (call->op == LOCK_SET && !call->writes); }

static bool any_waits(void) {
    for (int k = 1; k <= MOST_PROCESSES; k++)
        if (owners[k].used && owners[k].current && owners[k].current->op == LOCK_WAIT)
            return true;
    return false;
}

// The current call of the owner is over, or one that never was. What it gave back may be what another call of the node waits for: a tick comes at once.
static void end_call(struct lock_call *call, struct owner *owner, int error, const struct flock *found) {
    if (owner->current == call) {
        owner->current = NULL;
        owner->poked = false;
    }
    bool gave = gives_back(call);
    call->done(call, error, found);
    if (gave && node_seat && any_waits())
        seat_tick(node_seat);
}

static int error_of(const char *reply) {
    static const struct {
        const char *word;
        int error;
    } errors[] = {{"done", 0}, {"free", 0}, {"blocked", 0}, {"again", EAGAIN}, {"interrupted", EINTR}, {"no-locks", ENOLCK},
                  {"bad-fd", EBADF}, {"invalid", EINVAL}, {"overflow", EOVERFLOW}};
    for (size_t k = 0; k < sizeof errors / sizeof *errors; k++)
        if (!strncmp(reply, errors[k].word, strlen(errors[k].word)))
            return errors[k].error;
    return EIO;
}

// The lock that a reply `blocked MODE FIRST LAST pP@N` names.
static struct flock lock_of(const char *reply) {
    struct flock lock = {.l_type = F_UNLCK, .l_whence = SEEK_SET};
    long long first, last;
    char mode[8];
    int process, node;
    if (sscanf(reply, "blocked %7s %lld %lld p%d@%d", mode, &first, &last, &process, &node) != 5)
        return lock;
    lock.l_type = mode[0] == 'r' ? F_RDLCK : F_WRLCK;
    lock.l_start = first;
    lock.l_len = last == INT64_MAX ? 0 : last - first + 1;
    lock.l_pid = node == settings.me && process >= 1 && process <= MOST_PROCESSES ? owners[process].pid : 0;
    return lock;
}

static void closed(struct owner *owner, struct lock_call *call) {
    int file = files_number(call->inode);
    for (int k = 0; k < MOST_DESCRIPTORS; k++)
        if (call->exits || owner->files[k] == file)
            owner->files[k] = 0;
    if (call->exits)
        owner->spawned = false;
    end_call(call, owner, 0, NULL);
}

void locks_answered(uint64_t tag, const char *reply) {
    struct owner *owner = owner_of_tag(tag);
    if (!owner)
        return;
    struct lock_call *call = owner->current;
    if (call->op == LOCK_CLOSE) {
        closed(owner, call);
    } else if (!strcmp(reply, "interrupted") && !call->interrupted) {      // by this file, for another call of the owner: it waits again, behind that
        owner->current = NULL;
        owner->poked = false;
        owner_queue(owner, call);
    } else {
        int error = error_of(reply);
        struct flock found = lock_of(reply);
        if (error == EIO)
            say("a lock call was answered %s", reply);
        end_call(call, owner, error, &found);
    }
    go(owner);
}

// A block of the node's seat. What is refused here is a fault of this file.
void locks_block(struct seat *seat, struct told_line line, const char *refused) {
    if (line.what == TOLD_SPAWN && (refused || strcmp(seat->reply, "done")))
        die("a process can't begin: %s", refused ? refused : seat->reply);
    if (line.what == TOLD_OPEN && (refused || strncmp(seat->reply, "fd ", 3) || strtoull(seat->reply + 3, NULL, 10) != line.of))
        die("a file can't be opened as %d: %s", (int)line.of, refused ? refused : seat->reply);
    if (line.what == TOLD_CALL && refused)
        locks_answered(line.of, "refused");
}

static void tell_call(struct owner *owner, struct lock_call *call, const char *words) {
    owner->current = call;
    owner->tag = (uint64_t)owner->process << 32 | ++owner->tags;
    owner->since = now();
    seat_tell(node_seat, TOLD_CALL, owner->tag, "tagged %llu %d %d %s", (unsigned long long)owner->tag, settings.me, owner->process, words);
}

// The owner has the file open behind this: its descriptor, or -1 where it has no more.
static int open_descriptor(struct owner *owner, int file) {
    int descriptor = owner_descriptor(owner, file);
    if (descriptor >= 0)
        return descriptor;
    descriptor = owner_descriptor(owner, 0);
    if (descriptor < 0)
        return -1;
    if (!owner->spawned)
        seat_tell(node_seat, TOLD_SPAWN, 0, "call %d %d spawn", settings.me, owner->process);
    owner->spawned = true;
    owner->files[descriptor] = file;
    seat_tell(node_seat, TOLD_OPEN, descriptor, "call %d %d open %d rw", settings.me, owner->process, file);
    return descriptor;
}

static void make_call(struct owner *owner, struct lock_call *call, int file) {
    static const char *const names[] = {"set", "wait", "unlock", "query"};
    char words[128];
    int descriptor = file ? owner_descriptor(owner, file) : -1;
    if (descriptor < 0 && (call->op == LOCK_CLOSE || call->op == LOCK_UNLOCK)) {
        end_call(call, owner, 0, NULL);
        return;
    }
    if (call->op == LOCK_CLOSE) {
        call->exits = !owner_has_other(owner, descriptor);
        snprintf(words, sizeof words, "close %d", descriptor);
        tell_call(owner, call, call->exits ? "exit" : words);
        return;
    }
    descriptor = open_descriptor(owner, file);
    if (descriptor < 0) {
        end_call(call, owner, ENOLCK, NULL);
        return;
    }
    const char *mode = call->op == LOCK_UNLOCK ? "" : call->writes ? " write" : " read";
    snprintf(words, sizeof words, "%s %d proc%s %lld %lld", names[call->op], descriptor, mode, (long long)call->start, (long long)call->length);
    tell_call(owner, call, words);
}

static void go(struct owner *owner) {
    while (!owner->current && owner->first) {
        struct lock_call *call = owner->first;
        int file = files_usable(call->inode);
        if (!file && call->op != LOCK_CLOSE && call->op != LOCK_UNLOCK && call->asked < TRIES) {
            if (!call->asked++)
                files_want(call->inode);
            return;
        }
        owner_unqueue(owner, call->id);
        if (!file && call->asked >= TRIES)
            end_call(call, owner, ENOLCK, NULL);
        else
            make_call(owner, call, file);
    }
    if (!owner->current && !owner->first && !owner->spawned)
        owner->used = false;
}

// Another call of the owner is queued: a wait that is told to the seat makes way for it, and comes again behind it.
static void poke(struct owner *owner) {
    if (!owner->current || owner->current->op != LOCK_WAIT || owner->poked)
        return;
    owner->poked = true;
    seat_tell(node_seat, TOLD_INTERRUPT, 0, "interrupt %d %d", settings.me, owner->process);
}

void locks_take(struct lock_call *call) {
    bool takes = call->op != LOCK_CLOSE && call->op != LOCK_UNLOCK;
    struct owner *owner = call->interrupted ? NULL : owner_of(call->owner, takes);
    if (!owner || !node_seat) {
        call->done(call, call->interrupted ? EINTR : !takes ? 0 : ENOLCK, NULL);
        return;
    }
    if (call->pid)
        owner->pid = call->pid;
    owner_queue(owner, call);
    poke(owner);
    go(owner);
}

void locks_interrupt(uint64_t id) {
    for (int k = 1; k <= MOST_PROCESSES; k++) {
        struct owner *owner = &owners[k];
        if (!owner->used)
            continue;
        if (owner->current && owner->current->id == id) {
            owner->current->interrupted = true;
            poke(owner);
            return;
        }
        struct lock_call *call = owner_unqueue(owner, id);
        if (call) {
            end_call(call, owner, EINTR, NULL);
            return;
        }
    }
}

// Each wait has its turn, where several calls of an owner are open; and calls whose file has no number yet ask again.
void locks_tick(void) {
    bool open = false;
    int64_t time = now();
    for (int k = 1; k <= MOST_PROCESSES; k++) {
        struct owner *owner = &owners[k];
        if (!owner->used)
            continue;
        open |= owner->current != NULL;
        if (owner->current && owner->first && time - owner->since > TURN)
            poke(owner);
        if (!owner->current && owner->first && owner->first->asked) {
            owner->first->asked++;
            if (owner->first->asked % 4 == 0)
                files_want(owner->first->inode);
            go(owner);
        }
    }
    if (open && node_seat)
        seat_tick(node_seat);
}

void locks_file_came(uint64_t inode) {
    for (int k = 1; k <= MOST_PROCESSES; k++)
        if (owners[k].used && owners[k].first && owners[k].first->inode == inode)
            go(&owners[k]);
}

bool locks_have(int file) {
    for (int k = 1; k <= MOST_PROCESSES; k++)
        if (owners[k].used && owner_descriptor(&owners[k], file) >= 0)
            return true;
    return false;
}
