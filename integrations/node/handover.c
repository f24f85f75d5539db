// Lock calls come by the threads of the file system, and are made by the thread of the loop. The ends of descriptors are lock calls too.
#define _GNU_SOURCE
#include "fs.h"
#include "locks.h"
#include <errno.h>
#include <stdlib.h>
#include <sys/epoll.h>
#include <sys/eventfd.h>
#include <unistd.h>

// A lock call, or the interrupt of one that has this number.
struct letter {
    struct lock_call *call;
    uint64_t interrupted;
    struct letter *next;
};
static struct letter *first_letter, *last_letter;
static pthread_mutex_t mutex = PTHREAD_MUTEX_INITIALIZER;
static struct source bell;
static _Atomic uint64_t calls;

void handover_wake(void) {
    uint64_t one = 1;
    (void)!write(bell.fd, &one, sizeof one);
}

static void hand_over(struct lock_call *call, uint64_t interrupted) {
    struct letter *letter = room_for(1, sizeof *letter);
    *letter = (struct letter){call, interrupted, NULL};
    pthread_mutex_lock(&mutex);
    bool was_empty = !first_letter;
    if (was_empty)
        first_letter = letter;
    else
        last_letter->next = letter;
    last_letter = letter;
    pthread_mutex_unlock(&mutex);
    if (was_empty)
        handover_wake();
}

static void take_letters(struct source *source, uint32_t events) {
    uint64_t count;
    (void)events;
    (void)!read(source->fd, &count, sizeof count);
    lease_look();
    pthread_mutex_lock(&mutex);
    struct letter *letter = first_letter;
    first_letter = last_letter = NULL;
    pthread_mutex_unlock(&mutex);
    while (letter) {
        struct letter *next = letter->next;
        if (letter->call)
            locks_take(letter->call);
        else
            locks_interrupt(letter->interrupted);
        free(letter);
        letter = next;
    }
}

void handover_begin(void) {
    bell = (struct source){eventfd(0, EFD_CLOEXEC | EFD_NONBLOCK), take_letters, NULL};
    watch(&bell, EPOLLIN);
    lease_is_over = handover_wake;
}

// The call is over. Nobody interrupts it any longer, once the first line is done.
static void answer(struct lock_call *call, int error, const struct flock *found) {
    fuse_req_t request = call->of;
    if (request) {
        fuse_req_interrupt_func(request, NULL, NULL);
        if (call->op == LOCK_QUERY && !error)
            fuse_reply_lock(request, found);
        else
            fuse_reply_err(request, error);
    }
    free(call);
}

// A call is handed over before its interrupt is: `order` is held from when its interrupts are asked for until it is handed over. (libfuse holds a request's
// own mutex both as it asks and as it interrupts. That is no cycle: it interrupts only a request whose asking is done with that mutex.)
static pthread_mutex_t order = PTHREAD_MUTEX_INITIALIZER;
static _Thread_local struct lock_call *asks;

static void interrupted(fuse_req_t request, void *number) {
    (void)request;
    if (asks) {             // (it was interrupted already, so this thread is told at once)
        asks->interrupted = true;
        return;
    }
    pthread_mutex_lock(&order);
    hand_over(NULL, (uintptr_t)number);
    pthread_mutex_unlock(&order);
}

static struct lock_call *new_call(enum lock_op op, fuse_req_t request, const struct inode *inode, uint64_t owner) {
    struct lock_call *call = room_for(1, sizeof *call);
    *call = (struct lock_call){.op = op, .owner = owner, .inode = inode->number, .id = ++calls, .done = answer, .of = request};
    return call;
}

void handle_add_owner(struct handle *handle, uint64_t owner) {
    size_t k = 0;
    pthread_mutex_lock(&handle->mutex);
    while (k < handle->count && handle->owners[k] != owner)
        k++;
    if (k == handle->room) {
        handle->room = handle->room * 2 + 4;
        handle->owners = realloc(handle->owners, handle->room * sizeof *handle->owners);
        if (!handle->owners)
            die("no memory");
    }
    if (k == handle->count)
        handle->owners[handle->count++] = owner;
    pthread_mutex_unlock(&handle->mutex);
}

void handle_drop_owner(struct handle *handle, uint64_t owner) {
    pthread_mutex_lock(&handle->mutex);
    for (size_t k = 0; k < handle->count; k++)
        if (handle->owners[k] == owner)
            handle->owners[k] = handle->owners[--handle->count];
    pthread_mutex_unlock(&handle->mutex);
}

// A close(2): the locks of its process are gone before it returns.
static void flush(fuse_req_t request, fuse_ino_t node, struct fuse_file_info *info) {
    struct inode *inode = inode_of(node);
    handle_drop_owner(handle_of(info), info->lock_owner);
    if (inode->locks)
        hand_over(new_call(LOCK_CLOSE, request, inode, info->lock_owner), 0);
    else
        fuse_reply_err(request, 0);
}

// The last descriptor of an open file is closed. Who locked through it and did not close it was an open file description.
static void release(fuse_req_t request, fuse_ino_t node, struct fuse_file_info *info) {
    struct handle *handle = handle_of(info);
    for (size_t k = 0; k < handle->count; k++)
        hand_over(new_call(LOCK_CLOSE, NULL, inode_of(node), handle->owners[k]), 0);
    close(handle->file);
    pthread_mutex_destroy(&handle->mutex);
    free(handle->owners);
    free(handle);
    fuse_reply_err(request, 0);
}

static void hand_over_lock(struct lock_call *call, const struct flock *lock) {
    call->writes = lock->l_type == F_WRLCK;
    call->start = lock->l_start;
    call->length = lock->l_len;
    if (call->op != LOCK_WAIT) {
        hand_over(call, 0);
        return;
    }
    pthread_mutex_lock(&order);
    asks = call;
    fuse_req_interrupt_func(call->of, interrupted, (void *)(uintptr_t)call->id);
    asks = NULL;
    hand_over(call, 0);
    pthread_mutex_unlock(&order);
}

static void set_lock(fuse_req_t request, fuse_ino_t node, struct fuse_file_info *info, struct flock *lock, int waits) {
    struct inode *inode = inode_of(node);
    enum lock_op op = lock->l_type == F_UNLCK ? LOCK_UNLOCK : waits ? LOCK_WAIT : LOCK_SET;
    inode->locks = true;
    if (op != LOCK_UNLOCK)
        handle_add_owner(handle_of(info), info->lock_owner);
    struct lock_call *call = new_call(op, request, inode, info->lock_owner);
    call->pid = lock->l_pid;
    hand_over_lock(call, lock);
}

static void get_lock(fuse_req_t request, fuse_ino_t node, struct fuse_file_info *info, struct flock *lock) {
    struct inode *inode = inode_of(node);
    inode->locks = true;
    hand_over_lock(new_call(LOCK_QUERY, request, inode, info->lock_owner), lock);
}

void lock_operations(struct fuse_lowlevel_ops *operations) {
    operations->flush = flush;
    operations->release = release;
    operations->setlk = set_lock;
    operations->getlk = get_lock;
}
