#define _GNU_SOURCE
#include "fs.h"
#include <errno.h>
#include <fcntl.h>
#include <linux/capability.h>
#include <linux/fuse.h>
#include <signal.h>
#include <stdio.h>
#include <stdlib.h>
#include <string.h>
#include <sys/fsuid.h>
#include <sys/mount.h>
#include <sys/syscall.h>
#include <unistd.h>

enum { BUCKETS = 4096 };
struct inode root;
static struct inode *buckets[BUCKETS];
static pthread_mutex_t mutex = PTHREAD_MUTEX_INITIALIZER;
static dev_t device;

struct inode *inode_of(fuse_ino_t node) { return node == FUSE_ROOT_ID ? &root : (struct inode *)(uintptr_t)node; }

void inode_path(const struct inode *inode, char path[64]) { snprintf(path, 64, "/proc/self/fd/%d", inode->file); }

void inodes_begin(void) {
    struct stat found;
    root.file = open(settings.backing, O_PATH | O_DIRECTORY | O_CLOEXEC);
    if (root.file < 0 || fstat(root.file, &found))
        die("%s: %m", settings.backing);
    root.number = found.st_ino;
    root.lookups = 1;
    device = found.st_dev;
}

static struct inode **place_of(uint64_t number) {
    struct inode **at = &buckets[number % BUCKETS];
    while (*at && (*at)->number != number)
        at = &(*at)->next;
    return at;
}

// The inode of a descriptor, which is its own then, or closed.
static struct inode *take(int file, uint64_t number) {
    pthread_mutex_lock(&mutex);
    struct inode **at = place_of(number);
    if (*at) {
        close(file);
    } else {
        struct inode *fresh = room_for(1, sizeof *fresh);
        fresh->file = file;
        fresh->number = number;
        *at = fresh;
    }
    struct inode *inode = *at;
    inode->lookups++;
    pthread_mutex_unlock(&mutex);
    return inode;
}

int inode_look_up(fuse_ino_t parent, const char *name, struct fuse_entry_param *entry) {
    memset(entry, 0, sizeof *entry);
    int file = openat(inode_of(parent)->file, name, O_PATH | O_NOFOLLOW | O_CLOEXEC);
    if (file < 0)
        return errno;
    int error = fstatat(file, "", &entry->attr, AT_EMPTY_PATH) ? errno : entry->attr.st_dev != device ? EXDEV : 0;
    if (error) {
        close(file);
        return error;
    }
    if (entry->attr.st_ino == root.number) {        // (`..` of a folder in the root)
        close(file);
        entry->ino = FUSE_ROOT_ID;
        return 0;
    }
    entry->ino = (fuse_ino_t)(uintptr_t)take(file, entry->attr.st_ino);
    return 0;
}

void inode_forget(fuse_ino_t node, uint64_t lookups) {
    if (node == FUSE_ROOT_ID)
        return;
    struct inode *inode = inode_of(node);
    pthread_mutex_lock(&mutex);
    inode->lookups -= lookups;
    bool is_over = !inode->lookups;
    if (is_over)
        *place_of(inode->number) = inode->next;
    pthread_mutex_unlock(&mutex);
    if (!is_over)
        return;
    close(inode->file);
    free(inode);
}

static void override_permissions(void) {
    struct __user_cap_header_struct head = {_LINUX_CAPABILITY_VERSION_3, 0};
    struct __user_cap_data_struct sets[2];
    uint32_t wanted = UINT32_C(1) << CAP_DAC_OVERRIDE | UINT32_C(1) << CAP_DAC_READ_SEARCH;
    if (syscall(SYS_capget, &head, sets))
        return;
    sets[0].effective |= wanted & sets[0].permitted;
    syscall(SYS_capset, &head, sets);
}

void caller_begin(fuse_req_t request, bool may_all) {
    const struct fuse_ctx *caller = fuse_req_ctx(request);
    setfsgid(caller->gid);
    setfsuid(caller->uid);
    if (may_all && caller->uid)
        override_permissions();
}

void caller_end(void) {
    int error = errno;
    setfsuid(0);
    setfsgid(0);
    errno = error;
}

// The mount, and the threads that serve it.
enum { MOST_THREADS = 64 };
struct fuse_session *session;
static _Atomic bool ended;
static pthread_t threads[MOST_THREADS];

static void begin(void *nothing, struct fuse_conn_info *connection) {
    (void)nothing;
    connection->want |= connection->capable & (FUSE_CAP_POSIX_LOCKS | FUSE_CAP_READDIRPLUS | FUSE_CAP_AUTO_INVAL_DATA);
    connection->want &= ~(unsigned)(FUSE_CAP_WRITEBACK_CACHE | FUSE_CAP_SPLICE_READ | FUSE_CAP_FLOCK_LOCKS);
    connection->max_background = UINT16_MAX;        // (so none of the requests that `arrivals` is for waits in the kernel)
}

void fs_mount(void) {
    static struct fuse_lowlevel_ops operations;
    char *words[] = {"nuvnode", "-o", "fsname=nuvnode,allow_other,default_permissions", NULL};
    struct fuse_args arguments = {3, words, 0};
    struct stat found;
    if (stat(settings.mountpoint, &found) && errno == ENOTCONN)
        umount2(settings.mountpoint, MNT_DETACH);       // (of a daemon before this one)
    operations.init = begin;
    names_operations(&operations);
    data_operations(&operations);
    lock_operations(&operations);
    umask(0);
    inodes_begin();
    session = fuse_session_new(&arguments, &operations, sizeof operations, NULL);
    if (!session || fuse_session_mount(session, settings.mountpoint))
        die("%s can't be mounted", settings.mountpoint);
    fcntl(fuse_session_fd(session), F_SETFD, FD_CLOEXEC);
}

// The end of an open file is handed over before anything is read that came behind it. close(2) does not wait for it, and the kernel may name the next open
// file description as it named that one: a lock of the new one would go with the old one's end.
static pthread_mutex_t arrivals = PTHREAD_MUTEX_INITIALIZER;

static void *serve(void *nothing) {
    struct fuse_buf request = {0};
    while (!fuse_session_exited(session)) {
        pthread_mutex_lock(&arrivals);
        int got = fuse_session_receive_buf(session, &request);
        bool is_end = got > 0 && ((struct fuse_in_header *)request.mem)->opcode == FUSE_RELEASE;
        if (!is_end)
            pthread_mutex_unlock(&arrivals);
        if (got == -EINTR)
            continue;
        if (got <= 0)
            break;
        lease_look();
        fuse_session_process_buf(session, &request);
        if (is_end)
            pthread_mutex_unlock(&arrivals);
    }
    free(request.mem);
    ended = true;
    handover_wake();
    return nothing;
}

void fs_serve(void) {
    sigset_t all, before;
    sigfillset(&all);
    pthread_sigmask(SIG_SETMASK, &all, &before);        // (signals are the loop's)
    for (int k = 0; k < settings.threads; k++)
        if (pthread_create(&threads[k], NULL, serve, NULL))
            die("no thread");
    pthread_sigmask(SIG_SETMASK, &before, NULL);
}

bool fs_ended(void) { return ended; }

void fs_unmount(void) {
    umount2(settings.mountpoint, MNT_DETACH);
}
