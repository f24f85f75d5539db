// A passthrough file system over a folder that all nodes share. Data goes by several threads; lock calls are handed to the loop's.
#ifndef FS_H
#define FS_H
#define FUSE_USE_VERSION 34
#include "cluster.h"
#include <fuse_lowlevel.h>
#include <pthread.h>
#include <stdatomic.h>
#include <sys/stat.h>

struct inode {
    int file;                           // its descriptor, of O_PATH
    uint64_t number, lookups;
    _Atomic bool locks;                 // whether a lock call named it, on this node
    struct inode *next;
};
// An open file. Its owners are those who made a lock call through it: at its release those are left that are open file descriptions.
struct handle {
    int file;
    struct inode *inode;
    pthread_mutex_t mutex;
    uint64_t *owners;
    size_t count, room;
};
extern struct fuse_session *session;
extern struct inode root;

struct inode *inode_of(fuse_ino_t node);
void inode_path(const struct inode *inode, char path[64]);
int inode_look_up(fuse_ino_t parent, const char *name, struct fuse_entry_param *entry);     // an error, or 0
void inode_forget(fuse_ino_t node, uint64_t lookups);
void inodes_begin(void);

static inline struct handle *handle_of(const struct fuse_file_info *info) { return (struct handle *)(uintptr_t)info->fh; }
void handle_drop_owner(struct handle *handle, uint64_t owner);
void handle_add_owner(struct handle *handle, uint64_t owner);

void names_operations(struct fuse_lowlevel_ops *operations);
void data_operations(struct fuse_lowlevel_ops *operations);
void lock_operations(struct fuse_lowlevel_ops *operations);
void fs_mount(void);
void fs_serve(void);
void fs_unmount(void);
bool fs_ended(void);
// Lock calls that threads handed over since the last turn are made.
void handover_begin(void);
void handover_wake(void);

// A thread makes files as its caller, whose they are then.
// `may_all`: the kernel asked already whether the caller may, also by its other groups, which are not known here.
void caller_begin(fuse_req_t request, bool may_all);
void caller_end(void);              // errno stays
#endif
