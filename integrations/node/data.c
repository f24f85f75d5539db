// Open files and their bytes. The lease is looked at before each write, and behind each read: what was read while it held is no later node's to change.
#define _GNU_SOURCE
#include "fs.h"
#include <errno.h>
#include <fcntl.h>
#include <stdlib.h>
#include <sys/uio.h>
#include <unistd.h>

enum { NOT_PASSED_ON = O_NOFOLLOW | O_DIRECT | O_APPEND };      // (each write says whether it appends: F_SETFL changes that)

static void give_handle(struct fuse_file_info *info, int file, fuse_ino_t node) {
    struct handle *handle = room_for(1, sizeof *handle);
    handle->file = file;
    handle->inode = inode_of(node);
    pthread_mutex_init(&handle->mutex, NULL);
    info->fh = (uintptr_t)handle;
    info->direct_io = true;         // (the kernel keeps no pages of reads and writes)
}

static void open_file(fuse_req_t request, fuse_ino_t node, struct fuse_file_info *info) {
    char path[64];
    inode_path(inode_of(node), path);
    lease_look();       // (it may truncate)
    int file = open(path, (info->flags & ~(O_CREAT | O_EXCL | NOT_PASSED_ON)) | O_CLOEXEC);
    if (file < 0) {
        fuse_reply_err(request, errno);
        return;
    }
    give_handle(info, file, node);
    fuse_reply_open(request, info);
}

// A new file is the caller's. One that another node made meanwhile was not seen by the kernel, which so did not ask whether the caller may open it.
static int make_file(fuse_req_t request, int folder, const char *name, int flags, mode_t mode) {
    caller_begin(request, true);
    int file = openat(folder, name, flags | O_CREAT | O_EXCL, mode);
    caller_end();
    if (file >= 0 || errno != EEXIST || flags & O_EXCL)
        return file;
    caller_begin(request, false);
    file = openat(folder, name, (flags & ~(O_CREAT | O_EXCL)) | O_NOFOLLOW);
    caller_end();
    return file;
}

static void create_file(fuse_req_t request, fuse_ino_t parent, const char *name, mode_t mode, struct fuse_file_info *info) {
    struct fuse_entry_param entry;
    lease_look();
    int file = make_file(request, inode_of(parent)->file, name, (info->flags | O_CLOEXEC) & ~NOT_PASSED_ON, mode);
    if (file < 0) {
        fuse_reply_err(request, errno);
        return;
    }
    int error = inode_look_up(parent, name, &entry);
    if (error) {
        close(file);
        fuse_reply_err(request, error);
        return;
    }
    give_handle(info, file, entry.ino);
    fuse_reply_create(request, &entry, info);
}

static void read_bytes(fuse_req_t request, fuse_ino_t node, size_t size, off_t offset, struct fuse_file_info *info) {
    (void)node;
    char *bytes = room_for(1, size);
    ssize_t length = pread(handle_of(info)->file, bytes, size, offset);
    int error = errno;
    lease_look();
    if (length < 0)
        fuse_reply_err(request, error);
    else
        fuse_reply_buf(request, bytes, length);
    free(bytes);
}

static void write_bytes(fuse_req_t request, fuse_ino_t node, const char *bytes, size_t size, off_t offset, struct fuse_file_info *info) {
    struct iovec all = {(void *)bytes, size};
    (void)node;
    lease_look();
    ssize_t length = pwritev2(handle_of(info)->file, &all, 1, offset, info->flags & O_APPEND ? RWF_APPEND : 0);
    if (length < 0)
        fuse_reply_err(request, errno);
    else
        fuse_reply_write(request, length);
}

static void sync_file(fuse_req_t request, fuse_ino_t node, int data_only, struct fuse_file_info *info) {
    (void)node;
    int file = handle_of(info)->file;
    fuse_reply_err(request, (data_only ? fdatasync(file) : fsync(file)) ? errno : 0);
}

static void allocate(fuse_req_t request, fuse_ino_t node, int mode, off_t offset, off_t length, struct fuse_file_info *info) {
    (void)node;
    lease_look();
    fuse_reply_err(request, fallocate(handle_of(info)->file, mode, offset, length) ? errno : 0);
}

static void seek(fuse_req_t request, fuse_ino_t node, off_t offset, int whence, struct fuse_file_info *info) {
    (void)node;
    off_t found = lseek(handle_of(info)->file, offset, whence);
    if (found < 0)
        fuse_reply_err(request, errno);
    else
        fuse_reply_lseek(request, found);
}

static void copy_range(fuse_req_t request, fuse_ino_t node, off_t offset, struct fuse_file_info *info, fuse_ino_t other, off_t to,
                       struct fuse_file_info *other_info, size_t length, int flags) {
    (void)node;
    (void)other;
    lease_look();
    ssize_t copied = copy_file_range(handle_of(info)->file, &offset, handle_of(other_info)->file, &to, length, flags);
    if (copied < 0)
        fuse_reply_err(request, errno);
    else
        fuse_reply_write(request, copied);
}

void data_operations(struct fuse_lowlevel_ops *operations) {
    operations->open = open_file;
    operations->create = create_file;
    operations->read = read_bytes;
    operations->write = write_bytes;
    operations->fsync = sync_file;
    operations->fallocate = allocate;
    operations->lseek = seek;
    operations->copy_file_range = copy_range;
}
