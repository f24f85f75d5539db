// Names: folders, links, and what makes and takes them away; and attributes. Each looks at the lease before it changes anything.
#define _GNU_SOURCE
#include "fs.h"
#include <dirent.h>
#include <errno.h>
#include <fcntl.h>
#include <stdio.h>
#include <stdlib.h>
#include <string.h>
#include <sys/statvfs.h>
#include <sys/syscall.h>
#include <sys/xattr.h>
#include <unistd.h>

static void reply_error(fuse_req_t request, int failed) { fuse_reply_err(request, failed ? errno : 0); }

static void look_up(fuse_req_t request, fuse_ino_t parent, const char *name) {
    struct fuse_entry_param entry;
    int error = inode_look_up(parent, name, &entry);
    if (error)
        fuse_reply_err(request, error);
    else
        fuse_reply_entry(request, &entry);
}

static void forget(fuse_req_t request, fuse_ino_t node, uint64_t lookups) {
    inode_forget(node, lookups);
    fuse_reply_none(request);
}

static void forget_many(fuse_req_t request, size_t count, struct fuse_forget_data *forgets) {
    for (size_t k = 0; k < count; k++)
        inode_forget(forgets[k].ino, forgets[k].nlookup);
    fuse_reply_none(request);
}

// Ends what was made as the caller.
static void made(fuse_req_t request, fuse_ino_t parent, const char *name, int failed) {
    caller_end();
    if (failed)
        fuse_reply_err(request, errno);
    else
        look_up(request, parent, name);
}

static void make_node(fuse_req_t request, fuse_ino_t parent, const char *name, mode_t mode, dev_t device) {
    lease_look();
    caller_begin(request, true);
    made(request, parent, name, mknodat(inode_of(parent)->file, name, mode, device));
}

static void make_folder(fuse_req_t request, fuse_ino_t parent, const char *name, mode_t mode) {
    lease_look();
    caller_begin(request, true);
    made(request, parent, name, mkdirat(inode_of(parent)->file, name, mode));
}

static void make_symbolic_link(fuse_req_t request, const char *target, fuse_ino_t parent, const char *name) {
    lease_look();
    caller_begin(request, true);
    made(request, parent, name, symlinkat(target, inode_of(parent)->file, name));
}

static void read_link(fuse_req_t request, fuse_ino_t node) {
    char target[4097];
    ssize_t length = readlinkat(inode_of(node)->file, "", target, sizeof target - 1);
    if (length < 0) {
        fuse_reply_err(request, errno);
        return;
    }
    target[length] = 0;
    fuse_reply_readlink(request, target);
}

static void make_link(fuse_req_t request, fuse_ino_t node, fuse_ino_t parent, const char *name) {
    char path[64];
    inode_path(inode_of(node), path);
    lease_look();
    if (linkat(AT_FDCWD, path, inode_of(parent)->file, name, AT_SYMLINK_FOLLOW))
        fuse_reply_err(request, errno);
    else
        look_up(request, parent, name);
}

static void take_name(fuse_req_t request, fuse_ino_t parent, const char *name) {
    lease_look();
    reply_error(request, unlinkat(inode_of(parent)->file, name, 0));
}

static void take_folder(fuse_req_t request, fuse_ino_t parent, const char *name) {
    lease_look();
    reply_error(request, unlinkat(inode_of(parent)->file, name, AT_REMOVEDIR));
}

static void rename_it(fuse_req_t request, fuse_ino_t parent, const char *name, fuse_ino_t other, const char *other_name, unsigned flags) {
    lease_look();
    reply_error(request, (int)syscall(SYS_renameat2, inode_of(parent)->file, name, inode_of(other)->file, other_name, flags));
}

static void open_folder(fuse_req_t request, fuse_ino_t node, struct fuse_file_info *info) {
    int file = openat(inode_of(node)->file, ".", O_RDONLY | O_DIRECTORY | O_CLOEXEC);
    DIR *folder = file < 0 ? NULL : fdopendir(file);
    if (!folder) {
        int error = errno;
        if (file >= 0)
            close(file);
        fuse_reply_err(request, error);
        return;
    }
    info->fh = (uintptr_t)folder;
    fuse_reply_open(request, info);
}

// Adds an entry to what is read of a folder: how many bytes it takes, more than there are where it has no place.
static size_t add_entry(fuse_req_t request, fuse_ino_t node, char *bytes, size_t room, const struct dirent *found, bool with_attributes) {
    struct fuse_entry_param entry = {.attr = {.st_ino = found->d_ino, .st_mode = (mode_t)found->d_type << 12}};
    bool is_dots = !strcmp(found->d_name, ".") || !strcmp(found->d_name, "..");
    if (!with_attributes)
        return fuse_add_direntry(request, bytes, room, found->d_name, &entry.attr, found->d_off);
    if (!is_dots && inode_look_up(node, found->d_name, &entry))
        return 0;       // (it went meanwhile)
    size_t length = fuse_add_direntry_plus(request, bytes, room, found->d_name, &entry, found->d_off);
    if (length > room && entry.ino)
        inode_forget(entry.ino, 1);
    return length;
}

static void read_entries(fuse_req_t request, fuse_ino_t node, size_t size, off_t offset, struct fuse_file_info *info, bool with_attributes) {
    DIR *folder = (DIR *)(uintptr_t)info->fh;
    char *bytes = room_for(1, size);
    size_t length = 0;
    struct dirent *found;
    seekdir(folder, offset);
    while ((found = readdir(folder))) {
        size_t more = add_entry(request, node, bytes + length, size - length, found, with_attributes);
        if (more > size - length)
            break;
        length += more;
    }
    fuse_reply_buf(request, bytes, length);
    free(bytes);
}

static void read_folder(fuse_req_t request, fuse_ino_t node, size_t size, off_t offset, struct fuse_file_info *info) {
    read_entries(request, node, size, offset, info, false);
}

static void read_folder_plus(fuse_req_t request, fuse_ino_t node, size_t size, off_t offset, struct fuse_file_info *info) {
    read_entries(request, node, size, offset, info, true);
}

static void release_folder(fuse_req_t request, fuse_ino_t node, struct fuse_file_info *info) {
    (void)node;
    closedir((DIR *)(uintptr_t)info->fh);
    fuse_reply_err(request, 0);
}

static void sync_folder(fuse_req_t request, fuse_ino_t node, int data_only, struct fuse_file_info *info) {
    (void)node;
    int file = dirfd((DIR *)(uintptr_t)info->fh);
    reply_error(request, data_only ? fdatasync(file) : fsync(file));
}

// Attributes of files, extended ones too.
static void get(fuse_req_t request, fuse_ino_t node, struct fuse_file_info *info) {
    struct stat found;
    (void)info;
    if (fstatat(inode_of(node)->file, "", &found, AT_EMPTY_PATH | AT_SYMLINK_NOFOLLOW))
        fuse_reply_err(request, errno);
    else
        fuse_reply_attr(request, &found, 0);
}

static int set_owner(const struct inode *inode, const struct stat *wanted, int which) {
    uid_t user = which & FUSE_SET_ATTR_UID ? wanted->st_uid : (uid_t)-1;
    gid_t group = which & FUSE_SET_ATTR_GID ? wanted->st_gid : (gid_t)-1;
    return fchownat(inode->file, "", user, group, AT_EMPTY_PATH | AT_SYMLINK_NOFOLLOW);
}

static int set_times(const char *path, const struct stat *wanted, int which) {
    struct timespec times[2] = {{0, UTIME_OMIT}, {0, UTIME_OMIT}};
    if (which & FUSE_SET_ATTR_ATIME_NOW)
        times[0].tv_nsec = UTIME_NOW;
    else if (which & FUSE_SET_ATTR_ATIME)
        times[0] = wanted->st_atim;
    if (which & FUSE_SET_ATTR_MTIME_NOW)
        times[1].tv_nsec = UTIME_NOW;
    else if (which & FUSE_SET_ATTR_MTIME)
        times[1] = wanted->st_mtim;
    return utimensat(AT_FDCWD, path, times, 0);
}

static void set(fuse_req_t request, fuse_ino_t node, struct stat *wanted, int which, struct fuse_file_info *info) {
    char path[64];
    int failed = 0;
    struct inode *inode = inode_of(node);
    inode_path(inode, path);
    lease_look();
    if (which & FUSE_SET_ATTR_MODE)
        failed = chmod(path, wanted->st_mode);
    if (!failed && which & (FUSE_SET_ATTR_UID | FUSE_SET_ATTR_GID))
        failed = set_owner(inode, wanted, which);
    if (!failed && which & FUSE_SET_ATTR_SIZE)
        failed = info ? ftruncate(handle_of(info)->file, wanted->st_size) : truncate(path, wanted->st_size);
    if (!failed && which & (FUSE_SET_ATTR_ATIME | FUSE_SET_ATTR_MTIME | FUSE_SET_ATTR_ATIME_NOW | FUSE_SET_ATTR_MTIME_NOW))
        failed = set_times(path, wanted, which);
    if (failed)
        fuse_reply_err(request, errno);
    else
        get(request, node, info);
}

static void set_extended(fuse_req_t request, fuse_ino_t node, const char *name, const char *value, size_t size, int flags) {
    char path[64];
    inode_path(inode_of(node), path);
    lease_look();
    fuse_reply_err(request, setxattr(path, name, value, size, flags) ? errno : 0);
}

static void remove_extended(fuse_req_t request, fuse_ino_t node, const char *name) {
    char path[64];
    inode_path(inode_of(node), path);
    lease_look();
    fuse_reply_err(request, removexattr(path, name) ? errno : 0);
}

static void reply_extended(fuse_req_t request, char *bytes, ssize_t length, size_t size) {
    if (length < 0)
        fuse_reply_err(request, errno);
    else if (!size)
        fuse_reply_xattr(request, length);
    else
        fuse_reply_buf(request, bytes, length);
    free(bytes);
}

static void get_extended(fuse_req_t request, fuse_ino_t node, const char *name, size_t size) {
    char path[64], *bytes = size ? room_for(1, size) : NULL;
    inode_path(inode_of(node), path);
    reply_extended(request, bytes, getxattr(path, name, bytes, size), size);
}

static void list_extended(fuse_req_t request, fuse_ino_t node, size_t size) {
    char path[64], *bytes = size ? room_for(1, size) : NULL;
    inode_path(inode_of(node), path);
    reply_extended(request, bytes, listxattr(path, bytes, size), size);
}

static void get_room(fuse_req_t request, fuse_ino_t node) {
    struct statvfs found;
    if (fstatvfs(inode_of(node)->file, &found))
        fuse_reply_err(request, errno);
    else
        fuse_reply_statfs(request, &found);
}

void names_operations(struct fuse_lowlevel_ops *operations) {
    operations->lookup = look_up;
    operations->forget = forget;
    operations->forget_multi = forget_many;
    operations->mknod = make_node;
    operations->mkdir = make_folder;
    operations->symlink = make_symbolic_link;
    operations->readlink = read_link;
    operations->link = make_link;
    operations->unlink = take_name;
    operations->rmdir = take_folder;
    operations->rename = rename_it;
    operations->opendir = open_folder;
    operations->readdir = read_folder;
    operations->readdirplus = read_folder_plus;
    operations->releasedir = release_folder;
    operations->fsyncdir = sync_folder;
    operations->getattr = get;
    operations->setattr = set;
    operations->setxattr = set_extended;
    operations->getxattr = get_extended;
    operations->listxattr = list_extended;
    operations->removexattr = remove_extended;
    operations->statfs = get_room;
}
