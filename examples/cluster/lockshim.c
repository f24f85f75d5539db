// Has a program's record locks on files of a folder kept by a cluster: calls of fcntl for them go over a Unix socket to driver.py, and none
// of them to the kernel. It is not proved.
//
//     cc -shared -fPIC -O2 -o lockshim.so lockshim.c
//     LD_PRELOAD=./lockshim.so LOCKSHIM_SOCKET=PATH LOCKSHIM_NODE=N LOCKSHIM_FOLDER=PATH PROGRAM ..
//
// A process is one of node N from its first lock call on, until it ends. A file is its device and inode. A descriptor is one of the cluster from the
// first lock call on it, from a dup or a fork on, or where it is closed though locks of the file were asked for by another one. Where the node fails, the
// process kills itself. What it doesn't see: descriptors of a process before exec, and those that are passed over sockets; more than one open call of a
// process: another thread waits for the first.
#define _GNU_SOURCE
#include <dlfcn.h>
#include <errno.h>
#include <fcntl.h>
#include <pthread.h>
#include <signal.h>
#include <stdarg.h>
#include <stdio.h>
#include <stdlib.h>
#include <string.h>
#include <sys/socket.h>
#include <sys/stat.h>
#include <sys/syscall.h>
#include <sys/un.h>
#include <unistd.h>

enum { MOST = 4096, LINE = 256, OWN_DESCRIPTORS = 900 };

// A descriptor of this process: its number in the cluster, and the file that it was of.
struct descriptor {
    int known, number;
    dev_t device;
    ino_t inode;
};

static struct descriptor descriptors[MOST];
static int driver = -1, child = 0;
static pid_t process = 0;
static pthread_mutex_t one_call = PTHREAD_MUTEX_INITIALIZER;

static int close_descriptor(int fd) { return syscall(SYS_close, fd); }

static void die(const char *why) {
    dprintf(2, "lockshim: %s\n", why);
    raise(SIGKILL);
    _exit(111);
}

static void tell(const char *line) {
    ssize_t went;
    do
        went = send(driver, line, strlen(line), MSG_NOSIGNAL);
    while (went < 0 && errno == EINTR);
    if (went != (ssize_t)strlen(line))
        die("the node is gone");
}

// Reads the reply to a line. Where a signal comes meanwhile whose handler ends the call, a call that waits is interrupted.
static void hear(char *reply, int waits) {
    for (int length = 0; length < LINE;) {
        ssize_t come = read(driver, reply + length, 1);
        if (come < 0 && errno == EINTR) {
            if (waits)
                tell("interrupt\n");
            waits = 0;
        } else if (come != 1) {
            die("the node is gone");
        } else if (reply[length++] == '\n') {
            reply[length - 1] = 0;
            if (!strcmp(reply, "gone"))
                die("the node is gone");
            return;
        }
    }
    die("a reply is too long");
}

static void ask(const char *line, char *reply) {
    tell(line);
    hear(reply, 0);
}

// Begins as a process of the node, with this line.
static void join(const char *line) {
    struct sockaddr_un address = {.sun_family = AF_UNIX};
    char reply[LINE];
    const char *path = getenv("LOCKSHIM_SOCKET");
    snprintf(address.sun_path, sizeof address.sun_path, "%s", path ? path : "");
    int fd = socket(AF_UNIX, SOCK_STREAM | SOCK_CLOEXEC, 0);
    if (fd < 0 || connect(fd, (struct sockaddr *)&address, sizeof address) < 0)
        die("nobody listens at LOCKSHIM_SOCKET");
    driver = syscall(SYS_fcntl, fd, F_DUPFD_CLOEXEC, OWN_DESCRIPTORS);
    close_descriptor(fd);
    process = getpid();
    ask(line, reply);
    if (!atoi(reply))
        die(reply);
}

static void fork_begins(void);
static void fork_ends(void);
static void child_begins(void);

static void join_once(void) {
    char line[LINE];
    const char *node = getenv("LOCKSHIM_NODE");
    if (driver >= 0)
        return;
    snprintf(line, sizeof line, "process %s\n", node ? node : "");
    join(line);
    pthread_atfork(fork_begins, fork_ends, child_begins);
}

// Whether the descriptor is of a file in the folder.
static int is_in_folder(int fd) {
    char name[64], path[4096];
    const char *folder = getenv("LOCKSHIM_FOLDER");
    size_t length = folder ? strlen(folder) : 0;
    snprintf(name, sizeof name, "/proc/self/fd/%d", fd);
    ssize_t come = readlink(name, path, sizeof path - 1);
    return length && come > (ssize_t)length && !strncmp(path, folder, length) && path[length] == '/';
}

static void forget(int fd) {
    char line[LINE], reply[LINE];
    snprintf(line, sizeof line, "close %d\n", descriptors[fd].number);
    descriptors[fd].known = 0;
    ask(line, reply);
}

// The descriptor as one of the cluster; none where it is not of the folder, or the cluster has no number left for its file.
static struct descriptor *of_cluster(int fd) {
    struct stat file;
    char line[LINE], reply[LINE];
    if (fd < 0 || fd >= MOST || (driver >= 0 && process != getpid()) || fstat(fd, &file) < 0)
        return NULL;
    struct descriptor *d = &descriptors[fd];
    if (d->known && d->device == file.st_dev && d->inode == file.st_ino)
        return d;
    if (d->known)
        forget(fd);
    if (!S_ISREG(file.st_mode) || !is_in_folder(fd))
        return NULL;
    join_once();
    int access = syscall(SYS_fcntl, fd, F_GETFL) & O_ACCMODE;
    snprintf(line, sizeof line, "open %llu:%llu %s\n", (unsigned long long)file.st_dev, (unsigned long long)file.st_ino,
             access == O_RDONLY ? "r" : access == O_WRONLY ? "w" : "rw");
    ask(line, reply);
    if (sscanf(reply, "fd %d", &d->number) != 1)
        return NULL;
    d->known = 1;
    d->device = file.st_dev;
    d->inode = file.st_ino;
    return d;
}

// Whether locks of the file were asked for by some descriptor.
static int is_file_known(const struct stat *file) {
    for (int fd = 0; fd < MOST; fd++)
        if (descriptors[fd].known && descriptors[fd].device == file->st_dev && descriptors[fd].inode == file->st_ino)
            return 1;
    return 0;
}

// A descriptor is about to be closed: locks of the process on its file go, whichever descriptor asked for them.
static void closes(int fd) {
    struct stat file;
    int saved = errno;
    if (fd >= 0 && fd < MOST && driver >= 0 && process == getpid()) {
        pthread_mutex_lock(&one_call);
        if (descriptors[fd].known || (fstat(fd, &file) == 0 && is_file_known(&file) && of_cluster(fd)))
            forget(fd);
        pthread_mutex_unlock(&one_call);
    }
    errno = saved;
}

int close(int fd) {
    if (fd >= 0 && fd == driver) {
        errno = EBADF;
        return -1;
    }
    closes(fd);
    return close_descriptor(fd);
}

int fclose(FILE *stream) {
    int (*next)(FILE *) = dlsym(RTLD_NEXT, "fclose");
    fflush(stream);
    closes(fileno(stream));
    return next(stream);
}

// The descriptor is about to be copied.
static void is_copied(int fd) {
    int saved = errno;
    pthread_mutex_lock(&one_call);
    of_cluster(fd);
    pthread_mutex_unlock(&one_call);
    errno = saved;
}

// It was copied.
static int copied(int fd, int copy) {
    char line[LINE], reply[LINE];
    int saved = errno;
    if (fd >= 0 && copy >= 0 && fd < MOST && copy < MOST && fd != copy && descriptors[fd].known && process == getpid()) {
        pthread_mutex_lock(&one_call);
        descriptors[copy] = descriptors[fd];
        snprintf(line, sizeof line, "dup %d\n", descriptors[fd].number);
        ask(line, reply);
        descriptors[copy].known = sscanf(reply, "fd %d", &descriptors[copy].number) == 1;
        pthread_mutex_unlock(&one_call);
    }
    errno = saved;
    return copy;
}

int dup(int fd) {
    is_copied(fd);
    return copied(fd, syscall(SYS_dup, fd));
}

int dup3(int fd, int copy, int flags) {
    is_copied(fd);
    if (fd != copy)
        closes(copy);
    return copied(fd, syscall(SYS_dup3, fd, copy, flags));
}

int dup2(int fd, int copy) { return fd == copy ? (int)syscall(SYS_dup2, fd, copy) : dup3(fd, copy, 0); }

// Before a fork: a child of this process begins in the node, with the same descriptors.
static void fork_begins(void) {
    char reply[LINE];
    pthread_mutex_lock(&one_call);
    if (process != getpid())
        return;
    for (int fd = 0; fd < MOST; fd++)
        of_cluster(fd);
    ask("fork\n", reply);
    child = atoi(reply);
}

static void fork_ends(void) { pthread_mutex_unlock(&one_call); }

static void child_begins(void) {
    char line[LINE];
    pthread_mutex_init(&one_call, NULL);
    close_descriptor(driver);
    snprintf(line, sizeof line, "child %s %d\n", getenv("LOCKSHIM_NODE"), child);
    join(line);
}

// What fcntl answers where the cluster replied so.
static int answer(const char *reply, struct flock *lock) {
    static const struct { const char *word; int error; } errors[] = {
        {"again", EAGAIN}, {"interrupted", EINTR}, {"no-locks", ENOLCK}, {"bad-fd", EBADF}, {"invalid", EINVAL}, {"overflow", EOVERFLOW},
    };
    char mode[8], owner[64];
    long long first, last;
    int pid;
    if (!strcmp(reply, "done"))
        return 0;
    if (!strcmp(reply, "free")) {
        lock->l_type = F_UNLCK;
        return 0;
    }
    if (sscanf(reply, "blocked %7s %lld %lld %63s", mode, &first, &last, owner) == 4) {
        lock->l_type = mode[0] == 'r' ? F_RDLCK : F_WRLCK;
        lock->l_whence = SEEK_SET;
        lock->l_start = first;
        lock->l_len = last == 9223372036854775807LL ? 0 : last - first + 1;
        lock->l_pid = sscanf(owner, "p%d", &pid) == 1 ? pid : -1; // (its number in its node)
        return 0;
    }
    errno = EIO;
    for (size_t k = 0; k < sizeof errors / sizeof *errors; k++)
        if (!strncmp(reply, errors[k].word, strlen(errors[k].word)))
            errno = errors[k].error;
    return -1;
}

// The first byte that the lock's start is counted from; -1 where there is none.
static long long origin(int fd, const struct flock *lock) {
    struct stat file;
    switch (lock->l_whence) {
    case SEEK_SET:
        return 0;
    case SEEK_CUR:
        return lseek(fd, 0, SEEK_CUR);
    case SEEK_END:
        return fstat(fd, &file) == 0 ? file.st_size : -1;
    }
    return -1;
}

// The line of a lock call; the status is -1 where it has none.
static int write_call(char *line, int fd, int command, const struct flock *lock) {
    int by_description = command >= F_OFD_GETLK, asks = command == F_GETLK || command == F_OFD_GETLK;
    int waits = command == F_SETLKW || command == F_OFD_SETLKW, number = descriptors[fd].number;
    const char *kind = by_description ? "desc" : "proc", *mode = lock->l_type == F_RDLCK ? "read" : "write";
    long long start, from = origin(fd, lock), length = lock->l_len;
    if (from < 0 || (lock->l_type != F_RDLCK && lock->l_type != F_WRLCK && (lock->l_type != F_UNLCK || asks)) || (by_description && lock->l_pid)) {
        errno = EINVAL;
        return -1;
    }
    if (__builtin_add_overflow(from, (long long)lock->l_start, &start)) {
        errno = EOVERFLOW;
        return -1;
    }
    if (lock->l_type == F_UNLCK)
        snprintf(line, LINE, "unlock %d %s %lld %lld\n", number, kind, start, length);
    else
        snprintf(line, LINE, "%s %d %s %s %lld %lld\n", asks ? "query" : waits ? "wait" : "set", number, kind, mode, start, length);
    return 0;
}

static int call(int fd, int command, struct flock *lock) {
    char line[LINE], reply[LINE];
    if (driver >= 0 && process != getpid())
        die("a process that was begun otherwise than by fork may not lock");
    pthread_mutex_lock(&one_call);
    if (!of_cluster(fd)) {
        int is_asked = is_in_folder(fd);
        pthread_mutex_unlock(&one_call);
        errno = ENOLCK;
        return is_asked ? -1 : (int)syscall(SYS_fcntl, fd, command, lock);
    }
    int status = write_call(line, fd, command, lock);
    if (status == 0) {
        tell(line);
        hear(reply, !strncmp(line, "wait ", 5));
        status = answer(reply, lock);
    }
    pthread_mutex_unlock(&one_call);
    return status;
}

int fcntl(int fd, int command, ...) {
    va_list words;
    va_start(words, command);
    void *word = va_arg(words, void *);
    va_end(words);
    switch (command) {
    case F_GETLK: case F_SETLK: case F_SETLKW: case F_OFD_GETLK: case F_OFD_SETLK: case F_OFD_SETLKW:
        return call(fd, command, word);
    case F_DUPFD: case F_DUPFD_CLOEXEC:
        is_copied(fd);
        return copied(fd, syscall(SYS_fcntl, fd, command, word));
    }
    return syscall(SYS_fcntl, fd, command, word);
}

int fcntl64(int fd, int command, ...) {
    va_list words;
    va_start(words, command);
    void *word = va_arg(words, void *);
    va_end(words);
    return fcntl(fd, command, word);
}
