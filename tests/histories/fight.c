// Three processes and some children that lock bytes of a file in each other's way, for a recording by strace: with waits that signals end, locks of open file
// descriptions that a child shares, descriptors that are closed, duplicated, and closed where a program is executed, a thread, and a process that is killed while it has locks.
// The recordings beside this are of `fight FILE`, by
//   strace -f -y -o fight-ns.strace --absolute-timestamps=unix,ns --syscall-times=ns -e trace=.. fight FILE
//   strace -f -ttt -T -o fight-us.strace -e trace=.. fight FILE
// with the calls that docs/FORMATS.md names.
#define _GNU_SOURCE
#include <fcntl.h>
#include <pthread.h>
#include <signal.h>
#include <stdlib.h>
#include <string.h>
#include <sys/time.h>
#include <sys/wait.h>
#include <unistd.h>

static const char *path;

static int lock(int fd, int command, short type, int start, int length) {
    struct flock asked = {.l_type = type, .l_whence = SEEK_SET, .l_start = start, .l_len = length};
    return fcntl(fd, command, &asked);
}

static void nothing(int signal) { (void)signal; }

static int open_file(int flags) { return open(path, O_RDWR | O_CREAT | flags, 0600); }

// A wait that ends after some milliseconds at most.
static void wait_a_while(int fd, int command, short type, int start, int length) {
    struct itimerval limit = {.it_value = {.tv_usec = 4000}, .it_interval = {.tv_usec = 4000}}, none = {0};
    setitimer(ITIMER_REAL, &limit, NULL);
    lock(fd, command, type, start, length);
    setitimer(ITIMER_REAL, &none, NULL);
}

static void *lock_in_thread(void *fd) {
    lock(*(int *)fd, F_SETLK, F_RDLCK, 6, 2);
    return NULL;
}

static void call_at_random(int fd, int shared) {
    short type = rand() % 3 ? F_WRLCK : F_RDLCK;
    int start = rand() % 6, length = 1 + rand() % 3;
    switch (rand() % 9) {
    case 0: lock(fd, F_SETLKW, F_UNLCK, start, length); break;
    case 1: lock(fd, F_SETLK, F_UNLCK, start, 0); break;
    case 2: lock(fd, F_GETLK, type, start, length); break;
    case 3: lock(fd, F_OFD_GETLK, type, start, length); break;
    case 4: wait_a_while(fd, F_SETLKW, type, start, length); break;
    case 5: lock(shared, F_OFD_SETLK, rand() % 2 ? type : F_UNLCK, start, length); break;
    case 6: close(open_file(rand() % 2 ? O_CLOEXEC : 0)); break;
    case 7: close(dup2(shared, 20)); break;
    default: lock(fd, F_SETLK, type, start, length);
    }
    if (rand() % 3 == 0) usleep(800);
}

static void fight(int number, int shared) {
    srand(number);
    int fd = open_file(O_CLOEXEC);
    usleep(20000);
    for (int count = 0; count < 20; count++) call_at_random(fd, shared);
    lock(fd, F_OFD_SETLK, F_RDLCK, 10 + number, 1);
    if (fork() == 0) {
        lock(fd, F_GETLK, F_WRLCK, 10 + number, 1);
        lock(fd, F_SETLK, F_WRLCK, 20, 2);
        lock(fd, F_OFD_SETLK, F_WRLCK, 10 + number, 2);
        _exit(0);
    }
    close(fd);
    wait(NULL);
    if (number == 1) {
        lock(shared, F_SETLK, F_WRLCK, 30, 1);
        fcntl(shared, F_SETFD, FD_CLOEXEC);
        execl("/bin/true", "true", NULL);
    }
    int other = open_file(O_CLOEXEC);
    pthread_t thread;
    pthread_create(&thread, NULL, lock_in_thread, &other);
    pthread_join(thread, NULL);
    lock(other, F_SETLK, F_UNLCK, 7, 1);
    lock(other, F_SETLK, F_WRLCK, 2, -1);
    lock(other, F_SETLK, F_WRLCK, 2, -3);
    lock(other, F_SETLK, F_WRLCK, 40, 0);
    pause();
}

int main(int count, char **words) {
    struct sigaction handled = {.sa_handler = nothing};
    if (count != 2) return 2;
    path = words[1];
    sigaction(SIGALRM, &handled, NULL);
    int shared = open_file(0), fd = open_file(O_CLOEXEC);
    pid_t first = fork();
    if (first == 0) fight(1, shared);
    pid_t second = fork();
    if (second == 0) fight(2, shared);
    srand(3);
    usleep(30000);
    for (int times = 0; times < 20; times++) call_at_random(fd, shared);
    waitpid(first, NULL, 0);
    usleep(20000);
    lock(fd, F_GETLK, F_WRLCK, 40, 2);
    lock(fd, F_SETLK, F_RDLCK, 6, 1);
    if (fork() == 0) {
        lock(fd, F_SETLKW, F_WRLCK, 41, 5);
        _exit(0);
    }
    usleep(5000);
    kill(second, SIGKILL);
    waitpid(second, NULL, 0);
    wait(NULL);
    wait_a_while(fd, F_SETLKW, F_WRLCK, 0, 0);
    return 0;
}
