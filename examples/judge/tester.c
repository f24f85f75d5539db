// Makes many processes lock bytes of the same files through one or more folders, and writes what they saw as a history for `lockreplay judge`.
// It is not proved: a history is only as good as its clock, and as what is written here of each call.
//
// tester [OPTION].. FOLDER.. > HISTORY      each folder is a mount of one file system; they take turns
//   -p PROCESSES  that call at random (6)             -b BYTES    that they lock (8)
//   -c CALLS      of each of them (1000)              -s SEED     of their choices (1)
//   -f FILES      (3)                                 -w PERCENT  of calls that wait (8)
//   -k KILLS      of processes by SIGKILL (0)         -d PERCENT  of calls by open file descriptions (0)
//   -i HOLDERS    that each keep one byte (1)         -t MILLISECONDS  that a wait lasts at most (5)
//   -g MILLISECONDS  for which locks may outlive a process, by descriptions above all (0)
//   -m NAME       of this machine, where several write parts of one history
//   -r            times of CLOCK_REALTIME, which several machines may share, in place of CLOCK_MONOTONIC
//   -n            tells whose lock F_GETLK found: that l_pid is right is judged too
//   -u            tells nothing of a lock that F_GETLK found
//   -x COMMAND    is run by sh in the middle: a fault, in which locks may be lost (`--allow lost-at`)
#define _GNU_SOURCE
#include <errno.h>
#include <fcntl.h>
#include <sched.h>
#include <signal.h>
#include <stdatomic.h>
#include <stdint.h>
#include <stdio.h>
#include <stdlib.h>
#include <string.h>
#include <sys/mman.h>
#include <sys/stat.h>
#include <sys/time.h>
#include <sys/wait.h>
#include <time.h>
#include <unistd.h>

enum { MOST_FILES = 64, MOST_FOLDERS = 16, MOST_SLOTS = 1024, MOST_PROCESSES = 100000, OBSERVED = 4, PATIENCE = 30 };
enum operation { SET, WAIT, UNLOCK, QUERY, CLOSE };

// A call. It is written before it is made, so that a process that is killed leaves it; one without an end may have been done or not.
struct call {
    uint64_t begin;
    _Atomic uint64_t end;
    int process, file, by_description, error, unused;
    enum operation operation;
    struct flock asked, answer;
};

// A place for one process at a time: how many calls all of them have begun, and when the last one began to leave.
struct slot {
    atomic_int calls;
    _Atomic uint64_t leaves;
};

// When a process may have lost its first lock, and when it had lost all.
struct exit_of {
    uint64_t begin, end;
};

static int processes = 6, calls = 1000, files = 3, bytes = 8, seed = 1, waits = 8, kills = 0, by_descriptions = 0, holders = 1;
static int longest_wait = 5, grace = 0, tells_owner = 0, tells_nothing = 0;
static clockid_t clock_of_times = CLOCK_MONOTONIC;
static const char *machine = "", *fault = NULL;
static char **folders;
static int folder_count;
static dev_t devices[MOST_FOLDERS];

// What the processes share: their calls, slot by slot.
static struct slot *slots;
static struct call *kept;
static atomic_int *is_over;

static int slot_count, process_of[MOST_SLOTS], started, live;
static pid_t pid_of[MOST_PROCESSES];
static struct exit_of exit_of[MOST_PROCESSES];
static int descriptors[2][MOST_FILES], is_used[2][MOST_FILES];
static uint64_t randomness;

static uint64_t now(void) {
    struct timespec time;
    clock_gettime(clock_of_times, &time);
    return time.tv_sec * 1000000000ull + time.tv_nsec;
}

static unsigned below(unsigned limit) {
    randomness ^= randomness << 13;
    randomness ^= randomness >> 7;
    randomness ^= randomness << 17;
    return (unsigned)(randomness >> 11) % limit;
}

static int room_of(int slot) { return slot == processes ? calls * OBSERVED : calls; }

static struct call *calls_of(int slot) {
    size_t before = (size_t)slot * calls;
    return kept + before + (slot > processes ? (size_t)calls * (OBSERVED - 1) : 0);
}

// How many calls the processes that call at random have begun.
static long begun(void) {
    long sum = 0;
    for (int slot = 0; slot < processes; slot++)
        sum += slots[slot].calls;
    return sum;
}

// A file through a folder. Where that is no mount any more it has other locks: then the process ends.
static int open_file(int folder, int file) {
    char path[4096];
    struct stat found;
    snprintf(path, sizeof path, "%s/locked-%d", folders[folder], file);
    int descriptor = open(path, O_RDWR | O_CREAT, 0600);
    if (descriptor < 0 || fstat(descriptor, &found) != 0) {
        perror(path);
        _exit(3);
    }
    if (devices[folder] == 0)
        devices[folder] = found.st_dev;
    if (devices[folder] != found.st_dev) {
        fprintf(stderr, "%s is in another file system now\n", path);
        _exit(3);
    }
    return descriptor;
}

static void nothing(int signal) { (void)signal; }

// From that time on the alarm rings every millisecond, so that a wait that begins late is interrupted too; 0 ends it.
static void set_alarm(int milliseconds) {
    struct itimerval timer = {{0, milliseconds > 0 ? 1000 : 0}, {milliseconds / 1000, milliseconds % 1000 * 1000}};
    setitimer(ITIMER_REAL, &timer, NULL);
}

static int perform(const struct call *call, struct flock *lock) {
    static const int commands[2][4] = {{F_SETLK, F_SETLKW, F_SETLK, F_GETLK}, {F_OFD_SETLK, F_OFD_SETLKW, F_OFD_SETLK, F_OFD_GETLK}};
    int descriptor = descriptors[call->by_description][call->file];
    if (call->operation == CLOSE)
        return close(descriptor);
    return fcntl(descriptor, commands[call->by_description][call->operation], lock);
}

// Makes the call in the slot, if there is room for it: its error.
static int make_call(int slot, struct call call) {
    int place = slots[slot].calls;
    if (place >= room_of(slot))
        return ENOSPC;
    struct call *written = &calls_of(slot)[place];
    struct flock lock = call.asked;
    int *used = &is_used[call.by_description][call.file];
    call.unused = !*used;
    *used = call.operation == CLOSE ? 0 : *used || call.operation != QUERY;
    if (call.operation == WAIT)
        set_alarm(1 + below(longest_wait));
    *written = call;
    written->begin = now();
    slots[slot].calls = place + 1;
    written->error = perform(&call, &lock) ? errno : 0;
    uint64_t end = now();
    written->answer = lock;
    written->end = end;
    if (call.operation == WAIT)
        set_alarm(0);
    if (call.operation == CLOSE)
        descriptors[call.by_description][call.file] = open_file(slot % folder_count, call.file);
    return written->error;
}

static struct call call_on(int process, enum operation operation, int file, int type, off_t start, off_t length) {
    struct call call = {.process = process, .operation = operation, .file = file};
    call.asked.l_type = operation == UNLOCK ? F_UNLCK : type;
    call.asked.l_whence = SEEK_SET;
    call.asked.l_start = start;
    call.asked.l_len = length;
    return call;
}

// Bytes that the holders keep stand before the others.
static struct call random_call(int process) {
    unsigned kind = below(100), set = 34 - waits / 2;
    enum operation operation = kind < set ? SET : kind < set + waits ? WAIT : kind < 70 ? UNLOCK : kind < 96 ? QUERY : CLOSE;
    off_t start = holders > 0 && below(16) == 0 ? below(holders) : holders + below(bytes);
    off_t length = below(40) == 0 ? 0 : 1 + below(3);
    if (operation == UNLOCK && below(2) == 0)
        start = length = 0;
    struct call call = call_on(process, operation, below(files), below(2) ? F_WRLCK : F_RDLCK, start, length);
    call.by_description = (int)below(100) < by_descriptions;
    return call;
}

static void call_at_random(int slot, int process) {
    while (slots[slot].calls < calls) {
        make_call(slot, random_call(process));
        sched_yield();
    }
}

// Asks all the time, but no more than a few times while another process calls once.
static void observe(int slot, int process) {
    while (!*is_over && slots[slot].calls < room_of(slot)) {
        if ((long)slots[slot].calls * processes > begun() * OBSERVED) {
            usleep(50);
            continue;
        }
        int type = below(2) ? F_WRLCK : F_RDLCK;
        make_call(slot, call_on(process, QUERY, below(files), type, below(holders + bytes), 1));
    }
}

// Gets a byte, and keeps it without another call until the others are done.
static void hold(int slot, int process) {
    int byte = slot - processes - 1;
    while (make_call(slot, call_on(process, WAIT, byte % files, F_WRLCK, byte, 1)) == EINTR && !*is_over) {
    }
    while (!*is_over)
        usleep(1000);
    make_call(slot, call_on(process, UNLOCK, byte % files, F_UNLCK, byte, 1));
}

static void work(int slot, int process) {
    randomness = 88172645463325252ull ^ ((uint64_t)(seed * 1000003 + process) * 0x9E3779B97F4A7C15ull);
    for (int i = 0; i < 10; i++)
        below(2);
    struct sigaction action = {.sa_handler = nothing};
    sigaction(SIGALRM, &action, NULL);
    for (int file = 0; file < files; file++) {
        descriptors[0][file] = open_file(slot % folder_count, file);
        descriptors[1][file] = by_descriptions > 0 ? open_file(slot % folder_count, file) : -1;
    }
    if (slot < processes)
        call_at_random(slot, process);
    else if (slot == processes)
        observe(slot, process);
    else
        hold(slot, process);
    slots[slot].leaves = now();
    _exit(0);
}

static void start(int slot) {
    if (started + 1 == MOST_PROCESSES)
        return;
    int process = ++started;
    slots[slot].leaves = 0;
    fflush(stdout);
    pid_t pid = fork();
    if (pid == 0)
        work(slot, process);
    if (pid < 0) {
        perror("fork");
        exit(3);
    }
    pid_of[process] = pid;
    process_of[slot] = process;
    live += slot < processes;
}

// Notes the end of a process that was waited for. It may have lost its first lock when it left, or when it was killed.
static void note_exit(int slot, uint64_t killed) {
    uint64_t begin = slots[slot].leaves;
    if (begin == 0 || (killed != 0 && killed < begin))
        begin = killed;
    if (begin == 0) {
        int count = slots[slot].calls;
        begin = count > 0 ? calls_of(slot)[count - 1].begin : 0;
    }
    exit_of[process_of[slot]] = (struct exit_of){begin, now() + grace * 1000000ull};
    process_of[slot] = 0;
    live -= slot < processes;
}

static void reap(void) {
    for (int slot = 0; slot < slot_count; slot++)
        if (process_of[slot] && waitpid(pid_of[process_of[slot]], NULL, WNOHANG) > 0)
            note_exit(slot, 0);
}

// Kills the process of the slot. One that does not end, since the file system hangs, is told, and has no exit.
static void stop(int slot) {
    uint64_t killed = now();
    kill(pid_of[process_of[slot]], SIGKILL);
    for (int tries = 0; tries < PATIENCE * 10000; tries++) {
        if (waitpid(pid_of[process_of[slot]], NULL, WNOHANG) > 0) {
            note_exit(slot, killed);
            return;
        }
        usleep(100);
    }
    fprintf(stderr, "process p%d hangs\n", process_of[slot]);
    process_of[slot] = 0;
    live -= slot < processes;
}

static int is_running(void) {
    for (int slot = 0; slot < slot_count; slot++)
        if (process_of[slot])
            return 1;
    return 0;
}

static void kill_one(void) {
    int slot = below(slot_count);
    if (!process_of[slot])
        return;
    stop(slot);
    start(slot);
}

static void make_fault(void) {
    uint64_t begin = now();
    int status = system(fault);
    uint64_t end = now();
    printf("note %llu %llu %s, status %d\n", (unsigned long long)begin, (unsigned long long)end, fault, status);
    for (int file = 0; file < files; file++)
        printf("lost %llu %llu %d\n", (unsigned long long)begin, (unsigned long long)end, file);
    fault = NULL;
}

// Until all that call at random are done, or none of them has called for long.
static void watch(void) {
    long seen = 0, killed = 0, all = (long)processes * calls;
    uint64_t since = now();
    while (live > 0 && now() - since < PATIENCE * 1000000000ull) {
        reap();
        long count = begun();
        if (fault && count >= all / 2)
            make_fault();
        if (killed < kills && count >= (killed + 1) * (all / (kills + 1))) {
            kill_one();
            killed++;
        }
        if (count != seen)
            since = now();
        seen = count;
        usleep(100);
    }
    if (live > 0)
        fprintf(stderr, "no call for %d seconds\n", PATIENCE);
}

// Lets the observer and the holders leave, and ends what is left after a second.
static void finish(void) {
    *is_over = 1;
    for (int tries = 0; tries < 1000 && is_running(); tries++) {
        usleep(1000);
        reap();
    }
    for (int slot = 0; slot < slot_count; slot++)
        if (process_of[slot])
            stop(slot);
}

static void print_time(uint64_t time) {
    if (time)
        printf(" %llu", (unsigned long long)time);
    else
        printf(" -");
}

static void print_owner(int by_description, int process) { printf(" %s%s%c%d", machine, *machine ? "-" : "", by_description ? 'd' : 'p', process); }

static void print_owner_of(pid_t pid) {
    for (int process = started; tells_owner && pid > 0 && process > 0; process--)
        if (pid_of[process] == pid) {
            print_owner(0, process);
            return;
        }
    printf(" ?");
}

static const char *mode_of(int type) { return type == F_WRLCK ? "write" : "read"; }

static void print_answer(const struct call *call) {
    if (call->error == EAGAIN || call->error == EACCES)
        printf(" -> again");
    else if (call->error == EINTR)
        printf(" -> interrupted");
    else if (call->error)
        printf(" -> refused %s", strerrorname_np(call->error));
    else if (call->operation != QUERY)
        printf(" -> done");
    else if (call->answer.l_type == F_UNLCK)
        printf(" -> free");
    else if (tells_nothing)
        printf(" -> blocked");
    else {
        printf(" -> blocked %s %lld %lld", mode_of(call->answer.l_type), (long long)call->answer.l_start, (long long)call->answer.l_len);
        print_owner_of(call->answer.l_pid);
    }
}

// Whether the reply says that the call was done, or that it was not. Behind another error, as of a server that does not answer, it may have been.
static int is_answered(const struct call *call) {
    static const int known[] = {0, EAGAIN, EACCES, EINTR, EDEADLK, EBADF, EINVAL, ENOLCK, EOVERFLOW};
    for (size_t i = 0; i < sizeof known / sizeof *known; i++)
        if (call->error == known[i])
            return 1;
    return call->operation == QUERY;
}

static void print_call(const struct call *call, int by_description) {
    static const char *const words[] = {"set", "wait", "unlock", "query", "close"};
    uint64_t end = is_answered(call) ? call->end : 0;
    printf("call");
    print_time(call->begin);
    print_time(end);
    print_owner(by_description, call->process);
    printf(" %s %d", words[call->operation], call->file);
    if (call->operation == SET || call->operation == WAIT || call->operation == QUERY)
        printf(" %s", mode_of(call->asked.l_type));
    if (call->operation != CLOSE)
        printf(" %lld %lld", (long long)call->asked.l_start, (long long)call->asked.l_len);
    else if (call->unused || call->by_description != by_description)
        printf(" unused");
    if (end)
        print_answer(call);
    printf("\n");
    if (call->end && !end)
        printf("note %s is what the call of that line came to\n", strerrorname_np(call->error));
}

// (a close of any descriptor takes the process's locks of the file as well)
static void print_calls(int slot) {
    for (int i = 0; i < slots[slot].calls; i++) {
        const struct call *call = &calls_of(slot)[i];
        print_call(call, call->by_description);
        if (call->operation == CLOSE && call->by_description)
            print_call(call, 0);
    }
}

static void print_exits(void) {
    for (int process = 1; process <= started; process++)
        for (int by_description = 0; by_description <= (by_descriptions > 0); by_description++) {
            if (!exit_of[process].end)
                continue;
            printf("call");
            print_time(exit_of[process].begin);
            print_time(exit_of[process].end);
            print_owner(by_description, process);
            printf(" exit -> done\n");
        }
}

static void *shared(size_t size) {
    void *made = mmap(NULL, size, PROT_READ | PROT_WRITE, MAP_SHARED | MAP_ANONYMOUS | MAP_NORESERVE, -1, 0);
    if (made == MAP_FAILED) {
        perror("mmap");
        exit(3);
    }
    return made;
}

static void usage(void) {
    fprintf(stderr, "usage: tester [-p PROCESSES] [-c CALLS] [-f FILES] [-b BYTES] [-s SEED] [-w PERCENT] [-k KILLS] [-d PERCENT] [-i HOLDERS]\n"
                    "              [-t MILLISECONDS] [-g MILLISECONDS] [-m NAME] [-r] [-n] [-u] [-x COMMAND] FOLDER..\n");
    exit(2);
}

static int number(int least, int most) {
    char *end;
    long value = strtol(optarg, &end, 10);
    if (end == optarg || *end || value < least || value > most)
        usage();
    return (int)value;
}

static void read_words(int count, char **words) {
    for (int option; (option = getopt(count, words, "p:c:f:b:s:w:k:d:i:t:g:m:x:rnu")) != -1;)
        switch (option) {
        case 'p': processes = number(1, MOST_SLOTS / 2); break;
        case 'c': calls = number(1, 10000000); break;
        case 'f': files = number(1, MOST_FILES); break;
        case 'b': bytes = number(1, 1000000); break;
        case 's': seed = number(0, 1000000); break;
        case 'w': waits = number(0, 60); break;
        case 'k': kills = number(0, MOST_PROCESSES / 2); break;
        case 'd': by_descriptions = number(0, 100); break;
        case 'i': holders = number(0, MOST_SLOTS / 2 - 1); break;
        case 't': longest_wait = number(1, 1000000); break;
        case 'g': grace = number(0, 1000000); break;
        case 'm': machine = optarg; break;
        case 'x': fault = optarg; break;
        case 'r': clock_of_times = CLOCK_REALTIME; break;
        case 'n': tells_owner = 1; break;
        case 'u': tells_nothing = 1; break;
        default: usage();
        }
    folders = words + optind;
    folder_count = count - optind;
    if (folder_count < 1 || folder_count > MOST_FOLDERS)
        usage();
}

int main(int count, char **words) {
    read_words(count, words);
    slot_count = processes + 1 + holders;
    slots = shared(slot_count * sizeof *slots);
    kept = shared(((size_t)slot_count + OBSERVED - 1) * calls * sizeof *kept);
    is_over = shared(sizeof *is_over);
    randomness = 88172645463325252ull + seed;
    for (int folder = 0; folder < folder_count; folder++)
        for (int file = 0; file < files; file++)
            close(open_file(folder, file));
    printf("history 1 clock ns\n");
    for (int slot = slot_count - 1; slot >= 0; slot--)
        start(slot);
    watch();
    finish();
    print_exits();
    for (int slot = 0; slot < slot_count; slot++)
        print_calls(slot);
    return ferror(stdout) || fflush(stdout) ? 3 : 0;
}
