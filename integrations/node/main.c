// One node of a cluster that programs mount.
#define _GNU_SOURCE
#include "fs.h"
#include <fcntl.h>
#include <getopt.h>
#include <signal.h>
#include <stdio.h>
#include <stdlib.h>
#include <string.h>
#include <sys/epoll.h>
#include <sys/file.h>
#include <sys/resource.h>
#include <sys/signalfd.h>
#include <sys/socket.h>
#include <sys/stat.h>
#include <sys/time.h>
#include <sys/timerfd.h>
#include <sys/un.h>
#include <unistd.h>

// The operator's socket, FOLDER/control: one line is asked, one or more are answered.
static struct source listener;

static int path_of(struct sockaddr_un *at, const char *folder) {
    *at = (struct sockaddr_un){.sun_family = AF_UNIX};
    return snprintf(at->sun_path, sizeof at->sun_path, "%s/control", folder) < (int)sizeof at->sun_path;
}

static void tell_status(int descriptor) {
    int files = 0, servers = 0;
    for (int file = 1; file <= settings.files; file++) {
        files += cluster.files[file].users != 0;
        servers += cluster.servers[file].runs && cluster.servers[file].host == settings.me;
    }
    dprintf(descriptor, "node %d %s %s members %llx formed %llx begun %llx dead %llx files %d servers %d changes %d term %ld\n", settings.me,
            is_serving && lease_holds() ? "serves" : "waits", is_formed ? "knows" : "asks", (unsigned long long)cluster.members,
            (unsigned long long)cluster.formed, (unsigned long long)cluster.begun, (unsigned long long)cluster.dead, files, servers, cluster.kept,
            cluster.term);
}

// The line of one who asks: it is answered, and the connection ends. The loop waits for nobody's line.
static void read_line(struct source *source, uint32_t events) {
    char line[256];
    (void)events;
    ssize_t length = recv(source->fd, line, sizeof line - 1, 0);
    line[length > 0 ? length : 0] = 0;
    int node = !strncmp(line, "declare ", 8) ? atoi(line + 8) : 0;
    if (!strncmp(line, "status", 6)) {
        tell_status(source->fd);
    } else if (is_formed && node >= 1 && node <= settings.nodes) {
        view_condemn(node);
        dprintf(source->fd, "node %d is declared once its lease is over\n", node);
    } else {
        dprintf(source->fd, "status, or declare N\n");
    }
    unwatch(source);
    close(source->fd);
    source->fd = -1;
    free_later(source);
}

static void asked(struct source *source, uint32_t events) {
    (void)events;
    int descriptor = accept4(source->fd, NULL, NULL, SOCK_CLOEXEC | SOCK_NONBLOCK);
    if (descriptor < 0)
        return;
    struct source *line = room_for(1, sizeof *line);
    *line = (struct source){descriptor, read_line, NULL};
    watch(line, EPOLLIN);
}

static void control_begin(void) {
    struct sockaddr_un at;
    if (!path_of(&at, settings.folder))
        die("the path of %s/control is too long", settings.folder);
    unlink(at.sun_path);
    listener = (struct source){socket(AF_UNIX, SOCK_STREAM | SOCK_CLOEXEC | SOCK_NONBLOCK, 0), asked, NULL};
    mode_t before = umask(077);
    if (bind(listener.fd, (struct sockaddr *)&at, sizeof at) || listen(listener.fd, 8))
        die("%s: %m", at.sun_path);
    umask(before);
    watch(&listener, EPOLLIN);
}

// Of the command line: `nuvnode say FOLDER LINE`.
static int control_say(const char *folder, const char *line) {
    struct sockaddr_un at;
    char answer[1024];
    ssize_t length;
    int descriptor = socket(AF_UNIX, SOCK_STREAM | SOCK_CLOEXEC, 0);
    struct timeval patience = {3, 0};
    setsockopt(descriptor, SOL_SOCKET, SO_RCVTIMEO, &patience, sizeof patience);
    if (!path_of(&at, folder) || connect(descriptor, (struct sockaddr *)&at, sizeof at)) {
        fprintf(stderr, "nuvnode: nobody is at %s/control\n", folder);
        return 1;
    }
    (void)!write(descriptor, line, strlen(line));
    bool told = false;
    while ((length = read(descriptor, answer, sizeof answer)) > 0) {
        told = true;
        (void)!write(1, answer, length);
    }
    return told ? 0 : 1;
}

static const char usage[] =
    "usage: nuvnode --node N --backing FOLDER --folder FOLDER --program LOCKREPLAY (--corosync | --tcp ADDRESS:PORT --key FILE) [OPTION].. MOUNTPOINT\n"
    "       nuvnode say FOLDER 'status' | 'declare N'\n"
    "  --nodes N      of the cluster (3)               --cluster NAME   (nuvatsimo)\n"
    "  --lease MS     of a node (4000)                 --margin MS      that its own lease is shorter (400)\n"
    "  --beat MS      between two beats (100)          --grace MS       that a dead daemon's seats have to end (50)\n"
    "  --policy wide|exact  of tokens (wide)           --threads N      for data (4)\n"
    "  --hook COMMAND is run with a node's number before that is declared\n"
    "For tests alone: --no-lease, --loss PERCENT (of messages; as many come twice).\n";

enum {
    NODE = 1, NODES, BACKING, FOLDER, PROGRAM, COROSYNC, TCP, KEY, CLUSTER, LEASE, MARGIN, BEAT, GRACE, POLICY, THREADS, HOOK, NO_LEASE, LOSS,
};
static const struct option options[] = {
    {"node", 1, NULL, NODE}, {"nodes", 1, NULL, NODES}, {"backing", 1, NULL, BACKING}, {"folder", 1, NULL, FOLDER}, {"program", 1, NULL, PROGRAM},
    {"corosync", 0, NULL, COROSYNC}, {"tcp", 1, NULL, TCP}, {"key", 1, NULL, KEY}, {"cluster", 1, NULL, CLUSTER}, {"lease", 1, NULL, LEASE},
    {"margin", 1, NULL, MARGIN}, {"beat", 1, NULL, BEAT}, {"grace", 1, NULL, GRACE}, {"policy", 1, NULL, POLICY}, {"threads", 1, NULL, THREADS},
    {"hook", 1, NULL, HOOK}, {"no-lease", 0, NULL, NO_LEASE}, {"loss", 1, NULL, LOSS}, {NULL, 0, NULL, 0},
};

static void refuse(void) {
    fputs(usage, stderr);
    exit(2);
}

static int number(const char *text, int least, int most) {
    char *end;
    long value = strtol(text, &end, 10);
    if (end == text || *end || value < least || value > most)
        refuse();
    return (int)value;
}

static void take_number(int option, const char *value) {
    switch (option) {
    case NODE: settings.me = number(value, 1, MOST_NODES); break;
    case NODES: settings.nodes = number(value, 1, MOST_NODES); break;
    case LEASE: settings.lease_ms = number(value, 200, 600000); break;
    case MARGIN: settings.margin_ms = number(value, 1, 600000); break;
    case BEAT: settings.beat_ms = number(value, 5, 60000); break;
    case GRACE: settings.grace_ms = number(value, 0, 60000); break;
    case THREADS: settings.threads = number(value, 1, 64); break;
    case LOSS: settings.loss = number(value, 0, 50); break;
    default: refuse();
    }
}

static void take_option(int option, const char *value) {
    switch (option) {
    case BACKING: settings.backing = value; break;
    case FOLDER: settings.folder = value; break;
    case PROGRAM: settings.program = value; break;
    case COROSYNC: settings.by_cpg = true; break;
    case TCP: settings.members = value; break;
    case KEY: settings.key = value; break;
    case CLUSTER: settings.cluster = value; break;
    case POLICY: settings.policy = value; break;
    case HOOK: settings.hook = value; break;
    case NO_LEASE: settings.fences = false; break;
    default: take_number(option, value);
    }
}

static void read_words(int count, char **words) {
    int option;
    while ((option = getopt_long(count, words, "", options, NULL)) != -1)
        take_option(option, optarg);
    settings.mountpoint = words[optind];
    bool whole = settings.me && settings.me <= settings.nodes && settings.backing && settings.folder && settings.program && settings.mountpoint &&
                 optind + 1 == count && settings.by_cpg != (settings.members != NULL) && settings.margin_ms < settings.lease_ms;
    if (!whole || strlen(settings.cluster) > 64 || strpbrk(settings.cluster, " \n"))
        refuse();
}

// One daemon at a time has a node's folder: where a new one begins, the one before is dead.
static void lock_folder(void) {
    char path[512];
    snprintf(path, sizeof path, "%s/lock", settings.folder);
    int file = open(path, O_RDWR | O_CREAT | O_CLOEXEC, 0600);
    if (file < 0 || flock(file, LOCK_EX | LOCK_NB))
        die("%s: another daemon has it, or it can't be made", path);
}

static void tick(struct source *source, uint32_t events) {
    uint64_t times;
    static bool serves;
    (void)events;
    (void)!read(source->fd, &times, sizeof times);
    lease_look();
    view_tick();
    if (is_serving && !serves && lease_holds()) {
        serves = true;
        fs_serve();
        say("is mounted at %s", settings.mountpoint);
    }
}

static bool stops;
static void signalled(struct source *source, uint32_t events) {
    struct signalfd_siginfo information;
    (void)events;
    (void)!read(source->fd, &information, sizeof information);
    stops = true;
}

static void begin_clock(struct source *source) {
    struct itimerspec every = {{0, TICK_MS * MS}, {0, TICK_MS * MS}};
    *source = (struct source){timerfd_create(CLOCK_MONOTONIC, TFD_CLOEXEC | TFD_NONBLOCK), tick, NULL};
    timerfd_settime(source->fd, 0, &every, NULL);
    watch(source, EPOLLIN);
}

static void begin_signals(struct source *source) {
    sigset_t set;
    sigemptyset(&set);
    sigaddset(&set, SIGTERM);
    sigaddset(&set, SIGINT);
    sigprocmask(SIG_BLOCK, &set, NULL);
    signal(SIGPIPE, SIG_IGN);
    *source = (struct source){signalfd(-1, &set, SFD_CLOEXEC | SFD_NONBLOCK), signalled, NULL};
    watch(source, EPOLLIN);
}

int main(int count, char **words) {
    static struct source clock, signals;
    if (count == 4 && !strcmp(words[1], "say"))
        return control_say(words[2], words[3]);
    read_words(count, words);
    srand((unsigned)settings.me);
    (void)setpriority(PRIO_PROCESS, 0, -15);        // (a lease needs time when it needs it; seats and threads have it from here)
    lock_folder();
    loop_begin();
    begin_signals(&signals);
    handover_begin();
    copy_read();
    fs_mount();
    before_death = seats_kill_and_cut;
    agree = settings.by_cpg ? &agree_cpg : &agree_tcp;
    control_begin();
    begin_clock(&clock);
    agree->begin();
    while (!stops && !fs_ended()) {
        loop_turn();
        seats_flush();
        agree->flush();
    }
    fs_unmount();
    seats_kill_and_cut();
    _exit(0);       // (others learn of it once all threads are gone, and with them their writes)
}
