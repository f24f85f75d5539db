#define _GNU_SOURCE
#include "cluster.h"
#include "locks.h"
#include <errno.h>
#include <fcntl.h>
#include <signal.h>
#include <stdarg.h>
#include <stdio.h>
#include <stdlib.h>
#include <string.h>
#include <sys/epoll.h>
#include <sys/prctl.h>
#include <sys/wait.h>
#include <unistd.h>

enum { PIPE = 1 << 20, AT_ONCE = 65536, RESTS = 300 };      // (a server that has something to send again does so within 256 ticks)
struct seat *node_seat, *server_seats[MOST_FILES + 1];
static struct seat *seats;

// Cuts off the log what stands behind its first blocks: that was read by nobody, so it happened to nobody but the seat.
static void log_cut(const char *path, long blocks) {
    char *line = NULL;
    size_t room = 0;
    off_t end = 0;
    FILE *file = fopen(path, "r");
    if (!file)
        return;
    while (blocks > 0 && getline(&line, &room, file) > 0) {
        if (strncmp(line, "end ", 4) && strncmp(line, "refused ", 8))
            continue;
        end = ftello(file);
        blocks--;
    }
    free(line);
    fclose(file);
    if (truncate(path, end))
        say("%s is not cut: %m", path);
}

static int host_of(bool is_node, int number) {
    if (is_node)
        return number >= 1 && number <= settings.nodes ? number : 0;
    return number >= 1 && number <= settings.files && cluster.servers[number].runs ? cluster.servers[number].host : 0;
}

static void deliver(bool is_node, int number, const char *message) {
    if (!is_node && !server_seats[number])
        changes_begin_server(number);
    struct seat *seat = is_node ? node_seat : server_seats[number];
    if (seat)
        seat_tell(seat, TOLD_MESSAGE, 0, "deliver %s", message);
}

static void mail_route(bool is_node, int number, const char *message) {
    int host = host_of(is_node, number);
    if (host == settings.me) {
        deliver(is_node, number, message);
    } else if (host) {
        int dice = settings.loss ? rand() % 100 : 50;       // (for tests: some are lost, as many come twice)
        struct buffer line = {0};
        add_text(&line, "%c %d %s", is_node ? 'n' : 's', number, message);
        for (int times = dice < settings.loss ? 0 : dice >= 100 - settings.loss ? 2 : 1; times > 0; times--)
            agree->post(host, line.bytes, line.length);
        drop_buffer(&line);
    }
}

void mail_came(const char *line) {
    char *end;
    bool is_node = line[0] == 'n';
    if (!is_formed || !line[0] || line[1] != ' ')
        return;
    long number = strtol(line + 2, &end, 10);
    if (*end == ' ' && host_of(is_node, (int)number) == settings.me)
        deliver(is_node, (int)number, end + 1);
}

static void expect(struct seat *seat, enum told what, uint64_t of) {
    if (seat->count == seat->room) {
        size_t room = seat->room ? seat->room * 2 : 64;
        struct told_line *lines = room_for(room, sizeof *lines);
        for (size_t k = 0; k < seat->count; k++)
            lines[k] = seat->told[(seat->first + k) % seat->room];
        free(seat->told);
        seat->told = lines;
        seat->room = room;
        seat->first = 0;
    }
    seat->told[(seat->first + seat->count++) % seat->room] = (struct told_line){what, of};
}

void seat_tell(struct seat *seat, enum told what, uint64_t of, const char *format, ...) {
    va_list words;
    va_start(words, format);
    add_words(&seat->to, format, words);
    va_end(words);
    add(&seat->to, "\n", 1);
    expect(seat, what, of);
    if (what != TOLD_TICK)
        seat->rests = 0;
}

void seat_tick(struct seat *seat) {
    if (seat->ticks || (seat->kind == SEAT_SERVER && seat->rests > RESTS))
        return;
    seat->ticks = true;
    seat_tell(seat, TOLD_TICK, 0, "tick");
}

// Writes what the seat is told. The lease is looked at first: no step begins behind its end.
static void flush(struct seat *seat) {
    lease_look();
    while (seat->to.length) {
        ssize_t wrote = write(seat->in.fd, seat->to.bytes, seat->to.length);
        if (wrote < 0 && errno == EAGAIN) {
            if (!seat->is_full)
                watch(&seat->in, EPOLLOUT);
            seat->is_full = true;
            return;
        }
        if (wrote < 0)
            die("the seat %s takes no line: %m", seat->log);
        take_off(&seat->to, wrote);
    }
    if (seat->is_full)
        unwatch(&seat->in);
    seat->is_full = false;
}

static void can_write(struct source *source, uint32_t events) {
    (void)events;
    flush(source->of);
}

void seats_flush(void) {
    for (struct seat *seat = seats; seat; seat = seat->next)
        if (seat->to.length && !seat->is_full)
            flush(seat);
}

static void end_block(struct seat *seat, const char *refused) {
    if (!seat->count)
        die("the seat %s wrote a block too many", seat->log);
    struct told_line line = seat->told[seat->first];
    seat->first = (seat->first + 1) % seat->room;
    seat->count--;
    seat->blocks++;
    if (refused && line.what != TOLD_MESSAGE && line.what != TOLD_INTERRUPT)
        say("the seat %s refused a line of kind %d: %s", seat->log, line.what, refused);
    if (line.what == TOLD_TICK) {
        seat->ticks = false;
        seat->rests = seat->made_entry ? 0 : seat->rests + 1;
    }
    if (seat->ended_block)
        seat->ended_block(seat, line, refused);
    seat->replied = seat->made_entry = false;
}

// `to KIND NUMBER MESSAGE`, behind its first word.
static void take_message(char *text) {
    char *end;
    bool is_node = text[0] == 'n';
    char *number = strchr(text, ' ');
    if (!number)
        die("a seat sends to nobody: %s", text);
    long to = strtol(number + 1, &end, 10);
    mail_route(is_node, (int)to, end + 1);
}

static void take_line(struct seat *seat, char *line) {
    if (!strncmp(line, "to ", 3)) {
        take_message(line + 3);
    } else if (!strncmp(line, "entry ", 6)) {
        seat->made_entry = true;
    } else if (!strncmp(line, "reply ", 6)) {
        char *reply = strchr(line + 6, ' ');
        snprintf(seat->reply, sizeof seat->reply, "%s", reply ? reply + 1 : "");
        seat->replied = true;
    } else if (!strncmp(line, "tag ", 4)) {
        locks_answered(strtoull(line + 4, NULL, 10), seat->reply);
    } else if (!strncmp(line, "end ", 4)) {
        end_block(seat, NULL);
    } else if (!strncmp(line, "refused ", 8)) {
        end_block(seat, line + 8);
    }
}

// Reads blocks. What was read while the lease held began while it held; what is read behind its end happened to nobody.
static void can_read(struct source *source, uint32_t events) {
    struct seat *seat = source->of;
    char bytes[AT_ONCE];
    (void)events;
    ssize_t length = read(source->fd, bytes, sizeof bytes);
    if (length < 0 && (errno == EAGAIN || errno == EINTR))
        return;
    if (length <= 0)
        die("the seat %s ended", seat->log);
    lease_look();
    add(&seat->from, bytes, length);
    size_t at = 0, size;
    char *line;
    while (!seat->ended && (line = next_line(&seat->from, &at, &size)))
        take_line(seat, line);
    take_off(&seat->from, at);
}

static void words_of_seat(struct seat *seat, int starts, const char **words, char numbers[4][16]) {
    static int lives;
    snprintf(numbers[0], 16, "%d", settings.nodes);
    snprintf(numbers[1], 16, "%d", settings.files);
    snprintf(numbers[2], 16, "%d", seat->number);
    snprintf(numbers[3], 16, "%d", starts - 1);
    const char *kind = seat->kind == SEAT_NODE ? "node" : "server";
    if (seat->kind == SEAT_MEMBERS) {
        const char *all[] = {settings.program, "members", "--nodes", numbers[0], "--files", numbers[1], "--state", seat->log, "--clock", NULL};
        memcpy(words, all, sizeof all);
        return;
    }
    snprintf(seat->log, sizeof seat->log, "%s/%s-%d.at-%d.%d-%d.log", settings.folder, kind, seat->number, settings.me, getpid(), ++lives);
    const char *all[] = {settings.program, "seat", kind, numbers[2], "--nodes", numbers[0], "--files", numbers[1], "--policy", settings.policy,
                         "--log", seat->log, "--clock", starts ? "--again" : NULL, "--past", numbers[3], NULL};
    memcpy(words, all, sizeof all);
}

static void run(const char **words, int in, int out, pid_t parent) {
    prctl(PR_SET_PDEATHSIG, SIGKILL);
    if (getppid() != parent)
        _exit(1);
    sigset_t none;
    sigemptyset(&none);
    sigprocmask(SIG_SETMASK, &none, NULL);
    signal(SIGPIPE, SIG_DFL);
    dup2(in, 0);
    dup2(out, 1);
    execv(settings.program, (char **)words);
    _exit(127);
}

// Its pipes are not waited for by whoever reads or writes them here.
static void join_pipes(struct seat *seat, int in, int out) {
    fcntl(in, F_SETPIPE_SZ, PIPE);
    fcntl(out, F_SETPIPE_SZ, PIPE);
    fcntl(in, F_SETFL, O_NONBLOCK);
    fcntl(out, F_SETFL, O_NONBLOCK);
    seat->in = (struct source){in, can_write, seat};
    seat->out = (struct source){out, can_read, seat};
    watch(&seat->out, EPOLLIN);
}

struct seat *seat_start(enum seat_kind kind, int number, int starts) {
    struct seat *seat = room_for(1, sizeof *seat);
    const char *words[24];
    char numbers[4][16];
    int in[2], out[2];
    *seat = (struct seat){.kind = kind, .number = number, .next = seats};
    if (kind == SEAT_MEMBERS)
        snprintf(seat->log, sizeof seat->log, "%s/members.new", settings.folder);      // (copy.c renames it)
    words_of_seat(seat, starts, words, numbers);
    if (pipe2(in, O_CLOEXEC) || pipe2(out, O_CLOEXEC))
        die("pipe: %m");
    pid_t parent = getpid();
    seat->pid = fork();
    if (seat->pid < 0)
        die("fork: %m");
    if (!seat->pid)
        run(words, in[0], out[1], parent);
    close(in[0]);
    close(out[1]);
    join_pipes(seat, in[1], out[0]);
    seats = seat;
    if (kind != SEAT_MEMBERS)
        expect(seat, TOLD_START, 0);
    return seat;
}

static void kill_seat(struct seat *seat) {
    kill(seat->pid, SIGKILL);
    waitpid(seat->pid, NULL, 0);
    seat->ended = true;
}

void seat_end(struct seat *seat) {
    struct seat **at = &seats;
    while (*at != seat)
        at = &(*at)->next;
    *at = seat->next;
    kill_seat(seat);
    if (seat->kind != SEAT_MEMBERS)
        log_cut(seat->log, seat->blocks);
    unwatch(&seat->out);
    if (seat->is_full)
        unwatch(&seat->in);
    close(seat->in.fd);
    close(seat->out.fd);
    seat->in.fd = seat->out.fd = -1;
    drop_buffer(&seat->to);
    free(seat->told);
    free_later(seat);       // (its buffer of what was read may be in use)
}

void seats_kill_and_cut(void) {
    for (struct seat *seat = seats; seat; seat = seat->next)
        kill_seat(seat);
    for (struct seat *seat = seats; seat; seat = seat->next)
        if (seat->kind != SEAT_MEMBERS)
            log_cut(seat->log, seat->blocks);
}
