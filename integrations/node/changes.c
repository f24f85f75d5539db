// The one list of declarations and starts, this node's copy of it on its disk, and what is due.
#define _GNU_SOURCE
#include "cluster.h"
#include "locks.h"
#include <fcntl.h>
#include <signal.h>
#include <spawn.h>
#include <stdio.h>
#include <stdlib.h>
#include <string.h>
#include <sys/stat.h>
#include <sys/wait.h>
#include <unistd.h>

static const char *const change_words[] = {"declare", "restart", "fail-server", "start-server"};
struct cluster cluster;
bool is_formed, is_serving;
static struct seat *members;
static int terms = -1, replacing;           // replacing: how many changes a new copy still lacks

static void path_of(char *path, size_t room, const char *name) { snprintf(path, room, "%s/%s", settings.folder, name); }

static void tell_all(int count) { view_send("K %d", count); }

// A block of `members`: the change is on the disk.
static void kept(struct seat *seat, struct told_line line, const char *refused) {
    char path[512], fresh[512];
    (void)seat;
    if (refused)
        die("the copy of the list refuses change %d: %s", (int)line.of, refused);
    if (replacing && --replacing == 0) {
        path_of(path, sizeof path, "members");
        path_of(fresh, sizeof fresh, "members.new");
        if (rename(fresh, path))
            die("%s: %m", path);
    }
    if (!replacing)
        tell_all((int)line.of);
}

// The disk has the term of a change before it has the change.
static void keep_term(int count, long term) {
    char line[64];
    int length = snprintf(line, sizeof line, "%d %ld\n", count, term);
    if (write(terms, line, length) != length || (!replacing && fdatasync(terms)))
        die("terms: %m");
}

static void open_terms(int flags) {
    char path[512];
    path_of(path, sizeof path, "terms");
    if (terms >= 0)
        close(terms);
    terms = open(path, O_RDWR | O_CREAT | O_APPEND | O_CLOEXEC | flags, 0600);
    if (terms < 0)
        die("%s: %m", path);
}

// The term of the last change of so many.
static long copy_term(int count) {
    char path[512];
    long term = 0, that;
    int at;
    path_of(path, sizeof path, "terms");
    FILE *file = fopen(path, "re");
    while (file && fscanf(file, "%d %ld", &at, &that) == 2)
        if (at <= count)
            term = that;
    if (file)
        fclose(file);
    return term;
}

// The lines of the list that `lockreplay members` has kept here.
static void read_list(void) {
    char command[2048], word[32];
    int number;
    snprintf(command, sizeof command, "echo list | '%s' members --nodes %d --files %d --state '%s/members' --clock", settings.program, settings.nodes,
             settings.files, settings.folder);
    FILE *pipe = popen(command, "re");
    if (!pipe)
        die("popen: %m");
    while (fscanf(pipe, "%31s %d", word, &number) == 2)
        for (int kind = DECLARE; kind <= START_SERVER; kind++)
            if (!strcmp(word, change_words[kind]))
                changes_put((struct change){.kind = kind, .number = number});
    if (pclose(pipe))
        die("the copy of the list can't be read");
}

void copy_read(void) {
    char path[512];
    path_of(path, sizeof path, "members");
    if (!access(path, F_OK))
        read_list();
    open_terms(0);
    cluster.term = copy_term(cluster.count);
    for (int k = 0; k < cluster.count; k++)
        cluster.changes[k].term = copy_term(k + 1);
}

static void copy_keep(const struct change *change, int count) {
    keep_term(count, change->term);
    seat_tell(members, TOLD_CHANGE, count, "%s %d", change_words[change->kind], change->number);
}

// The old copy stays until the new one is whole. Its clocks are read now: the change came to this node just now.
void copy_replace(void) {
    char fresh[512];
    path_of(fresh, sizeof fresh, "members.new");
    unlink(fresh);
    if (members)
        seat_end(members);
    open_terms(O_TRUNC);
    members = seat_start(SEAT_MEMBERS, 0, 0);
    members->ended_block = kept;
    replacing = cluster.count + 1;
    keep_term(0, cluster.term);
    seat_tell(members, TOLD_START, 0, "list");
    for (int k = 0; k < cluster.count; k++)
        copy_keep(&cluster.changes[k], k + 1);
    if (fdatasync(terms))
        die("terms: %m");
}

void changes_propose(enum change_kind kind, int number, int host) { view_send("C %d %d %d", kind, number, host); }

// Whether the change is the next one that can come about, by the list so far. (The host of a server may have gone since it was chosen.)
static bool is_next(const struct change *change) {
    if (change->kind == START_SERVER && (change->host < 1 || change->host > settings.nodes || !(cluster.begun & bit(change->host))))
        return false;
    bool is_dead = change->kind <= RESTART ? cluster.dead & bit(change->number) : cluster.servers[change->number].dead;
    return is_dead == (change->kind == RESTART || change->kind == START_SERVER);
}

static void list_declared(int node) {
    cluster.dead |= bit(node);
    cluster.begun &= ~bit(node);
    for (int file = 1; file <= settings.files; file++)
        if (cluster.servers[file].host == node)
            cluster.servers[file].ready = false;
}

void changes_put(struct change change) {
    if (cluster.count == cluster.room) {
        cluster.room = cluster.room * 2 + 64;
        cluster.changes = realloc(cluster.changes, cluster.room * sizeof change);
        if (!cluster.changes)
            die("no memory");
    }
    cluster.changes[cluster.count++] = change;
    struct server *server = &cluster.servers[change.kind > RESTART ? change.number : 0];
    if (change.kind == DECLARE) {
        list_declared(change.number);
    } else if (change.kind == RESTART) {
        cluster.dead &= ~bit(change.number);
        cluster.begun |= bit(change.number);
    } else if (change.kind == FAIL_SERVER) {
        *server = (struct server){.host = server->host, .dead = true};
    } else {
        *server = (struct server){.host = change.host, .ready = true};
    }
}

void changes_agreed(const char *text) {
    struct change change = {.term = cluster.term};
    int kind;
    if (sscanf(text, "%d %d %d", &kind, &change.number, &change.host) != 3 || kind < DECLARE || kind > START_SERVER)
        return;
    change.kind = kind;
    if (change.number < 1 || change.number > (kind <= RESTART ? settings.nodes : settings.files) || !is_next(&change))
        return;
    changes_put(change);
    copy_keep(&change, cluster.count);
}

void changes_kept_by(int node, int count) {
    if (count > cluster.acked[node])
        cluster.acked[node] = count;
    changes_settle();
}

static int starts_of(enum change_kind kind, int number) {
    int starts = 0;
    for (int k = 0; k < cluster.kept; k++)
        starts += cluster.changes[k].kind == kind && cluster.changes[k].number == number;
    return starts;
}

static void tell(struct seat *seat, const struct change *change) {
    if (seat)
        seat_tell(seat, TOLD_CHANGE, 0, "%s %d", change_words[change->kind], change->number);
}

static void changes_tell(struct seat *seat) {
    for (int k = 0; k < cluster.kept; k++)
        tell(seat, &cluster.changes[k]);
}

static void changes_begin_node(void) {
    int starts = starts_of(RESTART, settings.me);
    node_seat = seat_start(SEAT_NODE, settings.me, starts);
    node_seat->ended_block = locks_block;
    changes_tell(node_seat);
    is_serving = true;
    say("serves in incarnation %d", starts + 1);
}

// (A daemon that has just begun may be told that it is a host: those servers were of the one before it, and are failed with that.)
void changes_begin_server(int file) {
    if (!is_serving || !cluster.servers[file].runs || cluster.servers[file].host != settings.me)
        return;
    server_seats[file] = seat_start(SEAT_SERVER, file, starts_of(START_SERVER, file));
    changes_tell(server_seats[file]);
}

static void take_effect(const struct change *change) {
    int number = change->number;
    bool is_mine = change->kind <= RESTART && number == settings.me;
    say("%s %d", change_words[change->kind], number);
    if (change->kind == DECLARE && is_mine && is_serving)
        die("was declared failed");
    if (change->kind == FAIL_SERVER && server_seats[number]) {
        seat_end(server_seats[number]);
        server_seats[number] = NULL;
    }
    tell(node_seat, change);
    for (int file = 1; file <= settings.files; file++)
        tell(server_seats[file], change);
    if (change->kind == DECLARE) {
        files_drop_node(number);
        cluster.condemned &= ~bit(number);
        for (int file = 1; file <= settings.files; file++)
            if (cluster.servers[file].host == number && !cluster.servers[file].ready)
                cluster.servers[file].runs = false;
    }
    if (change->kind == RESTART && is_mine)
        changes_begin_node();
    if (change->kind == START_SERVER) {
        cluster.servers[number].runs = true;
        changes_begin_server(number);
    }
}

// Whether a majority has so many changes on disk.
static bool is_kept(int count) {
    uint64_t keepers = 0;
    for (int node = 1; node <= settings.nodes; node++)
        if (cluster.acked[node] >= count)
            keepers |= bit(node);
    return is_majority(keepers);
}

// Whether this node begins in its first incarnation: no change names it, and nobody worked before.
static bool is_first_start(void) {
    for (int k = 0; k < cluster.count; k++)
        if (cluster.changes[k].kind <= RESTART && cluster.changes[k].number == settings.me)
            return false;
    return cluster.is_first_life && cluster.begun & bit(settings.me);
}

void changes_settle(void) {
    if (!is_formed)
        return;
    if (!is_serving && is_first_start() && is_kept(0))
        changes_begin_node();
    while (cluster.kept < cluster.count && is_kept(cluster.kept + 1)) {
        cluster.kept++;
        take_effect(&cluster.changes[cluster.kept - 1]);
    }
}

void changes_forget(void) {
    uint64_t members = cluster.members;
    free(cluster.changes);
    cluster = (struct cluster){.members = members};
    for (int node = 1; node <= settings.nodes; node++)
        cluster.acked[node] = -1;
}

static const int64_t PATIENCE = 1000 * (int64_t)MS;         // behind it a proposal that came to nothing is made again
static int64_t due[MOST_NODES + 1], proposed_node[MOST_NODES + 1], proposed_server[MOST_FILES + 1];
static enum { NOT_RUN, RUNS, DONE } hook[MOST_NODES + 1];
static pid_t hook_pid[MOST_NODES + 1];

void decide_left(int node, int64_t wait) {
    due[node] = now() + wait;
    hook[node] = NOT_RUN;
}

int decide_leader(void) {
    for (int node = 1; node <= settings.nodes; node++)
        if (cluster.members & cluster.formed & bit(node))
            return node;
    return 0;
}

static bool may_propose(int64_t *when) {
    if (*when && now() - *when < PATIENCE)
        return false;
    *when = now();
    return true;
}

// The operator's command, as one that switches the machine off, has to end well before the node is declared.
static bool hook_is_done(int node) {
    char number[16];
    int status;
    if (!settings.hook || hook[node] == DONE)
        return true;
    if (hook[node] == RUNS && waitpid(hook_pid[node], &status, WNOHANG) == hook_pid[node]) {
        hook[node] = WIFEXITED(status) && !WEXITSTATUS(status) ? DONE : NOT_RUN;
        if (hook[node] == NOT_RUN)
            due[node] = now() + PATIENCE;
        say("the command for node %d ended with status %d", node, status);
        return hook[node] == DONE;
    }
    if (hook[node] == RUNS)
        return false;
    snprintf(number, sizeof number, "%d", node);
    char *words[] = {(char *)settings.hook, number, NULL};
    if (posix_spawn(&hook_pid[node], settings.hook, NULL, NULL, words, environ))
        die("%s can't be run", settings.hook);
    hook[node] = RUNS;
    return false;
}

static void decide_node(int node) {
    bool is_member = cluster.members & bit(node), is_condemned = cluster.condemned & bit(node), is_dead = cluster.dead & bit(node);
    if (is_member && !is_condemned) {
        if (!(cluster.formed & bit(node)) || cluster.begun & bit(node))
            return;
        if ((is_dead || now() >= due[node]) && may_propose(&proposed_node[node]))
            changes_propose(is_dead ? RESTART : DECLARE, node, 0);
        return;
    }
    if (is_dead || !(agree->decides || is_condemned) || now() < due[node] || !hook_is_done(node) || !may_propose(&proposed_node[node]))
        return;
    changes_propose(DECLARE, node, 0);
}

static int host_for(int file) {
    uint64_t hosts = cluster.members & cluster.formed & cluster.begun & ~cluster.condemned;
    int count = __builtin_popcountll(hosts), at = count ? file % count : 0;
    for (int node = 1; node <= settings.nodes; node++)
        if (hosts & bit(node) && at-- == 0)
            return node;
    return 0;
}

static void decide_server(int file) {
    const struct server *server = &cluster.servers[file];
    int host = host_for(file);
    if (!cluster.files[file].inode || server->ready || !host || !may_propose(&proposed_server[file]))
        return;
    if (!server->dead)
        changes_propose(FAIL_SERVER, file, 0);
    changes_propose(START_SERVER, file, host);
}

void decide(void) {
    static int seen;
    if (!is_formed || decide_leader() != settings.me)
        return;
    for (; seen < cluster.count; seen++) {      // (what came about may be proposed anew at once)
        const struct change *change = &cluster.changes[seen];
        *(change->kind <= RESTART ? &proposed_node[change->number] : &proposed_server[change->number]) = 0;
    }
    for (int node = 1; node <= settings.nodes; node++)
        decide_node(node);
    for (int file = 1; file <= settings.files; file++)
        decide_server(file);
}
