// What comes in the one order, and what follows from it: the lease, numbers of files, what a daemon that begins is told, and who is a member.
#define _GNU_SOURCE
#include "cluster.h"
#include "locks.h"
#include <stdarg.h>
#include <stdatomic.h>
#include <stdio.h>
#include <stdlib.h>
#include <string.h>
#include <unistd.h>

const struct agreement *agree;

void view_send(const char *format, ...) {
    struct buffer line = {0};
    va_list words;
    va_start(words, format);
    add_words(&line, format, words);
    va_end(words);
    agree->order(line.bytes, line.length);
    drop_buffer(&line);
}

// Whether this node says of that one that it is a member.
static bool echoes(int node) { return is_formed && cluster.members & bit(node) && !(cluster.condemned & bit(node)); }

// The beats that may still be echoed. A beat that a majority echoed is good for the lease's time, less a margin, from when it was sent.
enum { BEATS = 64 };
static struct {
    long number;
    int64_t sent;
    uint64_t echoed;
} beats[BEATS];
static int64_t heard[MOST_NODES + 1];
static long last_beat;
static int64_t last_sent;
static _Atomic int64_t holds_until;
static _Atomic bool once_held;
void (*lease_is_over)(void);

// After so many nanoseconds a node that left may be declared.
static int64_t lease_time(void) { return (int64_t)settings.lease_ms * MS; }

static void lease_echoed(int by, int whose, long beat) {
    if (whose != settings.me || beat < 1 || beats[beat % BEATS].number != beat)
        return;
    beats[beat % BEATS].echoed |= UINT64_C(1) << (by - 1);
    if (__builtin_popcountll(beats[beat % BEATS].echoed) * 2 <= settings.nodes)
        return;
    int64_t until = beats[beat % BEATS].sent + (int64_t)(settings.lease_ms - settings.margin_ms) * MS;
    if (until > holds_until)
        holds_until = until;
}

static void lease_beat(void) {
    int64_t time = now();
    if (time - last_sent < (int64_t)settings.beat_ms * MS)
        return;
    last_sent = time;
    last_beat++;
    beats[last_beat % BEATS].number = last_beat;
    beats[last_beat % BEATS].sent = time;
    beats[last_beat % BEATS].echoed = 0;
    view_send("B %ld", last_beat);
    lease_echoed(settings.me, settings.me, last_beat);
}

// A beat of another node: it is echoed.
static void lease_heard(int from, long beat) {
    heard[from] = now();
    if (from != settings.me && echoes(from))
        view_send("A %d %ld", from, beat);
}

bool lease_holds(void) {
    bool holds = !settings.fences || now() < holds_until;
    if (holds)
        once_held = true;
    return holds;
}

void lease_look(void) {
    if (!once_held || lease_holds())
        return;
    if (gettid() == getpid())           // (the loop is the first thread)
        die("the lease is over since %.3f s: fences itself", (double)(now() - holds_until) / 1e9);
    lease_is_over();
    sleep(1);
    _exit(3);           // (the loop may wait for what this thread has in work)
}

static void lease_count_from_now(int node) { heard[node] = now(); }

// Whether no beat of the node came for as long as a lease: its daemon hangs, though it is a member.
static bool lease_is_silent(int node) { return now() - heard[node] > lease_time(); }

static bool gives[MOST_FILES + 1];          // what this node gave back, and the line did not come yet

int files_number(uint64_t inode) {
    static int last;
    if (last && cluster.files[last].inode == inode)
        return last;
    for (int file = 1; file <= settings.files; file++)
        if (cluster.files[file].inode == inode)
            return last = file;
    return 0;
}

int files_usable(uint64_t inode) {
    int file = files_number(inode);
    return file && cluster.files[file].users & bit(settings.me) && !gives[file] ? file : 0;
}

void files_want(uint64_t inode) { view_send("F %llu", (unsigned long long)inode); }

// A number that no node uses: one that never had a file, or the one that has been idle for longest.
static int spare_number(void) {
    int spare = 0;
    for (int file = 1; file <= settings.files; file++) {
        if (!cluster.files[file].inode)
            return file;
        if (!cluster.files[file].users && (!spare || cluster.files[file].stamp < cluster.files[spare].stamp))
            spare = file;
    }
    return spare;
}

// All numbers are in use: each node gives back those that no owner of it has open. Who wants one asks again.
static void give_back(void) {
    for (int file = 1; file <= settings.files; file++) {
        if (!(cluster.files[file].users & bit(settings.me)) || gives[file] || locks_have(file))
            continue;
        gives[file] = true;
        view_send("G %d", file);
    }
}

// As the lines come.
static void files_taken(int from, uint64_t inode) {
    int file = files_number(inode);
    if (!(cluster.begun & bit(from)))       // (it was declared, and does not know yet)
        return;
    if (!file) {
        file = spare_number();
        if (!file) {
            give_back();
            return;
        }
        cluster.files[file] = (struct file){.inode = inode};
        if (!cluster.servers[file].host) {
            struct server *server = &cluster.servers[file];
            server->host = from;
            server->ready = server->runs = cluster.is_first_life && !server->dead;
        }
    }
    cluster.files[file].users |= bit(from);
    cluster.files[file].stamp = ++cluster.stamp;
    if (from == settings.me)
        locks_file_came(inode);
}

static void files_given_back(int from, int file) {
    if (file < 1 || file > settings.files)
        return;
    cluster.files[file].users &= ~bit(from);
    cluster.files[file].stamp = ++cluster.stamp;
    if (from == settings.me)
        gives[file] = false;
}

void files_drop_node(int node) {
    for (int file = 1; file <= settings.files; file++)
        cluster.files[file].users &= ~bit(node);
}

// A daemon that begins is told what the others agree on. Where nobody knows it, a majority of copies decides.

// What each node that begins said of its copy, since the members changed last.
static struct claim {
    bool said;
    int sequence, count;
    long term;
} claims[MOST_NODES + 1];
static int sequence, chosen;
static bool asks;                   // this node's question came: what comes behind it is kept
static struct buffer held;
static long own_term;
static int64_t asked;
static const int64_t ANSWERS_WITHIN = 3000 * (int64_t)MS;
static int own_count = -1;

// At each change of members, while this node has not been told.
static void join_ask(void) {
    memset(claims, 0, sizeof claims);
    chosen = 0;
    asks = false;
    held.length = 0;
    if (own_count < 0) {
        own_count = cluster.count;
        own_term = cluster.term;
    }
    view_send("L %d %ld %d", ++sequence, own_term, own_count);
    asked = now();
}

static void join_ask_again(void) {
    if (asked && now() - asked > ANSWERS_WITHIN)
        join_ask();
}

// What all agree on, as lines for who asked; for 0 those that begin together.
static void tell(int to, int its_sequence) {
    for (int k = 0; k < cluster.count; k++) {
        const struct change *it = &cluster.changes[k];
        view_send("S %d %d c %d %d %d %ld", to, its_sequence, it->kind, it->number, it->host, it->term);
    }
    for (int file = 1; file <= settings.files; file++) {
        const struct file *it = &cluster.files[file];
        const struct server *server = &cluster.servers[file];
        if (it->inode || server->host)
            view_send("S %d %d f %d %llu %llu %ld %d %d %d %d", to, its_sequence, file, (unsigned long long)it->inode, (unsigned long long)it->users,
                      it->stamp, server->host, server->dead, server->ready, server->runs);
    }
    for (int node = 1; node <= settings.nodes; node++)
        view_send("S %d %d k %d %d", to, its_sequence, node, cluster.acked[node]);
    view_send("S %d %d e %llu %llu %llu %ld %ld %d %d", to, its_sequence, (unsigned long long)cluster.formed, (unsigned long long)cluster.begun,
              (unsigned long long)cluster.condemned, cluster.stamp, cluster.term, cluster.kept, cluster.is_first_life);
}

// All members begin: the copy of the highest term, and of those the longest, is the list. It has each change that took effect, since a majority kept that.
static void choose(void) {
    long term = 0;
    int best = 0;
    for (int node = 1; node <= settings.nodes; node++) {
        const struct claim *it = &claims[node], *of = &claims[best];
        if (!(cluster.members & bit(node)))
            continue;
        if (!it->said)
            return;
        if (it->term > term)
            term = it->term;
        if (!best || it->term > of->term || (it->term == of->term && it->count > of->count))
            best = node;
    }
    if (!is_majority(cluster.members))
        return;
    chosen = best;
    say("all begin: the copy of node %d is the list, %d changes in term %ld", best, claims[best].count, claims[best].term);
    if (best != settings.me)
        return;
    copy_read();
    cluster.is_first_life = term == 0;
    cluster.term = term + 1;
    cluster.formed = cluster.members;
    cluster.begun = cluster.is_first_life ? cluster.members : 0;
    cluster.kept = cluster.count;
    tell(0, claims[best].sequence);
}

static void join_asked(int from, const char *text) {
    struct claim *claim = &claims[from];
    if (sscanf(text, "%d %ld %d", &claim->sequence, &claim->term, &claim->count) != 3)
        return;
    claim->said = true;
    if (is_formed) {
        cluster.acked[from] = -1;
        cluster.formed &= ~bit(from);
        if (decide_leader() == settings.me)
            tell(from, claim->sequence);
        return;
    }
    if (from == settings.me && claim->sequence == sequence) {
        changes_forget();
        asks = true;
    }
    choose();
}

static void take_file(const char *text) {
    unsigned long long inode, users;
    int file, host, dead, ready, runs;
    long stamp;
    if (sscanf(text, "%d %llu %llu %ld %d %d %d %d", &file, &inode, &users, &stamp, &host, &dead, &ready, &runs) != 8 || file < 1 || file > MOST_FILES)
        return;
    cluster.files[file] = (struct file){inode, users, stamp};
    cluster.servers[file] = (struct server){.host = host, .dead = dead, .ready = ready, .runs = runs};
}

static void take_change(const char *text) {
    struct change change;
    int kind;
    if (sscanf(text, "%d %d %d %ld", &kind, &change.number, &change.host, &change.term) != 4)
        return;
    change.kind = kind;
    changes_put(change);
}

static void take_part(char kind, const char *text) {
    int node, count;
    if (kind == 'f')
        take_file(text);
    else if (kind == 'c')
        take_change(text);
    else if (kind == 'k' && sscanf(text, "%d %d", &node, &count) == 2 && node >= 1 && node <= MOST_NODES)
        cluster.acked[node] = count;
}

// This node has all of it. What came meanwhile comes now.
static void end_of_it(const char *text) {
    unsigned long long formed, begun, condemned;
    int first;
    if (sscanf(text, "%llu %llu %llu %ld %ld %d %d", &formed, &begun, &condemned, &cluster.stamp, &cluster.term, &cluster.kept, &first) != 7)
        return;
    cluster.formed = formed | bit(settings.me);
    cluster.begun = begun;
    cluster.condemned = condemned;
    cluster.is_first_life = first;
    is_formed = true;
    say("knows the cluster: %d changes, term %ld", cluster.count, cluster.term);
    for (int node = 1; node <= settings.nodes; node++) {
        lease_count_from_now(node);
        decide_left(node, cluster.members & bit(node) ? (int64_t)settings.grace_ms * MS : lease_time());
    }
    copy_replace();
}

static void replay_held(void) {
    struct buffer lines = held;
    size_t at = 0, length;
    char *line;
    held = (struct buffer){0};
    while ((line = next_line(&lines, &at, &length))) {
        char *text;
        long from = strtol(line, &text, 10);
        view_line((int)from, text + 1);
    }
    drop_buffer(&lines);
}

static void join_told(int from, char *text) {
    int to, its_sequence, at;
    char kind;
    if (sscanf(text, "%d %d %c %n", &to, &its_sequence, &kind, &at) != 3)
        return;
    if (is_formed) {
        if (kind == 'e' && to && claims[to].sequence == its_sequence) {
            cluster.formed |= bit(to);
            lease_count_from_now(to);
        }
        return;
    }
    bool is_mine = to ? to == settings.me && its_sequence == sequence : chosen && from == chosen && its_sequence == claims[chosen].sequence;
    if (!is_mine) {
        if (asks && kind == 'e' && to)      // (another one that begins: who forms is known behind this node's own)
            add_text(&held, "%d S %s\n", from, text);
        return;
    }
    if (kind == 'e') {
        end_of_it(text + at);
        replay_held();
    } else if (from != settings.me) {
        take_part(kind, text + at);
    }
}

// Whether the line is kept until this node was told what stands before it.
static bool join_holds(int from, const char *line) {
    if (is_formed)
        return false;
    if (asks)
        add_text(&held, "%d %s\n", from, line);
    return true;
}

void view_condemn(int node) { view_send("W %d", node); }

static void condemned(int node) {
    if (node < 1 || node > settings.nodes || cluster.dead & bit(node))
        return;
    if (node == settings.me)
        die("an operator declares this node failed");
    cluster.condemned |= bit(node);
    cluster.formed &= ~bit(node);
    if (!(cluster.members & bit(node)))
        return;
    decide_left(node, lease_time());        // (it may be there still, and have a lease)
    agree->evict(node);
}

// A line of the leases: those are for nobody who does not know the members yet.
static void lease_line(int from, const char *line) {
    int whose;
    long beat;
    if (line[0] == 'B')
        lease_heard(from, strtol(line + 2, NULL, 10));
    else if (sscanf(line + 2, "%d %ld", &whose, &beat) == 2)
        lease_echoed(from, whose, beat);
}

void view_line(int from, char *line) {
    if (from < 1 || from > settings.nodes || !line[0] || line[1] != ' ')
        return;
    const char *rest = line + 2;
    if (line[0] == 'B' || line[0] == 'A') {
        if (is_formed)
            lease_line(from, line);
    } else if (line[0] == 'L') {
        join_asked(from, rest);
    } else if (line[0] == 'S') {
        join_told(from, line + 2);
    } else if (join_holds(from, line)) {
        return;
    } else if (line[0] == 'F') {
        files_taken(from, strtoull(rest, NULL, 10));
    } else if (line[0] == 'G') {
        files_given_back(from, atoi(rest));
    } else if (line[0] == 'C') {
        changes_agreed(rest);
    } else if (line[0] == 'K') {
        changes_kept_by(from, atoi(rest));
    } else if (line[0] == 'W') {
        condemned(atoi(rest));
    }
    decide();
}

void view_changed(uint64_t members, uint64_t died, uint64_t lost) {
    uint64_t came = members & ~cluster.members;
    say("members %llx, died %llx, lost %llx", (unsigned long long)members, (unsigned long long)died, (unsigned long long)lost);
    cluster.members = members;
    cluster.formed &= members;
    cluster.begun &= members;
    for (int node = 1; node <= settings.nodes; node++) {
        if (lost & bit(node))
            decide_left(node, lease_time());
        else if ((died | came) & bit(node))
            decide_left(node, (int64_t)settings.grace_ms * MS);
        if (came & bit(node))
            lease_count_from_now(node);
    }
    if (!is_formed) {
        join_ask();
        return;
    }
    if (died | lost)
        cluster.term++;
    if (!is_majority(cluster.members & cluster.formed))
        die("no majority: fences itself");
    decide();
}

static const int64_t PATIENCE = 1000 * (int64_t)MS;

// A member that does not beat hangs: it is condemned by those who find that out, where no operator is asked.
static void condemn_silent(void) {
    static int64_t last;
    uint64_t others = cluster.members & cluster.formed & ~bit(settings.me);
    if (!agree->decides || now() - last < PATIENCE)
        return;
    for (int node = 1; node <= settings.nodes; node++) {
        if (!(others & bit(node)) || !lease_is_silent(node))
            continue;
        say("node %d is silent", node);
        view_condemn(node);
        last = now();
    }
}

void view_tick(void) {
    if (is_formed) {
        lease_beat();
        condemn_silent();
    } else {
        join_ask_again();
    }
    locks_tick();
    for (int file = 1; file <= settings.files; file++)
        if (server_seats[file])
            seat_tick(server_seats[file]);
    decide();
}
