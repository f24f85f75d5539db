// What all nodes agree on. Each part of it changes only as a line or a change of members comes in the one order, so it is the same at all that are formed.
#ifndef CLUSTER_H
#define CLUSTER_H
#include "seat.h"

// The order in which all nodes learn what they agree on: who is a member, and lines that any of them sends. Corosync has it (agree_cpg.c); agree_tcp.c
// is for machines without corosync: there one member orders, and an operator declares.
struct agreement {
    bool decides;                                           // whether it finds out by itself who failed; else an operator says it
    void (*begin)(void);
    void (*order)(const char *line, size_t length);         // to all, this node too, in one order; the line feed is added
    void (*post)(int node, const char *line, size_t length);    // to one of them; it may be lost
    void (*evict)(int node);                                // one that an operator declared
    void (*flush)(void);                                    // at the end of each turn
};
extern const struct agreement agree_tcp, agree_cpg;
extern const struct agreement *agree;

static inline uint64_t bit(int node) { return UINT64_C(1) << (node - 1); }

enum change_kind { DECLARE, RESTART, FAIL_SERVER, START_SERVER };
struct change {
    enum change_kind kind;
    int number, host;                       // host: of a server that starts
    long term;                              // of the list
};
struct server {
    int host;
    bool dead;                              // by the list
    bool ready;                             // it has a host that is not declared
    bool runs;                              // the change that begins it is kept by a majority
};
struct file {
    uint64_t inode, users;
    long stamp;                             // when somebody last took it or gave it back
};
struct cluster {
    uint64_t members;                       // bits of nodes
    uint64_t formed;                        // who has all of this; only they count towards a majority
    uint64_t begun;                         // whose seat is of this life of its daemon
    uint64_t dead;                          // by the list
    uint64_t condemned;                     // by an operator
    struct server servers[MOST_FILES + 1];
    struct file files[MOST_FILES + 1];
    long stamp, term;
    struct change *changes;
    int count, room, kept;                  // the first `kept` changes are kept by a majority, and took effect
    int acked[MOST_NODES + 1];              // how many each node has on its disk
    bool is_first_life;                     // no node of this cluster worked before
};
extern struct cluster cluster;
extern bool is_formed, is_serving;          // this node has all of it; its seat works

static inline bool is_majority(uint64_t nodes) { return __builtin_popcountll(nodes) * 2 > settings.nodes; }

// The one list of declarations and starts. A change takes effect once a majority has it on disk: so it is in the copy that a majority of copies chooses.
void changes_propose(enum change_kind kind, int number, int host);
void changes_agreed(const char *text);          // KIND NUMBER HOST, in the one order
void changes_put(struct change change);         // one that a copy or another node tells: it is in the list, and has no effect
void changes_kept_by(int node, int count);
void changes_settle(void);                      // those that a majority keeps take effect
void changes_forget(void);
void changes_begin_server(int file);

// This node's copy of the list, on its disk: `members` is what `lockreplay members` keeps, `terms` says in which term each change came to it.
void copy_read(void);                                       // as the daemon begins: into the list, and cluster.term
void copy_replace(void);                                    // by the list as another node told it

// What is due: who is to be declared, who begins again, which token server needs another node. One node proposes it.
void decide(void);
void decide_left(int node, int64_t wait);           // it may be declared in so many nanoseconds, and not before
int decide_leader(void);                            // the lowest node that is formed

// What comes in the one order, and what follows from it.
void view_send(const char *format, ...) __attribute__((format(printf, 1, 2)));
void view_line(int from, char *line);               // the transports bring these two, in one order
// The members, and of those who left: whose daemon is known dead, who was lost without a word.
void view_changed(uint64_t members, uint64_t died, uint64_t lost);
void view_tick(void);
void view_condemn(int node);                        // an operator says that the node failed

// Numbers of files: an inode has one while some node uses it. They are taken and given back in the one order.
int files_number(uint64_t inode);           // 0 where it has none
int files_usable(uint64_t inode);           // the same, where this node may use it
void files_want(uint64_t inode);
void files_drop_node(int node);

// The lease: a node works only while a majority said lately that it has it among the members.
bool lease_holds(void);
// Ends the process where the lease is over. Any thread may look; the loop's ends the process, the others wait for it.
void lease_look(void);
extern void (*lease_is_over)(void);                 // tells the loop, from another thread
#endif
