// Agreement by corosync: its closed process groups bring members and messages in one order, and its configuration has them encrypted and authenticated.
#define _GNU_SOURCE
#include "cluster.h"
#include <corosync/cpg.h>
#include <stdio.h>
#include <stdlib.h>
#include <string.h>
#include <sys/epoll.h>

enum { AT_ONCE = 60000 };
static cpg_handle_t handle;
static struct cpg_name group;
static struct buffer cast;          // lines that wait to be sent
static struct source source;

// Who is in the group but no node of the cluster counts for nothing.
static bool is_node(uint32_t node) { return node >= 1 && node <= (uint32_t)settings.nodes; }

static void take_line(int from, char *line) {
    char *rest;
    if (line[0] != 'M' || line[1] != ' ') {
        view_line(from, line);
        return;
    }
    long to = strtol(line + 2, &rest, 10);
    if (to == settings.me && *rest == ' ')
        mail_came(rest + 1);
}

static void delivered(cpg_handle_t of, const struct cpg_name *name, uint32_t from, uint32_t pid, void *bytes, size_t length) {
    struct buffer lines = {bytes, length, length};
    size_t at = 0, size;
    char *line;
    (void)of;
    (void)name;
    (void)pid;
    while (is_node(from) && (line = next_line(&lines, &at, &size)))
        take_line((int)from, line);
}

static void changed(cpg_handle_t of, const struct cpg_name *name, const struct cpg_address *all, size_t count, const struct cpg_address *left,
                    size_t left_count, const struct cpg_address *joined, size_t joined_count) {
    uint64_t members = 0, died = 0, lost = 0;
    (void)of;
    (void)name;
    (void)joined;
    (void)joined_count;
    for (size_t k = 0; k < count; k++)
        members |= is_node(all[k].nodeid) ? bit((int)all[k].nodeid) : 0;
    for (size_t k = 0; k < left_count; k++) {
        if (!is_node(left[k].nodeid))
            continue;
        if (left[k].reason == CPG_REASON_PROCDOWN || left[k].reason == CPG_REASON_LEAVE)
            died |= bit((int)left[k].nodeid);
        else
            lost |= bit((int)left[k].nodeid);
    }
    view_changed(members, died, lost);
}

static void ready(struct source *it, uint32_t events) {
    (void)it;
    (void)events;
    cs_error_t error = cpg_dispatch(handle, CS_DISPATCH_ALL);
    if (error != CS_OK && error != CS_ERR_TRY_AGAIN)
        die("corosync is gone (%d): fences itself", error);
}

static void begin(void) {
    cpg_callbacks_t callbacks = {.cpg_deliver_fn = delivered, .cpg_confchg_fn = changed};
    unsigned node;
    if (cpg_initialize(&handle, &callbacks) != CS_OK)
        die("corosync does not run here");
    if (cpg_local_get(handle, &node) != CS_OK || node != (unsigned)settings.me)
        die("corosync says that this is node %u", node);
    group.length = (uint32_t)snprintf(group.value, sizeof group.value, "nuvnode-%d-%s", PROTOCOL, settings.cluster);
    source = (struct source){-1, ready, NULL};
    cpg_fd_get(handle, &source.fd);
    watch(&source, EPOLLIN);
    if (cpg_join(handle, &group) != CS_OK)
        die("the group can't be joined");
}

static void order(const char *line, size_t length) {
    add(&cast, line, length);
    add(&cast, "\n", 1);
}

static void post(int node, const char *line, size_t length) {
    add_text(&cast, "M %d ", node);
    order(line, length);
}

// Whole lines go out, as many as fit. (Corosync takes none while members change: those wait.)
static void flush(void) {
    while (cast.length) {
        size_t length = cast.length;
        if (length > AT_ONCE) {
            const char *end = memrchr(cast.bytes, '\n', AT_ONCE);
            if (!end)
                end = memchr(cast.bytes, '\n', cast.length);
            length = end + 1 - cast.bytes;
        }
        struct iovec part = {cast.bytes, length};
        cs_error_t error = cpg_mcast_joined(handle, CPG_TYPE_AGREED, &part, 1);
        if (error == CS_ERR_TRY_AGAIN)
            return;
        if (error != CS_OK)
            die("corosync takes no message (%d): fences itself", error);
        take_off(&cast, length);
    }
}

static void evict(int node) { (void)node; }

const struct agreement agree_cpg = {true, begin, order, post, evict, flush};
