// Agreement without corosync: the member that orders passes on all lines, in one order; the others dial it. Nobody finds out who failed: an operator
// declares. When the one that orders is gone, all are: each fences itself.
#define _GNU_SOURCE
#include "cluster.h"
#include <arpa/inet.h>
#include <errno.h>
#include <fcntl.h>
#include <netinet/in.h>
#include <netinet/tcp.h>
#include <openssl/core_names.h>
#include <openssl/crypto.h>
#include <openssl/evp.h>
#include <openssl/params.h>
#include <stdio.h>
#include <stdlib.h>
#include <string.h>
#include <sys/epoll.h>
#include <sys/random.h>
#include <sys/socket.h>
#include <unistd.h>

// Seals by HMAC-SHA-256, of OpenSSL's libcrypto: whoever has no key gets no message in.
enum { SEAL = 32, SEAL_TEXT = 65 };
struct seal_key {
    uint8_t bytes[SEAL];
};

// The key that a file of these bytes gives.
static void seal_key_of(const void *bytes, size_t length, struct seal_key *key) {
    if (!EVP_Digest(bytes, length, key->bytes, NULL, EVP_sha256(), NULL))
        die("libcrypto has no SHA-256");
}

// The text goes in with its zero, so that no body reads as a part of it.
static void hmac(const struct seal_key *key, const char *text, const void *body, size_t length, uint8_t sum[SEAL]) {
    static EVP_MAC_CTX *context;
    char digest[] = "SHA256";
    OSSL_PARAM parameters[] = {OSSL_PARAM_construct_utf8_string(OSSL_MAC_PARAM_DIGEST, digest, 0), OSSL_PARAM_construct_end()};
    size_t made = 0;
    if (!context)
        context = EVP_MAC_CTX_new(EVP_MAC_fetch(NULL, "HMAC", NULL));
    if (!context || !EVP_MAC_init(context, key->bytes, SEAL, parameters) || !EVP_MAC_update(context, (const unsigned char *)text, strlen(text) + 1) ||
        !EVP_MAC_update(context, body, length) || !EVP_MAC_final(context, sum, &made, SEAL) || made != SEAL)
        die("libcrypto makes no HMAC");
}

// The seal of a text and a body: 64 hexadecimal digits and a zero.
static void seal(const struct seal_key *key, const char *text, const void *body, size_t length, char sealed[SEAL_TEXT]) {
    uint8_t sum[SEAL];
    hmac(key, text, body, length, sum);
    for (int k = 0; k < SEAL; k++)
        snprintf(sealed + 2 * k, 3, "%02x", sum[k]);
}

static void seal_derive(const struct seal_key *key, const char *text, struct seal_key *derived) { hmac(key, text, "", 0, derived->bytes); }

// In a time that does not tell where they differ.
static int seal_is_same(const char *one, const char *other) {
    return strlen(one) == SEAL_TEXT - 1 && strlen(other) == SEAL_TEXT - 1 && !CRYPTO_memcmp(one, other, SEAL_TEXT - 1);
}

// A TCP connection of two nodes that know one key. Its first lines name the cluster, the version of the protocol and the node, and prove the key; behind
// them each frame has a seal over its place in the stream.
enum { NONCE = 33 };
struct link {
    struct source source;
    struct buffer in, frame, out;           // frame: lines of this turn, out: what the socket did not take yet
    int node;                               // at the other end; 0 until it proved the key
    bool dials, open, waits;
    bool ended;                             // the other end closed it: the daemon there is dead, since it does so in no other way
    char mine[NONCE], theirs[NONCE];
    struct seal_key session;
    unsigned long long sent, got;
    struct link *next;
    void (*line)(struct link *link, char *line);
    void (*opened)(struct link *link);
    void (*closed)(struct link *link);      // it may be freed there, later
};
enum { FIRST_LINE = 512, FRAME = 1 << 26, AT_ONCE = 65536 };
static struct seal_key shared;

static void link_read_key(void) {
    char bytes[4096];
    int file = open(settings.key, O_RDONLY | O_CLOEXEC);
    ssize_t length = file < 0 ? -1 : read(file, bytes, sizeof bytes);
    if (length < 16)
        die("the key %s can't be read, or has less than 16 bytes", settings.key);
    close(file);
    seal_key_of(bytes, length, &shared);
}

static void make_nonce(char nonce[NONCE]) {
    uint8_t bytes[NONCE / 2];
    if (getrandom(bytes, sizeof bytes, 0) != sizeof bytes)
        die("getrandom: %m");
    for (size_t k = 0; k < sizeof bytes; k++)
        snprintf(nonce + 2 * k, 3, "%02x", bytes[k]);
}

static void link_close(struct link *link) {
    if (link->source.fd < 0)
        return;
    unwatch(&link->source);
    close(link->source.fd);
    link->source.fd = -1;
    link->closed(link);
}

static void write_out(struct link *link) {
    while (link->source.fd >= 0 && link->out.length) {
        ssize_t wrote = send(link->source.fd, link->out.bytes, link->out.length, MSG_NOSIGNAL);
        if (wrote < 0 && (errno == EAGAIN || errno == EINTR))
            break;
        if (wrote < 0) {
            link_close(link);
            return;
        }
        take_off(&link->out, wrote);
    }
    bool waits = link->out.length > 0;
    if (waits != link->waits && link->source.fd >= 0)
        watch_for(&link->source, waits ? EPOLLIN | EPOLLOUT : EPOLLIN);
    link->waits = waits;
}

// WORD, a blank, the line and its end.
static void link_add(struct link *link, const char *word, const char *line, size_t length) {
    add(&link->frame, word, strlen(word));
    add(&link->frame, " ", 1);
    add(&link->frame, line, length);
    add(&link->frame, "\n", 1);
}

static void seal_frame(const struct link *link, bool is_dialler, unsigned long long place, const char *bytes, size_t length, char sealed[SEAL_TEXT]) {
    char text[64];
    snprintf(text, sizeof text, "%s %llu", is_dialler ? "dialler" : "listener", place);
    seal(&link->session, text, bytes, length, sealed);
}

static void link_flush(struct link *link) {
    char sealed[SEAL_TEXT];
    if (!link->open || !link->frame.length)
        return;
    if (link->out.length > FRAME) {     // (nobody reads at the other end)
        link_close(link);
        return;
    }
    seal_frame(link, link->dials, link->sent++, link->frame.bytes, link->frame.length, sealed);
    add_text(&link->out, "%zu %s\n", link->frame.length, sealed);
    add(&link->out, link->frame.bytes, link->frame.length);
    link->frame.length = 0;
    write_out(link);
}

// What both ends have to know, so that a proof is of this connection: who dials, and both random numbers.
static void proof(const struct link *link, const char *word, int node, char sealed[SEAL_TEXT]) {
    char text[FIRST_LINE];
    snprintf(text, sizeof text, "%s %d %s %d %s %s", word, PROTOCOL, settings.cluster, node, link->dials ? link->theirs : link->mine,
             link->dials ? link->mine : link->theirs);
    seal(&shared, text, "", 0, sealed);
}

static void open_link(struct link *link, int dialler) {
    char text[FIRST_LINE];
    snprintf(text, sizeof text, "session %d %s %s", dialler, link->dials ? link->theirs : link->mine, link->dials ? link->mine : link->theirs);
    seal_derive(&shared, text, &link->session);
    link->open = true;
    link->opened(link);
}

// The first lines: `nuvnode VERSION CLUSTER NONCE`, `nuvnode VERSION CLUSTER NODE NONCE PROOF`, `welcome PROOF`.
static void take_first_line(struct link *link, const char *line) {
    char cluster[65], proved[SEAL_TEXT], wanted[SEAL_TEXT];
    int version, node;
    if (link->dials && !link->theirs[0]) {
        if (sscanf(line, "nuvnode %d %64s %32s", &version, cluster, link->theirs) != 3 || version != PROTOCOL || strcmp(cluster, settings.cluster))
            die("the node that orders speaks otherwise, or is of another cluster: %.80s", line);
        make_nonce(link->mine);
        proof(link, "join", settings.me, wanted);
        add_text(&link->out, "nuvnode %d %s %d %s %s\n", PROTOCOL, settings.cluster, settings.me, link->mine, wanted);
        write_out(link);
    } else if (link->dials) {
        proof(link, "welcome", settings.me, wanted);
        if (sscanf(line, "welcome %64s", proved) != 1 || !seal_is_same(proved, wanted))
            die("the node that orders has another key");
        open_link(link, settings.me);
    } else {
        int count = sscanf(line, "nuvnode %d %64s %d %32s %64s", &version, cluster, &node, link->theirs, proved);
        bool knows = count == 5 && version == PROTOCOL && !strcmp(cluster, settings.cluster) && node >= 1 && node <= settings.nodes && node != settings.me;
        proof(link, "join", knows ? node : 0, wanted);
        if (!knows || !seal_is_same(proved, wanted)) {
            say("somebody is turned away");
            link_close(link);
            return;
        }
        proof(link, "welcome", node, wanted);
        add_text(&link->out, "welcome %s\n", wanted);
        link->node = node;
        open_link(link, node);
    }
}

// A whole frame at the place: its bytes follow its first line. How far it goes, or 0 where it is not whole, or closed.
static size_t take_frame(struct link *link, size_t at) {
    char sealed[SEAL_TEXT], wanted[SEAL_TEXT], *end = memchr(link->in.bytes + at, '\n', link->in.length - at);
    size_t length, place = 0, size;
    if (!end)
        return 0;
    size_t begins = end + 1 - link->in.bytes;
    if (sscanf(link->in.bytes + at, "%zu %64s", &length, sealed) != 2 || length > FRAME) {
        link_close(link);
        return 0;
    }
    if (link->in.length - begins < length)
        return 0;
    seal_frame(link, !link->dials, link->got++, link->in.bytes + begins, length, wanted);
    if (!seal_is_same(sealed, wanted)) {
        say("a frame has a wrong seal");
        link_close(link);
        return 0;
    }
    struct buffer body = {link->in.bytes + begins, length, length};
    char *line;
    while (link->source.fd >= 0 && (line = next_line(&body, &place, &size)))
        link->line(link, line);
    return begins + length - at;
}

static void take_bytes(struct link *link) {
    size_t at = 0, length, part;
    char *line;
    while (link->source.fd >= 0 && !link->open && (line = next_line(&link->in, &at, &length)))
        take_first_line(link, line);
    while (link->source.fd >= 0 && link->open && at < link->in.length && (part = take_frame(link, at)))
        at += part;
    if (link->source.fd < 0)
        return;
    take_off(&link->in, at);
    if (!link->open && link->in.length > FIRST_LINE)
        link_close(link);
}

static void ready(struct source *source, uint32_t events) {
    struct link *link = source->of;
    char bytes[AT_ONCE];
    if (events & EPOLLOUT && !(events & (EPOLLERR | EPOLLHUP)))
        write_out(link);
    if (link->source.fd < 0 || !(events & (EPOLLIN | EPOLLERR | EPOLLHUP)))
        return;
    ssize_t length = recv(source->fd, bytes, sizeof bytes, 0);
    if (length < 0 && (errno == EAGAIN || errno == EINTR))
        return;
    if (length <= 0) {
        link->ended = length == 0;
        link_close(link);
        return;
    }
    add(&link->in, bytes, length);
    take_bytes(link);
}

static void link_begin(struct link *link, int descriptor) {
    int one = 1;
    setsockopt(descriptor, IPPROTO_TCP, TCP_NODELAY, &one, sizeof one);
    link->source = (struct source){descriptor, ready, link};
    watch(&link->source, EPOLLIN);
    if (link->dials)
        return;
    make_nonce(link->mine);
    add_text(&link->out, "nuvnode %d %s %s\n", PROTOCOL, settings.cluster, link->mine);
    write_out(link);
}

enum { ORDERS = 1, FIRST_PORT = 7400, PATIENCE_MS = 200 };
static struct link *links;              // of the one that orders
static struct link *to_orderer;
static struct source listener;
static struct buffer own;               // lines that come to the one that orders itself
static uint64_t members;
static int64_t dialled;

static bool orders(void) { return settings.me == ORDERS; }

static struct link *link_of(int node) {
    for (struct link *link = links; link; link = link->next)
        if (link->node == node && link->open)
            return link;
    return NULL;
}

// A line in its place of the one order: to each link, and to this node at the end of the turn.
static void to_all(const char *line, size_t length) {
    for (struct link *link = links; link; link = link->next)
        if (link->open)
            link_add(link, "D", line, length);
    add(&own, line, length);
    add(&own, "\n", 1);
}

static void tell_members(uint64_t died, uint64_t lost) {
    char line[128];
    int length = snprintf(line, sizeof line, "0 V %llx %llx %llx", (unsigned long long)members, (unsigned long long)died, (unsigned long long)lost);
    to_all(line, length);
}

static void order_from(int node, const char *line, size_t length) {
    struct buffer text = {0};
    add_text(&text, "%d ", node);
    add(&text, line, length);
    to_all(text.bytes, text.length);
    drop_buffer(&text);
}

// `FROM LINE`, as it comes to each node.
static void come(char *text) {
    unsigned long long now_members, died, lost;
    char *line;
    long from = strtol(text, &line, 10);
    if (from == 0 && sscanf(line, " V %llx %llx %llx", &now_members, &died, &lost) == 3)
        view_changed(now_members, died, lost);
    else if (*line == ' ')
        view_line((int)from, line + 1);
}

static void send_order(const char *line, size_t length) {
    if (orders())
        order_from(settings.me, line, length);
    else if (to_orderer && to_orderer->open)
        link_add(to_orderer, "O", line, length);
}

static void post(int node, const char *line, size_t length) {
    char word[16];
    struct link *link = orders() ? link_of(node) : to_orderer;
    snprintf(word, sizeof word, orders() ? "M" : "P %d", node);
    if (link && link->open)
        link_add(link, word, line, length);
}

// A line of another node, at the one that orders; or of that, at another.
static void take_line(struct link *link, char *line) {
    char *rest;
    if (line[0] == 'M' && line[1] == ' ') {
        mail_came(line + 2);
    } else if (link->dials && line[0] == 'D' && line[1] == ' ') {
        come(line + 2);
    } else if (line[0] == 'O' && line[1] == ' ') {
        order_from(link->node, line + 2, strlen(line + 2));
    } else if (line[0] == 'P' && line[1] == ' ') {
        long to = strtol(line + 2, &rest, 10);
        if (to == settings.me)
            mail_came(rest + 1);
        else if (*rest == ' ')
            post((int)to, rest + 1, strlen(rest + 1));
    }
}

static void came_in(struct link *link) {
    for (struct link *other = links; other; other = other->next)
        if (other != link && other->open && other->node == link->node) {    // the daemon before this one: it can't run any longer
            other->open = false;
            members &= ~bit(link->node);
            tell_members(bit(link->node), 0);
            link_close(other);
            break;
        }
    members |= bit(link->node);
    tell_members(0, 0);
}

static void drop_link(struct link *link) {
    drop_buffer(&link->frame);
    drop_buffer(&link->out);
    free_later(link->in.bytes);         // (its lines may be in work)
    free_later(link);
}

static void went(struct link *link) {
    for (struct link **at = &links; *at; at = &(*at)->next)
        if (*at == link) {
            *at = link->next;
            break;
        }
    if (link->open) {
        link->open = false;
        members &= ~bit(link->node);
        tell_members(link->ended ? bit(link->node) : 0, link->ended ? 0 : bit(link->node));
    }
    drop_link(link);
}

// How many that dialled did not prove the key yet.
static int strangers(void) {
    int count = 0;
    for (struct link *link = links; link; link = link->next)
        count += !link->open;
    return count;
}

static void came(struct source *source, uint32_t events) {
    (void)events;
    int descriptor = accept4(source->fd, NULL, NULL, SOCK_NONBLOCK | SOCK_CLOEXEC);
    if (descriptor < 0 || strangers() >= MOST_NODES) {
        close(descriptor);
        return;
    }
    struct link *link = room_for(1, sizeof *link);
    link->line = take_line;
    link->opened = came_in;
    link->closed = went;
    link->next = links;
    links = link;
    link_begin(link, descriptor);
}

static void is_member(struct link *link) { (void)link; }

static void lost_orderer(struct link *link) {
    if (link->open)
        die("the node that orders is gone: fences itself");
    drop_link(link);
    to_orderer = NULL;
}

static struct sockaddr_in address(void) {
    struct sockaddr_in address = {.sin_family = AF_INET, .sin_port = htons(FIRST_PORT), .sin_addr.s_addr = htonl(INADDR_LOOPBACK)};
    char host[64];
    int port;
    if (!settings.members)
        return address;
    if (sscanf(settings.members, "%63[^:]:%d", host, &port) != 2 || !inet_aton(host, &address.sin_addr))
        die("%s is no ADDRESS:PORT", settings.members);
    address.sin_port = htons(port);
    return address;
}

static void dial(void) {
    struct sockaddr_in at = address();
    if (to_orderer || now() - dialled < PATIENCE_MS * MS)
        return;
    dialled = now();
    int descriptor = socket(AF_INET, SOCK_STREAM | SOCK_CLOEXEC, 0);
    if (descriptor < 0)
        die("socket: %m");
    struct timeval patience = {1, 0};
    setsockopt(descriptor, SOL_SOCKET, SO_SNDTIMEO, &patience, sizeof patience);
    if (connect(descriptor, (struct sockaddr *)&at, sizeof at)) {
        close(descriptor);
        return;
    }
    fcntl(descriptor, F_SETFL, O_NONBLOCK);
    struct link *link = to_orderer = room_for(1, sizeof *link);
    link->dials = true;
    link->node = ORDERS;
    link->line = take_line;
    link->opened = is_member;
    link->closed = lost_orderer;
    link_begin(link, descriptor);
}

static void begin(void) {
    struct sockaddr_in at = address();
    int one = 1;
    if (!settings.key)
        die("a key is needed: --key FILE");
    link_read_key();
    if (!orders())
        return;
    listener = (struct source){socket(AF_INET, SOCK_STREAM | SOCK_CLOEXEC | SOCK_NONBLOCK, 0), came, NULL};
    setsockopt(listener.fd, SOL_SOCKET, SO_REUSEADDR, &one, sizeof one);
    if (bind(listener.fd, (struct sockaddr *)&at, sizeof at) || listen(listener.fd, MOST_NODES))
        die("%s can't be listened at: %m", inet_ntoa(at.sin_addr));
    watch(&listener, EPOLLIN);
    members = bit(settings.me);
    tell_members(0, 0);
}

static void flush_all(void) {
    if (!orders())
        dial();
    while (own.length) {
        struct buffer lines = own;
        size_t at = 0, length;
        char *line;
        own = (struct buffer){0};
        while ((line = next_line(&lines, &at, &length)))
            come(line);
        drop_buffer(&lines);
    }
    for (struct link *link = links, *next; link; link = next) {
        next = link->next;
        link_flush(link);
    }
    if (to_orderer)
        link_flush(to_orderer);
}

static void evict(int node) {
    struct link *link = orders() ? link_of(node) : NULL;
    if (!link)
        return;
    link_flush(link);
    link_close(link);
}

const struct agreement agree_tcp = {false, begin, send_order, post, evict, flush_all};
