// What a call on threads costs at least where it goes through a mailbox: a client of each node puts a letter
// into the mailbox of its node's thread and waits for the answer; that thread takes the letter, counts it under the one
// mutex that all nodes share, and answers. (A call that its token covers a client makes on its own thread.) Prints how many calls a second all of them make.
// usage: limit NODES CALLS   (CALLS of each client)
#include <pthread.h>
#include <stdio.h>
#include <stdlib.h>
#include <time.h>

// A place for letters, of which one is under way at a time.
struct box {
    pthread_mutex_t mutex;
    pthread_cond_t came;
    long letters;
};

struct node {
    struct box mailbox;
    struct box answers;
    pthread_t client;
    pthread_t worker;
};

static pthread_mutex_t book = PTHREAD_MUTEX_INITIALIZER;
static long entries;
static long calls;

static double now(void) {
    struct timespec time;
    clock_gettime(CLOCK_MONOTONIC, &time);
    return (double)time.tv_sec + (double)time.tv_nsec / 1e9;
}

static void begin(struct box *box) {
    pthread_mutex_init(&box->mutex, NULL);
    pthread_cond_init(&box->came, NULL);
    box->letters = 0;
}

static void put(struct box *box) {
    pthread_mutex_lock(&box->mutex);
    box->letters++;
    pthread_cond_signal(&box->came);
    pthread_mutex_unlock(&box->mutex);
}

static void take(struct box *box) {
    pthread_mutex_lock(&box->mutex);
    while (box->letters == 0)
        pthread_cond_wait(&box->came, &box->mutex);
    box->letters--;
    pthread_mutex_unlock(&box->mutex);
}

static void *work(void *of) {
    struct node *node = of;
    for (long call = 0; call < calls; call++) {
        take(&node->mailbox);
        pthread_mutex_lock(&book);
        entries++;
        pthread_mutex_unlock(&book);
        put(&node->answers);
    }
    return NULL;
}

static void *ask(void *of) {
    struct node *node = of;
    for (long call = 0; call < calls; call++) {
        put(&node->mailbox);
        take(&node->answers);
    }
    return NULL;
}

int main(int count, char **words) {
    if (count != 3) {
        fprintf(stderr, "usage: limit NODES CALLS\n");
        return 2;
    }
    long nodes = atol(words[1]);
    calls = atol(words[2]);
    struct node *all = calloc((size_t)nodes, sizeof *all);
    if (all == NULL)
        return 1;
    double begun = now();
    for (long index = 0; index < nodes; index++) {
        begin(&all[index].mailbox);
        begin(&all[index].answers);
        if (pthread_create(&all[index].worker, NULL, work, &all[index]) != 0 ||
            pthread_create(&all[index].client, NULL, ask, &all[index]) != 0)
            return 1;
    }
    for (long index = 0; index < nodes; index++) {
        pthread_join(all[index].client, NULL);
        pthread_join(all[index].worker, NULL);
    }
    printf("%.0f\n", (double)entries / (now() - begun));
    free(all);
    return 0;
}
