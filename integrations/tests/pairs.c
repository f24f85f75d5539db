// pairs FILE COUNT: so many times locks byte 0, waiting for it, and unlocks it. Prints when it began and ended, in seconds, and the median and the 99th
// hundredth of a pair's time, in microseconds.
#define _GNU_SOURCE
#include <fcntl.h>
#include <stdio.h>
#include <stdlib.h>
#include <time.h>

static double now(void) {
    struct timespec time;
    clock_gettime(CLOCK_MONOTONIC, &time);
    return (double)time.tv_sec + (double)time.tv_nsec / 1e9;
}

static int by_size(const void *one, const void *other) {
    double difference = *(const double *)one - *(const double *)other;
    return (difference > 0) - (difference < 0);
}

static void pair(int file) {
    struct flock lock = {.l_type = F_WRLCK, .l_whence = SEEK_SET, .l_start = 0, .l_len = 1};
    if (!fcntl(file, F_SETLKW, &lock)) {
        lock.l_type = F_UNLCK;
        if (!fcntl(file, F_SETLK, &lock))
            return;
    }
    perror("fcntl");
    exit(1);
}

int main(int words, char **word) {
    int count = words == 3 ? atoi(word[2]) : 0, file = count > 0 ? open(word[1], O_RDWR | O_CREAT, 0666) : -1;
    double *times = calloc(count > 0 ? (size_t)count : 1, sizeof *times);
    if (file < 0 || !times)
        return 2;
    pair(file);
    double begun = now();
    for (int k = 0; k < count; k++) {
        double since = now();
        pair(file);
        times[k] = (now() - since) * 1e6;
    }
    double ended = now();
    qsort(times, (size_t)count, sizeof *times, by_size);
    printf("%.6f %.6f %.1f %.1f\n", begun, ended, times[count / 2], times[count - 1 - count / 100]);
    return 0;
}
