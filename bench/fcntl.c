// Locks and unlocks ten bytes of a file by fcntl(F_SETLK), so many times, and prints how many calls a second that was.
// usage: fcntl FILE CALLS
#include <fcntl.h>
#include <stdio.h>
#include <stdlib.h>
#include <time.h>
#include <unistd.h>

static double now(void) {
    struct timespec time;
    clock_gettime(CLOCK_MONOTONIC, &time);
    return (double)time.tv_sec + (double)time.tv_nsec / 1e9;
}

int main(int count, char **words) {
    if (count != 3) {
        fprintf(stderr, "usage: fcntl FILE CALLS\n");
        return 2;
    }
    long calls = atol(words[2]);
    int file = open(words[1], O_RDWR | O_CREAT, 0600);
    if (file < 0) {
        perror(words[1]);
        return 1;
    }
    double begun = now();
    for (long call = 0; call < calls; call++) {
        struct flock lock = {
            .l_type = call % 2 == 0 ? F_WRLCK : F_UNLCK,
            .l_whence = SEEK_SET,
            .l_start = call / 2 % 1000 * 10,
            .l_len = 10,
        };
        if (fcntl(file, F_SETLK, &lock) != 0) {
            perror("fcntl");
            return 1;
        }
    }
    printf("%.0f\n", (double)calls / (now() - begun));
    close(file);
    return 0;
}
