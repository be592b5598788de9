/* A client of `serve` that measures it: live W4 CART REC FONT OUT.
 *
 * The recording has 36,000 frames. Every 60th place is kept. Then, for 300 of these, it is shown twice, an input 5
 * frames after it is set, and the image and the state's line 30 frames after it are asked for. Writes milliseconds: a
 * frame on average, the rest as medians. */
#include <stdio.h>
#include <stdlib.h>
#include <string.h>
#include <sys/wait.h>
#include <time.h>
#include <unistd.h>

enum { TIMES = 300, EVERY = 60, FRAMES = 36000 };

static int orders, answers;
static char got[1 << 20];

static double now(void) {
    struct timespec t;
    clock_gettime(CLOCK_MONOTONIC, &t);
    return t.tv_sec * 1e3 + t.tv_nsec / 1e6;
}

/* Reads more of the answer. */
static long more(long have) {
    long n = read(answers, got + have, sizeof got - have);
    if (n <= 0) {
        fputs("bench/live: the session ended\n", stderr);
        exit(1);
    }
    return have + n;
}

/* Writes a line and reads its answer, pieces and end: each piece has its length before it, and the end is 0. */
static double ask(const char *line) {
    double start = now();
    long have = 0, at = 0;
    if (write(orders, line, strlen(line)) < 0) exit(1);
    for (;;) {
        char *end;
        while (!(end = memchr(got + at, '\n', have - at))) have = more(have);
        long length = atol(got + at);
        at = end - got + 1;
        if (length == 0) return now() - start;
        while (have - at < length) have = more(have);
        at += length;
    }
}

static int by_size(const void *a, const void *b) {
    double x = *(const double *)a, y = *(const double *)b;
    return (x > y) - (x < y);
}

static double median(double *times) {
    qsort(times, TIMES, sizeof *times, by_size);
    return times[TIMES / 2];
}

int main(int count, char **words) {
    static double kept[TIMES], set[TIMES], show[TIMES], state[TIMES], all[TIMES];
    int to[2], from[2];
    char line[100];
    if (count < 6 || pipe(to) || pipe(from)) return 1;
    if (fork() == 0) {
        dup2(to[0], 0);
        dup2(from[1], 1);
        close(to[1]);
        close(from[0]);
        execl(words[1], words[1], "serve", words[2], words[3], words[4], words[5], (char *)0);
        _exit(127);
    }
    close(to[0]);
    close(from[1]);
    orders = to[1];
    answers = from[0];
    double frame = ask("keep-every 60\n") / FRAMES;
    for (int i = 0; i < TIMES; i++) {
        int place = EVERY * (250 + i);
        snprintf(line, sizeof line, "show %d\n", place);
        ask(line);
        kept[i] = ask(line);
        snprintf(line, sizeof line, "set %d %d 0 0 0 0 0 0\n", place + 5, i % 255 + 1);
        set[i] = ask(line);
        snprintf(line, sizeof line, "show %d\n", place + 30);
        show[i] = ask(line);
        snprintf(line, sizeof line, "state %d\n", place + 30);
        state[i] = ask(line);
        all[i] = set[i] + show[i] + state[i];
    }
    printf("frame %.4f  set %.3f  show %.3f  state %.3f  all three %.3f  1.5 times 30 frames + 0.2: %.3f  "
           "shown again %.3f\n",
           frame, median(set), median(show), median(state), median(all), 1.5 * 30 * frame + 0.2, median(kept));
    close(orders);
    wait(0);
    return 0;
}
