/* Tells what processor time a program's critical path takes, where its first thread starts others in rounds and waits for all of a
   round: LD_PRELOAD puts this before the C library's threads. Where the program ends, the file that CRITICAL_PATH names gets a line:
   the seconds of the path, those of all threads, and how many rounds there were. A round takes as long as the longest of its threads,
   the first among them. */
#define _GNU_SOURCE
#include <dlfcn.h>
#include <pthread.h>
#include <stdio.h>
#include <stdlib.h>
#include <sys/syscall.h>
#include <time.h>
#include <unistd.h>

struct start {
    void *(*work)(void *);
    void *with;
};

static pthread_mutex_t turn = PTHREAD_MUTEX_INITIALIZER;
static clockid_t first;         /* the first thread's clock */
static double began, longest;   /* of a round: the first thread's time, and the longest of the others */
static double saved, others;    /* what the rounds take beyond the first thread's time; what the others took in all */
static int running, rounds;

static double seconds(clockid_t clock) {
    struct timespec now;
    clock_gettime(clock, &now);
    return now.tv_sec + now.tv_nsec / 1e9;
}

static void ends(double took) {
    pthread_mutex_lock(&turn);
    others += took;
    if (took > longest) longest = took;
    if (--running == 0) {
        double own = seconds(first) - began;
        if (longest > own) saved += longest - own;
    }
    pthread_mutex_unlock(&turn);
}

static void *run(void *given) {
    struct start start = *(struct start *)given;
    free(given);
    void *came = start.work(start.with);
    ends(seconds(CLOCK_THREAD_CPUTIME_ID));
    return came;
}

int pthread_create(pthread_t *thread, const pthread_attr_t *how, void *(*work)(void *), void *with) {
    static int (*create)(pthread_t *, const pthread_attr_t *, void *(*)(void *), void *);
    if (!create) *(void **)&create = dlsym(RTLD_NEXT, "pthread_create");
    struct start *start = malloc(sizeof *start);
    if (!start) return 11; /* EAGAIN */
    *start = (struct start){work, with};
    pthread_mutex_lock(&turn);
    if (running++ == 0) {
        began = seconds(first);
        longest = 0;
        rounds++;
    }
    pthread_mutex_unlock(&turn);
    int refused = create(thread, how, run, start);
    if (refused) {
        free(start);
        pthread_mutex_lock(&turn);
        running--;
        pthread_mutex_unlock(&turn);
    }
    return refused;
}

__attribute__((constructor)) static void begin(void) { pthread_getcpuclockid(pthread_self(), &first); }

static void tell(void) {
    const char *name = getenv("CRITICAL_PATH");
    FILE *file = name ? fopen(name, "w") : 0;
    if (!file) return;
    double own = seconds(first);
    fprintf(file, "%.6f %.6f %d\n", own + saved, own + others, rounds);
    fclose(file);
}

/* (the toolchain's programs end so) */
void _exit(int status) {
    tell();
    syscall(SYS_exit_group, status);
    __builtin_unreachable();
}
