/* Preloaded before a program, refuses its growth of memory with the number REFUSED_GROWTH, counted from 1, and no other,
   and writes how many there were to the file REFUSED_COUNT where the program ends. bench/refused uses it. Where
   REFUSED_THREAD has the number of a thread, from 1 on in the order in which they are made, growths of that thread alone
   count, and from that one on all of them are refused; who made it goes on when one is refused, or it is over, or half a
   second has passed. .ci/refused.py uses it so, with one thread that is made. */
#define _GNU_SOURCE
#include <dlfcn.h>
#include <errno.h>
#include <fcntl.h>
#include <pthread.h>
#include <stdio.h>
#include <stdlib.h>
#include <sys/syscall.h>
#include <unistd.h>

extern void *__libc_malloc(size_t);
extern void *__libc_realloc(void *, size_t);

struct work {
    void *(*run)(void *);
    void *with;
};

static unsigned long refused, count, thread, made, is_over;
static __thread int is_thread;

static unsigned long number_of(const char *name) {
    const char *number = getenv(name);
    return number ? strtoul(number, NULL, 10) : 0;
}

__attribute__((constructor)) static void begin(void) {
    refused = number_of("REFUSED_GROWTH");
    thread = number_of("REFUSED_THREAD");
    count = 0;
}

static void tell(void) {
    const char *path = getenv("REFUSED_COUNT");
    int file = path ? open(path, O_WRONLY | O_CREAT | O_TRUNC, 0600) : -1;
    if (file >= 0) {
        dprintf(file, "%lu\n", count);
        close(file);
    }
}

__attribute__((destructor)) static void end(void) {
    tell();
}

/* A program may end without what is registered for its end. */
void _exit(int status) {
    tell();
    syscall(SYS_exit_group, status);
    __builtin_unreachable();
}

static int is_refused(void) {
    if (thread && !is_thread) {
        return 0;
    }
    unsigned long number = __atomic_add_fetch(&count, 1, __ATOMIC_RELAXED);
    if (thread ? number < refused : number != refused) {
        return 0;
    }
    errno = ENOMEM;
    return 1;
}

void *malloc(size_t size) {
    return is_refused() ? NULL : __libc_malloc(size);
}

void *realloc(void *old, size_t size) {
    return is_refused() ? NULL : __libc_realloc(old, size);
}

static void *run(void *given) {
    struct work work = *(struct work *)given;
    free(given);
    is_thread = 1;
    void *answer = work.run(work.with);
    __atomic_store_n(&is_over, 1, __ATOMIC_SEQ_CST);
    return answer;
}

static void wait_for_thread(void) {
    for (int look = 0; look < 5000 && !__atomic_load_n(&is_over, __ATOMIC_SEQ_CST); look++) {
        if (__atomic_load_n(&count, __ATOMIC_SEQ_CST) >= refused) {
            return;
        }
        usleep(100);
    }
}

int pthread_create(pthread_t *made_as, const pthread_attr_t *as, void *(*start)(void *), void *with) {
    int (*create)(pthread_t *, const pthread_attr_t *, void *(*)(void *), void *) = dlsym(RTLD_NEXT, "pthread_create");
    if (!thread || __atomic_add_fetch(&made, 1, __ATOMIC_RELAXED) != thread) {
        return create(made_as, as, start, with);
    }
    struct work *work = __libc_malloc(sizeof *work);
    if (!work) {
        return EAGAIN;
    }
    *work = (struct work){start, with};
    int fault = create(made_as, as, run, work);
    if (!fault) {
        wait_for_thread();
    }
    return fault;
}
