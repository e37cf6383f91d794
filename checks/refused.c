/* Refuses requests for memory and threads of the program that loads it first. The file that REFUSED names holds five numbers of
   64 bits: the first and the last request for memory that are refused, counted from 1, how many there were, how many of these
   were refused, and how many of the next threads are refused. The first two and the last may be changed while the program
   runs. */
#define _GNU_SOURCE
#include <dlfcn.h>
#include <errno.h>
#include <fcntl.h>
#include <pthread.h>
#include <stddef.h>
#include <stdint.h>
#include <stdlib.h>
#include <sys/mman.h>
#include <unistd.h>

/* What the C library calls its own. */
void *__libc_malloc(size_t size);
void *__libc_realloc(void *block, size_t size);

enum { FIRST, LAST, REQUESTS, REFUSED, THREADS, NUMBERS };

static volatile uint64_t *numbers;

__attribute__((constructor)) static void share_numbers(void) {
    const char *path = getenv("REFUSED");
    int file = path ? open(path, O_RDWR) : -1;
    if (file < 0)
        _exit(99);
    void *place = mmap(NULL, NUMBERS * sizeof(uint64_t), PROT_READ | PROT_WRITE, MAP_SHARED, file, 0);
    close(file);
    if (place == MAP_FAILED)
        _exit(99);
    numbers = place;
}

/* Counts a request. Those before the numbers are shared are the system's, and are granted. */
static int is_refused(void) {
    if (!numbers)
        return 0;
    uint64_t request = __atomic_add_fetch(&numbers[REQUESTS], 1, __ATOMIC_SEQ_CST);
    if (request < numbers[FIRST] || request > numbers[LAST])
        return 0;
    __atomic_add_fetch(&numbers[REFUSED], 1, __ATOMIC_SEQ_CST);
    errno = ENOMEM;
    return 1;
}

void *malloc(size_t size) {
    return is_refused() ? NULL : __libc_malloc(size);
}

void *realloc(void *block, size_t size) {
    return is_refused() ? NULL : __libc_realloc(block, size);
}

int pthread_create(pthread_t *thread, const pthread_attr_t *attributes, void *(*run)(void *), void *given) {
    static int (*create)(pthread_t *, const pthread_attr_t *, void *(*)(void *), void *);
    if (!create)
        create = dlsym(RTLD_NEXT, "pthread_create");
    if (numbers && numbers[THREADS]) {
        numbers[THREADS]--;
        return EAGAIN;
    }
    return create(thread, attributes, run, given);
}
