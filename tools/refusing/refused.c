/* Refuses allocations of the program that it is loaded into (LD_PRELOAD), as the file of REFUSED_BY says, which
   tools/refused maps too: `left` allocations pass (a negative number: all), then one is refused, or all where `all` is
   set. `met` counts those that were refused. Of fewer bytes than `least` each passes, and isn't counted. */
#include <errno.h>
#include <fcntl.h>
#include <stdatomic.h>
#include <stddef.h>
#include <stdlib.h>
#include <sys/mman.h>
#include <unistd.h>

struct orders {
    _Atomic long left, all, met, least;
};

extern void *__libc_malloc(size_t);
extern void *__libc_calloc(size_t, size_t);
extern void *__libc_realloc(void *, size_t);

static struct orders none = {-1, 0, 0, 0};
static struct orders *orders = &none;

__attribute__((constructor)) static void begin(void) {
    const char *path = getenv("REFUSED_BY");
    int file = path ? open(path, O_RDWR | O_CLOEXEC) : -1;
    void *page = file < 0 ? MAP_FAILED : mmap(0, sizeof none, PROT_READ | PROT_WRITE, MAP_SHARED, file, 0);
    if (page == MAP_FAILED)
        _exit(99);
    close(file);
    orders = page;
}

static int refuses(size_t size) {
    if (size < (size_t)atomic_load(&orders->least))
        return 0;
    long left = atomic_load(&orders->left);
    while (left > 0)
        if (atomic_compare_exchange_weak(&orders->left, &left, left - 1))
            return 0;
    if (left < 0 || (!orders->all && !atomic_compare_exchange_strong(&orders->left, &left, -1)))
        return 0;
    atomic_fetch_add(&orders->met, 1);
    errno = ENOMEM;
    return 1;
}

void *malloc(size_t size) { return refuses(size) ? 0 : __libc_malloc(size); }
void *calloc(size_t number, size_t size) { return refuses(number * size) ? 0 : __libc_calloc(number, size); }
void *realloc(void *old, size_t size) { return refuses(size) ? 0 : __libc_realloc(old, size); }
