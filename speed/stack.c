/* How much stack a call needs: it runs in a thread whose stack was painted beforehand. */
#define _GNU_SOURCE
#include <pthread.h>
#include <stdint.h>
#include <string.h>
#include <sys/mman.h>

enum { PAINT = 0xA5, PAGE = 4096 };

struct task {
    void (*call)(void *);
    void *with;
};

static void *carry_out(void *task)
{
    ((struct task *)task)->call(((struct task *)task)->with);
    return NULL;
}

static int run_on(uint8_t *stack, size_t room, struct task *task)
{
    pthread_attr_t attributes;
    pthread_t thread;
    if (pthread_attr_init(&attributes) != 0 || pthread_attr_setstack(&attributes, stack, room) != 0)
        return 0;
    int started = pthread_create(&thread, &attributes, carry_out, task) == 0;
    pthread_attr_destroy(&attributes);
    return started && pthread_join(thread, NULL) == 0;
}

/* A painted stack of so many bytes, whole pages, above one that nothing may touch; NULL where there is none. */
uint8_t *stack_painted(size_t room)
{
    uint8_t *pages = mmap(NULL, PAGE + room, PROT_READ | PROT_WRITE, MAP_PRIVATE | MAP_ANONYMOUS, -1, 0);
    if (pages == MAP_FAILED || mprotect(pages, PAGE, PROT_NONE) != 0)
        return NULL;
    memset(pages + PAGE, PAINT, room);
    return pages + PAGE;
}

/* How many bytes from the stack's end on are as painted: page by page, then within a page. */
static size_t untouched(const uint8_t *stack, size_t room)
{
    uint8_t paint[PAGE];
    size_t bytes = 0;
    memset(paint, PAINT, PAGE);
    while (bytes < room && memcmp(stack + bytes, paint, PAGE) == 0)
        bytes += PAGE;
    while (bytes < room && stack[bytes] == PAINT)
        bytes++;
    return bytes;
}

/* The bytes of the stack that the call touched, the thread's own among them; 0 where it could not be run. It is
 * painted again afterwards. */
size_t stack_touched(uint8_t *stack, size_t room, void (*call)(void *), void *with)
{
    struct task task = {call, with};
    int done = run_on(stack, room, &task);
    size_t bytes = untouched(stack, room);
    memset(stack + bytes, PAINT, room - bytes);
    return done ? room - bytes : 0;
}
