/* A queue of jobs in a ring,
   and a few things beside it */
#include <stdio.h>
#define LINES(n) \
    for (int line = 0; line < (n); line++)

enum state { WAITING, RUNNING = 1 << 1, DONE, };
enum { LIMIT = 16 };
struct job;
union value { long long whole; double real; char bytes[sizeof(double)]; };
typedef struct job {
    const char *name, **aliases;
    unsigned int urgent : 1, : 3, id : 4;
    enum state state;
    struct { int x, y; };
    int (*run)(struct job *, int);
} *job_link;

extern int printf(const char *restrict format, ...);
static volatile short signed count = 0, limit = LIMIT;
float _Complex wave;
static const int table[LIMIT][2] = { [0] = { 1, 2 }, [1][0] = 3, 07, 0x1Ful, };
struct job first = { .name = "first" L"\u00e9\x41\0", .state = WAITING }, *queue[LIMIT];
_Bool (*tests[2])(void), (*find(int key))(void);
void fill(int n, float into[static 4], float from[const restrict], int [], int [*], double (*)[3], int (*)(int));
double mean(double (int), double *[2], double (*f(int))(double), register int (*(*))(), int (*)[2][3]);

int old(a, b, c)
    int a, b;
    char c;
{
    return a ? b : c;
}

inline static int step(struct job *job, int ticks)
{
    auto int left = ticks % 3, mask = ~0;
    if (!job || job->state == DONE && ticks != 0)
        return -1;
    if (ticks > 10)
        if (job->urgent)
            left = +ticks;
        else
            left = ticks / 2 - 1;
    else if (ticks >= 5)
        while (left <= 5)
            left++;
    else
        for (;;)
            if (left-- < 1) break; else ++left;
    switch (job->state) {
    case WAITING:
    case RUNNING + 1: job->state = RUNNING; break;
    default:
        goto end;
    }
    for (int i = 0; i < 4; i += 2) {
        mask &= i ^ 1; mask |= i | 1; mask ^= ~i & 7; mask <<= 1; mask >>= 2 << 1;
        if (i == 2) continue;
        mask *= 3, mask /= 2; mask %= 5; mask -= 1 >> 0;
        while (i) if (mask) ; else if (left) mask = 0;
    }
    do --left; while ((left > 'a') || left == L'\n');
retry: if (left) if (mask) left = 0; else retry_too: if (count) goto retry;
end:
    queue[0]->name = (const char *)job->aliases[*&left * 1];
    (void)printf("%d %f\n", (int)1.5e-3f, .5 + 0x1.8p1), old();
    return sizeof left + sizeof(int *(*)[3]) + (union value){ .real = 1. }.whole + tests[0]();
}

/* Names that are types, macros, and what GNU C adds. */
#define NOTE "a string, /* and no comment */" /* a comment that
    ends on a further line */
#define LIST_HEAD(name, type) struct name { struct type *first; }
#define LIST_LINK(type) struct { struct type *next; }
#define MODULE(...)
#define FAST
#define UNUSED __attribute__((unused))
#define EMPTY { 0 }
#define EACH(item, list) for (; (item) < (list); (item)++)
#define PRINTS(from, ...) __attribute__((format (printf, from, from + 1)))
#define LINK(type) struct type
#define QUOTE(text) #text
#define RUN "run " NOTE

extern "C" {
typedef unsigned long size;
}
typedef size (*measure)(const job_link *, size), (*(*makers[2])(void))(int);
typedef int(pair)[2];
size (*current)(const job_link *, size);
size (*rows)[4], (*columns[2]) = EMPTY;
static size (*chosen)(const job_link *list, size most) = 0;
FAST const size (*last)[2] = 0;
extern size (*common)(size) __attribute__((unused)); int (*kin)(size) __attribute__((unused)) = 0;
MODULE(queue, "jobs" NOTE, 1, 'q', 1.5, (deep), table[2], pick(one), link(two)*, link(three) *four, size (*five)(int))
MODULE(, queue)
MODULE("queue")
LIST_HEAD(jobs, job) waiting = EMPTY;
LIST_HEAD(others, job) other;
LIST_HEAD(grids, job) grid[2][3];
*forward;
static_assert(sizeof(size) >= 4, "a size " NOTE);
__attribute__((visibility("default"))) int shown;
size __attribute__((aligned(8))) wide = 1, *__attribute__((unused)) far __attribute__((unused)), __attribute__((unused)) near;
static const __attribute__((unused)) size places UNUSED __asm__("places") = 3;
struct __attribute__((packed)) packed {
    LIST_LINK(job) links;
    LIST_LINK(job);
    uint32 : 3, kept : 2;
    uint16 : 4;
    unsigned : 2, (*ready)(void);
    size aligned __attribute__((aligned(8))), most, *FAST const next, *__attribute__((unused)) after UNUSED, *FAST *last;
    size (*weigh)(size);
    const size (*heights)[2];
    const (*old)(void), new;
    FAST size (*cost)(void);
    int count(void) UNUSED, (*both);;
    __attribute__((unused)) int spare;
};

size run(job_link link, size *restrict most, size const *least, size *, const size *(*)(void), size (*weigh)(size),
    const size (*back)(int), FAST size (*front)(int), size last[], size [2], int flag __attribute__((unused)), size next __attribute__((unused)),
    int call(int) UNUSED, size hook(int) UNUSED, LINK(job) *job, ...) PRINTS(1, 2) FAST;
extern size FAST stop(void) UNUSED, (begin)(void), ((*finish)(void)), *FAST *deep(int), *(*find_all(void))(void), *FAST far_call(int), CALL(one)(int);
measure choose(int key) __attribute__((pure)) __asm__ volatile ("choose" :: [key] "r" (key), "m" count : "memory");
size tables[2][3] = { [0 ... 1] = {}, };
_Alignas(16) __typeof__(tables[0]) row;

int print(size)
    size most;
{
    return 0;
}
size older(most, least) size most, *least; { return most; }
int closed(void) UNUSED { return 1; };
const (*taken(void))(void) { return 0; }
static size (*picked(void))(size) { return 0; }
FAST static size (*kept(void))(size) { return 0; }
FAST size (*held(void))(size) { return 0; }
size (*made(int key))(size) { return 0; }
size (*(*remade)(void))[2];
size (*(other)(int));
size FAST count_up(size from) UNUSED { return from; }
size count_down(size from) { return from + 1; }
FAST const size (*nested(void))(size) { return 0; }
main(void)
{
    size most = (size)4, *place = (size *)&most, **deep = (size *const *)0, *const fixed = (size *const)0;
    size const least = (size)"a"[0], other = (size)~0 + (size)!most + (size)sizeof most + (size)sizeof(int);
    __attribute__((unused)) int spare;
    const size (*two)[2] = (const size (*)[2])0;
    FAST size (*call)(size) = (FAST size (*)(size))0;
    most = (size)(int *)place->rest[1]++ + (size)'a'-- - (size).5 * (size)call(1).most + (size)"a" NOTE "b" NOTE;
    most = (size)sizeof(size *) + sizeof(size *) + sizeof(size) + (size)1;
    (void)((size *){ 0 })[0], (size[]){ 1 }, (measure)(call), (unsigned size){ 2 }, (pair){ 3 };
    (place)->most = (*place).most, (most)++, (most)--, (place)[1] = (chosen)(place, 2);
    printf("a " NOTE "b", NOTE "c", QUOTE(d) "e" NOTE "f"), pick(size *, *, size **, const *const, unsigned size);
    EACH(most, 10) { continue; }
    most = _Generic(most, int: 1, size: 2, default: 3) + ({ size inner = 1; inner; });
    __asm__ volatile ("nop" : "=r" (most) : "0" (least));
    while (most--, most) goto *&&done;
done:
    switch (most) { case 1 ... 5: __attribute__((fallthrough)); default: ; }
    most == 1 ? print(1) : print(2); most ?: least; most || print(1); most && print(1); most | 1; most ^ 1; most & 1;
    most < 1; most << 1; most + 1; most / 2;
}
