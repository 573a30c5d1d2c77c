/* Makes the calls of a list (written by board-bench) on the board's library or on the independent board.
 *
 *   driver count board|independent|nothing   each kind once; bench_begin and bench_end stand round each call, bench_mark behind a kind
 *   driver stack board|independent           the greatest stack use of each kind, one line each (x86-64)
 *   driver time board|independent            nanoseconds of each kind that can be repeated
 *
 * The list is read from standard input. Compiled without headers, so that no x86-64 ones are needed on another machine. */
typedef unsigned char byte;
typedef __SIZE_TYPE__ size;

long read(int file, void *to, size n);
long write(int file, const void *from, size n);
int printf(const char *format, ...);
int strcmp(const char *a, const char *b);
void *memcpy(void *to, const void *from, size n);
void *memset(void *to, int value, size n);
void *malloc(size n);
int fflush(void *file);

#define SIGNATURES(name)                                                                                                            \
    unsigned name##_power_up(unsigned form, byte *values, size v, const byte *block, size b, byte *state, size s);                  \
    unsigned name##_message(unsigned line, const byte *message, size m, byte *values, size v, byte *block, size b, byte *state,     \
                            size s, byte *answer, size a);                                                                          \
    unsigned name##_mailbox(const byte *mailbox, size m, byte *values, size v, byte *block, size b, byte *state, size s,            \
                            byte *answer, size a);                                                                                  \
    unsigned name##_sample(float pressure, byte valid, unsigned faults, unsigned seconds, byte *values, size v, byte *state,        \
                           size s);                                                                                                 \
    unsigned name##_image(const byte *values, size v, byte *image, size i);

SIGNATURES(gauge)
SIGNATURES(rival)

#define KEEP __attribute__((noinline, used))

KEEP static unsigned nothing_power_up(unsigned form, byte *values, size v, const byte *block, size b, byte *state, size s)
{
    (void)form, (void)values, (void)v, (void)block, (void)b, (void)state, (void)s;
    return 0;
}

KEEP static unsigned nothing_message(unsigned line, const byte *message, size m, byte *values, size v, byte *block, size b, byte *state,
                                     size s, byte *answer, size a)
{
    (void)line, (void)message, (void)m, (void)values, (void)v, (void)block, (void)b, (void)state, (void)s, (void)answer, (void)a;
    return 0;
}

KEEP static unsigned nothing_mailbox(const byte *mailbox, size m, byte *values, size v, byte *block, size b, byte *state, size s,
                                     byte *answer, size a)
{
    (void)mailbox, (void)m, (void)values, (void)v, (void)block, (void)b, (void)state, (void)s, (void)answer, (void)a;
    return 0;
}

KEEP static unsigned nothing_sample(float pressure, byte valid, unsigned faults, unsigned seconds, byte *values, size v, byte *state,
                                    size s)
{
    (void)pressure, (void)valid, (void)faults, (void)seconds, (void)values, (void)v, (void)state, (void)s;
    return 0;
}

KEEP static unsigned nothing_image(const byte *values, size v, byte *image, size i)
{
    (void)values, (void)v, (void)image, (void)i;
    return 0;
}

struct board {
    unsigned (*power_up)(unsigned, byte *, size, const byte *, size, byte *, size);
    unsigned (*message)(unsigned, const byte *, size, byte *, size, byte *, size, byte *, size, byte *, size);
    unsigned (*mailbox)(const byte *, size, byte *, size, byte *, size, byte *, size, byte *, size);
    unsigned (*sample)(float, byte, unsigned, unsigned, byte *, size, byte *, size);
    unsigned (*image)(const byte *, size, byte *, size);
};

static const struct board nothing = {nothing_power_up, nothing_message, nothing_mailbox, nothing_sample, nothing_image};
static const struct board independent = {rival_power_up, rival_message, rival_mailbox, rival_sample, rival_image};
#ifdef NO_LIBRARY
static const struct board board = {rival_power_up, rival_message, rival_mailbox, rival_sample, rival_image};
#else
static const struct board board = {gauge_power_up, gauge_message, gauge_mailbox, gauge_sample, gauge_image};
#endif

struct memory {
    byte values[1024], block[512], state[256];
};

struct call {
    unsigned number, words[4];
    byte message[128]; /* eight bytes, or a mailbox */
};

struct kind {
    char name[64];
    unsigned repeats, calls;
    struct memory memory;
};

static struct memory memory;
static volatile unsigned sink;

/* valgrind's marked instructions, which do nothing elsewhere */
static inline __attribute__((always_inline)) void tell_callgrind(size what)
{
    size request[6] = {0x43540000u + what, 0, 0, 0, 0, 0};
#if defined(__x86_64__)
    size result = 0;
    __asm__ volatile("rolq $3, %%rdi; rolq $13, %%rdi; rolq $61, %%rdi; rolq $51, %%rdi; xchgq %%rbx, %%rbx"
                     : "=d"(result)
                     : "a"(request), "0"(result)
                     : "cc", "memory");
#elif defined(__aarch64__)
    __asm__ volatile("mov x3, #0; mov x4, %0; ror x12, x12, #3; ror x12, x12, #13; ror x12, x12, #51; ror x12, x12, #61; "
                     "orr x10, x10, x10"
                     :
                     : "r"(request)
                     : "cc", "memory", "x3", "x4");
#endif
}

enum { DUMP = 0, TOGGLE = 2 };

/* marks for whoever counts: bench_begin and bench_end round a call, bench_mark behind a kind */
__attribute__((noinline, used)) void bench_begin(void)
{
    tell_callgrind(TOGGLE);
}

__attribute__((noinline, used)) void bench_end(void)
{
    tell_callgrind(TOGGLE);
    __asm__ volatile("" ::: "memory");
}

__attribute__((noinline, used)) void bench_mark(void)
{
    tell_callgrind(DUMP);
}

static inline __attribute__((always_inline)) void make(const struct board *on, const struct call *call, int marked)
{
    byte room[128];
    struct memory *m = &memory;
    float pressure;
    if (marked) {
        bench_begin();
    }
    switch (call->number) {
    case 0:
        sink = on->power_up(call->words[0], m->values, 1024, m->block, 512, m->state, 256);
        break;
    case 1:
        sink = on->message(call->words[0], call->message, 8, m->values, 1024, m->block, 512, m->state, 256, room, 8);
        break;
    case 2:
        memcpy(&pressure, &call->words[0], 4);
        sink = on->sample(pressure, (byte)call->words[1], call->words[2], call->words[3], m->values, 1024, m->state, 256);
        break;
    case 4:
        sink = on->mailbox(call->message, 128, m->values, 1024, m->block, 512, m->state, 256, room, 128);
        break;
    default:
        sink = on->image(m->values, 1024, room, 10);
    }
    if (marked) {
        bench_end();
    }
    __asm__ volatile("" ::"r"(room) : "memory");
}

/* the list, one kind after the other */
static byte *list;
static size list_size;

static void read_list(void)
{
    size room = 64u << 20;
    list = malloc(room);
    for (;;) {
        long got = read(0, list + list_size, room - list_size);
        if (got <= 0) {
            return;
        }
        list_size += (size)got;
    }
}

static void count(const struct board *on)
{
    size at = 4;
    bench_mark();
    while (at < list_size) {
        const struct kind *kind = (const struct kind *)(list + at);
        const struct call *calls = (const struct call *)(kind + 1);
        unsigned n;
        memcpy(&memory, &kind->memory, sizeof memory);
        for (n = 0; n < kind->calls; n++) {
            make(on, &calls[n], 1);
        }
        bench_mark();
        at += sizeof *kind + kind->calls * sizeof *calls;
    }
}

#ifdef __x86_64__
#define STACK (256u << 10)
static byte stack[STACK] __attribute__((aligned(64)));
static const struct board *job_board;
static const struct call *job_call;

__attribute__((noinline, used)) static void job(void)
{
    make(job_board, job_call, 0);
}

/* makes a call on a painted stack; how deep it went */
static size depth(const struct board *on, const struct call *call)
{
    byte *top = stack + STACK;
    size untouched = 0;
    memset(stack, 0xB7, STACK);
    job_board = on;
    job_call = call;
    __asm__ volatile("movq %%rsp, %%rbx\n\tmovq %0, %%rsp\n\tcall *%1\n\tmovq %%rbx, %%rsp"
                     :
                     : "r"(top), "r"(job)
                     : "rbx", "rax", "rcx", "rdx", "rsi", "rdi", "r8", "r9", "r10", "r11", "xmm0", "xmm1", "xmm2", "xmm3", "xmm4",
                       "xmm5", "xmm6", "xmm7", "xmm8", "xmm9", "xmm10", "xmm11", "xmm12", "xmm13", "xmm14", "xmm15", "memory", "cc");
    while (untouched < STACK && stack[untouched] == 0xB7) {
        untouched++;
    }
    return STACK - untouched;
}

static void stacks(const struct board *on)
{
    size at = 4;
    while (at < list_size) {
        const struct kind *kind = (const struct kind *)(list + at);
        const struct call *calls = (const struct call *)(kind + 1);
        size most = 0;
        unsigned n;
        memcpy(&memory, &kind->memory, sizeof memory);
        for (n = 0; n < kind->calls && n < 64; n++) {
            size way = depth(&nothing, &calls[n]), all = depth(on, &calls[n]);
            if (all > way && all - way > most) {
                most = all - way;
            }
        }
        printf("%s|%lu\n", kind->name, (unsigned long)most);
        at += sizeof *kind + kind->calls * sizeof *calls;
    }
}
#else
static void stacks(const struct board *on)
{
    (void)on;
}
#endif

struct moment {
    long seconds, nanoseconds;
};
int clock_gettime(int clock, struct moment *now);

static void times(const struct board *on)
{
    size at = 4;
    while (at < list_size) {
        const struct kind *kind = (const struct kind *)(list + at);
        const struct call *calls = (const struct call *)(kind + 1);
        double least = 1e18;
        unsigned round, again, n, rounds = kind->calls > 100 ? 20 : 300;
        at += sizeof *kind + kind->calls * sizeof *calls;
        if (!kind->repeats) {
            continue;
        }
        memcpy(&memory, &kind->memory, sizeof memory);
        for (round = 0; round < 9; round++) {
            struct moment start, end;
            double spent;
            clock_gettime(1, &start);
            for (again = 0; again < rounds; again++) {
                for (n = 0; n < kind->calls; n++) {
                    make(on, &calls[n], 0);
                }
            }
            clock_gettime(1, &end);
            spent = (double)(end.seconds - start.seconds) * 1e9 + (double)(end.nanoseconds - start.nanoseconds);
            if (spent / rounds < least) {
                least = spent / rounds;
            }
        }
        printf("%s|%.1f\n", kind->name, least);
    }
}

int main(int words, char **word)
{
    const struct board *on = words < 3                            ? 0
                             : strcmp(word[2], "board") == 0       ? &board
                             : strcmp(word[2], "independent") == 0 ? &independent
                             : strcmp(word[2], "nothing") == 0     ? &nothing
                                                                   : 0;
    if (on == 0) {
        printf("driver count|stack|time board|independent|nothing\n");
        return 2;
    }
    read_list();
    if (strcmp(word[1], "count") == 0) {
        count(on);
    } else if (strcmp(word[1], "stack") == 0) {
        stacks(on);
    } else {
        times(on);
    }
    fflush(0);
    return 0;
}
