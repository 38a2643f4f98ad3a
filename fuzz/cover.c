/*
 * Coverage for afl-fuzz of code that its compilers have not seen. The library
 * comes from another compiler, and Debian's afl++ has no mode for such code. So
 * each block of instructions begins with a trap: blocks.py lists where blocks
 * start, the environment variable VJ_BLOCKS names that list. A block that is
 * reached marks its place in afl-fuzz's map, and its first byte is put back. The
 * rest of the run is at full speed. Before the next input the traps are set
 * again, but for blocks that were reached OFTEN times: these tell nothing new.
 *
 * The fork server's protocol is afl-fuzz's own: a word on one pipe asks for a
 * run, the child's number and its status go back on the other.
 */
#define _GNU_SOURCE
#include "cover.h"

#include <link.h>
#include <signal.h>
#include <stdint.h>
#include <stdio.h>
#include <stdlib.h>
#include <sys/mman.h>
#include <sys/shm.h>
#include <sys/wait.h>
#include <ucontext.h>
#include <unistd.h>

#define REQUESTS 198
#define ANSWERS 199
#define MOST_BLOCKS 65535
#define OFTEN 500
#define TRAP 0xcc
/* The first answer: it tells how many places of the map are used. */
#define HELLO(places) (0x80000001u | 0x40000000u | (uint32_t)((places) - 1) << 1)

/* By this string afl-fuzz knows that a child takes more than one input. */
__attribute__((used)) static const char persistent[] = "##SIG_AFL_PERSISTENT##";

static uint8_t *map;
static uintptr_t *blocks;
static uint8_t *first_bytes;
static uint16_t *reached; /* shared by all children */
static uint32_t *hits;
static size_t count, hit_count;
static unsigned inputs_left;
static bool watched, fresh = true;

static void die(const char *why)
{
    fprintf(stderr, "cover: %s\n", why);
    _exit(3);
}

static int program_base(struct dl_phdr_info *info, size_t size, void *base)
{
    (void)size;
    *(uintptr_t *)base = info->dlpi_addr;
    return 1; /* the first one is the program */
}

static void *shared(size_t bytes)
{
    void *memory = mmap(NULL, bytes, PROT_READ | PROT_WRITE,
                        MAP_SHARED | MAP_ANONYMOUS, -1, 0);

    if (memory == MAP_FAILED)
        die("no memory");
    return memory;
}

/* The starts of blocks: hex digits, one a line, rising. */
static void read_blocks(const char *name)
{
    FILE *file = fopen(name, "r");
    uintptr_t base = 0;
    unsigned long long at;

    if (file == NULL)
        die("no list of blocks");
    dl_iterate_phdr(program_base, &base);
    blocks = shared(MOST_BLOCKS * sizeof *blocks);
    while (fscanf(file, "%llx", &at) == 1) {
        if (count == MOST_BLOCKS)
            die("more blocks than places in the map");
        blocks[count++] = base + at;
    }
    fclose(file);
    first_bytes = shared(count + 1);
    reached = shared((count + 1) * sizeof *reached);
    hits = shared((count + 1) * sizeof *hits);
}

static size_t find(uintptr_t at)
{
    size_t low = 0, high = count;

    while (low < high) {
        size_t middle = (low + high) / 2;

        if (blocks[middle] < at)
            low = middle + 1;
        else
            high = middle;
    }
    return low < count && blocks[low] == at ? low : count;
}

static void trapped(int number, siginfo_t *info, void *context)
{
    greg_t *registers = ((ucontext_t *)context)->uc_mcontext.gregs;
    uintptr_t at = (uintptr_t)registers[REG_RIP] - 1;
    size_t block = find(at);

    (void)number, (void)info;
    if (block == count)
        abort(); /* a trap that is not ours */
    *(volatile uint8_t *)at = first_bytes[block];
    registers[REG_RIP] = (greg_t)at;
    map[1 + block] = 1;
    hits[hit_count++] = (uint32_t)block;
    if (reached[block] < OFTEN)
        reached[block]++;
}

static void set(size_t block)
{
    *(volatile uint8_t *)blocks[block] =
        reached[block] < OFTEN ? TRAP : first_bytes[block];
}

static void set_traps(void)
{
    uintptr_t page = (uintptr_t)sysconf(_SC_PAGESIZE);
    uintptr_t low = blocks[0] & ~(page - 1);
    uintptr_t high = (blocks[count - 1] + page) & ~(page - 1);
    struct sigaction action = { 0 };
    size_t i;

    if (mprotect((void *)low, high - low, PROT_READ | PROT_WRITE | PROT_EXEC))
        die("the code cannot be written");
    action.sa_sigaction = trapped;
    action.sa_flags = SA_SIGINFO;
    sigaction(SIGTRAP, &action, NULL);
    for (i = 0; i < count; i++)
        first_bytes[i] = *(uint8_t *)blocks[i];
    for (i = 0; i < count; i++)
        set(i);
}

/* Runs children for afl-fuzz; returns in a child. */
static void serve(void)
{
    bool stopped = false;
    pid_t child = 0;
    uint32_t hello = HELLO(count + 1);
    size_t i;

    if (write(ANSWERS, &hello, 4) != 4)
        die("afl-fuzz does not listen");
    for (;;) {
        int status, killed;

        if (read(REQUESTS, &killed, 4) != 4)
            _exit(0); /* afl-fuzz has ended */
        if (stopped && killed) {
            waitpid(child, &status, 0);
            stopped = false;
        }
        if (stopped) {
            kill(child, SIGCONT);
        } else {
            for (i = 0; i < count; i++)
                set(i);
            child = fork();
            if (child < 0)
                die("no child");
            if (child == 0) {
                close(REQUESTS);
                close(ANSWERS);
                return;
            }
        }
        if (write(ANSWERS, &child, 4) != 4 ||
            waitpid(child, &status, inputs_left > 1 ? WUNTRACED : 0) < 0)
            die("a child was lost");
        stopped = WIFSTOPPED(status);
        if (write(ANSWERS, &status, 4) != 4)
            _exit(0);
    }
}

void cover_start(unsigned inputs)
{
    const char *segment = getenv("__AFL_SHM_ID");
    const char *list = getenv("VJ_BLOCKS");

    inputs_left = inputs;
    if (segment == NULL || list == NULL)
        return;
    map = shmat(atoi(segment), NULL, 0);
    if (map == (void *)-1)
        die("no map");
    read_blocks(list);
    if (count == 0)
        die("the list has no blocks");
    set_traps();
    watched = true;
    serve();
    map[0] = 1;
}

bool cover_next(void)
{
    if (!watched) {
        bool first = fresh;

        fresh = false;
        return first;
    }
    if (!fresh) {
        if (--inputs_left == 0)
            return false;
        raise(SIGSTOP);
        map[0] = 1;
    }
    fresh = false;
    while (hit_count > 0)
        set(hits[--hit_count]);
    lseek(0, 0, SEEK_SET);
    return true;
}

#ifdef PRELOADED
__attribute__((constructor)) static void begin(void)
{
    unsetenv("LD_PRELOAD");
    cover_start(1);
}
#endif
