/* Preloaded into the built program by bench/fuzz: tells afl-fuzz which blocks of its code a run reaches, though it was
 * built without instrumentation. A breakpoint stands at the start of each block; the first time that it is met it is
 * noted and taken away. The process forks for each run, so that the next one has all of them again.
 *
 * COVERAGE_BLOCKS  a file of the blocks' addresses in the program, each four bytes
 * COVERAGE_HITS    a file of a byte for each block, which becomes 1 where the block is reached; used without afl-fuzz
 */

#define _GNU_SOURCE
#include <errno.h>
#include <fcntl.h>
#include <link.h>
#include <signal.h>
#include <stdint.h>
#include <stdlib.h>
#include <string.h>
#include <sys/mman.h>
#include <sys/shm.h>
#include <sys/stat.h>
#include <sys/wait.h>
#include <ucontext.h>
#include <unistd.h>

enum { REQUESTS = 198, ANSWERS = 199, BREAKPOINT = 0xCC };

static uint8_t *base, *counts, *hits;
static const uint32_t *blocks;
static uint32_t block_count, first, last;
static uint32_t *block_at;
static uint8_t *replaced;

static void *mapped(const char *name, int flags, size_t *size) {
    int file = name ? open(name, flags | O_CLOEXEC) : -1;
    struct stat found;
    if (file < 0 || fstat(file, &found) != 0) return NULL;
    int access = flags == O_RDWR ? PROT_READ | PROT_WRITE : PROT_READ;
    void *bytes = mmap(NULL, found.st_size, access, MAP_SHARED, file, 0);
    close(file);
    *size = found.st_size;
    return bytes == MAP_FAILED ? NULL : bytes;
}

static void reached(int number, siginfo_t *info, void *context) {
    (void)number, (void)info;
    greg_t *place = &((ucontext_t *)context)->uc_mcontext.gregs[REG_RIP];
    uint32_t address = (uint8_t *)*place - 1 - base;
    if (address < first || address > last || block_at[address - first] == 0) abort();
    uint32_t block = block_at[address - first] - 1;
    base[address] = replaced[block];
    if (counts) counts[(blocks[block] * 2654435761u) >> 16] = 1;
    if (hits) hits[block] = 1;
    *place -= 1;
}

static int first_program(struct dl_phdr_info *info, size_t size, void *data) {
    (void)size, (void)data;
    base = (uint8_t *)info->dlpi_addr;
    for (int k = 0; k < info->dlpi_phnum; k++) {
        const ElfW(Phdr) *part = &info->dlpi_phdr[k];
        if (part->p_type != PT_LOAD || !(part->p_flags & PF_X)) continue;
        uintptr_t start = (uintptr_t)(base + part->p_vaddr) & ~(uintptr_t)4095;
        uintptr_t end = ((uintptr_t)(base + part->p_vaddr) + part->p_memsz + 4095) & ~(uintptr_t)4095;
        if (mprotect((void *)start, end - start, PROT_READ | PROT_WRITE | PROT_EXEC) != 0) abort();
    }
    return 1;
}

static void set_breakpoints(void) {
    first = blocks[0], last = blocks[block_count - 1];
    block_at = calloc(last - first + 1, sizeof *block_at);
    replaced = malloc(block_count);
    if (!block_at || !replaced) abort();
    struct sigaction action = {.sa_sigaction = reached, .sa_flags = SA_SIGINFO | SA_NODEFER | SA_RESTART};
    sigaction(SIGTRAP, &action, NULL);
    for (uint32_t k = 0; k < block_count; k++) {
        block_at[blocks[k] - first] = k + 1;
        replaced[k] = base[blocks[k]];
        base[blocks[k]] = BREAKPOINT;
    }
}

/* Forks for each request, and returns in the child alone. */
static void serve(void) {
    uint32_t word = 0;
    if (write(ANSWERS, &word, 4) != 4) return;
    while (read(REQUESTS, &word, 4) == 4) {
        pid_t child = fork();
        if (child == 0) {
            close(REQUESTS);
            close(ANSWERS);
            return;
        }
        int status = 0;
        if (child < 0 || write(ANSWERS, &child, 4) != 4 || waitpid(child, &status, 0) < 0) break;
        if (write(ANSWERS, &status, 4) != 4) break;
    }
    _exit(0);
}

/* A script that starts the program has another name. */
__attribute__((constructor)) static void begin(void) {
    size_t size = 0;
    const char *program = getenv("COVERAGE_PROGRAM");
    if (!program || strcmp(program_invocation_short_name, program) != 0) return;
    blocks = mapped(getenv("COVERAGE_BLOCKS"), O_RDONLY, &size);
    block_count = size / sizeof *blocks;
    if (!blocks || block_count == 0) return;
    hits = mapped(getenv("COVERAGE_HITS"), O_RDWR, &size);
    const char *shared = getenv("__AFL_SHM_ID");
    if (shared) {
        counts = shmat(atoi(shared), NULL, 0);
        if (counts == (void *)-1) abort();
    }
    dl_iterate_phdr(first_program, NULL);
    set_breakpoints();
    if (counts) {
        counts[0] = 1;
        serve();
    }
}
