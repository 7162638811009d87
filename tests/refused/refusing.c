// Has the program that it is loaded into run once more for each of its allocations, with that one refused; for a program that
// `rt try --fail-alloc NONE` built, whose code compares the number of each allocation with NONE:
// cc -O2 -shared -fPIC -DNONE=N -o refusing.so refusing.c, then
// LD_PRELOAD=./refusing.so PROGRAM WORD .. <given >output.0 2>text.0
//
// At each allocation the process forks, and in the child it is refused: so what leads to an allocation is done once, and not for
// each that comes after it. As many children run at once as there are processors. The Nth writes the files output.N and text.N of
// the current folder, which begin with what was written by then, and the file `statuses` gets a line with N and its status, or the
// signal that ended it as a number below zero.
#define _GNU_SOURCE
#include <errno.h>
#include <fcntl.h>
#include <link.h>
#include <sched.h>
#include <signal.h>
#include <stdint.h>
#include <stdio.h>
#include <stdlib.h>
#include <string.h>
#include <sys/mman.h>
#include <sys/sendfile.h>
#include <sys/wait.h>
#include <ucontext.h>
#include <unistd.h>

// What a process ends with whose runs can't be made; the flag of a comparison with the same; and the seconds of one run, which
// gives way to all else in the gate.
enum { FAILED = 70, EQUAL = 0x40, PATIENCE = 1800, MOST = 256 };

// `cmp imm32, %rax`, of which the number follows; and what a trap has in place of its first octet.
static const char compares[] = "\x48\x3d", trap = '\xcc';
enum { LENGTH = sizeof compares - 1 + sizeof(int32_t) };

static char *places[MOST];
static struct {
    pid_t process;
    long long number;
} runs[MOST];
static int place_count, run_count, lanes, statuses;

static void must(int so) {
    if (!so) _exit(FAILED);
}

// Finds the comparisons in a part of the code, which may be written from here on.
static void look(char *code, size_t size) {
    const int32_t none = NONE;
    char wanted[LENGTH];
    memcpy(wanted, compares, LENGTH - sizeof none);
    memcpy(wanted + LENGTH - sizeof none, &none, sizeof none);
    for (char *at = code; place_count < MOST && (at = memmem(at, code + size - at, wanted, LENGTH)); at += LENGTH)
        places[place_count++] = at;
    const uintptr_t begin = (uintptr_t)code & -(uintptr_t)sysconf(_SC_PAGESIZE);
    must(!mprotect((void *)begin, (uintptr_t)code + size - begin, PROT_READ | PROT_WRITE | PROT_EXEC));
}

static int look_through(struct dl_phdr_info *object, size_t size, void *unused) {
    (void)size, (void)unused;
    for (int at = 0; at < object->dlpi_phnum; at++) {
        const ElfW(Phdr) *part = &object->dlpi_phdr[at];
        if (part->p_type == PT_LOAD && part->p_flags & PF_X) look((char *)object->dlpi_addr + part->p_vaddr, part->p_memsz);
    }
    return 1; // the program itself comes first
}

static void set_first_octets(char octet) {
    for (int at = 0; at < place_count; at++) *places[at] = octet;
}

// Waits for a run to end, and tells its status.
static void tell_one(void) {
    int status, at = 0;
    char line[40];
    const pid_t ended = wait(&status);
    while (at < run_count && runs[at].process != ended) at++;
    must(at < run_count);
    const int told = WIFSIGNALED(status) ? -WTERMSIG(status) : WEXITSTATUS(status);
    const int size = snprintf(line, sizeof line, "%lld %d\n", runs[at].number, told);
    must(write(statuses, line, size) == size);
    runs[at] = runs[--run_count];
}

// Has this process write a file of its own, which begins as that of the first.
static void write_own(int as, const char *name, long long number, off_t written) {
    char path[40], of_first[40];
    snprintf(path, sizeof path, "%s.%lld", name, number);
    snprintf(of_first, sizeof of_first, "%s.0", name);
    const int from = open(of_first, O_RDONLY), to = open(path, O_WRONLY | O_CREAT | O_TRUNC, 0600);
    while (written > 0) {
        const ssize_t moved = sendfile(to, from, 0, written);
        must(moved > 0);
        written -= moved;
    }
    must(dup2(to, as) == as && !close(from) && !close(to));
}

// Makes this process the run in which an allocation is refused, and no other. The places are those of standard input, output and
// error when it was forked.
static void begin(long long number, const off_t *at) {
    const int given = open("given", O_RDONLY);
    must(lseek(given, at[0], SEEK_SET) == at[0] && dup2(given, 0) == 0 && !close(given));
    write_own(1, "output", number, at[1]);
    write_own(2, "text", number, at[2]);
    set_first_octets(compares[0]);
    run_count = 0;
    alarm(PATIENCE);
}

// Takes the place of the comparison, with the number of the allocation in %rax.
static void on_allocation(int signal, siginfo_t *information, void *context) {
    (void)signal, (void)information;
    greg_t *registers = ((ucontext_t *)context)->uc_mcontext.gregs;
    const int error = errno;
    if (run_count == lanes) tell_one();
    const off_t at[] = {lseek(0, 0, SEEK_CUR), lseek(1, 0, SEEK_CUR), lseek(2, 0, SEEK_CUR)};
    const pid_t run = fork();
    must(run >= 0);
    if (run) {
        runs[run_count].process = run;
        runs[run_count++].number = registers[REG_RAX];
        registers[REG_EFL] &= ~EQUAL;
    } else {
        begin(registers[REG_RAX], at);
        registers[REG_EFL] |= EQUAL;
    }
    registers[REG_RIP] += LENGTH - 1;
    errno = error;
}

__attribute__((constructor)) static void prepare(void) {
    const struct sigaction action = {.sa_sigaction = on_allocation, .sa_flags = SA_SIGINFO};
    cpu_set_t processors;
    unsetenv("LD_PRELOAD");
    must(!sched_getaffinity(0, sizeof processors, &processors));
    lanes = CPU_COUNT(&processors) < MOST ? CPU_COUNT(&processors) : MOST;
    statuses = open("statuses", O_WRONLY | O_CREAT | O_TRUNC | O_CLOEXEC, 0600);
    dl_iterate_phdr(look_through, 0);
    must(statuses >= 0 && place_count && place_count < MOST && !sigaction(SIGTRAP, &action, 0));
    set_first_octets(trap);
}

__attribute__((destructor)) static void end(void) {
    while (run_count) tell_one();
}
