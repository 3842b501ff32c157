/* The most instructions and the most stack that each call of the library took, over many random calls of bindings/c/fuzz.c.
 *
 *     cost CALLS [SEED]
 *
 * Linux on x86-64. A second process makes the calls. This one stops it where a call begins and goes on instruction by
 * instruction until the call returns. (The fuzzer asks `made` before each call: most of these are not looked at.) Below the stack pointer it writes a pattern first: the deepest byte that has
 * changed says how much stack the call took, its return address and the red zone among it. */
#define main fuzz_main
#include "../../bindings/c/fuzz.c"
#undef main

#include <errno.h>
#include <sys/ptrace.h>
#include <sys/uio.h>
#include <sys/user.h>
#include <sys/wait.h>

enum { STACK = 4096, PATTERN = 0xA5, BREAK = 0xCC };

/* In the order of CALL. */
static void (*const ENTRY[CALLS])(void) = {
#define ENTRY_OF(name) (void (*)(void))sundial_##name
    ENTRY_OF(made),    ENTRY_OF(start),      ENTRY_OF(join),      ENTRY_OF(give),     ENTRY_OF(commit), ENTRY_OF(seal),
    ENTRY_OF(fix),     ENTRY_OF(tick),       ENTRY_OF(receive),   ENTRY_OF(start_wide), ENTRY_OF(join_wide),
    ENTRY_OF(fix_wide), ENTRY_OF(rebase),    ENTRY_OF(report),    ENTRY_OF(parent),   ENTRY_OF(acts),   ENTRY_OF(epoch),
    ENTRY_OF(rebase_with_ports), ENTRY_OF(port_open), ENTRY_OF(port_close), ENTRY_OF(port_takes), ENTRY_OF(in_time),
    ENTRY_OF(keep),    ENTRY_OF(kept),       ENTRY_OF(restore),
#undef ENTRY_OF
};

static pid_t child;
static uint64_t times[CALLS], most_instructions[CALLS], most_stack[CALLS];

static void must(long answer, const char *what)
{
    if (answer == -1) {
        perror(what);
        exit(1);
    }
}

static void run_child(uint64_t wanted)
{
    struct rooms at = {
        room(sizeof *at.device), room(sizeof *at.duty),   room(sizeof *at.rates),
        room(sizeof *at.message), room(sizeof *at.clock), room(sizeof *at.eps),
        room(sizeof *at.effect), room(sizeof *at.report), room(sizeof *at.parent),
        room(sizeof *at.lowered), room(sizeof *at.ticked), room(sizeof *at.acts),  room(sizeof *at.epoch),
        room(sizeof *at.ports),   room(sizeof *at.bytes),
    };
    volatile char touched[16 * STACK]; /* (so that all of the stack is there) */
    for (size_t i = 0; i < sizeof touched; i += 512)
        touched[i] = 0;
    must(ptrace(PTRACE_TRACEME, 0, NULL, NULL), "trace");
    raise(SIGSTOP);
    while (calls < wanted)
        one_call(&at);
    _exit(0);
}

/* 0 where the process has ended. */
static int wait_for_child(void)
{
    int status = 0;
    must(waitpid(child, &status, 0), "wait");
    if (WIFEXITED(status) && WEXITSTATUS(status) == 0)
        return 0;
    if (!WIFSTOPPED(status) || (WSTOPSIG(status) != SIGTRAP && WSTOPSIG(status) != SIGSTOP)) {
        fprintf(stderr, "cost: a call ended the process\n");
        exit(1);
    }
    return 1;
}

static long word_at(uintptr_t address)
{
    errno = 0;
    long found = ptrace(PTRACE_PEEKDATA, child, (void *)address, NULL);
    must(errno == 0 ? 0 : -1, "peek");
    return found;
}

static void put_byte(uintptr_t address, unsigned char byte)
{
    long changed = (word_at(address) & ~0xffL) | byte;
    must(ptrace(PTRACE_POKEDATA, child, (void *)address, (void *)changed), "poke");
}

static struct user_regs_struct registers(void)
{
    struct user_regs_struct found;
    must(ptrace(PTRACE_GETREGS, child, NULL, &found), "registers");
    return found;
}

/* The call has begun: from its first instruction to its return. */
static void follow(int which, struct user_regs_struct at)
{
    static unsigned char below[STACK];
    uint64_t instructions = 0, depth = STACK;
    struct iovec here = {below, STACK}, there = {(void *)(uintptr_t)(at.rsp - STACK), STACK};
    uint64_t back = (uint64_t)word_at(at.rsp);
    memset(below, PATTERN, STACK);
    must(process_vm_writev(child, &here, 1, &there, 1, 0), "paint");
    while (at.rip != back) {
        must(ptrace(PTRACE_SINGLESTEP, child, NULL, NULL), "step");
        wait_for_child();
        at = registers();
        instructions++;
    }
    must(process_vm_readv(child, &here, 1, &there, 1, 0), "look");
    while (depth > 0 && below[STACK - depth] == PATTERN)
        depth--;
    times[which]++;
    if (instructions > most_instructions[which])
        most_instructions[which] = instructions;
    if (depth + 8 > most_stack[which])
        most_stack[which] = depth + 8;
}

int main(int count, char **words)
{
    if (count < 2) {
        fprintf(stderr, "cost CALLS [SEED]\n");
        return 2;
    }
    seed = count > 2 ? strtoull(words[2], NULL, 10) : 1;
    word = seed * 2 + 1;
    child = fork();
    must(child, "fork");
    if (child == 0)
        run_child(strtoull(words[1], NULL, 10));
    wait_for_child();
    unsigned char first[CALLS];
    for (int i = 0; i < CALLS; i++)
        first[i] = (unsigned char)word_at((uintptr_t)ENTRY[i]);
    for (;;) {
        for (int i = times[0] > times[1] ? 1 : 0; i < CALLS; i++)
            put_byte((uintptr_t)ENTRY[i], BREAK);
        must(ptrace(PTRACE_CONT, child, NULL, NULL), "go on");
        if (!wait_for_child())
            break;
        struct user_regs_struct at = registers();
        at.rip--;
        must(ptrace(PTRACE_SETREGS, child, NULL, &at), "back");
        int which = 0;
        for (int i = 0; i < CALLS; i++) {
            put_byte((uintptr_t)ENTRY[i], first[i]);
            which = (uintptr_t)ENTRY[i] == at.rip ? i : which;
        }
        follow(which, at);
    }
    printf("%-18s %12s %12s %8s\n", "call", "instructions", "stack, bytes", "calls");
    for (int i = 0; i < CALLS; i++)
        printf("%-18s %12" PRIu64 " %12" PRIu64 " %8" PRIu64 "\n", CALL[i].name, most_instructions[i], most_stack[i], times[i]);
    return 0;
}
