/* count SKIP PROGRAM [ARGUMENT ..] < FILE: the instructions that a program runs, one by one, from the moment when it has read the first SKIP
 * octets of FILE. The number is printed on standard error. The status is 0 only if the program's was.
 *
 * The program is stepped by ptrace, so no other work on the machine disturbs the count. How a copy goes depends on addresses, so they are not left
 * to chance; another environment may still move the count by some instructions. Where the program has read to is known because it shares the
 * place in FILE with this one. */
#include <stdio.h>
#include <stdlib.h>
#include <signal.h>
#include <sys/personality.h>
#include <sys/ptrace.h>
#include <sys/types.h>
#include <sys/wait.h>
#include <unistd.h>

int main(int argc, char **argv)
{
    if (argc < 3) {
        fprintf(stderr, "usage: count SKIP PROGRAM [ARGUMENT ..] < FILE\n");
        return 2;
    }
    off_t skip = atoll(argv[1]);
    pid_t program = fork();
    if (program == 0) {
        personality(ADDR_NO_RANDOMIZE);
        ptrace(PTRACE_TRACEME, 0, NULL, NULL);
        execv(argv[2], argv + 2);
        _exit(127);
    }
    unsigned long long count = 0;
    int counting = 0, status = 0;
    while (waitpid(program, &status, 0) == program && WIFSTOPPED(status)) {
        int sent = WSTOPSIG(status);
        long passed_on = sent == SIGTRAP ? 0 : sent;
        counting = counting || lseek(0, 0, SEEK_CUR) >= skip;
        count += counting;
        if (ptrace(counting ? PTRACE_SINGLESTEP : PTRACE_SYSCALL, program, NULL, passed_on) != 0) {
            perror("count: ptrace");
            return 2;
        }
    }
    fprintf(stderr, "%llu\n", count);
    return WIFEXITED(status) ? WEXITSTATUS(status) : 1;
}
