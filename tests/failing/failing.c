/* Fails each allocation of a program in turn. Loaded in front of the C library (LD_PRELOAD), it runs the program once for n = 1, 2, 3 ..,
   each time in a child of its own, which reads standard input from its beginning and whose nth allocation fails. Both outputs have a line
   `case=N status=S` behind what each child has written; S is 128 and the signal where one ended it. The first run with fewer than n
   allocations is the last. */

#include <errno.h>
#include <signal.h>
#include <stdio.h>
#include <stdlib.h>
#include <sys/mman.h>
#include <sys/wait.h>
#include <unistd.h>

enum { SECONDS = 60 }; /* that one run may take */

void *__libc_malloc(size_t size);
void *__libc_realloc(void *old, size_t size);

static unsigned long left; /* how many allocations there are up to the one that fails; 0: none fails any more */
static int *has_failed;    /* shared by a child with its parent */

static int fails(void) {
    if (left == 0 || --left > 0)
        return 0;
    *has_failed = 1;
    errno = ENOMEM;
    return 1;
}

void *malloc(size_t size) { return fails() ? NULL : __libc_malloc(size); }

void *realloc(void *old, size_t size) { return fails() ? NULL : __libc_realloc(old, size); }

/* Returns in each child, whose program then runs, and never in the parent. */
__attribute__((constructor)) static void run_each(void) {
    has_failed = mmap(NULL, sizeof *has_failed, PROT_READ | PROT_WRITE, MAP_SHARED | MAP_ANONYMOUS, -1, 0);
    if (has_failed == MAP_FAILED)
        _exit(1);
    for (unsigned long number = 1;; number++) {
        *has_failed = 0;
        pid_t child = fork();
        if (child == 0) {
            lseek(STDIN_FILENO, 0, SEEK_SET);
            alarm(SECONDS);
            left = number;
            return;
        }
        int status;
        if (child < 0 || waitpid(child, &status, 0) != child)
            _exit(1);
        int said = WIFEXITED(status) ? WEXITSTATUS(status) : 128 + WTERMSIG(status);
        for (int out = STDOUT_FILENO; out <= STDERR_FILENO; out++)
            if (dprintf(out, "case=%lu status=%d\n", number, said) < 0)
                _exit(1);
        if (!*has_failed)
            _exit(0);
    }
}
