/* Linked into a test program: the test that it is asked for is run TIMES times, each time in a process of its own, until it
 * fails. */
#include <stdlib.h>
#include <string.h>
#include <sys/wait.h>
#include <unistd.h>

__attribute__((constructor)) static void repeat(int words, char **word) {
    if (words < 2 || strcmp(word[1], "--list") == 0) return;
    /* the last time is that of the program itself */
    for (int run = 1; run < TIMES; run++) {
        pid_t child = fork();
        int status;
        if (child == 0) return;
        if (child < 0 || waitpid(child, &status, 0) != child) abort();
        if (!WIFEXITED(status) || WEXITSTATUS(status) != 0) abort();
    }
}
