/* Loaded before the C library: after each fdatasync that succeeds, how many bytes its file had when the call began is written to
 * the file that NOTE_SYNC names, as a number of eight bytes. So a test knows what a disk was told to keep. */
#define _GNU_SOURCE
#include <dlfcn.h>
#include <fcntl.h>
#include <stdint.h>
#include <stdlib.h>
#include <sys/stat.h>
#include <unistd.h>

int fdatasync(int file) {
    static int (*real)(int);
    static int notes = -1;
    struct stat standing;
    if (!real) {
        const char *name = getenv("NOTE_SYNC");
        real = (int (*)(int))dlsym(RTLD_NEXT, "fdatasync");
        if (name) {
            notes = open(name, O_WRONLY | O_CREAT | O_CLOEXEC, 0666);
        }
    }
    int known = fstat(file, &standing) == 0;
    int answer = real(file);
    if (answer == 0 && known && notes >= 0) {
        uint64_t bytes = (uint64_t)standing.st_size;
        if (pwrite(notes, &bytes, sizeof bytes, 0) != (ssize_t)sizeof bytes) {
            abort();
        }
    }
    return answer;
}
