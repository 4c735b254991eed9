/*
 * Preloaded into a program under the emulator, where starting it takes longer than what it does: before
 * its `main` it reads jobs from standard input, and for each one makes a copy of the process that goes
 * on into `main` with the job as standard input. The program itself is the one that a user runs.
 *
 * A request is a length and so many bytes. The answer is the exit status, a length and what it printed.
 */
#define _POSIX_C_SOURCE 200809L
#include <stdint.h>
#include <stdlib.h>
#include <sys/wait.h>
#include <unistd.h>

static void all(ssize_t (*move)(int, void *, size_t), int fd, void *bytes, size_t size) {
    for (uint8_t *at = bytes; size > 0;) {
        ssize_t n = move(fd, at, size);
        if (n <= 0)
            _exit(0);
        at += n;
        size -= (size_t)n;
    }
}

static ssize_t put(int fd, void *bytes, size_t size) { return write(fd, bytes, size); }

__attribute__((constructor)) static void serve(void) {
    static uint8_t job[1 << 15], printed[1 << 15];
    for (;;) {
        uint64_t size;
        all(read, 0, &size, sizeof size);
        if (size > sizeof job)
            _exit(1);
        all(read, 0, job, size);
        /* a job fits into the pipe, so that it can be written before anyone reads it */
        int in[2], out[2];
        if (pipe(in) != 0 || pipe(out) != 0)
            _exit(1);
        all(put, in[1], job, size);
        close(in[1]);
        pid_t child = fork();
        if (child == 0) {
            dup2(in[0], 0);
            dup2(out[1], 1);
            close(in[0]);
            close(out[0]);
            close(out[1]);
            return;
        }
        close(in[0]);
        close(out[1]);
        uint64_t answer[2] = {0, 0};
        for (ssize_t n; answer[1] < sizeof printed && (n = read(out[0], printed + answer[1], sizeof printed - answer[1])) > 0;)
            answer[1] += (uint64_t)n;
        close(out[0]);
        int status;
        if (child < 0 || waitpid(child, &status, 0) != child)
            _exit(1);
        answer[0] = WIFEXITED(status) ? (uint64_t)WEXITSTATUS(status) : 255;
        all(put, 1, answer, sizeof answer);
        all(put, 1, printed, answer[1]);
    }
}
