// Runs a command whose standard input returns LEN bytes 'x' and then fails: breaks LEN COMMAND..
// Ends with the command's status. The input is the memory of this process, up to a page that is not
// mapped.
#define _GNU_SOURCE
#include <fcntl.h>
#include <stdint.h>
#include <stdlib.h>
#include <string.h>
#include <sys/mman.h>
#include <sys/wait.h>
#include <unistd.h>

int main(int argc, char **argv)
{
    enum { room = 1 << 20 };
    int status, memory = open("/proc/self/mem", O_RDONLY);
    char *bytes = mmap(NULL, 2 * room, PROT_READ | PROT_WRITE, MAP_PRIVATE | MAP_ANONYMOUS, -1, 0);
    long len = argc > 2 ? atol(argv[1]) : -1;
    if (memory < 0 || bytes == MAP_FAILED || len < 0 || len > room || munmap(bytes + room, room) != 0)
        return 125;
    memset(bytes, 'x', room);
    if (lseek(memory, (off_t)(uintptr_t)(bytes + room - len), SEEK_SET) < 0)
        return 125;
    pid_t child = fork();
    if (child == 0) {
        dup2(memory, STDIN_FILENO);
        execvp(argv[2], argv + 2);
        _exit(126);
    }
    if (child < 0 || waitpid(child, &status, 0) != child)
        return 125;
    return WIFEXITED(status) ? WEXITSTATUS(status) : 124;
}
