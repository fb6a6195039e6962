/* What a batch is compared with: reads every file that standard input names, a line each, and writes as many bytes as its listing has below another folder, in as
 * many processes as are asked for.
 *   copied PROCESSES BYTES FOLDER <NAMES */
#include <fcntl.h>
#include <stdio.h>
#include <stdlib.h>
#include <string.h>
#include <sys/wait.h>
#include <unistd.h>

static char bytes[65536];

static void copy(const char *from, const char *to, size_t length) {
    int in = open(from, O_RDONLY), out = open(to, O_WRONLY | O_CREAT | O_TRUNC, 0666);
    if (in < 0 || out < 0 || read(in, bytes, sizeof bytes) < 0 || write(out, bytes, length) != (ssize_t)length) {
        perror(to);
        _exit(1);
    }
    close(in);
    close(out);
}

int main(int count, char **words) {
    static char *names[1 << 20];
    char line[4096], to[8192];
    int all = 0, failed = 0;
    if (count != 4) return 2;
    int processes = atoi(words[1]);
    while (all < 1 << 20 && fgets(line, sizeof line, stdin)) {
        line[strcspn(line, "\n")] = 0;
        names[all++] = strdup(line);
    }
    for (int k = 0; k < processes; k++) {
        if (fork()) continue;
        for (int i = k; i < all; i += processes) {
            snprintf(to, sizeof to, "%s/%d/%d", words[3], i / 1000, i); /* a thousand in a folder, as the nets */
            copy(names[i], to, (size_t)atoi(words[2]));
        }
        _exit(0);
    }
    for (int k = 0, status; k < processes; k++) failed |= wait(&status) < 0 || status;
    return failed;
}
