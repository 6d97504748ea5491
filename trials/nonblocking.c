/* nonblocking FD COMMAND..: sets the descriptor not to block, and becomes the command. */
/* The kit's compiler brings no header files, so what is used of the C library is declared here, as it is on x86-64. */
int fcntl(int, int, ...);
int execvp(const char *, char *const *);
enum { F_GETFL = 3, F_SETFL = 4, O_NONBLOCK = 2048 };

int main(int count, char **words) {
    if (count < 3) return 2;
    int fd = words[1][0] - '0';
    if (fcntl(fd, F_SETFL, fcntl(fd, F_GETFL) | O_NONBLOCK) != 0) return 2;
    execvp(words[2], words + 2);
    return 2;
}
