/* nonblocking PROGRAM: runs the program with standard input and output that do not wait (O_NONBLOCK). For tests/card.sh
 * and tests/inventory.sh. */
#define _GNU_SOURCE
#include <fcntl.h>
#include <unistd.h>

int main(int count, char **words)
{
    for (int fd = 0; fd < 2; fd++) {
        if (fcntl(fd, F_SETFL, fcntl(fd, F_GETFL) | O_NONBLOCK) != 0) {
            return 2;
        }
    }
    if (count != 2) {
        return 2;
    }
    execl(words[1], words[1], (char *)NULL);
    return 2;
}
