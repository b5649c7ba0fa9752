/* The calls of the system that a disk of files makes, and nothing else: `reads FILE TIMES`, `halves FILE TIMES`. */
#include <fcntl.h>
#include <stdlib.h>
#include <string.h>
#include <unistd.h>

enum { PAGES = 2048, PAGE = 4096, HALF = 2048 };

static off_t place(unsigned turn) { return (off_t)(turn * 7919u % PAGES) * PAGE; }

int main(int count, char **words) {
    static char page[PAGE];
    if (count != 4)
        return 2;
    int file = open(words[2], O_RDWR);
    unsigned times = strtoul(words[3], NULL, 10);
    int reads = strcmp(words[1], "reads") == 0;
    for (unsigned turn = 0; turn < times; turn++) {
        off_t at = place(turn);
        ssize_t done = reads ? pread(file, page, PAGE, at)
                             : pwrite(file, page, HALF, turn % 2 == 0 ? at : at + HALF);
        if (done != (reads ? PAGE : HALF))
            return 1;
    }
    return 0;
}
