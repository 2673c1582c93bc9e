/* The C functions of the toolchain's os that the programs reach. Its own archive is x86-64 code: on another processor these are linked. */
#include <errno.h>
#include <string.h>
#include <sys/types.h>

static size_t count;
static char **arguments;

/* glibc hands each constructor what it hands main. */
__attribute__((constructor)) static void keep(int argc, char **argv) {
    count = argc;
    arguments = argv;
}

/* The length of argument i, whose bytes are put at the start of the buffer; -1 where there is none, -2 where it does not fit. */
ssize_t rattle_arg(size_t i, unsigned char *buffer, size_t size) {
    if (i >= count)
        return -1;
    size_t length = strlen(arguments[i]);
    memcpy(buffer, arguments[i], length < size ? length : size);
    return length > size ? -2 : (ssize_t)length;
}

int rattle_errno(void) { return errno; }

void rattle_set_errno(int error) { errno = error; }
