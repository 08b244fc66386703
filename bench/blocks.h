/* Standard input in blocks, as the proved meters take it. */
#include <stddef.h>
#include <unistd.h>

enum { BLOCK = 56000 };

static size_t read_full(unsigned char *block) {
    size_t done = 0;
    for (ssize_t got; done < BLOCK && (got = read(0, block + done, BLOCK - done)) > 0;) done += (size_t)got;
    return done;
}
