/* Memory that a process shares with a harness. */
#include <fcntl.h>
#include <stdlib.h>
#include <sys/mman.h>
#include <unistd.h>

/* The file that a variable of the environment names, in memory; NULL where there is none. */
static void *shared_file(const char *variable, size_t size) {
    const char *name = getenv(variable);
    int file = name ? open(name, O_RDWR | O_CLOEXEC) : -1;
    if (file < 0)
        return NULL;
    void *shared = mmap(NULL, size, PROT_READ | PROT_WRITE, MAP_SHARED, file, 0);
    close(file);
    return shared == MAP_FAILED ? NULL : shared;
}
