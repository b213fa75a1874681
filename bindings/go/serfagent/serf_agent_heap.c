/* The three memory functions that libserf_agent_c.a needs besides the C library. Rattle's toolchain has a library with them. This
 * file replaces that library for a host that is built without the toolchain. */
#include <stdbool.h>
#include <stddef.h>
#include <stdlib.h>

struct allocation_result {
    bool ok;
    void *address;
};

struct allocation_result rattle_alloc(size_t size, size_t align);
struct allocation_result rattle_realloc(void *old, size_t kept, size_t size, size_t align);
void rattle_dealloc(void *address);

/* The address that is returned with ok = false, because the library expects one that isn't NULL. */
static char no_memory;

/* Returns what the library expects for an address from malloc or realloc, which is NULL if there is no memory. */
static struct allocation_result allocation_result(void *address) {
    return (struct allocation_result){address != NULL, address != NULL ? address : &no_memory};
}

struct allocation_result rattle_alloc(size_t size, size_t align) {
    return allocation_result(malloc(size != 0 ? size : align));
}

struct allocation_result rattle_realloc(void *old, size_t kept, size_t size, size_t align) {
    (void)kept;
    return allocation_result(realloc(old, size != 0 ? size : align));
}

void rattle_dealloc(void *address) {
    free(address);
}
