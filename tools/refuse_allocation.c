/* Refuses one request for memory of the program that it is loaded into, before the program's
 * libraries: the one whose number, from 1, stands in REFUSED. It counts them in the file that COUNTED
 * names. Requests of the C library's own are let through. `tools/refused_memory` builds and loads it.
 */
#define _GNU_SOURCE
#include <errno.h>
#include <fcntl.h>
#include <link.h>
#include <stdint.h>
#include <stdlib.h>
#include <sys/mman.h>
#include <unistd.h>

extern void *__libc_malloc(size_t size);
extern void *__libc_realloc(void *block, size_t size);

static uintptr_t first, behind;
static uint64_t refused, *counted;

/* The program is the first that is told. */
static int find_program(struct dl_phdr_info *info, size_t size, void *data) {
    (void)size;
    (void)data;
    for (int place = 0; place < info->dlpi_phnum; place++) {
        const ElfW(Phdr) *part = &info->dlpi_phdr[place];
        if (part->p_type == PT_LOAD && (part->p_flags & PF_X)) {
            first = info->dlpi_addr + part->p_vaddr;
            behind = first + part->p_memsz;
        }
    }
    return 1;
}

__attribute__((constructor)) static void begin(void) {
    const char *number = getenv("REFUSED");
    const char *path = getenv("COUNTED");
    int file = path == NULL ? -1 : open(path, O_RDWR);
    if (number == NULL || file < 0)
        return;
    counted = mmap(NULL, sizeof *counted, PROT_READ | PROT_WRITE, MAP_SHARED, file, 0);
    close(file);
    if (counted == MAP_FAILED) {
        counted = NULL;
        return;
    }
    refused = strtoull(number, NULL, 10);
    dl_iterate_phdr(find_program, NULL);
}

static int is_refused(const void *caller) {
    uintptr_t place = (uintptr_t)caller;
    if (counted == NULL || place < first || behind <= place)
        return 0;
    if (__atomic_add_fetch(counted, 1, __ATOMIC_SEQ_CST) != refused)
        return 0;
    errno = ENOMEM;
    return 1;
}

void *malloc(size_t size) {
    return is_refused(__builtin_return_address(0)) ? NULL : __libc_malloc(size);
}

void *realloc(void *block, size_t size) {
    return is_refused(__builtin_return_address(0)) ? NULL : __libc_realloc(block, size);
}
