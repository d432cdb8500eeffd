/* Stands in front of the C library, and refuses memory to the program at one of its calls.

   The calls of malloc, calloc and realloc that the program itself makes are counted from 1; the one whose number
   stands in REFUSE has no memory, and then a byte is written to the file that REFUSE_TELLS names. Calls of the C
   library and of the loader aren't counted. */

#define _GNU_SOURCE
#include <fcntl.h>
#include <link.h>
#include <stddef.h>
#include <stdint.h>
#include <stdlib.h>
#include <unistd.h>

extern void *__libc_malloc(size_t);
extern void *__libc_calloc(size_t, size_t);
extern void *__libc_realloc(void *, size_t);

static uintptr_t first, last; /* where the program lies */
static unsigned long wanted, calls;

static int find_program(struct dl_phdr_info *info, size_t size, void *data) {
    (void)size, (void)data;
    first = UINTPTR_MAX;
    for (int part = 0; part < info->dlpi_phnum; part++) {
        uintptr_t start = info->dlpi_addr + info->dlpi_phdr[part].p_vaddr;
        if (info->dlpi_phdr[part].p_type != PT_LOAD)
            continue;
        first = start < first ? start : first;
        last = start + info->dlpi_phdr[part].p_memsz > last ? start + info->dlpi_phdr[part].p_memsz : last;
    }
    return 1; /* the program is told of first, and the libraries behind it aren't looked at */
}

__attribute__((constructor)) static void begin(void) {
    const char *number = getenv("REFUSE");
    wanted = number ? strtoul(number, NULL, 10) : 0;
    dl_iterate_phdr(find_program, NULL);
}

static void tell(void) {
    const char *name = getenv("REFUSE_TELLS");
    int file = name ? open(name, O_WRONLY | O_CREAT | O_TRUNC, 0600) : -1;
    if (file < 0 || write(file, "x", 1) != 1 || close(file) != 0)
        abort();
}

static int is_refused(void *caller) {
    if ((uintptr_t)caller < first || (uintptr_t)caller >= last || ++calls != wanted)
        return 0;
    tell();
    return 1;
}

void *malloc(size_t size) {
    return is_refused(__builtin_return_address(0)) ? NULL : __libc_malloc(size);
}

void *calloc(size_t count, size_t size) {
    return is_refused(__builtin_return_address(0)) ? NULL : __libc_calloc(count, size);
}

void *realloc(void *old, size_t size) {
    return is_refused(__builtin_return_address(0)) ? NULL : __libc_realloc(old, size);
}
