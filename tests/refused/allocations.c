/* Preloaded into a program: refuses the allocation with the number REFUSE, counted from 1 among those that the program
 * itself requests (not the C library), and writes how many there were to the file descriptor COUNT_FD. */
#define _GNU_SOURCE
#include <dlfcn.h>
#include <errno.h>
#include <link.h>
#include <stdint.h>
#include <stdio.h>
#include <stdlib.h>
#include <unistd.h>

static uintptr_t low, high; /* the program's code */
static unsigned long count, refuse;
static void *(*next_malloc)(size_t);
static void *(*next_realloc)(void *, size_t);

/* Notes the code of the first object, which is the program. */
static int find_program(struct dl_phdr_info *info, size_t size, void *data) {
    (void)size;
    (void)data;
    for (int k = 0; k < info->dlpi_phnum; k++) {
        const ElfW(Phdr) *part = &info->dlpi_phdr[k];
        if (part->p_type == PT_LOAD && (part->p_flags & PF_X)) {
            low = info->dlpi_addr + part->p_vaddr;
            high = low + part->p_memsz;
        }
    }
    return 1;
}

__attribute__((constructor)) static void begin(void) {
    const char *number = getenv("REFUSE");
    refuse = number ? strtoul(number, NULL, 10) : 0;
    dl_iterate_phdr(find_program, NULL);
}

static int is_refused(const void *caller) {
    uintptr_t at = (uintptr_t)caller;
    if (at < low || at >= high || ++count != refuse) return 0;
    errno = ENOMEM;
    return 1;
}

void *malloc(size_t size) {
    if (!next_malloc) next_malloc = (void *(*)(size_t))dlsym(RTLD_NEXT, "malloc");
    return is_refused(__builtin_return_address(0)) ? NULL : next_malloc(size);
}

void *realloc(void *old, size_t size) {
    if (!next_realloc) next_realloc = (void *(*)(void *, size_t))dlsym(RTLD_NEXT, "realloc");
    return is_refused(__builtin_return_address(0)) ? NULL : next_realloc(old, size);
}

__attribute__((destructor)) static void end(void) {
    const char *place = getenv("COUNT_FD");
    if (place) dprintf(atoi(place), "%lu\n", count);
}
