/* Loaded before a program (LD_PRELOAD), refuses it its allocations, one in each of many copies of the process.
 *
 * The program's own allocations are counted from 1. At each from number REFUSE_FROM on and below REFUSE_TO the process is copied: the copy is
 * refused this one alone and goes on to its end, in a new folder of that number, in which it finds what the files of the current folder hold, `printed`
 * as its standard output among them, and those that are open are open there, at the same place. The process waits for it, writes number and status to file descriptor REFUSE_NOTES, and goes on with its
 * allocation. At its end it writes 0 and how many allocations there were.
 */
#define _GNU_SOURCE
#include <dirent.h>
#include <errno.h>
#include <fcntl.h>
#include <link.h>
#include <stdint.h>
#include <stdio.h>
#include <stdlib.h>
#include <string.h>
#include <sys/stat.h>
#include <sys/wait.h>
#include <unistd.h>

extern void *__libc_malloc(size_t);
extern void *__libc_calloc(size_t, size_t);
extern void *__libc_realloc(void *, size_t);

static uintptr_t front, end;
static unsigned long count, from, to;
static int notes = -1, is_copy;

/* The first object is the program itself: where its parts begin and end. */
static int find_program(struct dl_phdr_info *object, size_t size, void *nothing) {
    for (int i = 0; i < object->dlpi_phnum; i++) {
        const ElfW(Phdr) *part = &object->dlpi_phdr[i];
        uintptr_t at = object->dlpi_addr + part->p_vaddr;
        if (part->p_type != PT_LOAD)
            continue;
        if (!end || at < front)
            front = at;
        if (at + part->p_memsz > end)
            end = at + part->p_memsz;
    }
    return 1;
}

__attribute__((constructor)) static void begin(void) {
    const char *first = getenv("REFUSE_FROM"), *last = getenv("REFUSE_TO"), *place = getenv("REFUSE_NOTES");
    dl_iterate_phdr(find_program, NULL);
    from = first ? strtoul(first, NULL, 10) : 0;
    to = last ? strtoul(last, NULL, 10) : 0;
    notes = place ? atoi(place) : -1;
}

__attribute__((destructor)) static void finish(void) {
    if (!is_copy && notes >= 0)
        dprintf(notes, "0 %lu\n", count);
}

static void copy_file(const char *name, int into) {
    char block[65536];
    ssize_t taken;
    int source = open(name, O_RDONLY), target = openat(into, name, O_WRONLY | O_CREAT | O_TRUNC, 0644);
    while ((taken = read(source, block, sizeof block)) > 0)
        if (write(target, block, taken) != taken)
            _exit(99);
    if (source < 0 || target < 0 || taken < 0 || close(source) || close(target))
        _exit(99);
}

/* Where a descriptor is of a file of this folder, it becomes one of the file of that name in the other folder, at the same place. */
static void follow(int file, const char *here, int into) {
    char link[32], path[4096];
    size_t length = strlen(here);
    snprintf(link, sizeof link, "/proc/self/fd/%d", file);
    ssize_t taken = readlink(link, path, sizeof path - 1);
    if (taken <= (ssize_t)length)
        return;
    path[taken] = 0;
    const char *name = path + length + 1;
    if (strncmp(path, here, length) || path[length] != '/' || !*name || strchr(name, '/'))
        return;
    int other = openat(into, name, fcntl(file, F_GETFL) & (O_ACCMODE | O_APPEND));
    if (other < 0 || lseek(other, lseek(file, 0, SEEK_CUR), SEEK_SET) < 0 || dup2(other, file) < 0 || close(other))
        _exit(99);
}

/* Goes into the folder of this number, with the files of this one. */
static void go_aside(unsigned long number) {
    char name[32], folder[4096];
    struct dirent *entry;
    DIR *here = opendir(".");
    if (!getcwd(folder, sizeof folder))
        _exit(99);
    snprintf(name, sizeof name, "%lu", number);
    if (!here || mkdir(name, 0755))
        _exit(99);
    int into = open(name, O_RDONLY | O_DIRECTORY);
    while ((entry = readdir(here)))
        if (entry->d_type == DT_REG)
            copy_file(entry->d_name, into);
    for (int file = 3; file < 64; file++)
        if (file != into && file != dirfd(here))
            follow(file, folder, into);
    int printed = openat(into, "printed", O_WRONLY | O_APPEND);
    if (into < 0 || fchdir(into) || printed < 0 || dup2(printed, 1) < 0)
        _exit(99);
    close(printed);
    close(into);
    closedir(here);
}

/* Whether an allocation that is asked for from this place is refused. */
static int is_refused(void *place) {
    int status;
    if (is_copy || (uintptr_t)place < front || end <= (uintptr_t)place)
        return 0;
    count++;
    if (count < from || to <= count)
        return 0;
    pid_t copy = fork();
    if (copy == 0) {
        is_copy = 1;
        go_aside(count);
        errno = ENOMEM;
        return 1;
    }
    if (copy < 0 || waitpid(copy, &status, 0) < 0)
        _exit(98);
    dprintf(notes, "%lu %d\n", count, status);
    return 0;
}

void *malloc(size_t size) {
    return is_refused(__builtin_return_address(0)) ? NULL : __libc_malloc(size);
}

void *calloc(size_t many, size_t size) {
    return is_refused(__builtin_return_address(0)) ? NULL : __libc_calloc(many, size);
}

void *realloc(void *old, size_t size) {
    return is_refused(__builtin_return_address(0)) ? NULL : __libc_realloc(old, size);
}
