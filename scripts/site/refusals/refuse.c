// Counts the growths of memory of a trial program, and refuses some: refuse.py preloads it and says which.
//
// A growth is a call of malloc or realloc by the program itself; what the C library asks for on its own account is none. Those of a
// marked line come between the printing of its mark (`# refuse`, a comment right above it) and the first bytes that are printed then:
// an answer is printed once it is ready, by as many writes as it takes, and no growth is among them.
//
//     REFUSE_MARK=K       refuses growths of this mark, counted from 0
//     REFUSE_GROWTH=N     the growth that is refused, counted from 0
//     REFUSE_REST=1       and all of the mark behind it
//     REFUSE_COUNTS=FILE  adds a line to FILE for each mark: how many growths it took
//
// Nothing here asks for memory, so the C library's own functions are called by the names that it gives them besides, and none is
// looked up. For programs of one thread.
#define _GNU_SOURCE
#include <errno.h>
#include <fcntl.h>
#include <link.h>
#include <stdint.h>
#include <stdlib.h>
#include <string.h>
#include <sys/syscall.h>
#include <unistd.h>

extern void *__libc_malloc(size_t size);
extern void *__libc_realloc(void *block, size_t size);

static const char MARK[] = "# refuse";

static uintptr_t code_begin, code_end;
static long refused_mark = -1, refused_growth = -1;
static int rest_too;
static const char *counts;

static long marks;      // that were printed
static long growths;    // of the line behind the last one
static int is_in_line;  // that line is being answered
static int is_at_start; // the next byte that is printed begins a line

// Where the program's own code stands: it is the first of what is loaded.
static int find_code(struct dl_phdr_info *loaded, size_t size, void *unused) {
    (void)size;
    (void)unused;
    for (int i = 0; i < loaded->dlpi_phnum; i++) {
        const ElfW(Phdr) *part = &loaded->dlpi_phdr[i];
        if (part->p_type == PT_LOAD && (part->p_flags & PF_X)) {
            code_begin = loaded->dlpi_addr + part->p_vaddr;
            code_end = code_begin + part->p_memsz;
        }
    }
    return 1;
}

static long number_of(const char *name) {
    const char *value = getenv(name);
    return value ? strtol(value, NULL, 10) : -1;
}

__attribute__((constructor)) static void begin(void) {
    dl_iterate_phdr(find_code, NULL);
    refused_mark = number_of("REFUSE_MARK");
    refused_growth = number_of("REFUSE_GROWTH");
    rest_too = number_of("REFUSE_REST") == 1;
    counts = getenv("REFUSE_COUNTS");
    is_at_start = 1;
}

// Counts a call from there, and says whether it is refused.
static int is_refused(void *from) {
    uintptr_t place = (uintptr_t)from;
    if (!is_in_line || place < code_begin || place >= code_end)
        return 0;
    long growth = growths++;
    if (marks - 1 != refused_mark || refused_growth < 0)
        return 0;
    return growth == refused_growth || (rest_too && growth > refused_growth);
}

static void *refused(void) {
    errno = ENOMEM;
    return NULL;
}

void *malloc(size_t size) {
    return is_refused(__builtin_return_address(0)) ? refused() : __libc_malloc(size);
}

void *realloc(void *block, size_t size) {
    return is_refused(__builtin_return_address(0)) ? refused() : __libc_realloc(block, size);
}

// Whether a line that is printed now is a mark: what stands behind the word is refuse.py's.
static int is_mark(const char *bytes, size_t count) {
    size_t word = sizeof MARK - 1;
    return is_at_start && count > word && memcmp(bytes, MARK, word) == 0 && memchr(" ,\n", bytes[word], 3) && bytes[count - 1] == '\n';
}

static void tell_growths(void) {
    char digits[32];
    char *at = digits + sizeof digits;
    long left = growths;
    *--at = '\n';
    do
        *--at = (char)('0' + left % 10);
    while (left /= 10);
    int file = open(counts, O_WRONLY | O_CREAT | O_APPEND | O_CLOEXEC, 0600);
    size_t length = (size_t)(digits + sizeof digits - at);
    if (file < 0 || syscall(SYS_write, file, at, length) != (long)length)
        abort();
    close(file);
}

ssize_t write(int file, const void *bytes, size_t count) {
    if (file == STDOUT_FILENO && count > 0) {
        if (is_in_line && counts)
            tell_growths();
        is_in_line = is_mark(bytes, count);
        if (is_in_line) {
            marks++;
            growths = 0;
        }
        is_at_start = ((const char *)bytes)[count - 1] == '\n';
    }
    return syscall(SYS_write, file, bytes, count);
}
