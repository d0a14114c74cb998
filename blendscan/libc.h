/* What is called of the C library. A compiler that has the system's headers takes it from them; the kit's has none, and is told here what x86-64 Linux
 * has. */
#ifndef LIBC_H
#define LIBC_H

#if __STDC_HOSTED__

#define _DEFAULT_SOURCE /* for MAP_ANONYMOUS and st_mtim; it asks for POSIX too */
#include <errno.h>
#include <fcntl.h>
#include <signal.h>
#include <stdarg.h>
#include <stdbool.h>
#include <stddef.h>
#include <stdint.h>
#include <stdio.h>
#include <stdlib.h>
#include <string.h>
#include <sys/mman.h>
#include <sys/stat.h>
#include <unistd.h>

#else

#include <stdarg.h>
#include <stdbool.h>
#include <stddef.h>
#include <stdint.h>

typedef long ssize_t;
typedef long off_t;
typedef struct _IO_FILE FILE;

#define STDIN_FILENO 0
#define STDOUT_FILENO 1
#define STDERR_FILENO 2
#define O_RDONLY 0
#define S_ISREG(mode) (((mode) & 0170000) == 0100000)
#define PROT_NONE 0
#define PROT_READ 1
#define PROT_WRITE 2
#define MAP_PRIVATE 2
#define MAP_ANONYMOUS 32
#define MAP_FAILED ((void *)-1)
#define EINTR 4
#define SIGBUS 7
#define SIGSEGV 11
#define SIGPIPE 13
#define SIGXFSZ 25
#define SIG_IGN ((void (*)(int))1)
#define _IOFBF 0
#define errno (*__errno_location())

struct timespec {
    long tv_sec, tv_nsec;
};

struct stat {
    unsigned long st_dev, st_ino, st_nlink;
    unsigned st_mode, st_uid, st_gid, st_none;
    unsigned long st_rdev;
    off_t st_size;
    long st_blksize, st_blocks;
    struct timespec st_atim, st_mtim, st_ctim;
    long st_reserved[3];
};

extern FILE *stdout, *stderr;

int *__errno_location(void);
int open(const char *path, int flags, ...);
int close(int file);
ssize_t read(int file, void *bytes, size_t length);
ssize_t write(int file, const void *bytes, size_t length);
int fstat(int file, struct stat *how);
void *mmap(void *address, size_t length, int protection, int flags, int file, off_t offset);
int munmap(void *address, size_t length);
int mprotect(void *address, size_t length, int protection);
void *realloc(void *old, size_t size);
void free(void *old);
void *memcpy(void *to, const void *from, size_t length);
int memcmp(const void *one, const void *other, size_t length);
int strcmp(const char *one, const char *other);
size_t strlen(const char *text);
char *strerror(int number);
char *getenv(const char *name);
float strtof(const char *text, char **rest);
void (*signal(int number, void (*handler)(int)))(int);
_Noreturn void exit(int status);
_Noreturn void _exit(int status);

int setvbuf(FILE *file, char *buffer, int mode, size_t size);
int fflush(FILE *file);
int ferror(FILE *file);
int putchar(int byte);
int fputc(int byte, FILE *file);
__attribute__((format(printf, 1, 2))) int printf(const char *format, ...);
__attribute__((format(printf, 2, 3))) int fprintf(FILE *file, const char *format, ...);
__attribute__((format(printf, 1, 0))) int vprintf(const char *format, va_list words);
__attribute__((format(printf, 2, 0))) int vfprintf(FILE *file, const char *format, va_list words);

#endif
#endif
