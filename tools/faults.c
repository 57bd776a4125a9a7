/* Stands before the C library of the program that tools/faults tries: it counts allocations, reads of standard
   input, writes of standard output and starts of threads, and fails those that the shared page says. */
#define _GNU_SOURCE
#include <errno.h>
#include <fcntl.h>
#include <pthread.h>
#include <stdatomic.h>
#include <stdint.h>
#include <stdlib.h>
#include <sys/mman.h>
#include <sys/syscall.h>
#include <unistd.h>

/* The page, in the order of tools/faults. A place is counted from 1, and 0 is none. */
struct page {
  int64_t alloc_at;    /* this allocation is refused */
  int64_t alloc_from;  /* this one and all behind it */
  int64_t read_at;     /* this read fails */
  int64_t write_at;    /* this write fails */
  int64_t thread_at;   /* this thread is not started, nor any behind it */
  int64_t cut_reads;   /* each read gives one byte at most */
  int64_t cut_writes;  /* each write takes one byte at most */
  _Atomic int64_t allocs, reads, writes, threads, failed;
};

static struct page nothing;
static struct page *page = &nothing;

extern void *__libc_malloc(size_t);
extern void *__libc_calloc(size_t, size_t);
extern void *__libc_realloc(void *, size_t);

__attribute__((constructor)) static void open_page(void) {
  const char *path = getenv("DACTL_FAULTS");
  if (!path) return;
  int file = open(path, O_RDWR);
  if (file < 0) _exit(99);
  void *made = mmap(NULL, sizeof(struct page), PROT_READ | PROT_WRITE, MAP_SHARED, file, 0);
  if (made == MAP_FAILED) _exit(99);
  close(file);
  page = made;
}

static int fails(int yes, int error) {
  if (!yes) return 0;
  page->failed++;
  errno = error;
  return 1;
}

static int no_memory(void) {
  int64_t at = ++page->allocs;
  return fails(at == page->alloc_at || (page->alloc_from && at >= page->alloc_from), ENOMEM);
}

void *malloc(size_t size) { return no_memory() ? NULL : __libc_malloc(size); }

void *calloc(size_t count, size_t size) { return no_memory() ? NULL : __libc_calloc(count, size); }

void *realloc(void *old, size_t size) { return no_memory() ? NULL : __libc_realloc(old, size); }

ssize_t read(int file, void *to, size_t size) {
  if (file == STDIN_FILENO) {
    if (fails(++page->reads == page->read_at, EIO)) return -1;
    if (page->cut_reads && size > 1) size = 1;
  }
  return syscall(SYS_read, file, to, size);
}

ssize_t write(int file, const void *from, size_t size) {
  if (file == STDOUT_FILENO) {
    if (fails(++page->writes == page->write_at, EIO)) return -1;
    if (page->cut_writes && size > 1) size = 1;
  }
  return syscall(SYS_write, file, from, size);
}

typedef int create(pthread_t *, const pthread_attr_t *, void *(*)(void *), void *);
extern void *dlsym(void *, const char *);

int pthread_create(pthread_t *thread, const pthread_attr_t *attr, void *(*work)(void *), void *with) {
  int64_t at = ++page->threads;
  if (fails(page->thread_at && at >= page->thread_at, EAGAIN)) return EAGAIN;
  return ((create *)dlsym((void *)-1L, "pthread_create"))(thread, attr, work, with);
}
