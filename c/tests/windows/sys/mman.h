/* Pages that must not be touched, as tests/edges.c asks for them, by the calls of Windows. */
#ifndef NODDYCHEST_MMAN_H
#define NODDYCHEST_MMAN_H

#define WIN32_LEAN_AND_MEAN
#include <windows.h>

enum { PROT_NONE = 0, PROT_READ = 1, PROT_WRITE = 2, MAP_PRIVATE = 2, MAP_ANONYMOUS = 32 };
enum { _SC_PAGESIZE = 30 };
#define MAP_FAILED ((void *)-1)

static inline DWORD protection(int allowed) {
    return allowed ? PAGE_READWRITE : PAGE_NOACCESS;
}

static inline void *mmap(void *at, size_t len, int allowed, int flags, int file, long long offset) {
    void *pages = VirtualAlloc(at, len, MEM_RESERVE | MEM_COMMIT, protection(allowed));
    (void)flags;
    (void)file;
    (void)offset;
    return pages ? pages : MAP_FAILED;
}

static inline int mprotect(void *at, size_t len, int allowed) {
    DWORD before;
    return VirtualProtect(at, len, protection(allowed), &before) ? 0 : -1;
}

static inline long sysconf(int name) {
    (void)name;
    return 4096;
}
#endif
