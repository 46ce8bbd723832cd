/* What a module of omf asks of Linux, on Windows: names are UTF-8 on one side and UTF-16 on the other, files are binary, and a count
   has 32 bits at most. Numbers of faults are the same on both where they count: no such file, interrupted, no memory. */
#include <errno.h>
#include <fcntl.h>
#include <io.h>
#include <stdint.h>
#include <string.h>
#include <sys/stat.h>
#include <windows.h>

enum { LONGEST = 4096, TO_WRITE = 1, MOST = 1 << 30, SIZE_AT = 40 };

/* A name that isn't UTF-8 names no file. */
int port_open(const char *path, int flags, ...)
{
    wchar_t name[LONGEST];
    if (!MultiByteToWideChar(CP_UTF8, MB_ERR_INVALID_CHARS, path, -1, name, LONGEST)) {
        errno = ENOENT;
        return -1;
    }
    if (flags & TO_WRITE)
        return _wopen(name, _O_WRONLY | _O_CREAT | _O_TRUNC | _O_BINARY | _O_NOINHERIT, _S_IREAD | _S_IWRITE);
    return _wopen(name, _O_RDONLY | _O_BINARY | _O_NOINHERIT);
}

int64_t port_read(int file, void *room, uint64_t most)
{
    return _read(file, room, most < MOST ? most : MOST);
}

int64_t port_write(int file, const void *bytes, uint64_t count)
{
    return _write(file, bytes, count < MOST ? count : MOST);
}

int port_close(int file)
{
    return _close(file);
}

/* Of an open file its size alone, where Linux puts it. */
int port_statx(int file, const char *path, int flags, unsigned mask, char *found)
{
    int64_t size = _filelengthi64(file);
    (void)path, (void)flags, (void)mask;
    memcpy(found + SIZE_AT, &size, sizeof size);
    return size < 0 ? -1 : 0;
}

/* Windows has no signal of a pipe that nobody reads. */
int64_t port___sysv_signal(int number, int64_t how)
{
    (void)number, (void)how;
    return 0;
}
