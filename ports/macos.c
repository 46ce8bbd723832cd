/* What a module of omf asks of Linux, on macOS, whose flags of open and whose calls for a size are others. It is compiled without headers,
   so that it is compiled anywhere: the numbers are macOS's. Nobody has run it yet. */
typedef __SIZE_TYPE__ size;

int open(const char *path, int flags, ...);
int close(int file);
long read(int file, void *room, size most);
long write(int file, const void *bytes, size count);
long long lseek(int file, long long by, int from);
void (*signal(int number, void (*how)(int)))(int);
void *memcpy(void *to, const void *from, size count);

enum { CREATE = 0x200, EMPTY = 0x400, NO_TERMINAL = 0x20000, NOT_INHERITED = 0x1000000 };
enum { TO_WRITE = 1, MOST = 1 << 30, SIZE_AT = 40, FROM_HERE = 1, FROM_END = 2 };

int port_open(const char *path, int flags, ...)
{
    int how = NO_TERMINAL | NOT_INHERITED;
    return flags & TO_WRITE ? open(path, how | TO_WRITE | CREATE | EMPTY, 0666) : open(path, how);
}

int port_close(int file)
{
    return close(file);
}

long port_read(int file, void *room, size most)
{
    return read(file, room, most < MOST ? most : MOST);
}

long port_write(int file, const void *bytes, size count)
{
    return write(file, bytes, count < MOST ? count : MOST);
}

/* Of an open file its size alone, where Linux puts it. */
int port_statx(int file, const char *path, int flags, unsigned mask, char *found)
{
    long long here = lseek(file, 0, FROM_HERE), end = lseek(file, 0, FROM_END);
    (void)path, (void)flags, (void)mask;
    memcpy(found + SIZE_AT, &end, sizeof end);
    return here < 0 || end < 0 || lseek(file, here, 0) < 0 ? -1 : 0;
}

/* The one call asks that a pipe which nobody reads isn't the program's end, but a fault of its write. */
long port___sysv_signal(int number, long how)
{
    signal(number, (void (*)(int))how);
    return 0;
}
