/* The words of the command line and the number of the last fault, as a module of omf asks for them, on Windows, where the words are in
   UTF-16; and output is binary. */
#include <errno.h>
#include <fcntl.h>
#include <io.h>
#include <stdint.h>
#include <windows.h>
#include <shellapi.h>

enum { MOST = 1 << 30, NO_SUCH = -1, NO_ROOM = -2 };

__attribute__((constructor)) static void print_bytes(void)
{
    _setmode(0, _O_BINARY);
    _setmode(1, _O_BINARY);
}

/* A word in UTF-8, without a zero at its end. One that can't be spelled so is the byte FF, which is no UTF-8 either. */
static int64_t spelled(const wchar_t *word, char *room, uint64_t most)
{
    int length, units = lstrlenW(word);
    if (units == 0 || most == 0)
        return units == 0 ? 0 : NO_ROOM;
    length = WideCharToMultiByte(CP_UTF8, WC_ERR_INVALID_CHARS, word, units, room, most < MOST ? most : MOST, NULL, NULL);
    if (length == 0 && GetLastError() != ERROR_NO_UNICODE_TRANSLATION)
        return NO_ROOM;
    if (length == 0)
        *room = '\xFF';
    return length ? length : 1;
}

/* As in start.c. */
int64_t rattle_arg(uint64_t number, char *room, uint64_t most)
{
    int count = 0;
    wchar_t **words = CommandLineToArgvW(GetCommandLineW(), &count);
    int64_t answer = words && number < (uint64_t)count ? spelled(words[number], room, most) : NO_SUCH;
    LocalFree(words);
    return answer;
}

/* A module that isn't optimized names these too. No program asks for a word of the environment, and none is told. */
int64_t rattle_env(const char *name, char *room, uint64_t most)
{
    (void)name, (void)room, (void)most;
    return -1;
}

int64_t rattle_env_at(uint64_t number, char *room, uint64_t most)
{
    (void)number, (void)room, (void)most;
    return -1;
}

int rattle_errno(void)
{
    return errno;
}

void rattle_set_errno(int fault)
{
    errno = fault;
}
