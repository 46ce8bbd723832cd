/* The words of the command line and the number of the last fault, as a module of omf asks for them, on Linux and macOS: both give the words
   to what runs before main. It is compiled without headers, so that it is compiled for macOS anywhere. */
typedef __SIZE_TYPE__ size;

#ifdef __APPLE__
int *__error(void);
#define LAST_FAULT __error
#else
int *__errno_location(void);
#define LAST_FAULT __errno_location
#endif

static size count;
static char **words;

__attribute__((constructor)) static void keep(int given_count, char **given)
{
    count = given_count;
    words = given;
}

/* Copies a word to the room, without the zero at its end. Returns how many bytes these are, -1 where there is no such word, and -2 where it
   has no room. */
long rattle_arg(size number, char *room, size most)
{
    size length = 0;
    if (number >= count || !words[number])
        return -1;
    for (; words[number][length]; length++) {
        if (length == most)
            return -2;
        room[length] = words[number][length];
    }
    return length;
}

/* A module that isn't optimized names these too. No program asks for a word of the environment, and none is told. */
long rattle_env(const char *name, char *room, size most)
{
    (void)name, (void)room, (void)most;
    return -1;
}

long rattle_env_at(size number, char *room, size most)
{
    (void)number, (void)room, (void)most;
    return -1;
}

int rattle_errno(void)
{
    return *LAST_FAULT();
}

void rattle_set_errno(int fault)
{
    *LAST_FAULT() = fault;
}
