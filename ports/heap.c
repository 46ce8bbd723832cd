/* The heap as a module of omf asks for it, over the C library's. An answer is two words: 1 and the memory's address, or 0 and an address
   that is never used. It is compiled without headers, since for Windows it is compiled as for Linux first: there C would answer two words
   through memory, and a module expects them in two registers. */
typedef __SIZE_TYPE__ size;
struct answer {
    size had;
    void *memory;
};

void *malloc(size bytes);
void *realloc(void *memory, size bytes);
void free(void *memory);

static struct answer answer(void *memory)
{
    static char none[16];
    struct answer made = {memory != 0, memory ? memory : none};
    return made;
}

/* So many bytes, aligned as asked, which is at most to 16. Of no bytes it is as many as the alignment. */
struct answer rattle_alloc(size bytes, size alignment)
{
    return answer(malloc(bytes ? bytes : alignment));
}

/* The memory with more or fewer bytes; where there is no room for them it stays as it is. */
struct answer rattle_realloc(void *memory, size before, size bytes, size alignment)
{
    (void)before;
    return answer(realloc(memory, bytes ? bytes : alignment));
}

void rattle_dealloc(void *memory)
{
    free(memory);
}
