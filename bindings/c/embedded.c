/* A program whose archive takes its memory from functions of the program's own names, out of one static array. It ends with 0 if the memory of the
 * vector came from there, and if each byte was given back. `check` builds it with the archive of `make embed`. */
#include "livevec.h"

#include <stdalign.h>
#include <stdio.h>
#include <string.h>

enum { ROOM = 1 << 22, ALIGNED = 16 };

static alignas(ALIGNED) unsigned char room[ROOM];
static size_t used, calls;
static long out;

/* A piece of the array behind its size; none where the array is used up. Only the last piece is ever used again. */
void *my_malloc(size_t size)
{
    size_t whole = (size + 2 * ALIGNED - 1) / ALIGNED * ALIGNED;
    if (size > ROOM || whole > ROOM - used)
        return NULL;
    unsigned char *piece = room + used;
    memcpy(piece, &size, sizeof size);
    used += whole;
    calls++;
    out++;
    return piece + ALIGNED;
}

void my_free(void *at)
{
    out -= at != NULL;
}

void *my_realloc(void *at, size_t size)
{
    void *made = my_malloc(size);
    size_t before = 0;
    if (!made || !at)
        return made;
    memcpy(&before, (unsigned char *)at - ALIGNED, sizeof before);
    memcpy(made, at, before < size ? before : size);
    my_free(at);
    return made;
}

int main(void)
{
    livevec_vector v = {0};
    uint32_t refusal = livevec_new(&v, 17, 100000);
    for (int64_t i = 1; i <= 1000 && !refusal; i++)
        refusal = livevec_push(&v, i).refusal;
    livevec_reduced sum = livevec_value(&v, LIVEVEC_SUM, 0, 1000);
    /* until the array is used up: then it says so, and nothing has changed */
    uint32_t pushed = 1000;
    while (!refusal) {
        refusal = livevec_push(&v, 7).refusal;
        pushed += !refusal;
    }
    uint32_t size = livevec_size(&v).value;
    printf("sum %llu, refusal %u, %s\n", (unsigned long long)sum.values.sum, refusal, size == pushed ? "each push is there" : "a push is lost");
    return livevec_free(&v) || sum.values.sum != 500500 || refusal != LIVEVEC_NO_MEMORY || size != pushed || !calls || out;
}
