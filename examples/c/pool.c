/* A fixed pool of memory: 65,536 places, of which each request has the first free one that is large enough. By livevec that is a search in O(log n), and
 * so is the largest free place; pool_plain.c goes over an array, and prints the same.
 *
 * The program takes no memory from the system: that of livevec comes out of one static array, by the three functions below, whose names the archive was
 * given by `make embed MALLOC=my_malloc REALLOC=my_realloc FREE=my_free`. A series keeps no log, so what it needs is fixed too. */
#include "pool.h"

#include <livevec.h>
#include <stdalign.h>
#include <stdlib.h>
#include <string.h>

/* The array, in pieces side by side: each has a head that tells how long it is, head included, and whether it is free. */
typedef struct piece {
    alignas(16) size_t length;
    bool is_free;
} piece;

enum { ROOM = 2 << 20 };
static alignas(piece) unsigned char room[ROOM];
static size_t most_used;

static piece *after(piece *it)
{
    return (piece *)((unsigned char *)it + it->length);
}

static bool is_end(const piece *it)
{
    return (const unsigned char *)it == room + ROOM;
}

/* The first free piece that is long enough, whose rest stays free; free neighbours become one on the way. */
void *my_malloc(size_t size)
{
    piece *it = (piece *)room;
    if (!it->length)
        *it = (piece){ROOM, true};
    if (size > ROOM)
        return NULL;
    size_t length = sizeof *it + (size + sizeof *it - 1) / sizeof *it * sizeof *it;
    for (; !is_end(it); it = after(it)) {
        while (it->is_free && !is_end(after(it)) && after(it)->is_free)
            it->length += after(it)->length;
        if (!it->is_free || it->length < length)
            continue;
        size_t rest = it->length - length;
        *it = (piece){length, false};
        if (rest)
            *after(it) = (piece){rest, true};
        size_t used = (size_t)((unsigned char *)after(it) - room);
        most_used = used > most_used ? used : most_used;
        return it + 1;
    }
    return NULL;
}

void my_free(void *at)
{
    if (at)
        ((piece *)at - 1)->is_free = true;
}

void *my_realloc(void *at, size_t size)
{
    void *made = my_malloc(size);
    if (!made || !at)
        return made;
    size_t before = ((piece *)at - 1)->length - sizeof(piece);
    memcpy(made, at, before < size ? before : size);
    my_free(at);
    return made;
}

/* Of each place the bytes that are free: all of them, or none. */
static livevec_series places;

/* Ends the program if a call was refused, with its number. */
static void must(uint32_t refusal)
{
    if (refusal) {
        fprintf(stderr, "pool: %s\n", livevec_refusal_text(refusal));
        exit(EXIT_FAILURE);
    }
}

uint32_t take(int64_t bytes)
{
    livevec_series_found found = livevec_series_where_first_at_least(&places, 0, PLACES, bytes);
    must(found.refusal);
    if (!found.found)
        return NONE;
    must(livevec_series_write(&places, found.lo, 0).refusal);
    return (uint32_t)found.lo;
}

void give_back(uint32_t place)
{
    must(livevec_series_write(&places, place, bytes_of(place)).refusal);
}

int64_t all_free(void)
{
    livevec_series_reduced all = livevec_series_value(&places, LIVEVEC_SUM, 0, PLACES);
    must(all.refusal);
    return (int64_t)all.values.sum;
}

int64_t largest_free(void)
{
    livevec_series_reduced all = livevec_series_value(&places, LIVEVEC_GREATEST, 0, PLACES);
    must(all.refusal);
    return all.values.greatest;
}

int main(void)
{
    static int64_t bytes[PLACES];
    for (uint32_t place = 0; place < PLACES; place++)
        bytes[place] = bytes_of(place);
    must(livevec_series_new(&places));
    must(livevec_series_push_many(&places, bytes, PLACES).refusal);
    serve();
    fprintf(stderr, "pool: at most %zu bytes of %d\n", most_used, ROOM);
    return livevec_free_series(&places) != 0;
}
