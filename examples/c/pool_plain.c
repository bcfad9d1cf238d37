/* The same pool by an array and loops. */
#include "pool.h"

static int64_t places[PLACES];

uint32_t take(int64_t bytes)
{
    for (uint32_t place = 0; place < PLACES; place++)
        if (places[place] >= bytes) {
            places[place] = 0;
            return place;
        }
    return NONE;
}

void give_back(uint32_t place)
{
    places[place] = bytes_of(place);
}

int64_t all_free(void)
{
    int64_t sum = 0;
    for (uint32_t place = 0; place < PLACES; place++)
        sum += places[place];
    return sum;
}

int64_t largest_free(void)
{
    int64_t greatest = 0;
    for (uint32_t place = 0; place < PLACES; place++)
        greatest = places[place] > greatest ? places[place] : greatest;
    return greatest;
}

int main(void)
{
    for (uint32_t place = 0; place < PLACES; place++)
        give_back(place);
    serve();
    return 0;
}
