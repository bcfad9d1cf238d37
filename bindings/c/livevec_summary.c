/* Summaries that travel. They are bytes of the caller's and no slots. */
#include "livevec_slots.h"

#include <string.h>

livevec_summarised livevec_proved_summary_empty(bool by_table, const livevec_table *table);
livevec_summarised livevec_summary_empty(void)
{
    return livevec_proved_summary_empty(false, &(livevec_table){{{0}}});
}
BY_PROVED(livevec_summarised, AS_STRUCT, summary_empty_with_table, (const livevec_table *table), THERE(table), true, (void)0, summary_empty(true, table))
OF_BYTES(livevec_summarised, summary_join, (const livevec_summary *left, const livevec_summary *right), THERE(left && right), (left, right))
OF_BYTES(livevec_opened, summary_values, (const livevec_summary *summary), THERE(summary), (summary))

/* The proved export takes some elements at once. */
#define CHUNK 1024
typedef struct chunk {
    int64_t values[CHUNK];
} chunk;
livevec_summarised livevec_proved_summary_extend(const livevec_summary *summary, const chunk *next, uint32_t length);

livevec_summarised livevec_summary_extend(const livevec_summary *summary, const int64_t *values, size_t length)
{
    livevec_summarised answer = {.refusal = first_of(THERE(summary), ARRAY(values, length))};
    if (answer.refusal)
        return answer;
    chunk next = {{0}};
    livevec_summary so_far = *summary;
    size_t done = 0;
    do {
        size_t many = length - done < CHUNK ? length - done : CHUNK;
        if (many)
            memcpy(next.values, values + done, many * sizeof *values);
        answer = livevec_proved_summary_extend(&so_far, &next, (uint32_t)many);
        so_far = answer.summary;
        done += many;
    } while (done < length && !answer.refusal);
    return answer;
}

livevec_summarised livevec_summary_of_elements(const int64_t *values, size_t length)
{
    livevec_summarised empty = livevec_summary_empty();
    return livevec_summary_extend(&empty.summary, values, length);
}
