#include <livevec.h>
#include <stdio.h>

int main(void)
{
    livevec_vector prices = {0};              /* a handle starts as zeros, and is never copied */
    if (livevec_new(&prices, 17, 1000))       /* at most 17 buckets (1,048,568 elements) and 1,000 edits */
        return 1;
    if (livevec_push(&prices, 1250).refusal || livevec_push(&prices, 399).refusal)
        return 1;
    /* the greatest of the elements from index 0 up to, not including, 2 */
    livevec_reduced r = livevec_value(&prices, LIVEVEC_GREATEST, 0, 2);
    if (r.refusal)                            /* why the call was refused; 0 if it was not */
        return 1;
    printf("version %u: greatest %lld\n", r.edit, (long long)r.values.greatest);
    return livevec_free(&prices) != 0;
}
/* prints: version 2: greatest 1250 */
