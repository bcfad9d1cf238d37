/* Vectors, jobs and outcomes: slots that are empty, freed or of other types, null pointers, and arrays of nothing. */
#include "tests.h"

static const livevec_vector empty_vector;
static const livevec_job empty_job;
static const livevec_outcome empty_outcome;

/* Slots that are empty, freed, or hold something else; and null pointers. */
static void misuse(void)
{
    livevec_vector v = empty_vector;
    livevec_job job = empty_job;
    livevec_outcome outcome = empty_outcome;
    IS(livevec_push(&v, 1).refusal, LIVEVEC_NO_HANDLE);
    IS(livevec_free(&v), LIVEVEC_NO_HANDLE);
    IS(livevec_new(&v, 1, 9), 0);
    IS(livevec_free(&v), 0);
    IS(livevec_free(&v), LIVEVEC_NO_HANDLE);
    IS(livevec_push(&v, 1).refusal, LIVEVEC_NO_HANDLE);
    IS(livevec_pop(&v).refusal, LIVEVEC_NO_HANDLE);
    IS(livevec_get(&v, 0).refusal, LIVEVEC_NO_HANDLE);
    IS(livevec_reduce(&v, 0, 0).refusal, LIVEVEC_NO_HANDLE);
    IS(livevec_ask(&v, 0, 0).refusal, LIVEVEC_NO_HANDLE);
    IS(livevec_edits(&v).refusal, LIVEVEC_NO_HANDLE);
    IS(livevec_refresh(&v, 1).refusal, LIVEVEC_NO_HANDLE);
    IS(livevec_forget(&v), LIVEVEC_NO_HANDLE);
    IS(livevec_claim(&v, &job).refusal, LIVEVEC_NO_HANDLE);
    IS(livevec_vet(&v, &outcome).refusal, LIVEVEC_NO_HANDLE);
    /* a job where a vector should be */
    IS(livevec_new(&v, 17, 20), 0);
    for (int i = 0; i < 8; i++)
        IS(livevec_push(&v, i).refusal, 0);
    IS(livevec_claim(&v, &job).found, true);
    IS(livevec_push((livevec_vector *)(void *)&job, 1).refusal, LIVEVEC_NO_HANDLE);
    IS(livevec_reduce((livevec_vector *)(void *)&job, 0, 1).refusal, LIVEVEC_NO_HANDLE);
    IS(livevec_run((livevec_job *)(void *)&v, &outcome), LIVEVEC_NO_HANDLE);
    IS(livevec_vet(&v, (livevec_outcome *)(void *)&job).refusal, LIVEVEC_NO_HANDLE);
    IS(livevec_accept(&v, (livevec_outcome *)(void *)&job).refusal, LIVEVEC_NO_HANDLE);
    IS(livevec_size(&v).value, 8);
    IS(livevec_free_job(&job), 0);
    IS(livevec_free_job(&job), LIVEVEC_NO_HANDLE);
    IS(livevec_free(&v), 0);
    /* null */
    IS(livevec_new(NULL, 1, 1), LIVEVEC_NULL);
    IS(livevec_new_with_table(&v, 1, 1, NULL), LIVEVEC_NULL);
    IS(livevec_free(NULL), LIVEVEC_NULL);
    IS(livevec_push(NULL, 1).refusal, LIVEVEC_NULL);
    IS(livevec_pop(NULL).refusal, LIVEVEC_NULL);
    IS(livevec_write(NULL, 0, 1).refusal, LIVEVEC_NULL);
    IS(livevec_reserve(NULL, 1).refusal, LIVEVEC_NULL);
    IS(livevec_get(NULL, 0).refusal, LIVEVEC_NULL);
    IS(livevec_size(NULL).refusal, LIVEVEC_NULL);
    IS(livevec_reduce(NULL, 0, 0).refusal, LIVEVEC_NULL);
    IS(livevec_scan_inclusive(&v, 0, 0, NULL, 1).refusal, LIVEVEC_NULL);
    IS(livevec_push_many(&v, NULL, 1).refusal, LIVEVEC_NULL);
    IS(livevec_read(NULL, 0, 0, NULL, 0).refusal, LIVEVEC_NULL);
    IS(livevec_claim(&v, NULL).refusal, LIVEVEC_NULL);
    IS(livevec_run(NULL, &outcome), LIVEVEC_NULL);
    IS(livevec_accept(&v, NULL).refusal, LIVEVEC_NULL);
    IS(livevec_free_job(NULL), LIVEVEC_NULL);
    IS(livevec_free_outcome(NULL), LIVEVEC_NULL);
}

/* A null pointer with length 0 is an empty array. */
static void empty_arrays(void)
{
    livevec_vector v = empty_vector;
    IS(livevec_push_many(&v, NULL, 0).refusal, LIVEVEC_NO_HANDLE);
    IS(livevec_read(&v, 0, 0, NULL, 0).refusal, LIVEVEC_NO_HANDLE);
    IS(livevec_new(&v, 1, 9), 0);
    IS(livevec_push_many(&v, NULL, 0).refusal, 0);
    IS(livevec_push(&v, 7).edit, 1);
    IS(livevec_read(&v, 1, 1, NULL, 0).edit, 1);
    IS(livevec_scan_exclusive(&v, 0, 0, NULL, 0).refusal, 0);
    IS(livevec_scan_exclusive(&v, 0, 1, NULL, 0).refusal, LIVEVEC_SHORT_BUFFER);
    IS(livevec_free(&v), 0);
}

void misuse_of_vectors(void)
{
    misuse();
    empty_arrays();
}
