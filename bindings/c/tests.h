/* What the tests of livevec.h share. */
#ifndef TESTS_H
#define TESTS_H

#include "livevec.h"

/* Counts a check, and says where it fails. Of one thread at a time. */
void is(const char *file, int line, const char *what, long long got, long long wanted);

/* How many requests for memory from here the one is that fails; 0 where none does, as always while there are several threads. */
extern int until_failure;

/* How many bytes the library holds. */
size_t memory_held(void);

#define IS(got, wanted) is(__FILE__, __LINE__, #got, (long long)(got), (long long)(wanted))

/* The tests of slots that hold something else, and of null pointers. */
void lengths(void);
void misuse_of_vectors(void);

/* The tests of functions that are told by a number what is meant. */
void numbers(void);

/* The tests of boards and seats. */
void boards(void);

/* The tests of calls beside one another at one slot. They come before all others that begin a thread. */
void beside(void);

/* The tests of questions by one kind, one or many at once. */
void kinds(void);

/* The tests of exact sums. */
void exact_sums(void);

/* The tests of many writes and pushes at once. */
void many_writes(void);

/* The tests of vectors of one kind. */
void one_kind(void);

/* The tests of scans into columns. */
void columns(void);

/* The tests of summaries that travel. */
void summaries(void);

/* The tests of where in a range something stands. */
void places(void);

/* The tests of series. */
void series(void);
void misuse_of_series(void);

/* The tests of questions at a series by one kind, and of its columns. */
void series_kinds(void);

/* The tests of where in a range of a series something stands, or of the values of samples. */
void series_places(void);

/* The tests of elements of a series that are lent. */
void lent(void);

/* The tests of samples and windows of time. */
void samples(void);

/* The tests of series and samples as bytes, and of vectors. */
void saved(void);
void saved_vectors(void);

/* The tests of standing queries. */
void queries(void);

/* The tests of jobs of many blocks, and of whole subtrees. */
void blocks(void);
void subtrees(void);

/* The tests of the journal and of transcripts. */
void transcripts(void);

/* The tests of what threads share. */
void shared_forms(void);

#endif
