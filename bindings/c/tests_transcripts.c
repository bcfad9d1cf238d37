/* The journal and transcripts. The texts and what an audit says of them are rows of examples/rows/transcripts.rows and fronts.rows. */
#include "tests.h"

#include <stdlib.h>
#include <string.h>

static const char SOUND[] = "livevec 1\nj push 513\nj push 768\na 1 sum 0 1 513\na 2 least 0 2 513\na 2 greatest 0 2 768\na 2 best 0 2 1281\n"
                            "a 2 affine 0 2 6 3\na 2 automaton 0 2 2 6 2 6 2 6 2 6\nend\n";

/* One more answer of a vector, by a kind. */
static livevec_recorded asked(livevec_vector *v, uint32_t kind, uint32_t lo, uint32_t hi)
{
    livevec_reduced told = livevec_value(v, kind, lo, hi);
    IS(told.refusal, 0);
    return (livevec_recorded){told.edit, kind, lo, hi, told.values};
}

static void edit_is(livevec_edit e, uint32_t what, uint32_t index, uint32_t second, int64_t value)
{
    IS(e.what, what);
    IS(e.index, index);
    IS(e.second, second);
    IS(e.value, value);
}

/* Each edit by its number, in pieces; what a piece has behind it stays. */
static void journals(void)
{
    livevec_vector v = {0};
    livevec_edit edits[7];
    IS(livevec_journal(&v, 0, edits, 7).refusal, LIVEVEC_NO_HANDLE);
    IS(livevec_journal(NULL, 0, edits, 7).refusal, LIVEVEC_NULL);
    IS(livevec_new(&v, 17, 100), 0);
    IS(livevec_journal(&v, 0, NULL, 7).refusal, LIVEVEC_NULL);
    IS(livevec_journal(&v, 0, NULL, 0).length, 0);
    IS(livevec_push(&v, -4).refusal, 0);
    IS(livevec_push(&v, 6).refusal, 0);
    IS(livevec_write(&v, 1, INT64_MIN).refusal, 0);
    IS(livevec_swap(&v, 0, 1).refusal, 0);
    IS(livevec_reserve(&v, 9).refusal, 0);
    IS(livevec_pop(&v).refusal, 0);
    IS(livevec_truncate(&v, 0).refusal, 0);
    IS(livevec_pop(&v).refusal, LIVEVEC_EMPTY);
    memset(edits, 7, sizeof edits);
    livevec_journal_read told = livevec_journal(&v, 0, edits, 3);
    IS(told.refusal, 0);
    IS(told.edit, 7);
    IS(told.length, 3);
    edit_is(edits[0], LIVEVEC_PUSH, 0, 0, -4);
    edit_is(edits[1], LIVEVEC_PUSH, 0, 0, 6);
    edit_is(edits[2], LIVEVEC_WRITE, 1, 0, INT64_MIN);
    edit_is(edits[3], 0x07070707, 0x07070707, 0x07070707, 0x0707070707070707);
    told = livevec_journal(&v, 3, edits, 7);
    IS(told.length, 4);
    edit_is(edits[0], LIVEVEC_SWAP, 0, 1, 0);
    edit_is(edits[1], LIVEVEC_RESERVE, 9, 0, 0);
    edit_is(edits[2], LIVEVEC_POP, 0, 0, 0);
    edit_is(edits[3], LIVEVEC_TRUNCATE, 0, 0, 0);
    edit_is(edits[4], 0x07070707, 0x07070707, 0x07070707, 0x0707070707070707);
    IS(livevec_journal(&v, 7, edits, 7).length, 0);
    IS(livevec_journal(&v, UINT32_MAX, edits, 7).length, 0);
    IS(livevec_free(&v), 0);
}

/* The text of a vector of two elements that was asked by each kind, into too little room and into enough. */
static void texts(void)
{
    livevec_vector v = {0};
    livevec_recorded answers[6];
    char text[300];
    size_t wanted = strlen(SOUND);
    IS(livevec_transcript(&v, NULL, 0, text, 300).refusal, LIVEVEC_NO_HANDLE);
    IS(livevec_new(&v, 17, 100), 0);
    IS(livevec_push(&v, 513).refusal, 0);
    answers[0] = asked(&v, LIVEVEC_SUM, 0, 1);
    IS(livevec_push(&v, 768).refusal, 0);
    for (uint32_t kind = LIVEVEC_LEAST; kind <= LIVEVEC_AUTOMATON; kind++)
        answers[kind] = asked(&v, kind, 0, 2);
    memset(text, 'x', sizeof text);
    livevec_text_put put = livevec_transcript(&v, answers, 6, NULL, 0);
    IS(put.refusal, LIVEVEC_SHORT_BUFFER);
    IS(put.length, (long long)wanted);
    put = livevec_transcript(&v, answers, 6, text, wanted - 1);
    IS(put.refusal, LIVEVEC_SHORT_BUFFER);
    IS(text[0], 'x');
    put = livevec_transcript(&v, answers, 6, text, 300);
    IS(put.refusal, 0);
    IS(put.length, (long long)wanted);
    IS(memcmp(text, SOUND, wanted), 0);
    IS(text[wanted], 'x');
    IS(livevec_audit(text, put.length).verdict, LIVEVEC_YES);
    /* a false answer is written, and found */
    answers[1].values.least = 512;
    IS(livevec_transcript(&v, answers, 6, text, 300).refusal, 0);
    IS(livevec_audit(text, wanted).verdict, LIVEVEC_NO);
    IS(livevec_audit(text, wanted).line, 5);
    /* what is refused writes nothing */
    memset(text, 'x', sizeof text);
    answers[1].kind = 6;
    IS(livevec_transcript(&v, answers, 6, text, 300).refusal, LIVEVEC_BAD_KIND);
    answers[1].kind = LIVEVEC_LEAST;
    answers[5].edit = 1;
    put = livevec_transcript(&v, answers, 6, text, 300);
    IS(put.refusal, LIVEVEC_NOT_IN_ORDER);
    IS(put.length, 0);
    IS(text[0], 'x');
    IS(livevec_transcript(&v, NULL, 1, text, 300).refusal, LIVEVEC_NULL);
    IS(livevec_transcript(&v, answers, 6, NULL, 300).refusal, LIVEVEC_NULL);
    /* without answers, and without edits */
    put = livevec_transcript(&v, NULL, 0, text, 300);
    IS(memcmp(text, "livevec 1\nj push 513\nj push 768\nend\n", 36), 0);
    IS(put.length, 36);
    IS(livevec_free(&v), 0);
}

/* A best run of 128 bits, and values of no elements. */
static void wide_texts(void)
{
    livevec_vector v = {0};
    livevec_recorded answers[2];
    char text[200];
    const char *wanted = "livevec 1\nj push 9223372036854775807\nj push 9223372036854775807\na 0 best 0 0 none\n"
                         "a 2 best 0 2 18446744073709551614\nend\n";
    IS(livevec_new(&v, 17, 100), 0);
    answers[0] = asked(&v, LIVEVEC_BEST, 0, 0);
    IS(livevec_push(&v, INT64_MAX).refusal, 0);
    IS(livevec_push(&v, INT64_MAX).refusal, 0);
    answers[1] = asked(&v, LIVEVEC_BEST, 0, 2);
    livevec_text_put put = livevec_transcript(&v, answers, 2, text, 200);
    IS(put.refusal, 0);
    IS(put.length, (long long)strlen(wanted));
    IS(memcmp(text, wanted, put.length), 0);
    IS(livevec_audit(text, put.length).verdict, LIVEVEC_YES);
    IS(livevec_free(&v), 0);
}

static void verdict_is(const char *text, uint32_t verdict, uint32_t line)
{
    livevec_audited told = livevec_audit(text, strlen(text));
    IS(told.refusal, 0);
    IS(told.verdict, verdict);
    IS(told.line, line);
}

static void front_is(const char *text, uint32_t verdict, uint32_t line, uint32_t edits, uint32_t answers)
{
    livevec_audited told = livevec_audit_front(text, strlen(text));
    IS(told.refusal, 0);
    IS(told.verdict, verdict);
    IS(told.line, line);
    IS(told.edits, edits);
    IS(told.answers, answers);
}

static void audits(void)
{
    verdict_is(SOUND, LIVEVEC_YES, 0);
    verdict_is("livevec 1\nend", LIVEVEC_YES, 0);
    verdict_is("livevec 1\nj pop\nnonsense\n", LIVEVEC_NO, 2);
    verdict_is("livevec 1\nj push 5\na 1 sum 0 1 5\nj push 6\nend\n", LIVEVEC_BAD, 4);
    IS(livevec_audit(NULL, 0).verdict, LIVEVEC_BAD);
    IS(livevec_audit(NULL, 1).refusal, LIVEVEC_NULL);
    front_is(SOUND, LIVEVEC_YES, 0, 2, 6);
    front_is("livev", LIVEVEC_YES, 0, 0, 0);
    front_is("livevec 1\nj push 5\na 1 sum 0 1 5\nj push 6\na 2 sum 0 2 11\na 2 least 0 2 5\nend\n", LIVEVEC_YES, 0, 2, 3);
    front_is("livevec 1\nj push 5\na 1 sum 0 1 6\nj push 6\n", LIVEVEC_NO, 3, 0, 0);
    front_is("livevec 1\nend\nend\n", LIVEVEC_BAD, 3, 0, 0);
    /* lines of a log end in checksums, which tools/seals.py works out too */
    front_is("livevec 3 0 0 3048bf0ec06edf22\nj push 5 103746d1d7a0d433\nj pop 6682bbb128f05428\n", LIVEVEC_YES, 0, 2, 0);
    front_is("livevec 3 0 0 3048bf0ec06edf22\nj push 6 103746d1d7a0d433\nj pop 6682bbb128f05428\n", LIVEVEC_BAD, 2, 0, 0);
    IS(livevec_audit_front(NULL, 1).refusal, LIVEVEC_NULL);
}

/* A vector from a front: its edits go on, and limits of the caller's refuse what they refuse. */
static void restores(void)
{
    static const char front[] = "livevec 1\nj push 5\na 1 sum 0 1 5\nj push 6\na 2 su";
    livevec_vector v = {0};
    livevec_audited told = livevec_restore(&v, 17, 100, front, strlen(front));
    IS(told.refusal, 0);
    IS(told.verdict, LIVEVEC_YES);
    IS(told.edits, 2);
    IS(told.answers, 1);
    IS(livevec_restore(&v, 17, 100, front, strlen(front)).refusal, LIVEVEC_IN_USE);
    livevec_edited pushed = livevec_push(&v, 9);
    IS(pushed.edit, 3);
    IS(pushed.place, 2);
    IS(livevec_value(&v, LIVEVEC_SUM, 0, 3).values.sum, 20);
    IS(livevec_free(&v), 0);
    IS(livevec_restore(&v, 0, 100, front, strlen(front)).refusal, LIVEVEC_BAD_LIMITS);
    told = livevec_restore(&v, 17, 1, front, strlen(front));
    IS(told.refusal, LIVEVEC_WORN);
    IS(told.edits, 1);
    told = livevec_restore(&v, 1, 100, "livevec 1\nj reserve 9\n", 22);
    IS(told.refusal, LIVEVEC_TOO_LARGE);
    IS(told.detail, 8);
    IS(told.edits, 0);
    told = livevec_restore(&v, 17, 100, "livevec 1\nj push 5\nj pop\nj pop\n", 31);
    IS(told.refusal, LIVEVEC_NO_FRONT);
    IS(told.verdict, LIVEVEC_NO);
    IS(told.line, 4);
    IS(livevec_size(&v).refusal, LIVEVEC_NO_HANDLE);
    IS(livevec_restore(NULL, 17, 100, front, 1).refusal, LIVEVEC_NULL);
    IS(livevec_restore(&v, 17, 100, NULL, 1).refusal, LIVEVEC_NULL);
    IS(livevec_restore(&v, 17, 100, NULL, 0).edits, 0);
    IS(livevec_size(&v).value, 0);
    IS(livevec_free(&v), 0);
    IS(livevec_restore_of(&v, 6, 17, 100, front, strlen(front)).refusal, LIVEVEC_BAD_KIND);
    IS(livevec_restore_of(&v, LIVEVEC_SUM, 17, 100, front, strlen(front)).edits, 2);
    IS(livevec_value(&v, LIVEVEC_SUM, 0, 2).values.sum, 11);
    IS(livevec_value(&v, LIVEVEC_LEAST, 0, 2).refusal, LIVEVEC_BAD_KIND);
    IS(livevec_free(&v), 0);
}

/* Each request for memory is refused in turn: the slot stays empty, or the text as it was. */
static void starved(void)
{
    livevec_vector v = {0};
    char text[300];
    uint32_t refusal = LIVEVEC_NO_MEMORY;
    for (int at = 1; refusal == LIVEVEC_NO_MEMORY; at++) {
        IS(livevec_size(&v).refusal, LIVEVEC_NO_HANDLE);
        until_failure = at;
        refusal = livevec_restore(&v, 17, 100, SOUND, strlen(SOUND)).refusal;
    }
    until_failure = 0;
    IS(refusal, 0);
    IS(livevec_size(&v).value, 2);
    refusal = LIVEVEC_NO_MEMORY;
    for (int at = 1; refusal == LIVEVEC_NO_MEMORY; at++) {
        memset(text, 'x', sizeof text);
        until_failure = at;
        refusal = livevec_transcript(&v, NULL, 0, text, 300).refusal;
        IS(text[0], refusal ? 'x' : 'l');
    }
    until_failure = 0;
    IS(refusal, 0);
    refusal = LIVEVEC_NO_MEMORY;
    for (int at = 1; refusal == LIVEVEC_NO_MEMORY; at++) {
        until_failure = at;
        refusal = livevec_audit(SOUND, strlen(SOUND)).refusal;
    }
    until_failure = 0;
    IS(refusal, 0);
    IS(livevec_free(&v), 0);
}

void transcripts(void)
{
    journals();
    texts();
    wide_texts();
    audits();
    restores();
    starved();
}
