/* livevec_transcripts.hpp from outside. The texts and what an audit says of them are rows of examples/rows. */
#include "tests_cpp.hpp"

#include <string>
#include <vector>

using livevec::transcript;

static void reads_a_journal()
{
    livevec::vector v{4, 6};
    v.write(1, -7);
    v.swap_elements(0, 1);
    const std::vector<livevec_edit> edits = transcript::journal(v);
    IS(edits.size() == 4 && edits[0].what == LIVEVEC_PUSH && edits[0].value == 4);
    IS(edits[2].what == LIVEVEC_WRITE && edits[2].index == 1 && edits[2].value == -7);
    IS(edits[3].what == LIVEVEC_SWAP && edits[3].index == 0 && edits[3].second == 1);
    IS(transcript::journal(v, 3).size() == 1 && transcript::journal(v, 4).empty() && transcript::journal(v, 9).empty());
    livevec_edit few[3] = {};
    IS(transcript::journal_into(v, 2, few) == 2 && few[0].what == LIVEVEC_WRITE && few[2].what == 0);
}

static void writes_and_audits()
{
    livevec::vector v{5, -7};
    IS(transcript::of(v) == "livevec 1\nj push 5\nj push -7\nend\n");
    const livevec_reduced told = v.value(livevec::kind::sum, 0, 2);
    std::vector<livevec_recorded> answers{{told.edit, LIVEVEC_SUM, 0, 2, told.values}};
    const std::string text = transcript::of(v, answers);
    IS(text == "livevec 1\nj push 5\nj push -7\na 2 sum 0 2 18446744073709551614\nend\n");
    IS(transcript::audit(text).verdict == LIVEVEC_YES);
    const livevec_audited no = transcript::audit("livevec 1\nj push 5\nj push -7\na 2 sum 0 2 18446744073709551613\nend\n");
    IS(no.verdict == LIVEVEC_NO && no.line == 4);
    IS(transcript::audit_front("livevec 1\nj push 5\na 1 sum 0 1 5\nend").answers == 1);
    answers.push_back({1, LIVEVEC_SUM, 0, 1, told.values});
    try {
        (void)transcript::of(v, answers);
        IS(false);
    } catch (const livevec::refused &refused) {
        IS(refused.number() == LIVEVEC_NOT_IN_ORDER);
    }
}

static void restores()
{
    livevec::vector v = transcript::restore("livevec 1\nj push 5\na 1 sum 0 1 5\nj push 6\na 2 su");
    IS(v.edits() == 2 && v.push(9) == 2 && v.sum(0, 3) == 20);
    IS(transcript::restore(livevec::kind::least, transcript::of(v)).least(0, 3) == 5);
    try {
        (void)transcript::restore("livevec 1\nj push 5\nj pop\nj pop\n");
        IS(false);
    } catch (const livevec::not_restored &why) {
        IS(why.number() == LIVEVEC_NO_FRONT && why.verdict() == LIVEVEC_NO && why.line() == 4);
    }
    try {
        (void)transcript::restore(transcript::of(v), {17, 2});
        IS(false);
    } catch (const livevec::not_restored &why) {
        IS(why.number() == LIVEVEC_WORN && why.edits() == 2);
    }
}

void transcripts()
{
    reads_a_journal();
    writes_and_audits();
    restores();
}
