// What pcalc_must throws for answers of pcalc_threads.h.
#include "pcalc_threads.h"
#include "pcalc.hpp"

#include <iostream>

static int wrong(const char *what)
{
    std::cout << "wrong: " << what << "\n";
    return 1;
}

int main()
{
    pcalc store = PCALC_NONE;
    pcalc_shared shared;
    pcalc_answer answer;
    const pcalc_options options = { 1, 1, 2, 2, 100 };
    if (pcalc_open(&store, &options, &answer) != PCALC_OPENED || pcalc_share(&shared, &store, nullptr, 0, false)) {
        return wrong("share");
    }
    pcalc_begin_shared(&shared, 1, &answer);
    pcalc_put_shared(&shared, 1, 0, "k", 1, "v", 1, &answer);
    pcalc_commit_shared(&shared, 1, &answer);
    if (pcalc_must(answer).number != 1) {
        return wrong("a commit");
    }
    try {
        pcalc_commit_shared(&shared, 1, &answer);
        pcalc_must(answer);
        return wrong("no transaction");
    } catch (const pcalc_refused &why) {
        if (why.refusal != PCALC_NO_TRANSACTION || why.what() != std::string("pcalc refused: NoTransaction")) {
            return wrong(why.what());
        }
    }
    try {
        answer.kind = PCALC_UNKNOWN;
        answer.number = 7;
        pcalc_must(answer);
        return wrong("an unknown commit");
    } catch (const pcalc_refused &) {
        return wrong("an unknown commit is a refusal");
    } catch (const pcalc_unknown &why) {
        if (why.entry != 7) {
            return wrong("its entry");
        }
    }
    std::cout << (pcalc_unshare(&shared) ? "wrong: unshare" : "ok") << "\n";
    return 0;
}
