// Transactions that are committed and undone, and a store that starts from the texts of another one.
#include "pcalc.hpp"

#include <iostream>

int main()
{
    pcalc_store store(2, 1000);
    {
        auto t = store.begin(1);
        t.put("fig", "seven");
        std::cout << "sum " << t.add("sold", 5) << "\n";
        std::cout << "committed " << t.commit() << "\n";
    }
    {
        auto undone = store.begin(1);
        undone.put("fig", "eight"); // its scope ends without a commit
    }
    auto older = store.begin(1), younger = store.begin(2);
    older.put("fig", "nine");
    try {
        younger.get("fig");
    } catch (const pcalc_died &) {
        std::cout << "the younger one dies\n";
        younger.abort();
    }
    try {
        older.put(std::string(256, 'k'), "x");
    } catch (const pcalc_refused &why) {
        std::cout << why.what() << "\n";
    }
    older.abort();
    pcalc_store again(store.text(PCALC_BASE), {}, store.log());
    auto t = again.begin(1);
    std::cout << "fig " << t.get("fig").value_or("none") << ", pear " << t.get("pear").value_or("none") << "\n";
    return 0;
}
