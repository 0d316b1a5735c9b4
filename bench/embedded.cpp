// Commits of one put over 1,000 keys through pcalc.hpp: `embedded_cpp COUNT`. It prints how many nanoseconds a transaction took.
#include "pcalc.hpp"

#include <chrono>
#include <cstdio>
#include <cstdlib>
#include <cstring>

static constexpr long keys = 1000;

template <typename Number> static std::string_view bytes_of(const Number &number) { return { reinterpret_cast<const char *>(&number), sizeof number }; }

int main(int words, char **word)
{
    const long count = words > 1 ? std::atol(word[1]) : 1000000;
    pcalc_store store(2, 262144);
    const auto began = std::chrono::steady_clock::now();
    for (long turn = 0; turn < count; turn++) {
        const std::uint32_t key = static_cast<std::uint32_t>(turn % keys);
        pcalc_transaction transaction = store.begin(1);
        transaction.put(bytes_of(key), bytes_of(turn));
        transaction.commit();
    }
    const std::chrono::duration<double, std::nano> took = std::chrono::steady_clock::now() - began;
    std::printf("%.0f\n", took.count() / static_cast<double>(count));
    return 0;
}
