// pcalc for C++17: a store that ends with its scope, and transactions that are undone unless committed.
//
//     pcalc_store store;                                   // 8 sessions, room for 65,536 keys
//     auto t = store.begin(1);
//     t.put("fig", "6");
//     t.add("sold", 5);
//     t.commit();
//     std::optional<std::string> fig = store.begin(1).get("fig");
//
// A refusal is thrown as pcalc_refused. If a lock can't be granted immediately, pcalc_waits is thrown (make the same call again once
// another transaction has ended) or pcalc_died (only an abort is accepted then). pcalc_must throws the same for answers of pcalc_threads.h,
// and pcalc_unknown.
#ifndef PCALC_HPP
#define PCALC_HPP

#include "pcalc.h"

#include <cstddef>
#include <cstdint>
#include <initializer_list>
#include <optional>
#include <random>
#include <stdexcept>
#include <string>
#include <string_view>
#include <utility>

// A refused call, with the reason's number in pcalc_refusal.
struct pcalc_refused : std::runtime_error {
    explicit pcalc_refused(const pcalc_answer &answer) : std::runtime_error(std::string("pcalc refused: ") + pcalc_refusal_name(answer.refusal)), refusal(answer.refusal) {}
    std::uint32_t refusal;
};

// A commit that may be there after a start, or not: the log failed (PCALC_UNKNOWN). It is no refusal, and must not just be made again.
struct pcalc_unknown : std::runtime_error {
    explicit pcalc_unknown(const pcalc_answer &answer) : std::runtime_error("it is unknown whether the commit is kept"), entry(answer.number) {}
    std::uint64_t entry;
};

struct pcalc_waits : std::runtime_error {
    pcalc_waits() : std::runtime_error("another transaction has the lock") {}
};

struct pcalc_died : std::runtime_error {
    pcalc_died() : std::runtime_error("an older transaction has the lock") {}
};

// The answer of any call, unless its kind is thrown.
inline const pcalc_answer &pcalc_must(const pcalc_answer &answer)
{
    switch (answer.kind) {
    case PCALC_REFUSED:
        throw pcalc_refused(answer);
    case PCALC_UNKNOWN:
        throw pcalc_unknown(answer);
    case PCALC_WAIT:
        throw pcalc_waits();
    case PCALC_DIED:
        throw pcalc_died();
    default:
        return answer;
    }
}

class pcalc_store;

// A transaction of a session; the store must outlive it.
class pcalc_transaction {
public:
    pcalc_transaction(pcalc_transaction &&other) noexcept : store(std::exchange(other.store, nullptr)), session(other.session) {}
    pcalc_transaction(const pcalc_transaction &) = delete;
    pcalc_transaction &operator=(const pcalc_transaction &) = delete;
    pcalc_transaction &operator=(pcalc_transaction &&) = delete;
    inline ~pcalc_transaction();

    inline std::optional<std::string> get(std::string_view key, std::uint16_t space = 0);
    inline void put(std::string_view key, std::string_view value, std::uint16_t space = 0);
    inline void del(std::string_view key, std::uint16_t space = 0);
    inline std::int64_t add(std::string_view key, std::int64_t delta, std::uint16_t space = 0);
    inline std::uint64_t commit(); // returns the number of its entry in the log
    inline void abort();

private:
    friend class pcalc_store;
    pcalc_transaction(pcalc_store *of, std::uint32_t number) : store(of), session(number) {}
    inline const pcalc_answer &ask(std::uint32_t kind, std::string_view key, std::string_view value, std::uint32_t space, std::int64_t delta);
    pcalc_store *store;
    std::uint32_t session;
};

// A store. Only one thread at a time may use it and its transactions.
class pcalc_store {
public:
    // A store without pairs.
    explicit pcalc_store(std::uint32_t sessions = 8, std::uint32_t capacity = 65536, std::uint64_t run = 1) : pcalc_store(unopened())
    {
        open(sessions, capacity, run);
    }

    // A store with the state recovered from these texts, the contents of a folder's files; its run is the one after the base's.
    pcalc_store(std::string_view base, const std::initializer_list<std::string_view> &parts, std::string_view log, std::uint32_t sessions = 8,
                std::uint32_t capacity = 65536)
        : pcalc_store(unopened())
    {
        give(PCALC_BASE, base);
        for (std::string_view part : parts) {
            give(PCALC_PART, part);
        }
        give(PCALC_LOG, log);
        open(sessions, capacity, 1);
    }

    pcalc_store(const pcalc_store &) = delete;
    pcalc_store &operator=(const pcalc_store &) = delete;
    ~pcalc_store() { pcalc_close(&handle); }

    pcalc_transaction begin(std::uint32_t session)
    {
        must(pcalc_begin(&handle, session, &answer));
        return pcalc_transaction(this, session);
    }

    // A step of a point's cycle; returns its answer.
    const pcalc_answer &phase(std::uint32_t kind)
    {
        must(pcalc_phase(&handle, kind, &answer));
        return answer;
    }

    // The text of the base, of a file, of the log's header, or of entries of the log after the first `number`.
    std::string text(std::uint32_t what, std::uint32_t number = 0)
    {
        must(pcalc_show(&handle, what, number, &answer));
        return copied();
    }

    // The text of the log.
    std::string log()
    {
        std::string all = text(PCALC_LOG);
        std::uint32_t behind = 0;
        do {
            all += text(PCALC_ENTRIES, behind);
            behind += static_cast<std::uint32_t>(answer.entries);
        } while (answer.entries > 0);
        return all;
    }

private:
    friend class pcalc_transaction;

    struct unopened {};
    explicit pcalc_store(unopened) {} // delegated to first, so that the destructor runs even if a public constructor throws

    void must(std::uint32_t) const { pcalc_must(answer); }

    void give(std::uint32_t what, std::string_view bytes) { must(pcalc_give(&handle, what, at(bytes), bytes.size(), &answer)); }

    void open(std::uint32_t sessions, std::uint32_t capacity, std::uint64_t run)
    {
        std::random_device chance;
        const pcalc_options options = { run, word(chance), word(chance), sessions, capacity };
        must(pcalc_open(&handle, &options, &answer));
    }

    // The value or text of the latest answer.
    std::string copied()
    {
        std::string bytes(static_cast<std::size_t>(answer.value_bytes), '\0');
        std::uint8_t none = 0;
        pcalc_copy(&handle, 0, &none, 0, reinterpret_cast<std::uint8_t *>(bytes.data()), bytes.size());
        return bytes;
    }

    static const std::uint8_t *at(std::string_view bytes) { return reinterpret_cast<const std::uint8_t *>(bytes.empty() ? "" : bytes.data()); }
    static std::uint64_t word(std::random_device &chance) { return (static_cast<std::uint64_t>(chance()) << 32) | chance(); }

    pcalc handle = PCALC_NONE;
    pcalc_answer answer = {};
};

inline const pcalc_answer &pcalc_transaction::ask(std::uint32_t kind, std::string_view key, std::string_view value, std::uint32_t space, std::int64_t delta)
{
    if (!store) {
        throw std::logic_error("the transaction has ended");
    }
    const pcalc_ask asked = { kind, session, space, 0, 0, delta };
    pcalc_ask_with(&store->handle, &asked, key.data(), key.size(), value.data(), value.size(), &store->answer);
    return pcalc_must(store->answer);
}

inline pcalc_transaction::~pcalc_transaction()
{
    if (store) {
        pcalc_abort(&store->handle, session, &store->answer);
    }
}

inline std::optional<std::string> pcalc_transaction::get(std::string_view key, std::uint16_t space)
{
    return ask(PCALC_GET, key, {}, space, 0).kind == PCALC_FOUND ? std::optional(store->copied()) : std::nullopt;
}

inline void pcalc_transaction::put(std::string_view key, std::string_view value, std::uint16_t space) { ask(PCALC_PUT, key, value, space, 0); }
inline void pcalc_transaction::del(std::string_view key, std::uint16_t space) { ask(PCALC_DEL, key, {}, space, 0); }
inline std::int64_t pcalc_transaction::add(std::string_view key, std::int64_t delta, std::uint16_t space) { return ask(PCALC_ADD, key, {}, space, delta).sum; }

inline std::uint64_t pcalc_transaction::commit()
{
    const std::uint64_t entry = ask(PCALC_COMMIT, {}, {}, 0, 0).number;
    store = nullptr;
    return entry;
}

inline void pcalc_transaction::abort()
{
    ask(PCALC_ABORT, {}, {}, 0, 0);
    store = nullptr;
}

#endif
