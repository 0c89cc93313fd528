// Records what threads do with an object, as lines that `unicheck` reads: NAME CALL -> REPLY BEGIN END.
//
// A number is drawn from one counter before a call begins, and another after it has returned, so calls that the lines put
// one after the other were made so. C++17; each thread has a log of its own, and the logs are printed after the join.
#pragma once

#include <atomic>
#include <cstdint>
#include <ostream>
#include <string>
#include <utility>
#include <vector>

class Log {
public:
    explicit Log(std::string name) : name(std::move(name)) {}

    // Makes a call whose body returns the reply, as log.call("enq 7", [&] { queue.push(7); return std::string("ok"); }).
    template <class Body> std::string call(std::string words, Body body) {
        calls.push_back({std::move(words), "?", 0, 0, false});
        calls.back().begin = clock().fetch_add(1);
        std::string reply = body();
        calls.back().end = clock().fetch_add(1);
        calls.back().reply = reply;
        calls.back().returned = true;
        return reply;
    }

    void print(std::ostream &out) const {
        for (const auto &call : calls) {
            out << name << ' ' << call.words << " -> " << call.reply << ' ' << call.begin;
            if (call.returned) out << ' ' << call.end;
            out << '\n';
        }
    }

private:
    struct Call {
        std::string words, reply;
        std::uint64_t begin, end;
        bool returned;
    };

    static std::atomic<std::uint64_t> &clock() {
        static std::atomic<std::uint64_t> numbers{0};
        return numbers;
    }

    std::string name;
    std::vector<Call> calls;
};
