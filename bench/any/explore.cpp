// Every interleaving of small runs of a protocol for any object without end: PROCESSES that make CALLS calls each. It is the one
// that docs/any.md tells, and that `uni_any` has; no prover reads this. A step is one access of one shared
// word. Buffers are those of `triple_buffers`, which is proved: a value is written in one step, and taken in one step after a look
// whether there is one; who writes makes one step more before it.
//
// A block is a version of the object: here the list of the calls that are in it, each by its process. It stops with a word where
// a process finds no block though S hasn't changed; where a call is in twice, or in before it begins; where one returns that isn't
// in, with another reply, or one of a version that isn't in; and where one takes more steps than the bound.
//
// PLANTED is 0 or one of the faults that it is to find (see `Planted`). bench/any/explore compiles and runs it.
#include <algorithm>
#include <array>
#include <cstdint>
#include <cstdio>
#include <cstring>
#include <unordered_set>
#include <vector>

using Byte = std::uint8_t;

enum Planted {
    None,
    OneAttempt,      // a call ends after one attempt
    LastUnkept,      // what a process writes has its next block, and not the one that it brought in last
    NextFirst,       // a reader takes the next block of a process where the last one is as new
    TakenForgotten,  // a reader keeps nothing of what it took before
    ReadFirst,       // a process takes what the others wrote before it loads S
    NumberUnheeded,  // an invocation is applied whose number isn't the next one
    WrittenForOne,   // a block is written for the first reader only
};
constexpr Planted planted = Planted(PLANTED);
constexpr int n = PROCESSES, calls = CALLS;
constexpr int write_steps = 2 * n, take_steps = 2 * n, attempt_steps = 1 + take_steps + write_steps + 1;
constexpr int call_steps = write_steps + 2 * attempt_steps + 1 + take_steps;

// the calls that are in a version: processes, four bits each, and how many
struct Log { std::uint64_t list; Byte count; };
int applied(const Log &log, int p) {
    int found = 0;
    for (int k = 0; k < log.count; k++) found += int((log.list >> (4 * k)) & 15) == p;
    return found;
}
void apply(Log &log, int p) { log.list |= std::uint64_t(p) << (4 * log.count++); }
bool is_prefix(const Log &a, const Log &b) {
    return a.count <= b.count && (a.count == 16 || (b.list & ((std::uint64_t(1) << (4 * a.count)) - 1)) == a.list);
}

struct Block { Log log; Byte version; };
// What a process tells another: its last call, by number, the block that it brought in last, and the one that may come next.
struct News { Byte call; Block last, next; };
struct Buffer { bool full; News news; };

enum class At : Byte { Between, Write, Written, Start, Look, Take, Exchange };

struct Process {
    At at;
    bool announces;          // it writes an invocation, and no block
    Byte made, tries, r;
    Byte s_version, s_process; // S as the attempt found it
    Block last;              // the one that it brought in last
    Log draft;
    std::array<News, n> seen; // what it took of each process
    std::uint16_t steps;
};
struct State {
    Byte version, current;
    std::array<std::array<Buffer, n>, n> to; // of each writer for each reader
    std::array<Process, n> process;
    Log log; // of the version that is in
};
static_assert(std::is_trivially_copyable_v<State>);
struct Fault { const char *what; };
int most_steps = 0;

void returns(State &m, Process &me, int p, const Log &block) {
    if (applied(block, p) != me.made + 1) throw Fault{"a call returns that isn't in its block"};
    if (!is_prefix(block, m.log)) throw Fault{"a reply of a version that is not in"};
    if (applied(m.log, p) != me.made + 1) throw Fault{"a call is in twice"};
    most_steps = std::max<int>(most_steps, me.steps);
    if (most_steps > call_steps) throw Fault{"a call takes more steps than its bound"};
    me.made++;
    me.at = At::Between;
    me.steps = 0; me.tries = me.r = me.s_version = me.s_process = 0; me.draft = {};
}
void fails(State &m, Process &me) {
    if (m.version == me.s_version) throw Fault{"an attempt fails though S hasn't changed"};
    me.tries++;
    me.r = 0; me.draft = {};
    me.at = planted == ReadFirst ? At::Look : At::Start;
}
// it has looked at all buffers: the block that S named, or a later one of its process
void has_all(State &m, Process &me, int p) {
    const News &news = me.seen[me.s_process];
    Byte v = me.s_version;
    const Block *base = news.last.version >= v && !(planted == NextFirst && news.next.version >= v) ? &news.last : &news.next;
    if (base->version < v) throw Fault{"no block of the version"};
    if (!is_prefix(base->log, m.log)) throw Fault{"a block that isn't a version"};
    if (applied(base->log, p) == me.made + 1) { returns(m, me, p, base->log); return; }
    if (me.tries >= (planted == OneAttempt ? 1 : 2)) throw Fault{"a call isn't in after its attempts"};
    me.draft = base->log;
    for (int r = 0; r < n; r++) {
        int due = applied(base->log, r) + 1;
        if (planted == NumberUnheeded ? me.seen[r].call >= due - 1 && me.seen[r].call > 0 : me.seen[r].call == due) apply(me.draft, r);
    }
    me.r = 0;
    me.at = At::Write;
}
void looks_on(State &m, Process &me, int p) {
    me.r++;
    me.at = At::Look;
    if (me.r < n) return;
    me.r = 0;
    if (planted == ReadFirst) { me.at = At::Start; return; }
    has_all(m, me, p);
}

void step(State &m, int p) {
    Process &me = m.process[p];
    me.steps++;
    switch (me.at) {
    case At::Between:
        if (applied(m.log, p) != me.made) throw Fault{"a call is in before it begins"};
        me.r = 0;
        me.announces = true;
        me.at = At::Write;
        [[fallthrough]];
    case At::Write:
        me.at = At::Written;
        return;
    case At::Written: {
        Block next = me.announces ? me.last : Block{me.draft, Byte(me.s_version + 1)};
        Block last = planted == LastUnkept ? next : me.last;
        if (planted != WrittenForOne || me.announces || me.r == 0) m.to[p][me.r] = {true, {Byte(me.made + 1), last, next}};
        me.r++;
        me.at = At::Write;
        if (me.r < n) return;
        me.r = 0;
        me.at = !me.announces ? At::Exchange : planted == ReadFirst ? At::Look : At::Start;
        me.announces = false;
        return;
    }
    case At::Start:
        me.s_version = m.version; me.s_process = m.current;
        me.r = 0;
        me.at = At::Look;
        if (planted == ReadFirst) has_all(m, me, p);
        return;
    case At::Look:
        if (planted == TakenForgotten) me.seen[me.r] = {};
        if (m.to[me.r][p].full) me.at = At::Take;
        else looks_on(m, me, p);
        return;
    case At::Take:
        me.seen[me.r] = m.to[me.r][p].news;
        m.to[me.r][p] = {};
        looks_on(m, me, p);
        return;
    case At::Exchange:
        if (m.version != me.s_version || m.current != me.s_process) { fails(m, me); return; }
        for (int r = 0; r < n; r++) {
            const Process &other = m.process[r];
            if (applied(me.draft, r) > other.made + (other.at == At::Between ? 0 : 1)) throw Fault{"a call that hasn't begun"};
        }
        if (!is_prefix(m.log, me.draft) || me.draft.count == m.log.count) throw Fault{"no further version"};
        m.version++; m.current = Byte(p); m.log = me.draft;
        me.last = {me.draft, m.version};
        returns(m, me, p, me.last.log);
        return;
    }
}

struct Key { std::uint64_t a, b; };
bool operator==(const Key &x, const Key &y) { return x.a == y.a && x.b == y.b; }
struct Hash { std::size_t operator()(const Key &k) const { return k.a; } };
std::uint64_t mix(std::uint64_t h) {
    h = (h ^ (h >> 33)) * 0xff51afd7ed558ccdULL;
    h = (h ^ (h >> 33)) * 0xc4ceb9fe1a85ec53ULL;
    return h ^ (h >> 33);
}
Key key_of(const State &m) {
    const auto *bytes = reinterpret_cast<const unsigned char *>(&m);
    std::uint64_t a = 0x9e3779b97f4a7c15ULL, b = 0xc2b2ae3d27d4eb4fULL;
    for (std::size_t k = 0; k < sizeof(State); k += 8) {
        std::uint64_t w = 0;
        std::memcpy(&w, bytes + k, sizeof(State) - k < 8 ? sizeof(State) - k : 8);
        a = mix(a ^ w); b = mix(b + w) * 3;
    }
    return {a, b};
}

int main() {
    State m;
    std::memset(&m, 0, sizeof m);
    for (auto &process : m.process) process.at = At::Between;
    std::unordered_set<Key, Hash> known;
    std::vector<State> open{m};
    known.insert(key_of(m));
    std::size_t ends = 0;
    try {
        while (!open.empty()) {
            State here;
            std::memcpy(&here, &open.back(), sizeof here);
            open.pop_back();
            bool moves = false;
            for (int p = 0; p < n; p++) {
                if (here.process[p].at == At::Between && here.process[p].made == calls) continue;
                moves = true;
                State next;
                std::memcpy(&next, &here, sizeof next);
                step(next, p);
                if (known.insert(key_of(next)).second) open.push_back(next);
            }
            ends += !moves;
        }
    } catch (const Fault &fault) {
        std::printf("%s, after %zu states\n", fault.what, known.size());
        return planted == None;
    }
    std::printf("%zu states, %zu ends, no fault; a call takes at most %d steps, of %d\n", known.size(), ends, most_steps,
                call_steps);
    return planted != None;
}
