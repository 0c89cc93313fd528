// Every interleaving of small runs of the protocol of a small object: PROCESSES that make CALLS calls each, of which
// KILLS may stop for good at any step, and their seats be taken over. A step is one access of one shared word.
//
// The steps are those of crates/uni_small/specs/Execution.antt, written a second time: no prover reads this. Wherever
// the rule lets a process choose, both are tried: a call may begin with a direct attempt, or be announced at once; and what
// begins as a direct attempt may end as a read, once the buffer is copied. Who has read a version, and hasn't called since,
// may read again by one load of S, which changes nothing: so it is tried wherever it may come.
//
// Beside the words it keeps what an atomic object would have: its state, how many calls of each process are in, and
// their replies. It stops with a word where an exchange applies a call that isn't pending, a call twice, or one with
// another invocation; where the current buffer isn't what these calls lead to; where an attempt goes on from a torn
// copy; where a call returns that isn't in, or with another reply; where a read is told another state than the present one;
// and where one takes more steps than the bound.
//
// PLANTED is 0, or one of the faults that it is to find (see `Planted`). bench/small/explore compiles and runs it.
#include <algorithm>
#include <array>
#include <cstdint>
#include <cstdio>
#include <cstring>
#include <string>
#include <type_traits>
#include <unordered_set>
#include <vector>

using Byte = std::uint8_t;

constexpr int processes = PROCESSES, calls = CALLS, kills = KILLS;
constexpr int state_words = STATE, argument_words = ARGUMENT, reply_words = REPLY;
constexpr std::size_t most_states = 6'000'000;

// A buffer: how many calls of each process are in, their replies, and the state.
constexpr int first_reply = processes, first_state = processes + processes * reply_words;
constexpr int buffer_words = first_state + state_words;
constexpr int attempt_steps = 2 * buffer_words + processes + processes * argument_words + 3;
constexpr int call_steps = attempt_steps + 4 * state_words + (6 + 2 * argument_words + 4 * reply_words) * processes
                           + argument_words + reply_words + 8;
constexpr int read_steps = buffer_words + 3;
constexpr int resume_steps = 2 * buffer_words + 2 * attempt_steps + reply_words + 2;
static_assert(2 * processes * (processes * calls + 1) < 255, "versions don't fit");

enum Planted {
    None,
    OneAttempt,        // an announced call ends after one attempt
    OneBuffer,         // a process writes the same buffer each time
    Unchecked,         // S isn't loaded again after the copy
    SeesOnlyItself,    // other announcements aren't looked at
    DirectHelpsNobody, // a direct attempt applies its own call alone
    AppliesAgain,      // a call is applied where as many are in
    OldReply,          // the reply is read in a buffer of the process itself
    LostPart,          // the last word of a state isn't copied
    CurrentIsSpare,    // who takes a seat over writes the current buffer
    OneCallLess,       // who takes a seat over forgets its latest call
    UnconfirmedRead,   // a read is told its copy also where S has changed
    StaleRead,         // a read is told what was read before also where S has changed
};
constexpr Planted planted = static_cast<Planted>(PLANTED);

enum class Stage : Byte {
    Between, Storing, Ready, Copying, Looking, Asking, Checking, Writing, Exchanging, Replying, Recounting, Rereading,
    Restarting
};

using Buffer = std::array<Byte, buffer_words>;
using Argument = std::array<Byte, argument_words>;
using Reply = std::array<Byte, reply_words>;
using Value = std::array<Byte, state_words>;

struct Process {
    Stage stage;
    Byte begun;   // the number of its latest call, begun or in a direct attempt
    Byte direct;  // the attempt is a direct one
    Byte tries;   // attempts of its announced call that failed
    Byte at;      // the word of the loop that comes next
    Byte other;   // the process whose announcement or argument comes next
    Byte s;       // S as the attempt found it
    Byte spare;
    Byte taken_over; // the call goes on from a take-over
    Byte has_begun;  // at a take-over: its latest call was announced, or is in
    Byte own_spot;   // for `OldReply`: the buffer it brought in last
    Byte read;       // S of the version that it has read, and hasn't called since, plus 1; or 0
    std::uint16_t steps;
    Buffer copy, next, kept; // `kept` is the copy of the version that it has read
    std::array<Byte, processes> sees;
    std::array<Argument, processes> arguments;
    Reply reply;
};

struct State {
    // the shared words
    Byte s;
    std::array<Byte, processes> announced;
    std::array<Argument, processes> arguments;
    std::array<Buffer, 2 * processes> buffers;
    std::array<Process, processes> process;
    // the atomic object
    Value value;
    std::array<Byte, processes> in;
    std::array<Reply, processes> replies;
    Byte version;
    Byte killed;
};
static_assert(std::is_trivially_copyable_v<State>);

struct Found { const char *what; };

Argument argument_of(int p, int call) {
    Argument words{};
    for (int k = 0; k < argument_words; k++) words[k] = Byte(1 + 7 * p + 3 * call + 5 * k);
    return words;
}

// The object: a reply tells the state, and each word of a state tells the first one, so that a torn copy shows.
Reply applied(Byte *value, const Argument &argument) {
    Reply reply{};
    for (int k = 0; k < reply_words; k++) reply[k] = Byte((value[0] + 11 * k) % 61);
    unsigned sum = 3 * value[0] + 1;
    for (int k = 0; k < argument_words; k++) sum += argument[k] * (k + 1);
    for (int k = 0; k < state_words; k++) value[k] = Byte((sum + 7 * k) % 61);
    return reply;
}

int buffer_in(Byte s) { return s % (2 * processes); }

bool has_value(const State &m, const Buffer &buffer) {
    return std::equal(m.value.begin(), m.value.end(), &buffer[first_state]);
}

void forgets_what_was_read(Process &x) { x.read = 0; x.kept = {}; }

void forget(Process &x) {
    x.copy = {}; x.next = {}; x.sees = {}; x.arguments = {};
    x.at = x.other = x.s = 0;
}

void returns(State &m, int p) {
    Process &x = m.process[p];
    if (m.in[p] != x.begun) throw Found{"a call returned that isn't in"};
    if (x.reply != m.replies[p]) throw Found{"a call returned with another reply"};
    forget(x);
    x.reply = {};
    x.stage = Stage::Between;
    x.direct = x.tries = x.taken_over = 0;
    x.steps = 0;
}

// Passes the words of a buffer that are as they are to be already; whether there is another one.
bool differs(State &m, int p, int buffer) {
    Process &x = m.process[p];
    while (x.at < buffer_words && m.buffers[buffer][x.at] == x.next[x.at]) x.at++;
    return x.at < buffer_words;
}

int spare_of(int p, const Process &x) { return 2 * p + (planted == OneBuffer ? 0 : x.spare); }

void goes_on_writing(State &m, int p) {
    Process &x = m.process[p];
    x.stage = differs(m, p, spare_of(p, x)) ? Stage::Writing : Stage::Exchanging;
}

void bring(Process &x, int r) {
    const Reply reply = applied(&x.next[first_state], x.arguments[r]);
    std::copy(reply.begin(), reply.end(), &x.next[first_reply + r * reply_words]);
    x.next[r]++;
}

// The copy was good: the call is in, or the spare buffer is written with all that was seen applied.
void good_copy(State &m, int p) {
    Process &x = m.process[p];
    if (!has_value(m, x.copy)) throw Found{"an attempt goes on from a torn copy"};
    if (!x.direct && x.copy[p] == x.begun) {
        const Byte s = x.s;
        forget(x);
        x.s = s;
        x.stage = Stage::Replying;
        return;
    }
    if (x.direct && planted == DirectHelpsNobody) x.sees = {};
    if (x.direct) { x.sees[p] = 1; x.arguments[p] = argument_of(p, x.begun); }
    x.next = x.copy;
    for (int r = 0; r < processes; r++) if (x.sees[r]) bring(x, r);
    x.at = 0;
    goes_on_writing(m, p);
}

// An attempt has failed: a direct one leaves nothing behind.
void misses(Process &x) {
    forget(x);
    if (x.direct) { x.direct = 0; x.stage = Stage::Storing; return; }
    x.tries++;
    x.stage = Stage::Ready;
}

void looks_further(Process &x) {
    x.stage = x.other < processes ? Stage::Looking : Stage::Checking;
}

void begins_attempt(State &m, int p) {
    Process &x = m.process[p];
    x.s = m.s;
    x.at = x.other = 0;
    const bool own = buffer_in(x.s) / 2 == p;
    if (own) x.copy = m.buffers[buffer_in(x.s)]; // its own words, which it knows without a load
    x.stage = own ? Stage::Looking : Stage::Copying;
}

// What the exchange makes the atomic object do.
void takes_effect(State &m, int p) {
    Process &x = m.process[p];
    for (int r = 0; r < processes; r++) {
        if (!x.sees[r]) continue;
        const Process &its = m.process[r];
        const bool own = x.direct && r == p;
        const bool pending = its.begun == m.in[r] + 1 && (own || m.announced[r] == its.begun);
        if (!pending) throw Found{"a call is applied that isn't pending"};
        if (x.arguments[r] != argument_of(r, its.begun)) throw Found{"a call is applied with another invocation"};
        m.replies[r] = applied(m.value.data(), argument_of(r, its.begun));
        m.in[r]++;
    }
    m.version++;
    const Buffer &now = m.buffers[spare_of(p, x)];
    if (!std::equal(m.in.begin(), m.in.end(), now.begin()) || !has_value(m, now))
        throw Found{"the current buffer isn't what the calls lead to"};
    m.s = Byte(m.version * 2 * processes + spare_of(p, x));
}

void exchanges(State &m, int p) {
    Process &x = m.process[p];
    if (m.s != x.s) return misses(x);
    takes_effect(m, p);
    x.own_spot = Byte(spare_of(p, x));
    forget(x);
    x.s = m.s;
    x.spare ^= 1;
    x.stage = Stage::Replying;
}

void looks(State &m, int p) {
    Process &x = m.process[p];
    const int r = x.other;
    const int more = planted == AppliesAgain ? 1 : 0;
    const bool seen = m.announced[r] + more > x.copy[r] && m.announced[r] > 0 && !(planted == SeesOnlyItself && r != p);
    x.sees[r] = seen;
    x.at = 0;
    if (seen) x.stage = Stage::Asking; else { x.other++; looks_further(x); }
}

void restarts(State &m, int p) {
    Process &x = m.process[p];
    x.spare = Byte(m.s % (2 * processes) == 2 * p + 1 ? 0 : 1);
    if (planted == CurrentIsSpare) x.spare ^= 1;
    if (planted == OneCallLess && x.has_begun && x.begun > 1) x.begun--;
    x.at = 0;
    if (x.has_begun) { x.stage = Stage::Ready; x.taken_over = 1; return; }
    x.begun--;
    x.steps = 0;
    x.stage = Stage::Between;
}

bool can_confirm(const Process &x) { return x.stage == Stage::Looking && x.direct && x.other == 0; }

// A read is told this copy: it is the present state, and counts the calls that are in.
void told(const State &m, const Buffer &copy) {
    if (!has_value(m, copy) || !std::equal(m.in.begin(), m.in.end(), copy.begin()))
        throw Found{"a read is told another state"};
}

bool can_recall(const Process &x) { return x.stage == Stage::Between && x.read != 0; }

// The load of S by which who has read a version reads it again, where it is still the present one.
void recalls(const State &m, int p) {
    const Process &x = m.process[p];
    if (m.s + 1 == x.read || planted == StaleRead) told(m, x.kept);
}

// The load of S that ends a read: no call has begun. One load more may have come before, by which another version was found.
void confirms(State &m, int p) {
    Process &x = m.process[p];
    const bool is_told = m.s == x.s || planted == UnconfirmedRead;
    if (is_told) {
        told(m, x.copy);
        x.read = Byte(m.s + 1);
        x.kept = x.copy;
    }
    if (x.steps + 2 > read_steps) throw Found{"a read takes more steps than the bound"};
    forget(x);
    x.begun--;
    x.direct = 0;
    x.steps = 0;
    x.stage = Stage::Between;
}

// One step of a process: an access of one word, and all that the process does by itself after it.
void steps(State &m, int p, bool directly) {
    Process &x = m.process[p];
    x.steps++;
    switch (x.stage) {
    case Stage::Between:
        forgets_what_was_read(x);
        x.begun++;
        x.steps = 1;
        if (directly) { x.direct = 1; begins_attempt(m, p); break; }
        x.stage = Stage::Storing;
        [[fallthrough]];
    case Stage::Storing:
        if (x.at < argument_words) { m.arguments[p][x.at] = argument_of(p, x.begun)[x.at]; x.at++; break; }
        m.announced[p] = x.begun;
        x.at = 0;
        x.stage = Stage::Ready;
        break;
    case Stage::Ready:
        if (x.tries < (planted == OneAttempt ? 1 : 2)) { begins_attempt(m, p); break; }
        if (m.in[p] != x.begun) throw Found{"all attempts failed, and the call isn't in"};
        x.s = m.s;
        x.stage = Stage::Replying;
        break;
    case Stage::Copying:
        if (!(planted == LostPart && x.at == buffer_words - 1)) x.copy[x.at] = m.buffers[buffer_in(x.s)][x.at];
        if (++x.at == buffer_words) { x.at = 0; x.stage = Stage::Looking; }
        break;
    case Stage::Looking: looks(m, p); break;
    case Stage::Asking:
        x.arguments[x.other][x.at] = m.arguments[x.other][x.at];
        if (++x.at == argument_words) { x.at = 0; x.other++; looks_further(x); }
        break;
    case Stage::Checking:
        if (m.s != x.s && planted != Unchecked) misses(x); else good_copy(m, p);
        break;
    case Stage::Writing:
        m.buffers[spare_of(p, x)][x.at] = x.next[x.at];
        x.at++;
        goes_on_writing(m, p);
        break;
    case Stage::Exchanging: exchanges(m, p); break;
    case Stage::Replying: {
        const int buffer = planted == OldReply ? x.own_spot : buffer_in(x.s);
        x.reply[x.at] = m.buffers[buffer][first_reply + p * reply_words + x.at];
        if (++x.at == reply_words) returns(m, p);
        break;
    }
    case Stage::Recounting: x.steps = 0; x.stage = Stage::Rereading; break;
    case Stage::Rereading: if (++x.at == 2 * buffer_words) x.stage = Stage::Restarting; break;
    case Stage::Restarting: restarts(m, p); break;
    }
    if (x.steps > (x.taken_over ? resume_steps : call_steps)) throw Found{"a call takes more steps than the bound"};
}

bool can_step(const Process &x) { return x.stage != Stage::Between || x.begun < calls; }

// A process stops for good in a call: of what it kept for itself only the number of its calls is left, and whether one
// had begun. Its seat goes to another owner.
void stops(State &m, int p) {
    Process &x = m.process[p];
    const bool unbegun = x.direct || x.stage == Stage::Storing;
    x.has_begun = !unbegun || m.in[p] == x.begun;
    forget(x);
    forgets_what_was_read(x);
    x.reply = {};
    x.direct = x.tries = x.taken_over = 0;
    x.steps = 0;
    x.stage = Stage::Recounting;
    m.killed++;
}

bool can_stop(const State &m, int p) {
    const Stage stage = m.process[p].stage;
    return m.killed < kills && stage != Stage::Between && stage < Stage::Recounting;
}

State opening() {
    State m;
    std::memset(static_cast<void *>(&m), 0, sizeof m);
    for (int k = 0; k < state_words; k++) m.value[k] = Byte(7 * k % 61);
    for (Buffer &buffer : m.buffers) std::copy(m.value.begin(), m.value.end(), &buffer[first_state]);
    for (int p = 0; p < processes; p++) { m.process[p].spare = 1; m.process[p].own_spot = Byte(2 * p); }
    return m;
}

int main() {
    std::unordered_set<std::string> seen;
    std::vector<const std::string *> open;
    int most_steps = 0, most_resumed = 0;
    const auto add = [&](const State &m) {
        const auto [place, is_new] = seen.emplace(reinterpret_cast<const char *>(&m), sizeof m);
        if (is_new) open.push_back(&*place);
        for (const Process &x : m.process) {
            int &most = x.taken_over ? most_resumed : most_steps;
            most = std::max<int>(most, x.steps);
        }
    };
    add(opening());
    try {
        while (!open.empty() && seen.size() < most_states) {
            State m, next;
            std::memcpy(static_cast<void *>(&m), open.back()->data(), sizeof m);
            open.pop_back();
            for (int p = 0; p < processes; p++) {
                for (int directly = 0; directly < 2; directly++) {
                    if (!can_step(m.process[p]) || (directly && m.process[p].stage != Stage::Between)) continue;
                    next = m;
                    steps(next, p, directly);
                    add(next);
                }
                if (can_recall(m.process[p])) recalls(m, p);
                if (can_confirm(m.process[p])) { next = m; confirms(next, p); add(next); }
                if (can_stop(m, p)) { next = m; stops(next, p); add(next); }
            }
        }
    } catch (const Found &found) {
        std::printf("%s, after %zu states\n", found.what, seen.size());
        return 1;
    }
    std::printf("%zu states%s, at most %d of %d steps, %d of %d after a take-over\n", seen.size(),
                open.empty() ? "" : " and no end", most_steps, call_steps, most_resumed, resume_steps);
    return 0;
}
