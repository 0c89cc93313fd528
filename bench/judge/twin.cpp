// The search of `lin_check` in plain C++, without proofs: the same nodes, the same order of candidates, the same memory of
// nodes of which nothing comes. It judges histories of a register or a queue in the form of events, from standard input, and
// says `linearizable`, `not linearizable` or `gave up`. `bench/judge/growth` compares the two.
#include <cstdint>
#include <cstdio>
#include <cstring>
#include <iostream>
#include <sstream>
#include <string>
#include <unordered_map>
#include <vector>

constexpr uint64_t IDLE = 0, DONE = UINT64_MAX, NONE = UINT64_MAX;

struct Event { bool is_call; size_t process; std::vector<std::string> words; };
struct Node { size_t at; std::vector<uint64_t> slots; std::vector<uint64_t> state; };
struct Frame { Node node; std::vector<size_t> order; size_t next; size_t call; };

static bool is_queue;
static std::vector<Event> history;
static std::vector<std::string> replies; // by call; empty where it never returns
static std::vector<uint64_t> ranks;

static std::string answer_of(std::vector<uint64_t>& state, const std::vector<std::string>& words) {
    if (words[0] == "enq") { state.push_back(std::stoull(words[1])); return "ok"; }
    if (words[0] == "deq") {
        if (state.empty()) return "empty";
        auto first = std::to_string(state[0]);
        state.erase(state.begin());
        return first;
    }
    if (words[0] == "read") return std::to_string(state[0]);
    if (words[0] == "write") { state[0] = std::stoull(words[1]); return "ok"; }
    if (state[0] != std::stoull(words[1])) return "false";
    state[0] = std::stoull(words[2]);
    return "true";
}

static bool advance(Node& node) {
    for (; node.at < history.size(); node.at++) {
        const Event& event = history[node.at];
        uint64_t& slot = node.slots[event.process];
        if (event.is_call) {
            if (slot != IDLE) return false;
            slot = node.at + 1;
        } else {
            if (slot == IDLE) return false;
            if (slot != DONE) return true;
            slot = IDLE;
        }
    }
    return true;
}

static uint64_t mixed(uint64_t key, uint64_t x) {
    uint64_t y = (key ^ x) * 0x9E3779B97F4A7C15u;
    return y << 29 | y >> 35;
}

static uint64_t key_of(const Node& node) {
    uint64_t key = 0;
    for (auto x : node.state) key = mixed(key, x);
    key = mixed(key, node.at);
    for (auto slot : node.slots) key = mixed(key, slot);
    return key;
}

static std::vector<size_t> order_in(const Node& node) {
    std::vector<size_t> order;
    for (size_t q = 0; q < node.slots.size(); q++)
        if (node.slots[q] != IDLE && node.slots[q] != DONE) {
            size_t place = 0;
            while (place < order.size() && ranks[node.slots[order[place]] - 1] <= ranks[node.slots[q] - 1]) place++;
            order.insert(order.begin() + place, q);
        }
    return order;
}

static const char* search(uint64_t limit) {
    size_t processes = 0;
    for (auto& event : history) processes = std::max(processes, event.process + 1);
    Node node{0, std::vector<uint64_t>(processes, IDLE), is_queue ? std::vector<uint64_t>{} : std::vector<uint64_t>{0}};
    if (!advance(node)) return "not linearizable";
    if (node.at == history.size()) return "linearizable";
    std::unordered_multimap<uint64_t, Node> failed;
    std::vector<Frame> stack;
    auto order = order_in(node);
    size_t next = 0;
    for (uint64_t round = 0; round < limit; round++) {
        bool found = false;
        while (next < order.size() && !found) {
            size_t q = order[next++], call = node.slots[q] - 1;
            Node child = node;
            auto answer = answer_of(child.state, history[call].words);
            if (!replies[call].empty() && replies[call] != answer) continue;
            child.slots[q] = DONE;
            if (!advance(child)) continue;
            auto [from, to] = failed.equal_range(key_of(child));
            bool known = false;
            for (; from != to && !known; ++from)
                known = from->second.at == child.at && from->second.slots == child.slots && from->second.state == child.state;
            if (known) continue;
            stack.push_back({std::move(node), std::move(order), next, call});
            node = std::move(child);
            found = true;
        }
        if (found) {
            if (node.at == history.size()) return "linearizable";
            order = order_in(node);
            next = 0;
        } else {
            uint64_t key = key_of(node);
            failed.emplace(key, std::move(node));
            if (stack.empty()) return "not linearizable";
            node = std::move(stack.back().node);
            order = std::move(stack.back().order);
            next = stack.back().next;
            stack.pop_back();
        }
    }
    return "gave up";
}

int main(int count, char** words) {
    is_queue = count > 1 && !strcmp(words[1], "queue");
    std::string line;
    std::vector<size_t> open;
    while (std::getline(std::cin, line)) {
        std::istringstream in(line);
        std::string verb, word;
        Event event;
        in >> verb >> event.process;
        if (verb == "lost") continue;
        event.is_call = verb == "call";
        while (in >> word) event.words.push_back(word);
        if (open.size() <= event.process) open.resize(event.process + 1);
        replies.emplace_back();
        ranks.push_back(NONE);
        if (event.is_call) open[event.process] = history.size();
        else {
            replies[open[event.process]] = event.words[0];
            ranks[open[event.process]] = history.size();
        }
        history.push_back(event);
    }
    if (is_queue) {
        std::unordered_map<std::string, uint64_t> takes;
        for (size_t i = 0; i < history.size(); i++) if (!history[i].is_call) takes[history[i].words[0]] = i;
        for (size_t i = 0; i < history.size(); i++)
            if (history[i].is_call && history[i].words[0] == "enq")
                ranks[i] = takes.count(history[i].words[1]) ? takes[history[i].words[1]] : NONE;
    }
    puts(search(2'000'000));
}
