// example COSTS: deploys a contract on a node, calls it, reads its events, and catches refusals, in C++11.
#include "clarity.h"
#include <cstdlib>
#include <fstream>
#include <iostream>
#include <iterator>
#include <random>
#include <stdexcept>
#include <string>
#include <vector>

#define CHECK(it)                                                                                                                         \
    do {                                                                                                                                  \
        if (!(it)) {                                                                                                                      \
            std::cerr << __FILE__ << ':' << __LINE__ << ": " << #it << '\n';                                                              \
            std::exit(1);                                                                                                                 \
        }                                                                                                                                 \
    } while (false)

namespace {

const std::string SENDER = "SP000000000000000000002Q6VF78";
const std::string SOURCE = "(define-data-var n uint u0)"
                           "(define-public (add (x uint)) (begin (print x) (var-set n (+ (var-get n) x)) (ok (var-get n))))";

// A call that ended with another status than CLARITY_DONE, and the text that it left.
struct Failed : std::runtime_error {
    Failed(std::uint32_t with, const std::string &text) : std::runtime_error(text), status(with) {}
    std::uint32_t status;
};

// The address of a string's bytes, which is never null; an empty vector's may be.
const std::uint8_t *bytes(const std::string &text) {
    return reinterpret_cast<const std::uint8_t *>(text.data());
}

std::string random_key() {
    std::random_device random;
    std::string key(16, '\0');
    for (char &byte : key) byte = static_cast<char>(random() & 0xff);
    return key;
}

// The wire form of the value that a text stands for.
std::string wire(const std::string &text) {
    std::string out(1 << 16, '\0');
    std::size_t needed = 0;
    const auto status = clarity_value_wire(bytes(text), text.size(), reinterpret_cast<std::uint8_t *>(&out[0]), out.size(), &needed);
    if (status != CLARITY_DONE) throw Failed(status, "");
    out.resize(needed);
    return out;
}

// Bytes, and where their pieces end.
struct Pieces {
    std::string bytes;
    std::vector<std::size_t> ends;

    explicit Pieces(const std::vector<std::string> &pieces) {
        for (const auto &piece : pieces) ends.push_back((bytes += piece).size());
    }
};

class Costs {
public:
    explicit Costs(const std::string &file) {
        const auto status = clarity_costs_read(bytes(file), file.size(), &handle);
        if (status != CLARITY_DONE) throw Failed(status, "");
    }
    ~Costs() { clarity_costs_close(&handle); }
    Costs(const Costs &) = delete;
    Costs &operator=(const Costs &) = delete;

    clarity_costs handle = CLARITY_NO_COSTS;
};

class Node {
public:
    explicit Node(Costs &costs) {
        const std::string key = random_key();
        const auto status = clarity_node_open(&costs.handle, bytes(""), 0, bytes(key), key.size(), &handle);
        if (status != CLARITY_DONE) throw Failed(status, "");
    }
    ~Node() { clarity_node_close(&handle); }
    Node(const Node &) = delete;
    Node &operator=(const Node &) = delete;

    std::string run(const std::string &entries) {
        const std::string file = R"({"version": 1, "genesis": [], "entries": [)" + entries + "]}";
        return text_of(clarity_node_run(&handle, bytes(file), file.size()));
    }

    std::string call(const Pieces &parts, const std::vector<std::uint64_t> &limits) {
        return text_of(clarity_node_call(&handle, bytes(parts.bytes), parts.bytes.size(), parts.ends.data(), parts.ends.size(),
                                         limits.data(), limits.size()));
    }

    std::string state() { return text_of(clarity_node_state(&handle)); }

private:
    std::string text_of(std::uint32_t status) {
        std::string text(clarity_node_length(&handle) + 1, '\0');
        text.resize(clarity_node_copy(&handle, reinterpret_cast<std::uint8_t *>(&text[0]), text.size()));
        if (status != CLARITY_DONE) throw Failed(status, text);
        return text;
    }

    clarity_node handle = CLARITY_NO_NODE;
};

template <typename Act> std::uint32_t status_of(Act act) {
    try {
        act();
    } catch (const Failed &failed) {
        return failed.status;
    }
    return CLARITY_DONE;
}

void calls(Node &node) {
    node.run(R"({"deploy": {"sender": ")" + SENDER + R"(", "name": "n", "source": ")" + SOURCE + "\"}}");
    const Pieces add({wire("'" + SENDER), wire("'" + SENDER + ".n"), "add", wire("u5")});
    const auto text = node.call(add, {11, 2, 34, 1, 17});
    CHECK(text == "0 call '" + SENDER + ".n add ok u5\n  cost 11 2 34 1 17\n  event print '" + SENDER + ".n u5\n");
    CHECK(node.call(add, {10, 2, 34, 1, 17}).find(" aborted A8 CostLimit runtime 11 10\n") != std::string::npos);
    CHECK(node.state() == "var '" + SENDER + ".n n u5\n");
    CHECK(status_of([&] { node.call(add, {10}); }) == CLARITY_REQUEST);
    CHECK(status_of([&] { node.run("{"); }) == CLARITY_FILE);
    node.run(R"({"block": {"height": 9}})");
    CHECK(status_of([&] { node.run(R"({"block": {"height": 8}})"); }) == CLARITY_FALLS);
}

} // namespace

int main(int count, char **words) {
    CHECK(count == 2);
    std::ifstream file(words[1], std::ios::binary);
    CHECK(file);
    const std::string text((std::istreambuf_iterator<char>(file)), std::istreambuf_iterator<char>());
    CHECK(wire("u7") == std::string(1, '\1') + std::string(15, '\0') + '\7');
    CHECK(status_of([] { wire("u"); }) == CLARITY_VALUE);
    CHECK(status_of([] { Costs("{}"); }) == CLARITY_FILE);
    Costs costs(text);
    Node node(costs), other(costs);
    calls(node);
    CHECK(other.state().empty());
    std::cout << "each call did what it is to do\n";
}
