// The yardstick of bench/sample and bench/reach: a plain program on one thread that does the work of `netcheck sample N` end to end. It makes
// the texts of the network, reads them, makes the tables, and gives the first cube of what gets from outside the first router's LAN to a
// router or a host; with a second word all its cubes, of the texts that stand in that folder, which may have a default route in place of
// OSPF. It refuses nothing, and reads only the lines that such a network has. Nothing else uses it.
#include <algorithm>
#include <cstdint>
#include <cstdio>
#include <cstdlib>
#include <cstring>
#include <dirent.h>
#include <fcntl.h>
#include <queue>
#include <string>
#include <unistd.h>
#include <vector>

using std::string;
using std::vector;
typedef uint32_t Set;

// ---- sets of headers: nodes of 8 bytes in one table, and a memo that forgets

static uint64_t count_of_slots = 65536;
static uint64_t *slots;
static uint64_t made;

static Set node(uint32_t bit, Set low, Set high) {
    if (low == high) return low;
    uint64_t word = uint64_t(bit + 1) << 56 | uint64_t(low) << 28 | high;
    uint64_t at = (((word * 0x9E3779B97F4A7C15ull) >> 32) * count_of_slots) >> 32;
    for (;; at = at + 1 == count_of_slots ? 0 : at + 1) {
        if (slots[at] == word) return at + 2;
        if (!slots[at]) {
            slots[at] = word;
            made++;
            return at + 2;
        }
    }
}

static uint32_t bit_of(Set s) { return s < 2 ? 122 : (slots[s - 2] >> 56) - 1; }
static Set low_of(Set s) { return slots[s - 2] >> 28 & 0xfffffff; }
static Set high_of(Set s) { return slots[s - 2] & 0xfffffff; }

enum Operation { And = 1, Or, Minus };
struct Noted {
    uint64_t operands;
    uint32_t operation, result;
};
static Noted memo[1 << 14];

static Set combine(Operation operation, Set a, Set b) {
    if (operation == And) {
        if (!a || !b) return 0;
        if (a == 1) return b;
        if (b == 1 || a == b) return a;
    } else if (operation == Or) {
        if (a == 1 || b == 1) return 1;
        if (!a) return b;
        if (!b || a == b) return a;
    } else {
        if (!a || b == 1 || a == b) return 0;
        if (!b) return a;
    }
    uint64_t operands = uint64_t(a) << 32 | b;
    Noted &noted = memo[((operands * 0x9E3779B97F4A7C15ull + operation) * 0xD1B54A32D192ED03ull) >> 50];
    if (noted.operands == operands && noted.operation == uint32_t(operation)) return noted.result;
    uint32_t of_a = bit_of(a), of_b = bit_of(b), bit = std::min(of_a, of_b);
    Set low = combine(operation, of_a == bit ? low_of(a) : a, of_b == bit ? low_of(b) : b);
    Set high = combine(operation, of_a == bit ? high_of(a) : a, of_b == bit ? high_of(b) : b);
    Set result = node(bit, low, high);
    noted = {operands, uint32_t(operation), result};
    return result;
}

// Headers whose field, of so many bits up to the last one, has this value in its first bits.
static Set begins(int first, int tested, int width, uint32_t value) {
    Set set = 1;
    for (int bit = tested - 1; bit >= 0; bit--)
        set = value >> (width - 1 - bit) & 1 ? node(first + bit, 0, set) : node(first + bit, set, 0);
    return set;
}

// ---- the texts

static string dotted(uint32_t a) {
    char text[16];
    snprintf(text, sizeof text, "%u.%u.%u.%u", a >> 24, a >> 16 & 255, a >> 8 & 255, a & 255);
    return text;
}

static string configuration(uint32_t router, uint32_t count) {
    uint32_t half = count / 2, ring = 10u << 24, chords = ring + (1 << 16), chord = 0;
    if (router < half && router % 8 == 0) chord = chords + 4 * router + 1;
    if (router >= half && router < 2 * half && (router - half) % 8 == 0) chord = chords + 4 * (router - half) + 2;
    uint32_t addresses[] = {ring + 4 * router + 1, ring + 4 * ((router + count - 1) % count) + 2, chord};
    char name[16];
    snprintf(name, sizeof name, "r%03u", router);
    string text = string("hostname ") + name + "\n";
    for (int i = 0; i < 3; i++)
        if (addresses[i])
            text += "interface GigabitEthernet0/" + std::to_string(i) + "\n ip address " + dotted(addresses[i]) + " 255.255.255.252\n";
    text += "interface GigabitEthernet0/3\n ip address " + dotted((172u << 24) + (16 << 16) + (router / 256 << 16) + (router % 256 << 8) + 1) + " 255.255.255.0\n";
    if (router % 4 == 1) text += " ip access-group 101 out\n";
    text += "router ospf 1\n passive-interface GigabitEthernet0/3\n network 0.0.0.0 255.255.255.255 area 0\n";
    if (router % 4 == 1) text += "access-list 101 deny tcp any any eq telnet\naccess-list 101 permit ip any any\n";
    return text;
}

// ---- what is read

struct Line {
    bool permits;
    int protocol, port;
};
struct Interface {
    string name;
    uint32_t address = 0, mask = 0;
    bool filters = false, passive = false;
};
struct Router {
    string host;
    vector<Interface> interfaces;
    vector<Line> list;
    bool has_ospf = false;
    uint32_t gateway = 0; // of its default route, or 0
};

static bool takes(const char *&at, const char *word) {
    size_t length = strlen(word);
    if (strncmp(at, word, length)) return false;
    at += length;
    return true;
}

static uint32_t read_address(const char *&at) {
    uint32_t address = 0;
    for (int part = 0; part < 4; part++) {
        uint32_t number = 0;
        while (*at >= '0' && *at <= '9') number = number * 10 + (*at++ - '0');
        address = address << 8 | number;
        if (*at == '.') at++;
    }
    return address;
}

static string rest_of_line(const char *at) { return string(at, strchr(at, '\n') - at); }

static Router read(const string &text) {
    Router router;
    for (const char *at = text.c_str(); *at; at = strchr(at, '\n') + 1) {
        const char *left = at;
        if (takes(left, "hostname ")) router.host = rest_of_line(left);
        else if (takes(left, "interface ")) { router.interfaces.emplace_back(); router.interfaces.back().name = rest_of_line(left); }
        else if (takes(left, " ip address ")) {
            router.interfaces.back().address = read_address(left);
            left++;
            router.interfaces.back().mask = read_address(left);
        } else if (takes(left, " ip access-group ")) router.interfaces.back().filters = true;
        else if (takes(left, "router ospf ")) router.has_ospf = true;
        else if (takes(left, "ip route 0.0.0.0 0.0.0.0 ")) router.gateway = read_address(left);
        else if (takes(left, " passive-interface ")) {
            string name = rest_of_line(left);
            for (Interface &interface : router.interfaces) if (interface.name == name) interface.passive = true;
        } else if (takes(left, "access-list 101 deny tcp any any eq telnet")) router.list.push_back({false, 6, 23});
        else if (takes(left, "access-list 101 permit ip any any")) router.list.push_back({true, -1, -1});
    }
    return router;
}

// The text of a file.
static string text_of(const string &name) {
    string text;
    char piece[65536];
    int file = open(name.c_str(), O_RDONLY);
    for (ssize_t length; (length = read(file, piece, sizeof piece)) > 0;) text.append(piece, length);
    close(file);
    return text;
}

// The texts of a folder, by the names of their files.
static vector<string> texts_in(const char *path) {
    vector<string> names, texts;
    DIR *folder = opendir(path);
    while (dirent *entry = readdir(folder))
        if (entry->d_name[0] != '.') names.push_back(string(path) + "/" + entry->d_name);
    closedir(folder);
    std::sort(names.begin(), names.end());
    for (const string &name : names) texts.push_back(text_of(name));
    return texts;
}

// ---- links, shortest paths and tables

struct End {
    uint32_t network;
    int router, interface;
    bool operator<(const End &other) const { return network < other.network; }
};
struct Step {
    int to, hop, entering;
    uint32_t cost;
};
struct Hop {
    int interface, to, entering; // to: the router of the gateway, or -1
};
struct Route {
    uint32_t network;
    int length;
    uint32_t hops, metric;
};
struct Prefix {
    uint32_t network;
    int length;
    vector<std::pair<int, uint32_t>> advertisers;
};

static int length_of(uint32_t mask) { return __builtin_popcount(mask); }

static void paths_from(int root, const vector<vector<Step>> &steps, vector<uint32_t> &costs, vector<uint32_t> &hops) {
    typedef std::pair<uint32_t, int> Reached;
    std::priority_queue<Reached, vector<Reached>, std::greater<Reached>> waiting;
    std::fill(costs.begin(), costs.end(), UINT32_MAX);
    std::fill(hops.begin(), hops.end(), 0);
    costs[root] = 0;
    waiting.push({0, root});
    while (!waiting.empty()) {
        auto [cost, here] = waiting.top();
        waiting.pop();
        if (cost != costs[here]) continue;
        for (const Step &step : steps[here]) {
            uint32_t next = cost + step.cost, by = here == root ? 1u << step.hop : hops[here];
            if (next < costs[step.to]) {
                costs[step.to] = next;
                hops[step.to] = by;
                waiting.push({next, step.to});
            } else if (next == costs[step.to]) hops[step.to] |= by;
        }
    }
}

// ---- sets of hops: all of a router in one recursion over its table

static void hop_sets(const Route *from, const Route *to, int depth, uint32_t known, Set *sets, int count) {
    if (from != to && from->length == depth) known = (from++)->hops;
    bool settled = true;
    for (const Route *route = from; route != to && settled; route++) settled = route->hops == known;
    if (settled) {
        for (int hop = 0; hop < count; hop++) sets[hop] = known >> hop & 1;
        return;
    }
    const Route *middle = std::partition_point(from, to, [&](const Route &route) { return !(route.network >> (31 - depth) & 1); });
    Set low[32], high[32];
    hop_sets(from, middle, depth + 1, known, low, count);
    hop_sets(middle, to, depth + 1, known, high, count);
    for (int hop = 0; hop < count; hop++) sets[hop] = node(depth, low[hop], high[hop]);
}

struct Flow {
    int from;
    Set set;
};

int main(int words, char **word) {
    uint32_t count = atoi(word[1]);
    bool all_cubes = words > 2;
    // room enough for the nodes of this network, of which a router makes some 600
    while (count_of_slots < 2048 * count) count_of_slots *= 2;
    slots = (uint64_t *)calloc(count_of_slots, 8);
    vector<Router> routers;
    if (all_cubes)
        for (const string &text : texts_in(word[2])) routers.push_back(read(text));
    else
        for (uint32_t router = 0; router < count; router++) routers.push_back(read(configuration(router, count)));
    // links
    vector<End> ends;
    for (uint32_t r = 0; r < count; r++)
        for (size_t i = 0; i < routers[r].interfaces.size(); i++)
            ends.push_back({routers[r].interfaces[i].address & routers[r].interfaces[i].mask, int(r), int(i)});
    std::stable_sort(ends.begin(), ends.end());
    vector<vector<Step>> steps(count);
    vector<vector<Hop>> hops(count);
    vector<Prefix> prefixes;
    for (uint32_t r = 0; r < count; r++)
        for (size_t i = 0; i < routers[r].interfaces.size(); i++) hops[r].push_back({int(i), -1, -1});
    for (size_t a = 0; a < ends.size();) {
        size_t b = a;
        while (b < ends.size() && ends[b].network == ends[a].network) b++;
        prefixes.push_back({ends[a].network, length_of(routers[ends[a].router].interfaces[ends[a].interface].mask), {}});
        for (size_t x = a; x < b; x++) {
            prefixes.back().advertisers.push_back({ends[x].router, 1});
            for (size_t y = a; y < b; y++) {
                if (x == y || !routers[ends[x].router].has_ospf || !routers[ends[y].router].has_ospf) continue;
                if (routers[ends[x].router].interfaces[ends[x].interface].passive || routers[ends[y].router].interfaces[ends[y].interface].passive) continue;
                steps[ends[x].router].push_back({ends[y].router, int(hops[ends[x].router].size()), ends[y].interface, 1});
                hops[ends[x].router].push_back({ends[x].interface, ends[y].router, ends[y].interface});
            }
        }
        a = b;
    }
    // default routes: the hop to the router that has the gateway
    vector<uint32_t> by_default(count, 0);
    for (uint32_t r = 0; r < count; r++) {
        uint32_t gateway = routers[r].gateway;
        for (size_t i = 0; gateway && i < routers[r].interfaces.size(); i++) {
            const Interface &interface = routers[r].interfaces[i];
            if ((interface.address & interface.mask) != (gateway & interface.mask)) continue;
            auto same = std::equal_range(ends.begin(), ends.end(), End{gateway & interface.mask, 0, 0});
            for (auto other = same.first; other != same.second; ++other) {
                if (routers[other->router].interfaces[other->interface].address != gateway) continue;
                by_default[r] = 1u << hops[r].size();
                hops[r].push_back({int(i), other->router, other->interface});
            }
        }
    }
    // tables
    vector<vector<Route>> tables(count);
    vector<uint32_t> costs(count), by(count);
    uint64_t routes = 0;
    for (uint32_t r = 0; r < count; r++) {
        paths_from(r, steps, costs, by);
        tables[r].reserve(prefixes.size());
        if (by_default[r]) tables[r].push_back({0, 0, by_default[r], 0});
        for (const Prefix &prefix : prefixes) {
            Route route = {prefix.network, prefix.length, 0, UINT32_MAX};
            for (auto [router, cost] : prefix.advertisers) {
                if (costs[router] == UINT32_MAX) continue;
                uint32_t sum = costs[router] + cost, mask = by[router];
                if (router == int(r)) {
                    sum = 0;
                    for (size_t i = 0; i < routers[r].interfaces.size(); i++)
                        if ((routers[r].interfaces[i].address & routers[r].interfaces[i].mask) == prefix.network) mask = 1u << i;
                }
                if (sum < route.metric) route.metric = sum, route.hops = mask;
                else if (sum == route.metric) route.hops |= mask;
            }
            if (route.metric != UINT32_MAX) tables[r].push_back(route);
        }
        routes += tables[r].size();
    }
    // edges and endings; all positions of a router share theirs, as none filters what enters
    vector<int> first(count + 1, 0);
    for (uint32_t r = 0; r < count; r++) first[r + 1] = first[r] + 1 + routers[r].interfaces.size();
    int positions = first[count];
    vector<vector<Flow>> into(positions);
    vector<Set> ended(positions, 0);
    vector<Route> rows;
    for (uint32_t r = 0; r < count; r++) {
        const vector<Interface> &interfaces = routers[r].interfaces;
        Set own = 0, passes = 1, sets[32];
        for (const Interface &interface : interfaces) own = combine(Or, own, begins(0, 32, 32, interface.address));
        Set lets = 0;
        for (auto line = routers[r].list.rbegin(); line != routers[r].list.rend(); ++line) {
            Set matches = line->protocol < 0 ? 1 : combine(And, begins(64, 8, 8, line->protocol), begins(88, 16, 16, line->port));
            lets = combine(line->permits ? Or : Minus, lets, matches);
        }
        rows.clear();
        for (const Route &route : tables[r]) rows.push_back(route);
        hop_sets(rows.data(), rows.data() + rows.size(), 0, 0, sets, hops[r].size());
        Set rest = combine(Minus, passes, own), end = own;
        vector<std::pair<int, Set>> out; // target position, set
        for (size_t h = 0; h < hops[r].size(); h++) {
            const Hop &hop = hops[r][h];
            const Interface &interface = interfaces[hop.interface];
            Set goes = combine(And, rest, sets[h]);
            if (interface.filters) goes = combine(And, goes, lets);
            if (hop.to >= 0) {
                out.push_back({first[hop.to] + 1 + hop.entering, goes});
                continue;
            }
            uint32_t network = interface.address & interface.mask;
            auto same = std::equal_range(ends.begin(), ends.end(), End{network, 0, 0});
            for (auto other = same.first; other != same.second; ++other) {
                if (other->router == int(r)) continue;
                Set taken = begins(0, 32, 32, routers[other->router].interfaces[other->interface].address);
                out.push_back({first[other->router] + 1 + other->interface, combine(And, goes, taken)});
                goes = combine(Minus, goes, taken);
            }
            end = combine(Or, end, combine(And, goes, begins(0, length_of(interface.mask), 32, network)));
        }
        std::stable_sort(out.begin(), out.end(), [](auto &a, auto &b) { return a.first < b.first; });
        for (size_t a = 0; a < out.size();) {
            Set set = 0;
            int target = out[a].first;
            for (; a < out.size() && out[a].first == target; a++) set = combine(Or, set, out[a].second);
            if (set)
                for (int position = first[r]; position < first[r + 1]; position++) into[target].push_back({position, set});
        }
        for (int position = first[r]; position < first[r + 1]; position++) ended[position] = end;
    }
    // rounds
    vector<Set> arrived(positions, 0), next;
    vector<char> fresh(positions, 0), again(positions, 0);
    int start = first[0] + 1;
    for (size_t i = 0; i < routers[0].interfaces.size(); i++) if (routers[0].interfaces[i].name == "GigabitEthernet0/3") start = first[0] + 1 + i;
    arrived[start] = 1;
    fresh[start] = 1;
    int rounds = 0;
    for (bool changes = true; changes; rounds++) {
        next = arrived;
        changes = false;
        for (int target = 0; target < positions; target++) {
            for (const Flow &flow : into[target])
                if (fresh[flow.from]) next[target] = combine(Or, next[target], combine(And, arrived[flow.from], flow.set));
            again[target] = next[target] != arrived[target];
            changes |= again[target];
        }
        arrived.swap(next);
        fresh.swap(again);
    }
    Set result = 0;
    for (int position = 0; position < positions; position++) result = combine(Or, result, combine(And, arrived[position], ended[position]));
    // the first cube, or all of them
    bool has_default = std::any_of(by_default.begin(), by_default.end(), [](uint32_t hop) { return hop; });
    string text = has_default ? "outcome fixed 3\n" : "outcome fixed 2\n"; // a default route waits for the subnet of its gateway
    if (!all_cubes) text = "sample " + std::to_string(count) + "\n" + text + "routes " + std::to_string(routes) + "\n";
    vector<std::pair<int, int>> path;
    struct Walk {
        static bool cubes(Set set, vector<std::pair<int, int>> &path, string &text, bool all) {
            if (!set) return false;
            if (set == 1) {
                uint64_t value[9] = {}, mask[9] = {};
                static const int starts[] = {0, 32, 64, 72, 88, 104, 112, 120, 121, 122};
                for (auto [bit, side] : path) {
                    int field = 0;
                    while (bit >= starts[field + 1]) field++;
                    mask[field] |= 1ull << (starts[field + 1] - 1 - bit);
                    if (side) value[field] |= 1ull << (starts[field + 1] - 1 - bit);
                }
                static const char *names[] = {"dst", "src", "proto", "sport", "dport", "type", "code", "ack", "rst"};
                text += "cube";
                for (int field = 0; field < 9; field++)
                    if (mask[field]) text += string(" ") + names[field] + "=" + (field < 2 ? dotted(value[field]) + "&" + dotted(mask[field]) : std::to_string(value[field]) + "&" + std::to_string(mask[field]));
                text += path.empty() ? " all\n" : "\n";
                return true;
            }
            bool found = false;
            for (int side = 0; side < 2 && (all || !found); side++) {
                path.push_back({int(bit_of(set)), side});
                found |= cubes(side ? high_of(set) : low_of(set), path, text, all);
                path.pop_back();
            }
            return found;
        }
    };
    Walk::cubes(result, path, text, all_cubes);
    fputs(text.c_str(), stdout);
    fprintf(stderr, "%llu nodes, %d rounds\n", (unsigned long long)made, rounds);
}
