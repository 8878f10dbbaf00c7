// The speed baseline of `flow check`: a plain C++ program, without proofs, that checks a certificate against
// a day and prints the same: the four lines of its claim, or its first fault. docs/certificate.md tells what
// a certificate is and why one is refused, docs/relaxation.md what rows and leaves are. Days are taken to be
// valid.
//
//     g++ -O2 -std=c++20 -o check bench/check.cpp
//     ./check DAY CERT            # ends with 0 where the certificate is accepted, with 4 where it is refused
//     ./check DAY CERT --read     # only reads and parses the certificate, and prints how many lines it has
#include <algorithm>
#include <array>
#include <bit>
#include <charconv>
#include <compare>
#include <cstdint>
#include <cstdio>
#include <cstring>
#include <exception>
#include <filesystem>
#include <memory>
#include <optional>
#include <span>
#include <stdexcept>
#include <string>
#include <string_view>
#include <unordered_map>
#include <utility>
#include <vector>

namespace {

using Wide = __int128;
// What no plan costs less than; without a value, that there is no plan.
using Bound = std::optional<Wide>;

constexpr std::size_t piece_bytes = 65536;
constexpr std::size_t most_line_bytes = 4096;
constexpr std::uint64_t most_cert_bytes = std::uint64_t{1} << 30;
constexpr std::size_t most_nodes = 32;
constexpr std::uint64_t most_position = 4294967295;
constexpr std::uint64_t most_node = 65535;
constexpr std::uint64_t most_period = 511;
constexpr std::uint64_t most_weight = (std::uint64_t{1} << 62) - 1;
constexpr std::uint64_t most_rows = 100'000'000;
constexpr std::uint64_t most_tree_nodes = 4294967295;
constexpr Wide most_cost = 10'000'000'000'000;
constexpr Wide most_bound = Wide{1} << 126;

// Why a certificate is refused: the number of a field, and the cause with its values.
struct Fault {
    unsigned field;
    std::string cause;
};

[[noreturn]] void refuse(unsigned field, std::string cause)
{
    throw Fault{field, std::move(cause)};
}

struct ReadFault {};

// By value, so that no branch is needed.
Wide lesser(Wide one, Wide other) { return other < one ? other : one; }

std::string decimal(Wide number)
{
    auto left = static_cast<unsigned __int128>(number < 0 ? -number : number);
    std::string digits;
    do {
        digits.push_back(static_cast<char>('0' + left % 10));
        left /= 10;
    } while (left > 0);
    if (number < 0)
        digits.push_back('-');
    std::reverse(digits.begin(), digits.end());
    return digits;
}

std::string decimal_or_none(const std::optional<Wide>& number)
{
    return number ? decimal(*number) : "none";
}

// ---- SHA-256

constexpr std::array<std::uint32_t, 64> round_constants = {
    0x428a2f98, 0x71374491, 0xb5c0fbcf, 0xe9b5dba5, 0x3956c25b, 0x59f111f1, 0x923f82a4, 0xab1c5ed5,
    0xd807aa98, 0x12835b01, 0x243185be, 0x550c7dc3, 0x72be5d74, 0x80deb1fe, 0x9bdc06a7, 0xc19bf174,
    0xe49b69c1, 0xefbe4786, 0x0fc19dc6, 0x240ca1cc, 0x2de92c6f, 0x4a7484aa, 0x5cb0a9dc, 0x76f988da,
    0x983e5152, 0xa831c66d, 0xb00327c8, 0xbf597fc7, 0xc6e00bf3, 0xd5a79147, 0x06ca6351, 0x14292967,
    0x27b70a85, 0x2e1b2138, 0x4d2c6dfc, 0x53380d13, 0x650a7354, 0x766a0abb, 0x81c2c92e, 0x92722c85,
    0xa2bfe8a1, 0xa81a664b, 0xc24b8b70, 0xc76c51a3, 0xd192e819, 0xd6990624, 0xf40e3585, 0x106aa070,
    0x19a4c116, 0x1e376c08, 0x2748774c, 0x34b0bcb5, 0x391c0cb3, 0x4ed8aa4a, 0x5b9cca4f, 0x682e6ff3,
    0x748f82ee, 0x78a5636f, 0x84c87814, 0x8cc70208, 0x90befffa, 0xa4506ceb, 0xbef9a3f7, 0xc67178f2};

using HashState = std::array<std::uint32_t, 8>;

void hash_block(HashState& state, const unsigned char* block)
{
    std::array<std::uint32_t, 64> words;
    for (std::size_t k = 0; k < 16; ++k, block += 4)
        words[k] = std::uint32_t{block[0]} << 24 | std::uint32_t{block[1]} << 16 |
                   std::uint32_t{block[2]} << 8 | std::uint32_t{block[3]};
    for (std::size_t k = 16; k < 64; ++k) {
        const std::uint32_t early = words[k - 15], late = words[k - 2];
        words[k] = words[k - 16] + words[k - 7] +
                   (std::rotr(early, 7) ^ std::rotr(early, 18) ^ early >> 3) +
                   (std::rotr(late, 17) ^ std::rotr(late, 19) ^ late >> 10);
    }
    auto [a, b, c, d, e, f, g, h] = state;
    for (std::size_t k = 0; k < 64; ++k) {
        const std::uint32_t first = h + (std::rotr(e, 6) ^ std::rotr(e, 11) ^ std::rotr(e, 25)) +
                                    ((e & f) ^ (~e & g)) + round_constants[k] + words[k];
        const std::uint32_t second =
            (std::rotr(a, 2) ^ std::rotr(a, 13) ^ std::rotr(a, 22)) + ((a & b) ^ (a & c) ^ (b & c));
        h = g, g = f, f = e, e = d + first, d = c, c = b, b = a, a = first + second;
    }
    const HashState more = {a, b, c, d, e, f, g, h};
    for (std::size_t k = 0; k < state.size(); ++k)
        state[k] += more[k];
}

// The SHA-256 digest of a text, in 64 digits.
std::string digest_of(std::string_view text)
{
    HashState state = {0x6a09e667, 0xbb67ae85, 0x3c6ef372, 0xa54ff53a,
                       0x510e527f, 0x9b05688c, 0x1f83d9ab, 0x5be0cd19};
    const auto* bytes = reinterpret_cast<const unsigned char*>(text.data());
    const std::size_t whole = text.size() / 64 * 64;
    for (std::size_t at = 0; at < whole; at += 64)
        hash_block(state, bytes + at);
    std::array<unsigned char, 128> last{};
    const std::size_t left = text.size() - whole;
    std::copy_n(bytes + whole, left, last.begin());
    last[left] = 0x80;
    const std::size_t size = left < 56 ? 64 : 128;
    for (std::size_t k = 0; k < 8; ++k)
        last[size - 1 - k] = static_cast<unsigned char>(std::uint64_t{text.size()} * 8 >> 8 * k);
    for (std::size_t at = 0; at < size; at += 64)
        hash_block(state, last.data() + at);
    std::string digits;
    for (std::uint32_t word : state)
        for (int shift = 28; shift >= 0; shift -= 4)
            digits.push_back("0123456789abcdef"[word >> shift & 15]);
    return digits;
}

// ---- The day

struct Leg {
    std::uint16_t from, to;
    int least;
};

struct Place {
    std::string name;
    bool is_airport;
    // By period: departures or flights inside, and arrivals.
    std::vector<std::uint32_t> first, second;
};

struct Connection {
    std::uint32_t first, second;
    int turnaround;
};

// A node of a flight that is at a place.
struct Visit {
    std::uint32_t flight;
    std::uint16_t node;
};

// Legs, sorted by one of their nodes.
class LegLists {
public:
    LegLists() = default;
    LegLists(std::vector<Leg> legs, std::uint16_t Leg::*node, std::size_t nodes)
        : legs_(std::move(legs)), starts_(nodes + 1)
    {
        std::stable_sort(legs_.begin(), legs_.end(),
                         [node](const Leg& a, const Leg& b) { return a.*node < b.*node; });
        for (const Leg& leg : legs_)
            ++starts_[leg.*node + 1u];
        for (std::size_t k = 0; k < nodes; ++k)
            starts_[k + 1] += starts_[k];
    }
    std::span<const Leg> at(std::size_t node) const
    {
        return {legs_.data() + starts_[node], legs_.data() + starts_[node + 1]};
    }

private:
    std::vector<Leg> legs_;
    std::vector<std::uint32_t> starts_;
};

struct Flight {
    std::string name;
    std::uint32_t origin, destination;
    int departs, arrives, most_wait, most_late;
    std::vector<std::int64_t> totals, credits;
    // The places of its nodes, and which of these are plain.
    std::vector<std::uint32_t> places;
    std::vector<bool> plain;
    LegLists legs_from, legs_to;
    // By node: how long the flight takes at least from there to its destination.
    std::vector<int> distances;
    // Its first node among those of all flights.
    std::uint32_t base;
    // Its connections as the first flight, and as the second one.
    std::vector<std::uint32_t> firsts, seconds;

    std::uint16_t last() const { return static_cast<std::uint16_t>(places.size() - 1); }
    std::int64_t total(int period) const { return totals[period - arrives]; }
    std::int64_t credit(int period) const { return credits[period - departs]; }
};

struct Day {
    int periods = 0;
    std::vector<Place> places;
    std::vector<Flight> flights;
    std::vector<Connection> connections;
    // By place: the flights that leave from there, go there, and may be inside.
    std::vector<std::vector<std::uint32_t>> departing, arriving;
    std::vector<std::vector<Visit>> visits;
    std::uint32_t nodes = 0;
};

// The records of a day's text, one after the other.
class Records {
public:
    explicit Records(std::string_view text) : text_(text)
    {
        if (text_.starts_with("\xef\xbb\xbf"))
            text_.remove_prefix(3);
    }

    // Puts the fields of the next record in place of those there; false where there is none.
    bool next(std::vector<std::string>& fields)
    {
        fields.clear();
        while (at_ < text_.size() && is_end(text_[at_]))
            ++at_;
        if (at_ == text_.size())
            return false;
        do
            fields.push_back(field());
        while (at_ < text_.size() && text_[at_++] == ',');
        return true;
    }

private:
    static bool is_end(char byte) { return byte == '\n' || byte == '\r'; }

    std::string field()
    {
        std::string bytes;
        if (at_ < text_.size() && text_[at_] == '"')
            take_quoted(bytes);
        while (at_ < text_.size() && text_[at_] != ',' && !is_end(text_[at_]))
            bytes.push_back(text_[at_++]);
        return bytes;
    }

    void take_quoted(std::string& bytes)
    {
        for (++at_; at_ < text_.size(); ++at_) {
            if (text_[at_] == '"' && (++at_ == text_.size() || text_[at_] != '"'))
                return;
            bytes.push_back(text_[at_]);
        }
    }

    std::string_view text_;
    std::size_t at_ = 0;
};

std::int64_t number_in(const std::string& field)
{
    std::int64_t number = 0;
    const auto [end, error] = std::from_chars(field.data(), field.data() + field.size(), number);
    if (error != std::errc{} || end != field.data() + field.size())
        throw std::runtime_error("no number");
    return number;
}

class DayReader {
public:
    static Day read(std::string_view text)
    {
        DayReader reader;
        Records records(text);
        while (records.next(reader.fields_))
            reader.take_record();
        reader.finish();
        return std::move(reader.day_);
    }

private:
    struct Route {
        std::uint32_t from, to;
        int least;
    };

    const std::string& field(std::size_t number) const { return fields_.at(number - 1); }
    std::int64_t number(std::size_t field_number) const { return number_in(field(field_number)); }
    int small(std::size_t field_number) const { return static_cast<int>(number(field_number)); }
    std::vector<std::uint32_t> constant(std::size_t field_number) const
    {
        return std::vector<std::uint32_t>(day_.periods, static_cast<std::uint32_t>(number(field_number)));
    }

    void take_record()
    {
        const std::string& kind = field(1);
        if (kind == "day")
            day_.periods = small(4);
        else if (kind == "airport")
            add_place({field(2), true, constant(3), constant(4)});
        else if (kind == "sector")
            add_place({field(2), false, constant(3), {}});
        else if (kind == "cap")
            change_capacity();
        else if (kind == "flight")
            add_flight();
        else if (kind == "leg")
            add_route();
        else if (kind == "connect")
            day_.connections.push_back({flights_.at(field(2)), flights_.at(field(3)), small(4)});
        else if (kind == "table")
            add_table();
        else if (kind == "cost")
            set_tables(day_.flights[flights_.at(field(2))]);
        else if (kind != "note")
            throw std::runtime_error("no such kind");
    }

    void add_place(Place place)
    {
        places_.emplace(place.name, static_cast<std::uint32_t>(day_.places.size()));
        day_.places.push_back(std::move(place));
    }

    void change_capacity()
    {
        Place& place = day_.places[places_.at(field(3))];
        auto& capacities = field(2) == "arr" ? place.second : place.first;
        std::fill(capacities.begin() + number(4), capacities.begin() + number(5) + 1,
                  static_cast<std::uint32_t>(number(6)));
    }

    void add_flight()
    {
        Flight flight{};
        flight.name = field(2);
        flight.origin = places_.at(field(3));
        flight.destination = places_.at(field(4));
        flight.departs = small(5);
        flight.arrives = small(6);
        flight.most_wait = small(7);
        flight.most_late = small(8);
        const std::int64_t ground = number(9), airborne = number(10);
        for (int late = 0; late <= flight.most_late; ++late)
            flight.totals.push_back(airborne * late);
        for (int wait = 0; wait <= flight.most_wait; ++wait)
            flight.credits.push_back((airborne - ground) * wait);
        flights_.emplace(flight.name, static_cast<std::uint32_t>(day_.flights.size()));
        day_.flights.push_back(std::move(flight));
        routes_.emplace_back();
    }

    void add_route()
    {
        const std::uint32_t flight = flights_.at(field(2));
        routes_[flight].push_back({places_.at(field(3)), places_.at(field(4)), small(5)});
    }

    void add_table()
    {
        std::vector<std::int64_t> values;
        for (std::size_t k = 3; k <= fields_.size(); ++k)
            values.push_back(number(k));
        tables_.emplace(field(2), std::move(values));
    }

    void set_tables(Flight& flight)
    {
        flight.totals = tables_.at(field(3));
        flight.credits = tables_.at(field(4));
    }

    void finish()
    {
        day_.departing.resize(day_.places.size());
        day_.arriving.resize(day_.places.size());
        day_.visits.resize(day_.places.size());
        for (std::uint32_t number = 0; number < day_.flights.size(); ++number) {
            set_ways(day_.flights[number], routes_[number]);
            set_visits(day_.flights[number], number);
        }
        for (std::uint32_t number = 0; number < day_.connections.size(); ++number) {
            day_.flights[day_.connections[number].first].firsts.push_back(number);
            day_.flights[day_.connections[number].second].seconds.push_back(number);
        }
    }

    // The nodes of the flight are its origin, the sectors in the order in which they first start a leg, and
    // its destination.
    void set_ways(Flight& flight, const std::vector<Route>& routes)
    {
        flight.places.push_back(flight.origin);
        for (const Route& route : routes)
            if (std::ranges::find(flight.places, route.from) == flight.places.end())
                flight.places.push_back(route.from);
        flight.places.push_back(flight.destination);
        const auto node_of = [&places = flight.places](std::uint32_t place) {
            return static_cast<std::uint16_t>(std::ranges::find(places, place) - places.begin());
        };
        std::vector<Leg> legs;
        for (const Route& route : routes)
            legs.push_back({node_of(route.from), node_of(route.to), route.least});
        const std::size_t nodes = flight.places.size();
        flight.legs_from = LegLists(legs, &Leg::from, nodes);
        flight.legs_to = LegLists(std::move(legs), &Leg::to, nodes);
        for (std::size_t node = 0; node < nodes; ++node) {
            const auto legs_on = flight.legs_from.at(node);
            flight.plain.push_back(node > 0 && legs_on.size() == 1 &&
                                   flight.legs_to.at(legs_on[0].to).size() == 1);
        }
        set_distances(flight);
        flight.base = day_.nodes;
        day_.nodes += static_cast<std::uint32_t>(nodes);
    }

    void set_distances(Flight& flight)
    {
        flight.distances.assign(flight.places.size(), day_.periods);
        flight.distances.back() = 0;
        for (std::size_t node = flight.last(); node-- > 0;)
            for (const Leg& leg : flight.legs_from.at(node))
                flight.distances[node] =
                    std::min(flight.distances[node], leg.least + flight.distances[leg.to]);
    }

    void set_visits(const Flight& flight, std::uint32_t number)
    {
        day_.departing[flight.origin].push_back(number);
        day_.arriving[flight.destination].push_back(number);
        for (std::uint16_t node = 1; node < flight.last(); ++node)
            day_.visits[flight.places[node]].push_back({number, node});
    }

    Day day_;
    std::vector<std::string> fields_;
    std::vector<std::vector<Route>> routes_;
    std::unordered_map<std::string, std::uint32_t> places_, flights_;
    std::unordered_map<std::string, std::vector<std::int64_t>> tables_;
};

// ---- Plans

struct Stop {
    std::uint16_t node;
    int period;
};

using Trip = std::vector<Stop>;
using Plan = std::vector<Trip>;

// Whether plans keep every rule, and what they cost.
class Rules {
public:
    explicit Rules(const Day& day)
        : day_(day), departures_(day.places.size() * day.periods), arrivals_(departures_),
          inside_(departures_)
    {
    }

    // The first rule that the plan breaks, with its values.
    std::optional<std::string> broken(const Plan& plan)
    {
        for (std::size_t number = 0; number < plan.size(); ++number)
            if (auto told = broken_trip(day_.flights[number], plan[number]))
                return told;
        if (auto told = broken_turn(plan))
            return told;
        count(plan);
        if (auto told = overfull("departures", departures_, true, &Place::first))
            return told;
        if (auto told = overfull("arrivals", arrivals_, true, &Place::second))
            return told;
        return overfull("sectors", inside_, false, &Place::first);
    }

    std::int64_t cost(const Plan& plan) const
    {
        std::int64_t sum = 0;
        for (std::size_t number = 0; number < plan.size(); ++number) {
            const Flight& flight = day_.flights[number];
            sum += flight.total(plan[number].back().period) - flight.credit(plan[number].front().period);
        }
        return sum;
    }

private:
    const std::string& place_name(const Flight& flight, const Stop& stop) const
    {
        return day_.places[flight.places[stop.node]].name;
    }

    bool is_in_window(const Flight& flight, const Stop& stop) const
    {
        if (stop.period >= day_.periods)
            return false;
        if (stop.node == 0)
            return flight.departs <= stop.period && stop.period <= flight.departs + flight.most_wait;
        if (stop.node == flight.last())
            return flight.arrives <= stop.period && stop.period <= flight.arrives + flight.most_late;
        return true;
    }

    std::optional<std::string> broken_trip(const Flight& flight, const Trip& trip) const
    {
        if (trip.empty() || trip[0].node != 0)
            return "start," + flight.name;
        for (std::size_t at = 0; at < trip.size(); ++at) {
            if (!is_in_window(flight, trip[at]))
                return "window," + flight.name + ',' + told_stop(flight, trip[at]);
            if (at + 1 < trip.size())
                if (auto told = broken_step(flight, trip[at], trip[at + 1]))
                    return told;
        }
        if (trip.back().node != flight.last())
            return "ending," + flight.name;
        return std::nullopt;
    }

    std::string told_stop(const Flight& flight, const Stop& stop) const
    {
        return place_name(flight, stop) + ',' + decimal(stop.period);
    }

    std::optional<std::string> broken_step(const Flight& flight, const Stop& stop, const Stop& next) const
    {
        const auto legs = flight.legs_from.at(stop.node);
        const auto leg = std::ranges::find(legs, next.node, &Leg::to);
        if (leg == legs.end())
            return "noleg," + flight.name + ',' + place_name(flight, stop) + ',' + place_name(flight, next);
        if (next.period < stop.period + leg->least)
            return "least," + flight.name + ',' + told_stop(flight, stop) + ',' + told_stop(flight, next) +
                   ',' + decimal(leg->least);
        return std::nullopt;
    }

    std::optional<std::string> broken_turn(const Plan& plan) const
    {
        for (const Connection& connection : day_.connections) {
            const int arrives = plan[connection.first].back().period;
            const int leaves = plan[connection.second].front().period;
            if (leaves < arrives + connection.turnaround)
                return "turn," + day_.flights[connection.first].name + ',' +
                       day_.flights[connection.second].name + ',' + decimal(arrives) + ',' + decimal(leaves) +
                       ',' + decimal(connection.turnaround);
        }
        return std::nullopt;
    }

    void count(const Plan& plan)
    {
        for (auto* loads : {&departures_, &arrivals_, &inside_})
            std::ranges::fill(*loads, 0);
        const auto place = [this](std::uint32_t number) { return std::size_t{number} * day_.periods; };
        for (std::size_t number = 0; number < plan.size(); ++number) {
            const Flight& flight = day_.flights[number];
            const Trip& trip = plan[number];
            ++departures_[place(flight.origin) + trip.front().period];
            ++arrivals_[place(flight.destination) + trip.back().period];
            for (std::size_t at = 1; at + 1 < trip.size(); ++at)
                for (int period = trip[at].period; period < trip[at + 1].period; ++period)
                    ++inside_[place(flight.places[trip[at].node]) + period];
        }
    }

    std::optional<std::string> overfull(std::string_view word, const std::vector<std::uint32_t>& loads,
                                        bool of_airports, std::vector<std::uint32_t> Place::*capacities) const
    {
        for (std::size_t number = 0; number < day_.places.size(); ++number) {
            const Place& place = day_.places[number];
            if (place.is_airport != of_airports)
                continue;
            for (int period = 0; period < day_.periods; ++period) {
                const std::uint32_t load = loads[number * day_.periods + period];
                const std::uint32_t capacity = (place.*capacities)[period];
                if (load > capacity)
                    return std::string(word) + ',' + place.name + ',' + decimal(period) + ',' +
                           decimal(load) + ',' + decimal(capacity);
            }
        }
        return std::nullopt;
    }

    const Day& day_;
    // By place and period.
    std::vector<std::uint32_t> departures_, arrivals_, inside_;
};

// ---- Boxes

// When a flight may enter a node, and whether it must. The node is closed where low is above high.
struct Access {
    std::int16_t low, high;
    bool must;

    bool is_open() const { return low <= high; }
};

// The present box of the tree, tight unless it is empty, and the way back to those that wait.
class Walk {
public:
    explicit Walk(const Day& day) : day_(day), accesses_(day.nodes), waits_(day.flights.size())
    {
        for (std::uint32_t number = 0; number < day.flights.size(); ++number) {
            open(day.flights[number]);
            wait(number);
        }
        tighten();
        trail_.clear();
    }

    bool is_empty() const { return empty_; }

    // The accesses of the flight's nodes.
    const Access* of(const Flight& flight) const { return accesses_.data() + flight.base; }

    bool is_unit() const
    {
        return !empty_ && std::ranges::all_of(accesses_, [](const Access& access) {
            return access.must ? access.low == access.high : !access.is_open();
        });
    }

    bool may_split(const Flight& flight, std::size_t node, int period) const
    {
        const Access& access = of(flight)[node];
        return access.low <= period && (access.must ? period < access.high : period <= access.high);
    }

    // Goes down to the early side of a split.
    void split(std::uint32_t flight, std::size_t node, int period)
    {
        const auto at = static_cast<std::uint32_t>(day_.flights[flight].base + node);
        path_.push_back({flight, at, static_cast<std::int16_t>(period), false, trail_.size()});
        note(at);
        accesses_[at].high = static_cast<std::int16_t>(period);
        accesses_[at].must = true;
        wait(flight);
        tighten();
    }

    // Goes to the late side that waits next; false where none does.
    bool next()
    {
        while (!path_.empty() && path_.back().late)
            path_.pop_back();
        if (path_.empty())
            return false;
        Split& split = path_.back();
        take_back(split.mark);
        empty_ = false;
        split.late = true;
        if (narrow(split.node, static_cast<std::int16_t>(split.period + 1), accesses_[split.node].high)) {
            wait(split.flight);
            tighten();
        }
        return true;
    }

private:
    struct Split {
        std::uint32_t flight, node;
        std::int16_t period;
        bool late;
        std::size_t mark;
    };

    struct Change {
        std::uint32_t node;
        Access was;
    };

    void open(const Flight& flight)
    {
        const auto final_period = static_cast<std::int16_t>(day_.periods - 1);
        Access* accesses = accesses_.data() + flight.base;
        std::fill_n(accesses, flight.places.size(), Access{0, final_period, false});
        const auto window = [&](int first, int most) {
            const int end = std::min(first + most, day_.periods - 1);
            return Access{static_cast<std::int16_t>(first), static_cast<std::int16_t>(end), true};
        };
        accesses[0] = window(flight.departs, flight.most_wait);
        accesses[flight.last()] = window(flight.arrives, flight.most_late);
    }

    void wait(std::uint32_t flight)
    {
        if (!waits_[flight]) {
            waits_[flight] = true;
            waiting_.push_back(flight);
        }
    }

    void note(std::uint32_t node) { trail_.push_back({node, accesses_[node]}); }

    void take_back(std::size_t mark)
    {
        while (trail_.size() > mark) {
            accesses_[trail_.back().node] = trail_.back().was;
            trail_.pop_back();
        }
    }

    // Sets another window; false where a node that must be entered is closed then.
    bool narrow(std::uint32_t node, std::int16_t low, std::int16_t high)
    {
        note(node);
        accesses_[node].low = low;
        accesses_[node].high = high;
        empty_ = low > high && accesses_[node].must;
        return !empty_;
    }

    // Narrows the windows of the flights that wait as far as legs and connections ask for, or until the box
    // is found to be empty.
    void tighten()
    {
        while (!waiting_.empty() && !empty_) {
            const std::uint32_t flight = waiting_.back();
            waiting_.pop_back();
            waits_[flight] = false;
            if (settle(day_.flights[flight]))
                turn(day_.flights[flight]);
        }
        for (const std::uint32_t flight : waiting_)
            waits_[flight] = false;
        waiting_.clear();
    }

    // The windows of one flight, by its legs.
    bool settle(const Flight& flight) { return raise(flight) && lower(flight); }

    bool raise(const Flight& flight)
    {
        constexpr int never = 1 << 14;
        std::array<int, most_nodes> entries;
        entries.fill(never);
        entries[0] = 0;
        for (std::uint32_t node = 0; node < flight.places.size(); ++node) {
            const Access& access = accesses_[flight.base + node];
            if (!access.is_open())
                continue;
            if (entries[node] > access.low &&
                !narrow(flight.base + node, static_cast<std::int16_t>(entries[node]), access.high))
                return false;
            if (access.is_open())
                for (const Leg& leg : flight.legs_from.at(node))
                    entries[leg.to] = std::min(entries[leg.to], access.low + leg.least);
        }
        return true;
    }

    bool lower(const Flight& flight)
    {
        for (std::uint32_t node = flight.last(); node-- > 0;) {
            const Access& access = accesses_[flight.base + node];
            if (!access.is_open())
                continue;
            int limit = -1;
            for (const Leg& leg : flight.legs_from.at(node)) {
                const Access& next = accesses_[flight.base + leg.to];
                if (next.is_open())
                    limit = std::max(limit, next.high - leg.least);
            }
            if (limit < access.high &&
                !narrow(flight.base + node, access.low, static_cast<std::int16_t>(limit)))
                return false;
        }
        return true;
    }

    // The ends of the flight's connections.
    void turn(const Flight& flight)
    {
        for (const auto* numbers : {&flight.firsts, &flight.seconds})
            for (const std::uint32_t number : *numbers)
                if (!turn_at(day_.connections[number]))
                    return;
    }

    bool turn_at(const Connection& connection)
    {
        const Flight& first = day_.flights[connection.first];
        const std::uint32_t arrival = first.base + first.last();
        const std::uint32_t departure = day_.flights[connection.second].base;
        const int low = accesses_[arrival].low + connection.turnaround;
        if (low > accesses_[departure].low) {
            if (!narrow(departure, static_cast<std::int16_t>(low), accesses_[departure].high))
                return false;
            wait(connection.second);
        }
        const int high = accesses_[departure].high - connection.turnaround;
        if (high < accesses_[arrival].high) {
            if (!narrow(arrival, accesses_[arrival].low, static_cast<std::int16_t>(high)))
                return false;
            wait(connection.first);
        }
        return true;
    }

    const Day& day_;
    // By node among those of all flights.
    std::vector<Access> accesses_;
    bool empty_ = false;
    std::vector<Change> trail_;
    std::vector<Split> path_;
    std::vector<std::uint32_t> waiting_;
    std::vector<bool> waits_;
};

// ---- Rows

enum class RowKind : std::uint8_t { Mono, Top, Dep, Arr, Sector, Occupy, Enter, Leave, Connect, Cut };

struct RowForm {
    std::string_view word;
    bool has_node, has_period;
};

constexpr std::array<RowForm, 10> row_forms = {{{"mono", true, true},
                                                {"top", true, false},
                                                {"dep", false, true},
                                                {"arr", false, true},
                                                {"sector", false, true},
                                                {"occupy", true, true},
                                                {"enter", true, true},
                                                {"leave", true, false},
                                                {"connect", false, true},
                                                {"cut", false, false}}};

// The owner is a flight, a place, a connection or a cut. Rows are in the order of these fields.
struct Row {
    RowKind kind;
    std::uint32_t owner;
    std::uint16_t node, period;

    auto operator<=>(const Row&) const = default;
};

bool may_have_price(RowKind kind)
{
    return kind == RowKind::Dep || kind == RowKind::Arr || kind == RowKind::Sector ||
           kind == RowKind::Connect;
}

// Whether the row is one of a place's capacities, which are of airports or of sectors.
bool is_capacity_row(const Day& day, const Row& row, bool of_airports)
{
    return row.owner < day.places.size() && day.places[row.owner].is_airport == of_airports &&
           row.period < day.periods;
}

bool is_flight_row(const Day& day, const Row& row)
{
    if (row.owner >= day.flights.size() || row.period >= day.periods)
        return false;
    const Flight& flight = day.flights[row.owner];
    if (row.node > flight.last())
        return false;
    switch (row.kind) {
    case RowKind::Mono: return row.period > 0;
    case RowKind::Occupy: return row.node > 0 && row.node < flight.last() && !flight.plain[row.node];
    case RowKind::Enter: return row.node > 0;
    case RowKind::Leave: return row.node < flight.last();
    default: return true;
    }
}

bool is_row(const Day& day, const Row& row)
{
    switch (row.kind) {
    case RowKind::Dep:
    case RowKind::Arr: return is_capacity_row(day, row, true);
    case RowKind::Sector: return is_capacity_row(day, row, false);
    case RowKind::Connect: return row.owner < day.connections.size() && row.period < day.periods;
    case RowKind::Cut: return false;
    default: return is_flight_row(day, row);
    }
}

// ---- Leaves

// The value divided by the weight and rounded up; for the weight 0 that there is no plan, if it is above 0.
Bound bound_of(Wide value, std::uint64_t weight)
{
    if (weight > 0)
        return value / static_cast<Wide>(weight) + (value > 0 && value % static_cast<Wide>(weight) != 0);
    if (value > 0)
        return std::nullopt;
    refuse(1, "Useless," + decimal(value));
}

// What a leaf of weights comes to: a constant, and a factor for each variable that the box leaves free.
class DualLeaf {
public:
    // The first box is a tight one in which all later ones are.
    DualLeaf(const Day& day, const Walk& first) : day_(day), walk_(first), by_(day.nodes), inside_(day.nodes)
    {
        for (const Flight& flight : day.flights)
            for (std::size_t node = 0; node < flight.places.size(); ++node) {
                const Access& access = walk_.of(flight)[node];
                by_[flight.base + node] = add_columns(access.low, access.high + 1);
                if (node > 0 && node < flight.last() && !flight.plain[node])
                    inside_[flight.base + node] = add_columns(access.low, inside_end(flight, node));
            }
    }

    void begin(std::uint64_t weight)
    {
        factors_.resize(columns_);
        constant_ = 0;
        weight_ = weight;
        if (weight > 0)
            for (const Flight& flight : day_.flights)
                add_cost(flight, weight);
    }

    void add(const Row& row, std::uint64_t multiplier)
    {
        const Wide times = multiplier;
        const int period = row.period;
        switch (row.kind) {
        case RowKind::Mono:
            add_by(day_.flights[row.owner], row.node, period - 1, times);
            add_by(day_.flights[row.owner], row.node, period, -times);
            break;
        case RowKind::Top:
            add_by(day_.flights[row.owner], row.node, day_.periods - 1, times);
            constant_ -= times;
            break;
        case RowKind::Dep:
            for (const std::uint32_t flight : day_.departing[row.owner])
                add_entry(day_.flights[flight], 0, period, times);
            constant_ -= times * day_.places[row.owner].first[period];
            break;
        case RowKind::Arr:
            for (const std::uint32_t flight : day_.arriving[row.owner])
                add_entry(day_.flights[flight], day_.flights[flight].last(), period, times);
            constant_ -= times * day_.places[row.owner].second[period];
            break;
        case RowKind::Sector:
            for (const Visit& visit : day_.visits[row.owner])
                add_stay(day_.flights[visit.flight], visit.node, period, times);
            constant_ -= times * day_.places[row.owner].first[period];
            break;
        case RowKind::Occupy: add_occupy(day_.flights[row.owner], row.node, period, times); break;
        case RowKind::Enter: add_enter(day_.flights[row.owner], row.node, period, times); break;
        case RowKind::Leave: add_gone_on(day_.flights[row.owner], row.node, day_.periods - 1, times); break;
        case RowKind::Connect: add_connect(day_.connections[row.owner], period, times); break;
        case RowKind::Cut: break;
        }
    }

    // The least over all values of the variables, by the weight.
    Bound bound()
    {
        Wide value = constant_;
        for (const std::size_t column : touched_) {
            value += std::min<Wide>(factors_[column], 0);
            factors_[column] = 0;
        }
        touched_.clear();
        return bound_of(value, weight_);
    }

private:
    // Columns for the periods of a range: what is to be added to a period to have its column.
    std::int64_t add_columns(int low, int end)
    {
        const std::int64_t base = columns_ - low;
        columns_ += std::max(0, end - low);
        return base;
    }

    // The first period in which the flight isn't inside the node's sector any more.
    int inside_end(const Flight& flight, std::size_t node) const
    {
        int end = 0;
        for (const Leg& leg : flight.legs_from.at(node)) {
            const Access& next = walk_.of(flight)[leg.to];
            if (next.is_open())
                end = std::max<int>(end, next.high);
        }
        return end;
    }

    void add_free(std::int64_t column, Wide times)
    {
        if (factors_[column] == 0)
            touched_.push_back(column);
        factors_[column] += times;
    }

    // So many times that the flight has entered the node by the period.
    void add_by(const Flight& flight, std::size_t node, int period, Wide times)
    {
        const Access& access = walk_.of(flight)[node];
        if (!access.is_open() || period < access.low)
            return;
        if (access.must && period >= access.high)
            constant_ += times;
        else
            add_free(by_[flight.base + node] + std::min<int>(period, access.high), times);
    }

    // So many times that it enters the node in the period.
    void add_entry(const Flight& flight, std::size_t node, int period, Wide times)
    {
        add_by(flight, node, period, times);
        add_by(flight, node, period - 1, -times);
    }

    // So many times that it is inside the sector of a node that isn't plain.
    void add_inside(const Flight& flight, std::size_t node, int period, Wide times)
    {
        const Access& access = walk_.of(flight)[node];
        if (access.is_open() && period >= access.low && period < inside_end(flight, node))
            add_free(inside_[flight.base + node] + period, times);
    }

    void add_stay(const Flight& flight, std::size_t node, int period, Wide times)
    {
        if (flight.plain[node])
            add_gone_on(flight, node, period, times);
        else
            add_inside(flight, node, period, times);
    }

    // So many times that it has entered the node by the period, less each of the next ones.
    void add_gone_on(const Flight& flight, std::size_t node, int period, Wide times)
    {
        add_by(flight, node, period, times);
        for (const Leg& leg : flight.legs_from.at(node))
            add_by(flight, leg.to, period, -times);
    }

    void add_occupy(const Flight& flight, std::size_t node, int period, Wide times)
    {
        add_gone_on(flight, node, period, times);
        add_inside(flight, node, period, -times);
    }

    void add_enter(const Flight& flight, std::size_t node, int period, Wide times)
    {
        add_by(flight, node, period, times);
        for (const Leg& leg : flight.legs_to.at(node))
            add_by(flight, leg.from, period - leg.least, -times);
    }

    void add_connect(const Connection& connection, int period, Wide times)
    {
        const Flight& first = day_.flights[connection.first];
        add_by(day_.flights[connection.second], 0, period, times);
        add_by(first, first.last(), period - connection.turnaround, -times);
    }

    // What the flight costs at the ends of its windows, and is spared for each period before.
    void add_cost(const Flight& flight, Wide weight)
    {
        const Access& departure = walk_.of(flight)[0];
        const Access& arrival = walk_.of(flight)[flight.last()];
        constant_ += weight * (flight.total(arrival.high) - flight.credit(departure.high));
        for (int period = arrival.low; period < arrival.high; ++period)
            add_free(by_[flight.base + flight.last()] + period,
                     weight * (flight.total(period) - flight.total(period + 1)));
        for (int period = departure.low; period < departure.high; ++period)
            add_free(by_[flight.base] + period, weight * (flight.credit(period + 1) - flight.credit(period)));
    }

    const Day& day_;
    const Walk& walk_;
    // By node: what is to be added to a period to have the column of its variable.
    std::vector<std::int64_t> by_, inside_;
    std::int64_t columns_ = 0;
    std::vector<Wide> factors_;
    std::vector<std::size_t> touched_;
    Wide constant_ = 0;
    std::uint64_t weight_ = 0;
};

// Prices of owners by period, with room for those owners alone that have one, and for zeros.
class Prices {
public:
    Prices(std::size_t owners, int periods) : stride_(periods + 1), slots_(owners, zeros), cells_(stride_) {}

    void clear()
    {
        for (const std::uint32_t owner : owners_)
            slots_[owner] = zeros;
        owners_.clear();
        cells_.resize(stride_);
    }

    void set(std::uint32_t owner, int period, std::uint64_t price)
    {
        if (slots_[owner] == zeros) {
            slots_[owner] = cells_.size();
            owners_.push_back(owner);
            cells_.resize(cells_.size() + stride_);
        }
        cells_[slots_[owner] + period] = price;
    }

    // The owner's prices, which may all be 0.
    const Wide* of(std::uint32_t owner) const { return cells_.data() + slots_[owner]; }
    bool has(std::uint32_t owner) const { return slots_[owner] != zeros; }

    // Puts in the place of each price the sum of those before it.
    void sum_earlier()
    {
        for (std::size_t start = 0; start < cells_.size(); start += stride_) {
            Wide sum = 0;
            for (std::size_t k = 0; k < stride_; ++k)
                sum += std::exchange(cells_[start + k], sum);
        }
    }

    // Puts in the place of each price the sum of those from it on.
    void sum_later()
    {
        for (std::size_t start = 0; start < cells_.size(); start += stride_)
            for (std::size_t k = stride_ - 1; k-- > 0;)
                cells_[start + k] += cells_[start + k + 1];
    }

private:
    // The slot of those that have none.
    static constexpr std::size_t zeros = 0;

    std::size_t stride_;
    std::vector<std::size_t> slots_;
    std::vector<std::uint32_t> owners_;
    std::vector<Wide> cells_;
};

// What a leaf of prices comes to: the least trip of each flight, less what the capacities would pay.
class LagLeaf {
public:
    LagLeaf(const Day& day, const Walk& walk)
        : day_(day), walk_(walk), departures_(day.places.size(), day.periods),
          arrivals_(day.places.size(), day.periods), stays_(day.places.size(), day.periods),
          turns_(day.connections.size(), day.periods), costs_(most_nodes * day.periods),
          leaving_(day.periods), ends_(day.periods), later_ends_(day.periods + 1)
    {
    }

    void begin(std::uint64_t weight)
    {
        for (Prices* prices : {&departures_, &arrivals_, &stays_, &turns_})
            prices->clear();
        limit_ = 0;
        weight_ = weight;
    }

    void add(const Row& row, std::uint64_t price)
    {
        switch (row.kind) {
        case RowKind::Dep: add_capacity(departures_, day_.places[row.owner].first, row, price); break;
        case RowKind::Arr: add_capacity(arrivals_, day_.places[row.owner].second, row, price); break;
        case RowKind::Sector: add_capacity(stays_, day_.places[row.owner].first, row, price); break;
        default: turns_.set(row.owner, row.period, price);
        }
    }

    Bound bound()
    {
        stays_.sum_earlier();
        turns_.sum_later();
        Wide value = -limit_;
        for (const Flight& flight : day_.flights) {
            const Wide least = least_trip(flight);
            if (least >= no_trip / 2)
                return std::nullopt;
            value += least;
        }
        return bound_of(value, weight_);
    }

private:
    struct Window {
        int low, high;

        bool is_open() const { return low <= high; }
    };

    // More than twice what any trip may cost.
    static constexpr Wide no_trip = Wide{1} << 120;

    void add_capacity(Prices& prices, const std::vector<std::uint32_t>& capacities, const Row& row,
                      std::uint64_t price)
    {
        prices.set(row.owner, row.period, price);
        limit_ += static_cast<Wide>(price) * capacities[row.period];
    }

    // The least over the trips of the flight. A long window of arrivals is looked at from its front, until no
    // later arrival may cost less.
    Wide least_trip(const Flight& flight)
    {
        const Access& departure = walk_.of(flight)[0];
        const Access& arrival = walk_.of(flight)[flight.last()];
        set_departures(flight, departure);
        set_arrivals(flight, arrival);
        set_ends(departure, arrival, costs_at(flight.last()), flight.distances[0]);
        for (int width = 32; arrival.low + width < arrival.high; width *= 2) {
            const int cap = arrival.low + width;
            const Wide early = *std::min_element(&ends_[arrival.low], &ends_[cap + 1]);
            if (early > later_ends_[cap + 1])
                continue;
            const Wide least = least_until(flight, cap);
            if (least <= later_ends_[cap + 1])
                return least;
        }
        return least_until(flight, arrival.high);
    }

    void set_departures(const Flight& flight, const Access& access)
    {
        const Wide* prices = departures_.of(flight.origin);
        for (int period = access.low; period <= access.high; ++period)
            leaving_[period] = prices[period] - static_cast<Wide>(weight_) * flight.credit(period);
        for (const std::uint32_t number : flight.seconds)
            if (turns_.has(number)) {
                const Wide* paid = turns_.of(number);
                for (int period = access.low; period <= access.high; ++period)
                    leaving_[period] += paid[period];
            }
    }

    void set_arrivals(const Flight& flight, const Access& access)
    {
        Wide* costs = costs_at(flight.last());
        const Wide* prices = arrivals_.of(flight.destination);
        for (int period = access.low; period <= access.high; ++period)
            costs[period] = prices[period] + static_cast<Wide>(weight_) * flight.total(period);
        for (const std::uint32_t number : flight.firsts)
            if (turns_.has(number)) {
                const Wide* back = turns_.of(number);
                const int turnaround = day_.connections[number].turnaround;
                const int end = std::min<int>(access.high + 1, day_.periods - turnaround);
                for (int period = access.low; period < end; ++period)
                    costs[period] -= back[period + turnaround];
            }
    }

    // What a trip costs at least that arrives in a period, and in that or a later one: what its ends cost.
    void set_ends(const Access& departure, const Access& arrival, const Wide* arriving, int distance)
    {
        Wide lowest = no_trip;
        int leaves = departure.low;
        for (int period = arrival.low; period <= arrival.high; ++period) {
            for (; leaves <= std::min<int>(departure.high, period - distance); ++leaves)
                lowest = lesser(lowest, leaving_[leaves]);
            ends_[period] = lowest + arriving[period];
        }
        later_ends_[arrival.high + 1] = no_trip;
        for (int period = arrival.high; period >= arrival.low; --period)
            later_ends_[period] = lesser(ends_[period], later_ends_[period + 1]);
    }

    // The least over those that arrive by the period.
    Wide least_until(const Flight& flight, int period)
    {
        const Access* accesses = walk_.of(flight);
        std::uint16_t next_must = flight.last();
        windows_[next_must] = {accesses[next_must].low, period};
        for (std::uint16_t node = next_must; node-- > 0;) {
            const int high = std::min<int>(accesses[node].high, period - flight.distances[node]);
            windows_[node] = {accesses[node].low, high};
            if (windows_[node].is_open())
                set_ways_on(flight, node, next_must);
            if (accesses[node].must)
                next_must = node;
        }
        Wide least = no_trip;
        for (int leaves = windows_[0].low; leaves <= windows_[0].high; ++leaves)
            least = lesser(least, costs_at(0)[leaves] + leaving_[leaves]);
        return least;
    }

    // The least cost of the ways on from the node, by period of its window.
    Wide* costs_at(std::size_t node) { return costs_.data() + node * day_.periods; }

    // A leg may not pass over the next node that must be entered.
    void set_ways_on(const Flight& flight, std::uint16_t node, std::uint16_t next_must)
    {
        const Window window = windows_[node];
        Wide* costs = costs_at(node);
        std::fill(costs + window.low, costs + window.high + 1, no_trip);
        const Wide* paid = stays_.of(flight.places[node]);
        for (const Leg& leg : flight.legs_from.at(node))
            if (leg.to <= next_must && windows_[leg.to].is_open())
                offer(window, costs, windows_[leg.to], costs_at(leg.to), paid, leg.least);
        for (int period = window.low; period <= window.high; ++period)
            costs[period] -= paid[period];
    }

    // Offers to each period of a window the least way on by a leg. What is paid is that for being at the
    // leg's start up to each period.
    static void offer(Window window, Wide* costs, Window next, const Wide* next_costs, const Wide* paid,
                      int least)
    {
        Wide lowest = no_trip;
        int entry = next.high;
        for (; entry > window.high + least && entry >= next.low; --entry)
            lowest = lesser(lowest, next_costs[entry] + paid[entry]);
        for (; entry >= window.low + least && entry >= next.low; --entry) {
            lowest = lesser(lowest, next_costs[entry] + paid[entry]);
            costs[entry - least] = lesser(costs[entry - least], lowest);
        }
        for (int period = std::min(entry - least, window.high); period >= window.low; --period)
            costs[period] = lesser(costs[period], lowest);
    }

    const Day& day_;
    const Walk& walk_;
    Prices departures_, arrivals_, stays_, turns_;
    std::vector<Wide> costs_;
    // By period: what leaving then costs, and what trips cost at least at their ends.
    std::vector<Wide> leaving_, ends_, later_ends_;
    // By node: its window, cut for an early arrival.
    std::array<Window, most_nodes> windows_{};
    // What the capacities would pay.
    Wide limit_ = 0;
    std::uint64_t weight_ = 0;
};

// ---- The text of a certificate

// The lines of a file that is read in pieces.
class Lines {
public:
    struct Line {
        // Without its line feed, and no more of it than shows that it is too long.
        std::string_view bytes;
        bool has_feed;
    };

    explicit Lines(const char* name) : file_(std::fopen(name, "rb"), &std::fclose), piece_(piece_bytes)
    {
        if (!file_)
            throw ReadFault{};
        std::setvbuf(file_.get(), nullptr, _IONBF, 0);
    }

    Line take()
    {
        kept_.clear();
        while (kept_.size() <= most_line_bytes) {
            const char* start = piece_.data() + at_;
            if (const void* feed = std::memchr(start, '\n', filled_ - at_)) {
                const auto size = static_cast<std::size_t>(static_cast<const char*>(feed) - start);
                at_ += size + 1;
                return {whole(start, size), true};
            }
            kept_.append(start, filled_ - at_);
            if (!read())
                return {kept_, false};
        }
        return {kept_, false};
    }

private:
    // The line, of which some may stand in the pieces before.
    std::string_view whole(const char* start, std::size_t size)
    {
        if (kept_.empty())
            return {start, size};
        return kept_.append(start, size);
    }

    bool read()
    {
        at_ = 0;
        filled_ = std::fread(piece_.data(), 1, piece_.size(), file_.get());
        if (std::ferror(file_.get()))
            throw ReadFault{};
        return filled_ > 0;
    }

    std::unique_ptr<std::FILE, int (*)(std::FILE*)> file_;
    std::vector<char> piece_;
    std::size_t at_ = 0, filled_ = 0;
    std::string kept_;
};

// The fields of a line, one after the other.
class Fields {
public:
    explicit Fields(std::string_view line) : at_(line.data()), end_(line.data() + line.size()) {}

    unsigned next_number() const { return number_; }
    bool are_left() const { return left_; }

    std::string_view next()
    {
        begin();
        const char* at = at_;
        while (at != end_ && *at != ',')
            ++at;
        const std::string_view field(at_, at - at_);
        pass(at);
        return field;
    }

    std::uint64_t number(std::uint64_t low, std::uint64_t high)
    {
        begin();
        const char* at = at_;
        std::uint64_t value = 0;
        for (; at != end_ && is_digit(*at); ++at)
            value = value * 10 + static_cast<std::uint64_t>(*at - '0');
        const auto digits = at - at_;
        const bool is_bare = digits == 1 || (digits > 1 && digits <= 19 && *at_ != '0');
        if (!is_bare || (at != end_ && *at != ',') || value < low || value > high)
            refuse(number_, "BadField");
        pass(at);
        return value;
    }

    // A number no further from 0 than the most, or none.
    std::optional<Wide> whole(Wide most)
    {
        const unsigned at = number_;
        std::string_view digits = next();
        if (digits == "none")
            return std::nullopt;
        const bool is_negative = digits.starts_with('-');
        digits.remove_prefix(is_negative);
        const bool is_bare = digits.starts_with('0') ? digits.size() == 1 && !is_negative : !digits.empty();
        if (!is_bare || digits.size() > 38 || !std::ranges::all_of(digits, is_digit))
            refuse(at, "BadField");
        Wide value = 0;
        for (const char digit : digits)
            value = value * 10 + (digit - '0');
        if (value > most)
            refuse(at, "BadField");
        return is_negative ? -value : value;
    }

    void end() const
    {
        if (left_)
            refuse(number_, "BadField");
    }

private:
    static bool is_digit(char byte) { return byte >= '0' && byte <= '9'; }

    void begin() const
    {
        if (!left_)
            refuse(number_, "BadField");
    }

    // To the field after this end of one.
    void pass(const char* end)
    {
        ++number_;
        left_ = end != end_;
        at_ = end + left_;
    }

    const char* at_;
    const char* end_;
    unsigned number_ = 1;
    bool left_ = true;
};

enum class Kind { Head, Split, Empty, Unit, Dual, Lag, Row, Plan, Trip, Bound, End };

// What a line tells. Fields are set as its kind has them.
struct Item {
    Kind kind;
    std::string_view digest;
    std::uint32_t flight;
    std::uint16_t node, period;
    // A leaf's weight, a row's multiplier, or the number of nodes.
    std::uint64_t number;
    std::uint32_t rows;
    Row row;
    // A cost or a bound.
    std::optional<Wide> whole;
    Trip trip;
};

// Reads a certificate line by line, and sees that each line may stand where it does.
class Reader {
public:
    Reader(const Day& day, const char* name) : day_(day), lines_(name) {}

    // Reads the next line; false at the end.
    bool next()
    {
        ++line_;
        const Lines::Line line = lines_.take();
        if (stage_ == Stage::Ended) {
            if (line.bytes.empty() && !line.has_feed)
                return false;
            refuse(1, "AfterEnd");
        }
        if (line.bytes.size() > most_line_bytes)
            refuse(1, "LongLine");
        if (!line.has_feed)
            refuse(1, "Missing");
        Fields fields(line.bytes);
        parse(fields);
        return true;
    }

    const Item& item() const { return item_; }
    // The number of the line.
    std::uint64_t line() const { return line_; }

private:
    enum class Stage { Head, Pool, Tree, Rows, Plan, Trips, Bound, End, Ended };

    static void expect(std::string_view word, std::string_view wanted)
    {
        if (word != wanted)
            refuse(1, "BadKind");
    }

    void parse(Fields& fields)
    {
        const std::string_view word = fields.next();
        switch (stage_) {
        case Stage::Rows: expect(word, "y"), take_row(fields); break;
        case Stage::Head: expect(word, "cert"), take_head(fields); break;
        case Stage::Pool:
            if (word == "cut")
                take_cut(fields);
            [[fallthrough]];
        case Stage::Tree: take_node(word, fields); break;
        case Stage::Plan: expect(word, "plan"), take_plan(fields); break;
        case Stage::Trips: expect(word, "trip"), take_trip(fields); break;
        case Stage::Bound: expect(word, "bound"), take_bound(fields); break;
        case Stage::End:
        case Stage::Ended: expect(word, "end"), take_end(fields); break;
        }
    }

    void take_head(Fields& fields)
    {
        fields.number(1, 1);
        item_.digest = fields.next();
        const auto is_digit = [](char byte) {
            return (byte >= '0' && byte <= '9') || (byte >= 'a' && byte <= 'f');
        };
        if (item_.digest.size() != 64 || !std::ranges::all_of(item_.digest, is_digit))
            refuse(3, "BadField");
        fields.end();
        item_.kind = Kind::Head;
        stage_ = Stage::Pool;
    }

    // There are no cuts yet: where all of its fields are right, one is refused.
    [[noreturn]] static void take_cut(Fields& fields)
    {
        const std::string_view family = fields.next();
        if (family != "v1" && family != "v2" && family != "v3")
            refuse(2, "BadField");
        fields.number(0, most_position);
        if (family != "v2")
            fields.number(0, most_node);
        fields.number(0, most_period);
        const int least = family == "v1" ? 1 : family == "v2" ? 2 : 0;
        const int most = family == "v1" ? 31 : family == "v2" ? 32 : 0;
        for (int count = 0; count < least || (count < most && fields.are_left()); ++count)
            fields.number(0, most_node);
        fields.end();
        refuse(2, "BadCut");
    }

    void take_node(std::string_view word, Fields& fields)
    {
        if (word == "split")
            take_split(fields);
        else if (word == "lag")
            take_leaf_of_rows(Kind::Lag, fields);
        else if (word == "dual")
            take_leaf_of_rows(Kind::Dual, fields);
        else if (word == "empty")
            take_bare_leaf(Kind::Empty, fields);
        else if (word == "unit")
            take_bare_leaf(Kind::Unit, fields);
        else
            refuse(1, "BadKind");
    }

    void take_split(Fields& fields)
    {
        item_.kind = Kind::Split;
        item_.flight = static_cast<std::uint32_t>(fields.number(0, most_position));
        item_.node = static_cast<std::uint16_t>(fields.number(0, most_node));
        item_.period = static_cast<std::uint16_t>(fields.number(0, most_period));
        fields.whole(most_cost);
        fields.end();
        ++waiting_;
        stage_ = Stage::Tree;
    }

    void take_bare_leaf(Kind kind, Fields& fields)
    {
        item_.kind = kind;
        fields.end();
        --waiting_;
        pass_tree();
    }

    void take_leaf_of_rows(Kind kind, Fields& fields)
    {
        item_.kind = kind;
        item_.number = fields.number(0, most_weight);
        item_.rows = static_cast<std::uint32_t>(fields.number(0, most_rows));
        fields.end();
        --waiting_;
        rows_left_ = item_.rows;
        has_row_ = false;
        stage_ = Stage::Rows;
        if (rows_left_ == 0)
            pass_tree();
    }

    void pass_tree() { stage_ = waiting_ > 0 ? Stage::Tree : Stage::Plan; }

    void take_row(Fields& fields)
    {
        const Row row = row_in(fields);
        item_.number = fields.number(1, most_weight);
        fields.end();
        if (has_row_ && row <= item_.row)
            refuse(2, "Order");
        item_.kind = Kind::Row;
        item_.row = row;
        has_row_ = true;
        if (--rows_left_ == 0)
            pass_tree();
    }

    Row row_in(Fields& fields)
    {
        Row row{row_kind(fields.next()), 0, 0, 0};
        const RowForm& form = row_forms[static_cast<std::size_t>(row.kind)];
        row.owner = static_cast<std::uint32_t>(fields.number(0, most_position));
        if (form.has_node)
            row.node = static_cast<std::uint16_t>(fields.number(0, most_node));
        if (form.has_period)
            row.period = static_cast<std::uint16_t>(fields.number(0, most_period));
        return row;
    }

    // The kind of the word, which mostly is that of the row before.
    RowKind row_kind(std::string_view word) const
    {
        std::size_t kind = static_cast<std::size_t>(item_.row.kind);
        for (std::size_t count = 0; count < row_forms.size(); ++count) {
            if (row_forms[kind].word == word)
                return static_cast<RowKind>(kind);
            kind = (kind + 1) % row_forms.size();
        }
        refuse(2, "BadField");
    }

    void take_plan(Fields& fields)
    {
        item_.kind = Kind::Plan;
        item_.whole = fields.whole(most_cost);
        fields.end();
        stage_ = item_.whole && !day_.flights.empty() ? Stage::Trips : Stage::Bound;
    }

    void take_trip(Fields& fields)
    {
        const Flight& flight = day_.flights[next_flight_];
        if (fields.next() != flight.name)
            refuse(2, "BadField");
        item_.kind = Kind::Trip;
        item_.trip.clear();
        while (fields.are_left() && item_.trip.size() < most_nodes) {
            const std::uint16_t node = node_in(flight, fields);
            item_.trip.push_back({node, static_cast<int>(fields.number(0, most_period))});
        }
        fields.end();
        if (++next_flight_ == day_.flights.size())
            stage_ = Stage::Bound;
    }

    std::uint16_t node_in(const Flight& flight, Fields& fields) const
    {
        const unsigned at = fields.next_number();
        const std::string_view name = fields.next();
        for (std::uint16_t node = 0; node < flight.places.size(); ++node)
            if (day_.places[flight.places[node]].name == name)
                return node;
        refuse(at, "BadField");
    }

    void take_bound(Fields& fields)
    {
        item_.kind = Kind::Bound;
        item_.whole = fields.whole(most_bound);
        fields.end();
        stage_ = Stage::End;
    }

    void take_end(Fields& fields)
    {
        item_.kind = Kind::End;
        item_.number = fields.number(1, most_tree_nodes);
        fields.end();
        stage_ = Stage::Ended;
    }

    const Day& day_;
    Lines lines_;
    std::uint64_t line_ = 0;
    Stage stage_ = Stage::Head;
    Item item_{};
    // How many trees are to come, besides that of a leaf whose rows are read.
    std::uint64_t waiting_ = 1;
    std::uint32_t rows_left_ = 0;
    bool has_row_ = false;
    std::size_t next_flight_ = 0;
};

// ---- The check

class Checker {
public:
    Checker(const Day& day, std::string digest)
        : day_(day), digest_(std::move(digest)), rules_(day), walk_(day), dual_(day, walk_), lag_(day, walk_)
    {
    }

    void take(const Item& item)
    {
        switch (item.kind) {
        case Kind::Row: take_row(item); break;
        case Kind::Head: take_head(item); break;
        case Kind::Split: take_split(item); break;
        case Kind::Empty: take_empty(); break;
        case Kind::Unit: take_unit(); break;
        case Kind::Dual:
        case Kind::Lag: begin_leaf(item); break;
        case Kind::Plan: take_plan(item); break;
        case Kind::Trip: take_trip(item); break;
        case Kind::Bound: take_bound(item); break;
        case Kind::End: take_end(item); break;
        }
    }

    // The four lines of what was accepted.
    std::string claim() const
    {
        const bool is_infeasible = !cost_ && !bound_;
        const bool is_optimal = cost_ && bound_ && *cost_ == *bound_;
        return std::string("status,") + (is_infeasible ? "infeasible" : is_optimal ? "optimal" : "open") +
               "\ncost," + decimal_or_none(cost_) + "\nbound," + decimal_or_none(bound_) + "\nnodes," +
               decimal(nodes_) + '\n';
    }

private:
    void take_head(const Item& item)
    {
        if (item.digest != digest_)
            refuse(3, "OtherScenario," + std::string(item.digest) + ',' + digest_);
    }

    void take_split(const Item& item)
    {
        if (walk_.is_empty())
            refuse(1, "BadSplit");
        if (item.flight >= day_.flights.size())
            refuse(2, "BadSplit");
        const Flight& flight = day_.flights[item.flight];
        if (item.node > flight.last())
            refuse(3, "BadSplit");
        if (!walk_.may_split(flight, item.node, item.period))
            refuse(4, "BadSplit");
        walk_.split(item.flight, item.node, item.period);
        ++nodes_;
    }

    void take_empty()
    {
        if (!walk_.is_empty())
            refuse(1, "NotEmpty");
        end_leaf(std::nullopt);
    }

    void take_unit()
    {
        if (!walk_.is_unit())
            refuse(1, "NotUnit");
        const Plan plan = only_plan();
        end_leaf(rules_.broken(plan) ? Bound() : rules_.cost(plan));
    }

    // The plan that stops at each node that must be entered.
    Plan only_plan() const
    {
        Plan plan(day_.flights.size());
        for (std::size_t number = 0; number < plan.size(); ++number) {
            const Flight& flight = day_.flights[number];
            const Access* accesses = walk_.of(flight);
            for (std::uint16_t node = 0; node <= flight.last(); ++node)
                if (accesses[node].must)
                    plan[number].push_back({node, accesses[node].low});
        }
        return plan;
    }

    void begin_leaf(const Item& item)
    {
        if (walk_.is_empty())
            refuse(1, "Closed");
        is_lag_ = item.kind == Kind::Lag;
        rows_left_ = item.rows;
        if (is_lag_)
            lag_.begin(item.number);
        else
            dual_.begin(item.number);
        if (rows_left_ == 0)
            end_leaf_of_rows();
    }

    void take_row(const Item& item)
    {
        if (!is_row(day_, item.row) || (is_lag_ && !may_have_price(item.row.kind)))
            refuse(2, "UnknownRow");
        if (is_lag_)
            lag_.add(item.row, item.number);
        else
            dual_.add(item.row, item.number);
        if (--rows_left_ == 0)
            end_leaf_of_rows();
    }

    void end_leaf_of_rows() { end_leaf(is_lag_ ? lag_.bound() : dual_.bound()); }

    void end_leaf(const Bound& bound)
    {
        if (bound && (!bound_ || *bound < *bound_))
            bound_ = bound;
        ++nodes_;
        walk_.next();
    }

    void take_plan(const Item& item)
    {
        cost_ = item.whole;
        if (cost_ && day_.flights.empty())
            judge_plan();
    }

    void take_trip(const Item& item)
    {
        plan_.push_back(item.trip);
        if (plan_.size() == day_.flights.size())
            judge_plan();
    }

    void judge_plan()
    {
        if (const auto told = rules_.broken(plan_))
            refuse(1, "BrokenPlan," + *told);
        const std::int64_t cost = rules_.cost(plan_);
        if (*cost_ != cost)
            refuse(1, "OtherCost," + decimal(*cost_) + ',' + decimal(cost));
    }

    void take_bound(const Item& item) const
    {
        if (item.whole != bound_)
            refuse(2, "OtherBound," + decimal_or_none(item.whole) + ',' + decimal_or_none(bound_));
    }

    void take_end(const Item& item) const
    {
        if (item.number != nodes_)
            refuse(2, "OtherCount," + decimal(item.number) + ',' + decimal(nodes_));
    }

    const Day& day_;
    std::string digest_;
    Rules rules_;
    Walk walk_;
    DualLeaf dual_;
    LagLeaf lag_;
    bool is_lag_ = false;
    std::uint32_t rows_left_ = 0;
    Bound bound_;
    std::uint64_t nodes_ = 0;
    std::optional<Wide> cost_;
    Plan plan_;
};

std::string read_file(const char* name)
{
    const std::unique_ptr<std::FILE, int (*)(std::FILE*)> file(std::fopen(name, "rb"), &std::fclose);
    if (!file || !std::filesystem::is_regular_file(name))
        throw ReadFault{};
    std::string text(std::filesystem::file_size(name), '\0');
    if (std::fread(text.data(), 1, text.size(), file.get()) != text.size())
        throw ReadFault{};
    return text;
}

int refused(std::uint64_t line, const Fault& fault)
{
    std::printf("refused,%llu,%u,%s\n", static_cast<unsigned long long>(line), fault.field,
                fault.cause.c_str());
    return 4;
}

int check(const Day& day, std::string digest, const char* name)
{
    Reader reader(day, name);
    Checker checker(day, std::move(digest));
    try {
        while (reader.next())
            checker.take(reader.item());
    } catch (const Fault& fault) {
        return refused(reader.line(), fault);
    }
    std::fputs(checker.claim().c_str(), stdout);
    return 0;
}

int only_read(const Day& day, const char* name)
{
    Reader reader(day, name);
    try {
        while (reader.next()) {
        }
    } catch (const Fault& fault) {
        return refused(reader.line(), fault);
    }
    std::printf("%llu\n", static_cast<unsigned long long>(reader.line() - 1));
    return 0;
}

int run(const char* day_name, const char* cert_name, bool reads_only)
{
    const std::string text = read_file(day_name);
    const Day day = DayReader::read(text);
    if (!std::filesystem::is_regular_file(cert_name))
        throw ReadFault{};
    const std::uint64_t size = std::filesystem::file_size(cert_name);
    if (size > most_cert_bytes) {
        std::printf("refused,toolong,%llu\n", static_cast<unsigned long long>(size));
        return 9;
    }
    return reads_only ? only_read(day, cert_name) : check(day, digest_of(text), cert_name);
}

} // namespace

int main(int count, char** words)
{
    const bool reads_only = count == 4 && std::string_view(words[3]) == "--read";
    if (count != 3 && !reads_only) {
        std::puts("usage\ncheck DAY CERT [--read]");
        return 5;
    }
    try {
        return run(words[1], words[2], reads_only);
    } catch (const ReadFault&) {
        std::puts("fault,read");
        return 6;
    } catch (const std::exception& error) {
        std::printf("refused,day,%s\n", error.what());
        return 3;
    }
}
