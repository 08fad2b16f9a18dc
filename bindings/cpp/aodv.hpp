// aodv.hpp: aodv.h for C++17. A Router owns its handle, can be moved and not copied, and is used by
// one thread at a time. Its calls throw Refused where aodv.h has a code other than AODV_DONE.
#ifndef AODV_HPP
#define AODV_HPP

#include "aodv.h"

#include <cstdint>
#include <optional>
#include <stdexcept>
#include <string>
#include <string_view>
#include <utility>
#include <vector>

namespace aodv {

// An address is a number: 10.0.0.1 is 0x0A000001.
using Addr = std::uint32_t;
using Bytes = std::vector<std::uint8_t>;

// What a call is refused for, in words.
inline const char *why(std::uint32_t code) {
    static const char *const words[] = {
        "done", "nothing to do", "the mesh has no such address", "the address is the router's own",
        "a packet that can't be read", "a packet that names a stranger", "no memory",
        "the handle holds nothing", "the handle holds a router", "a datum has 1 to 512 bytes",
        "the first number is 0", "there is no such variant", "an address is there twice",
        "there are more than 200 addresses", "the router's own address is missing",
        "a hop count is full", "a sequence number is full", "a request id is full",
        "the table has no such entry"};
    return code < sizeof words / sizeof *words ? words[code] : "an unknown code";
}

class Refused : public std::runtime_error {
  public:
    explicit Refused(std::uint32_t code) : std::runtime_error(why(code)), code_(code) {}
    std::uint32_t code() const noexcept { return code_; }

  private:
    std::uint32_t code_;
};

enum class Variant : std::uint32_t { base, number, reply, error };
enum class Took : std::uint32_t { nothing, own, stored, data, request, reply, error };
enum class Cast : std::uint32_t { nothing, one, many, all };

// What a turn, a send or a request has done. The packet is to be cast as it stands.
class Outcome {
  public:
    Took took() const { return static_cast<Took>(out_.took); }
    // The neighbour that the packet came from, or 0.
    Addr from() const { return out_.from; }
    // The destination of a datum that now waits, or 0.
    Addr dest() const { return out_.dest; }
    // The datum in body() has come to its destination, which is this router.
    bool delivered() const { return out_.delivered; }
    bool lost() const { return out_.lost; }
    // The next hop that wasn't near.
    std::optional<Addr> broken() const {
        return out_.broken ? std::optional<Addr>(out_.broke) : std::nullopt;
    }
    Cast cast() const { return static_cast<Cast>(out_.cast); }
    // The neighbours that the packet goes to, where they are named.
    std::vector<Addr> to() const { return {out_.to, out_.to + out_.to_len}; }
    Bytes packet() const { return {out_.packet, out_.packet + out_.packet_len}; }
    Bytes body() const { return {out_.body, out_.body + out_.body_len}; }
    // Whether the packet goes to this neighbour.
    bool goes_to(Addr neighbour) const {
        for (std::uint32_t k = 0; k < out_.to_len; k++)
            if (out_.to[k] == neighbour) return true;
        return cast() == Cast::all;
    }

  private:
    friend class Router;
    aodv_outcome out_{};
};

class Router {
  public:
    // A router of a mesh of exactly these addresses. `first` is its first sequence number.
    Router(const std::vector<Addr> &addrs, Addr me, std::uint32_t first = 1,
           Variant variant = Variant::base) {
        if (aodv_version() != AODV_VERSION)
            throw std::runtime_error("libaodv has another interface than aodv.h");
        done(aodv_new(&handle_, start(addrs), addrs.size(), me, first,
                      static_cast<std::uint32_t>(variant)));
    }
    ~Router() { aodv_free(&handle_); }
    Router(Router &&other) noexcept : handle_(std::exchange(other.handle_, aodv_router{})) {}
    Router &operator=(Router &&other) noexcept {
        std::swap(handle_, other.handle_);
        return *this;
    }
    Router(const Router &) = delete;
    Router &operator=(const Router &) = delete;

    // A packet that a neighbour has cast joins the inbox, whatever its bytes are.
    void hear(Addr from, const Bytes &bytes) {
        done(aodv_hear(&handle_, from, start(bytes), bytes.size()));
    }
    // A datum of 1 to 512 bytes joins the inbox.
    void give(Addr dest, std::string_view body) {
        done(aodv_give(&handle_, dest, reinterpret_cast<const std::uint8_t *>(start(body)),
                       body.size()));
    }
    // Takes the front item of the inbox; a unicast reaches those that are near.
    Outcome turn(const std::vector<Addr> &near_addrs) {
        Outcome it;
        done(aodv_turn(&handle_, start(near_addrs), near_addrs.size(), &it.out_));
        return it;
    }
    // Sends the first datum that waits for an address.
    Outcome send(const std::vector<Addr> &near_addrs, Addr dest) {
        Outcome it;
        done(aodv_send(&handle_, start(near_addrs), near_addrs.size(), dest, &it.out_));
        return it;
    }
    // Asks all neighbours for a route to an address.
    Outcome ask(Addr dest) {
        Outcome it;
        done(aodv_ask(&handle_, dest, &it.out_));
        return it;
    }

    // How many items wait in the inbox.
    std::size_t items() { return read<std::size_t>(aodv_items); }
    // The addresses for which `send`, and those for which `ask`, may be called.
    std::vector<Addr> sendable() { return list(aodv_sendable); }
    std::vector<Addr> askable() { return list(aodv_askable); }
    // The router's own sequence number.
    std::uint32_t number() { return read<std::uint32_t>(aodv_number); }
    // The table's entry for an address, if there is one.
    std::optional<aodv_row> entry(Addr dest) {
        aodv_row row{};
        std::uint32_t code = aodv_entry(&handle_, dest, &row);
        if (code == AODV_NO_ENTRY) return std::nullopt;
        done(code);
        return row;
    }
    // How many data wait for an address.
    std::size_t waiting(Addr dest) {
        std::size_t count = 0;
        done(aodv_waiting(&handle_, dest, &count));
        return count;
    }
    // Whether an originator's request of this id was seen.
    bool seen(Addr originator, std::uint32_t id) {
        bool seen = false;
        done(aodv_seen(&handle_, originator, id, &seen));
        return seen;
    }

  private:
    static void done(std::uint32_t code) {
        if (code != AODV_DONE) throw Refused(code);
    }
    // A pointer that isn't null, also where there is nothing.
    template <class List> static const typename List::value_type *start(const List &list) {
        static const typename List::value_type none{};
        return list.empty() ? &none : list.data();
    }
    template <class Number> Number read(std::uint32_t (*call)(aodv_router *, Number *)) {
        Number number{};
        done(call(&handle_, &number));
        return number;
    }
    std::vector<Addr> list(std::uint32_t (*call)(aodv_router *, aodv_addrs *)) {
        aodv_addrs list{};
        done(call(&handle_, &list));
        return {list.addrs, list.addrs + list.len};
    }

    aodv_router handle_{};
};

} // namespace aodv
#endif
