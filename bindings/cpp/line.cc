// A datum goes down a line of five routers, each of which has only its neighbours near.
#include "aodv.hpp"

#include <iostream>

namespace {

class Line {
  public:
    explicit Line(std::uint32_t nodes) {
        for (std::uint32_t i = 0; i < nodes; i++) addrs_.push_back(0x0A000001 + i);
        for (aodv::Addr me : addrs_) routers_.emplace_back(addrs_, me);
    }

    void give(std::size_t i, std::size_t dest, std::string_view body) {
        routers_[i].give(addrs_[dest], body);
    }

    // Each router does all that it may, until none may do anything.
    void run() {
        for (bool acted = true; acted;) {
            acted = false;
            for (std::size_t i = 0; i < routers_.size(); i++) acted |= act(i);
        }
    }

  private:
    std::vector<aodv::Addr> near_of(std::size_t i) const {
        std::vector<aodv::Addr> near_addrs;
        if (i > 0) near_addrs.push_back(addrs_[i - 1]);
        if (i + 1 < addrs_.size()) near_addrs.push_back(addrs_[i + 1]);
        return near_addrs;
    }

    // Tells what router i has done, and hands its packet to those near that it goes to.
    void cast(std::size_t i, const aodv::Outcome &out) {
        if (out.delivered()) {
            aodv::Bytes body = out.body();
            std::cout << "10.0.0." << i + 1 << " has \"" << std::string(body.begin(), body.end())
                      << "\"\n";
        }
        for (aodv::Addr to : near_of(i))
            if (out.goes_to(to)) routers_[to - addrs_[0]].hear(addrs_[i], out.packet());
    }

    bool act(std::size_t i) {
        aodv::Router &router = routers_[i];
        bool acted = false;
        for (; router.items() > 0; acted = true) cast(i, router.turn(near_of(i)));
        for (aodv::Addr dest : router.sendable()) {
            cast(i, router.send(near_of(i), dest));
            acted = true;
        }
        for (aodv::Addr dest : router.askable()) {
            cast(i, router.ask(dest));
            acted = true;
        }
        return acted;
    }

    std::vector<aodv::Addr> addrs_;
    std::vector<aodv::Router> routers_;
};

} // namespace

int main() {
    Line line(5);
    line.give(0, 4, "hello");
    line.run();
}
