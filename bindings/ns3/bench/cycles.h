// Looks for cycles of valid next hops in the tables of all nodes, at each instant of a simulation.
#ifndef LIBAODV_CYCLES_H
#define LIBAODV_CYCLES_H

#include "ns3/default-simulator-impl.h"
#include "ns3/simulator.h"

#include <cstdint>
#include <functional>
#include <set>
#include <utility>
#include <vector>

// Nodes count from 0. A destination has a cycle where the valid next hops towards it lead from a node back to it. A
// cycle that comes up is seen at once; one that ends since the time of a route is over, within a millisecond.
class Cycles
{
  public:
    static constexpr int NONE = -1;
    // For each destination the next hop of the node's valid route, or NONE.
    using Row = std::vector<int>;
    // Reads the row of a node as it is now. It answers false where nothing was done there since the last time.
    using ReadRow = std::function<bool(std::size_t node, Row& row)>;
    // Reads one next hop of a row.
    using ReadNext = std::function<int(std::size_t node, std::size_t dest)>;

    Cycles(std::size_t nodes, ReadRow read_row, ReadNext read_next);
    // Looks at a node's table after an event there.
    void Look(std::size_t node);

    // How often it has looked, after how many of these looks a cycle stood, and how many came up.
    uint64_t looks{0};
    uint64_t with_cycle{0};
    uint64_t cycles{0};

  private:
    // A destination, and the nodes of a cycle, the least first.
    using Cycle = std::pair<std::size_t, std::vector<std::size_t>>;

    std::vector<std::size_t> CycleAt(std::size_t node, std::size_t dest) const;
    bool Stands(const Cycle& cycle);
    bool ReadChanges(std::size_t node);
    void DropEnded();
    void Find(std::size_t node, std::size_t dest);

    ReadRow m_readRow;
    ReadNext m_readNext;
    std::vector<Row> m_next;
    std::set<Cycle> m_standing;
    ns3::Time m_checked;
    Row m_row;
};

// A simulator that tells after each event at which node it was.
class WatchedSimulator : public ns3::DefaultSimulatorImpl
{
  public:
    static ns3::TypeId GetTypeId();

    std::function<void(std::size_t node)> after;

  private:
    void PreEventHook(const ns3::EventId& next) override;

    uint32_t m_last{ns3::Simulator::NO_CONTEXT};
};
#endif
