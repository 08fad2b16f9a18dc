#include "cycles.h"

#include <algorithm>

using namespace ns3;

Cycles::Cycles(std::size_t nodes, ReadRow read_row, ReadNext read_next)
    : m_readRow(std::move(read_row)),
      m_readNext(std::move(read_next)),
      m_next(nodes, Row(nodes, NONE))
{
}

// The nodes of the cycle that the node is on, the least first; none where it is on none.
std::vector<std::size_t>
Cycles::CycleAt(std::size_t node, std::size_t dest) const
{
    std::vector<std::size_t> nodes;
    std::size_t at = node;
    do
    {
        nodes.push_back(at);
        if (at == dest || m_next[at][dest] == NONE || nodes.size() > m_next.size())
        {
            return {};
        }
        at = m_next[at][dest];
    } while (at != node);
    std::rotate(nodes.begin(), std::min_element(nodes.begin(), nodes.end()), nodes.end());
    return nodes;
}

// A route ends by time, too, so each node of the cycle is read again.
bool
Cycles::Stands(const Cycle& cycle)
{
    const auto& [dest, nodes] = cycle;
    bool stands = true;
    for (std::size_t i = 0; i < nodes.size(); i++)
    {
        m_next[nodes[i]][dest] = m_readNext(nodes[i], dest);
        stands &= m_next[nodes[i]][dest] == int(nodes[(i + 1) % nodes.size()]);
    }
    return stands;
}

void
Cycles::DropEnded()
{
    for (auto it = m_standing.begin(); it != m_standing.end();)
    {
        it = Stands(*it) ? std::next(it) : m_standing.erase(it);
    }
}

// Each cycle that comes up has the node whose next hop has changed.
void
Cycles::Find(std::size_t node, std::size_t dest)
{
    const Cycle cycle(dest, CycleAt(node, dest));
    if (!cycle.second.empty() && Stands(cycle))
    {
        cycles += m_standing.insert(cycle).second;
    }
}

// Reads the node's row; answers whether it has changed.
bool
Cycles::ReadChanges(std::size_t node)
{
    m_row = m_next[node];
    if (!m_readRow(node, m_row) || m_row == m_next[node])
    {
        return false;
    }
    for (std::size_t dest = 0; dest < m_row.size(); dest++)
    {
        if (std::exchange(m_next[node][dest], m_row[dest]) != m_row[dest])
        {
            Find(node, dest);
        }
    }
    return true;
}

void
Cycles::Look(std::size_t node)
{
    looks++;
    const Time now = Simulator::Now();
    if (ReadChanges(node) || now >= m_checked + MilliSeconds(1))
    {
        DropEnded();
        m_checked = now;
    }
    with_cycle += !m_standing.empty();
}

TypeId
WatchedSimulator::GetTypeId()
{
    static TypeId tid = TypeId("libaodv::WatchedSimulator")
                            .SetParent<DefaultSimulatorImpl>()
                            .AddConstructor<WatchedSimulator>();
    return tid;
}

void
WatchedSimulator::PreEventHook(const EventId& next)
{
    if (m_last != Simulator::NO_CONTEXT && after)
    {
        after(m_last);
    }
    m_last = next.GetContext();
}
