#include "answers.h"

#include "packets.h"

#include "ns3/simulator.h"

#include <algorithm>

namespace ns3
{
namespace libaodv
{

namespace
{

constexpr std::size_t MOST_KEPT = 1024;

} // namespace

// A request is known by its originator and id, a reply by its originator, destination and number.
std::optional<Answers::Key>
Answers::KeyOf(const ::aodv::Bytes& packet)
{
    if (packet.size() == 24 && packet[0] == REQUEST)
    {
        return Key(REQUEST, NumberAt(packet, 16), NumberAt(packet, 4), 0);
    }
    if (packet.size() == 20 && packet[0] == REPLY)
    {
        return Key(REPLY, NumberAt(packet, 12), NumberAt(packet, 4), NumberAt(packet, 8));
    }
    return std::nullopt;
}

void
Answers::Keep(const ::aodv::Bytes& heard, Ptr<Packet> packet, ::aodv::Addr to)
{
    const auto key = KeyOf(heard);
    if (!key)
    {
        return;
    }
    m_answers[*key] = {packet, to, Simulator::Now()};
    if (m_answers.size() > MOST_KEPT)
    {
        m_answers.erase(std::min_element(m_answers.begin(), m_answers.end(), [](auto& a, auto& b) {
            return a.second.last < b.second.last;
        }));
    }
}

const Answers::Answer*
Answers::Again(const ::aodv::Bytes& heard, Time quiet)
{
    const auto key = KeyOf(heard);
    const auto it = key ? m_answers.find(*key) : m_answers.end();
    if (it == m_answers.end() || Simulator::Now() < it->second.last + quiet)
    {
        return nullptr;
    }
    it->second.last = Simulator::Now();
    return &it->second;
}

} // namespace libaodv
} // namespace ns3
