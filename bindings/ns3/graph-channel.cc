#include "graph-channel.h"

#include "ns3/node.h"
#include "ns3/nstime.h"
#include "ns3/packet.h"
#include "ns3/simple-net-device.h"
#include "ns3/simulator.h"

namespace ns3
{
namespace libaodv
{

NS_OBJECT_ENSURE_REGISTERED(GraphChannel);

TypeId
GraphChannel::GetTypeId()
{
    static TypeId tid = TypeId("ns3::libaodv::GraphChannel")
                            .SetParent<SimpleChannel>()
                            .SetGroupName("Network")
                            .AddConstructor<GraphChannel>()
                            .AddAttribute("HopDelay",
                                          "The time from a frame's sending to its arrival.",
                                          TimeValue(MilliSeconds(1)),
                                          MakeTimeAccessor(&GraphChannel::m_delay),
                                          MakeTimeChecker(Time(0)));
    return tid;
}

void
GraphChannel::SetLink(std::size_t a, std::size_t b, bool is_up)
{
    for (const auto& [from, to] : {std::pair(a, b), std::pair(b, a)})
    {
        if (is_up)
        {
            m_links.at(from).insert(to);
        }
        else
        {
            m_links.at(from).erase(to);
        }
    }
}

const std::set<std::size_t>&
GraphChannel::GetNeighbours(std::size_t device) const
{
    return m_links.at(device);
}

uint64_t
GraphChannel::GetFrames() const
{
    return m_frames;
}

void
GraphChannel::Add(Ptr<SimpleNetDevice> device)
{
    SimpleChannel::Add(device);
    m_index[device] = m_devices.size();
    m_devices.push_back(device);
    m_links.emplace_back();
}

void
GraphChannel::Send(Ptr<Packet> packet,
                   uint16_t protocol,
                   Mac48Address to,
                   Mac48Address from,
                   Ptr<SimpleNetDevice> sender)
{
    m_frames++;
    for (std::size_t index : m_links[m_index.at(sender)])
    {
        Ptr<SimpleNetDevice> device = m_devices[index];
        if (to.IsGroup() || Mac48Address::ConvertFrom(device->GetAddress()) == to)
        {
            Simulator::ScheduleWithContext(device->GetNode()->GetId(),
                                           m_delay,
                                           &SimpleNetDevice::Receive,
                                           device,
                                           packet->Copy(),
                                           protocol,
                                           to,
                                           from);
        }
    }
}

} // namespace libaodv
} // namespace ns3
