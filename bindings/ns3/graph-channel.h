// A channel over a graph: each frame comes, after the channel's delay, to the sender's neighbours of this moment.
#ifndef LIBAODV_GRAPH_CHANNEL_H
#define LIBAODV_GRAPH_CHANNEL_H

#include "ns3/simple-channel.h"

#include <map>
#include <set>
#include <vector>

namespace ns3
{
namespace libaodv
{

// Devices count from 0, in the order in which they were attached. At first there are no links.
class GraphChannel : public SimpleChannel
{
  public:
    static TypeId GetTypeId();

    // Sets or cuts the link of two devices, which goes both ways.
    void SetLink(std::size_t a, std::size_t b, bool is_up);
    const std::set<std::size_t>& GetNeighbours(std::size_t device) const;
    // How many frames were sent.
    uint64_t GetFrames() const;

    void Add(Ptr<SimpleNetDevice> device) override;
    void Send(Ptr<Packet> packet,
              uint16_t protocol,
              Mac48Address to,
              Mac48Address from,
              Ptr<SimpleNetDevice> sender) override;

  private:
    Time m_delay;
    uint64_t m_frames{0};
    std::vector<Ptr<SimpleNetDevice>> m_devices;
    std::map<Ptr<SimpleNetDevice>, std::size_t> m_index;
    std::vector<std::set<std::size_t>> m_links;
};

} // namespace libaodv
} // namespace ns3
#endif
