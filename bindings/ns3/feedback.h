// What the link layer of a node tells of unicasts over UDP.
#ifndef LIBAODV_FEEDBACK_H
#define LIBAODV_FEEDBACK_H

#include "ns3/callback.h"
#include "ns3/ipv4-address.h"
#include "ns3/packet.h"
#include "ns3/simple-ref-count.h"
#include "ns3/wifi-mac.h"
#include "ns3/wifi-net-device.h"

namespace ns3
{
namespace libaodv
{

// Listens to the MAC of a device and to its ARP, and tells of each unicast to a port, by the packet's uid and the
// receiver, when it is over: whether the neighbour wasn't reached. A frame that a full queue has no room for says
// nothing of the link, and isn't told as such.
class Feedback : public SimpleRefCount<Feedback>
{
  public:
    using Told = Callback<void, uint64_t, Ipv4Address, bool>;

    Feedback(Ptr<WifiNetDevice> device, uint16_t port, Told told);

  private:
    void FrameDropped(WifiMacDropReason reason, Ptr<const WifiMpdu> frame);
    void FrameAcked(Ptr<const WifiMpdu> frame);
    void NoSuchNeighbour(Ptr<const Packet> packet);
    void Tell(Ptr<const WifiMpdu> frame, bool is_unreached);
    void Tell(Ptr<Packet> packet, bool is_unreached);

    uint16_t m_port;
    Told m_told;
};

} // namespace libaodv
} // namespace ns3
#endif
