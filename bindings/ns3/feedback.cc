#include "feedback.h"

#include "ns3/arp-cache.h"
#include "ns3/ipv4-header.h"
#include "ns3/ipv4-interface.h"
#include "ns3/ipv4-l3-protocol.h"
#include "ns3/llc-snap-header.h"
#include "ns3/node.h"
#include "ns3/udp-header.h"
#include "ns3/udp-l4-protocol.h"
#include "ns3/wifi-mpdu.h"

namespace ns3
{
namespace libaodv
{

Feedback::Feedback(Ptr<WifiNetDevice> device, uint16_t port, Told told)
    : m_port(port),
      m_told(told)
{
    Ptr<Feedback> self(this);
    device->GetMac()->TraceConnectWithoutContext("DroppedMpdu",
                                                 MakeCallback(&Feedback::FrameDropped, self));
    device->GetMac()->TraceConnectWithoutContext("AckedMpdu",
                                                 MakeCallback(&Feedback::FrameAcked, self));
    Ptr<Ipv4L3Protocol> ipv4 = device->GetNode()->GetObject<Ipv4L3Protocol>();
    ipv4->GetInterface(ipv4->GetInterfaceForDevice(device))
        ->GetArpCache()
        ->TraceConnectWithoutContext("Drop", MakeCallback(&Feedback::NoSuchNeighbour, self));
}

void
Feedback::FrameDropped(WifiMacDropReason reason, Ptr<const WifiMpdu> frame)
{
    Tell(frame, reason != WIFI_MAC_DROP_FAILED_ENQUEUE);
}

void
Feedback::FrameAcked(Ptr<const WifiMpdu> frame)
{
    Tell(frame, false);
}

// ARP has had no answer; it puts the IPv4 header before the packet.
void
Feedback::NoSuchNeighbour(Ptr<const Packet> packet)
{
    Tell(packet->Copy(), true);
}

void
Feedback::Tell(Ptr<const WifiMpdu> frame, bool is_unreached)
{
    const WifiMacHeader& header = frame->GetHeader();
    if (!header.IsData() || header.GetAddr1().IsGroup())
    {
        return;
    }
    Ptr<Packet> packet = frame->GetPacket()->Copy();
    LlcSnapHeader llc;
    packet->RemoveHeader(llc);
    if (llc.GetType() == Ipv4L3Protocol::PROT_NUMBER)
    {
        Tell(packet, is_unreached);
    }
}

void
Feedback::Tell(Ptr<Packet> packet, bool is_unreached)
{
    Ipv4Header ip;
    UdpHeader udp;
    packet->RemoveHeader(ip);
    if (ip.GetProtocol() == UdpL4Protocol::PROT_NUMBER && packet->RemoveHeader(udp) &&
        udp.GetDestinationPort() == m_port)
    {
        m_told(packet->GetUid(), ip.GetDestination(), is_unreached);
    }
}

} // namespace libaodv
} // namespace ns3
