// The kinds of packets that the bench counts.
#ifndef LIBAODV_KINDS_H
#define LIBAODV_KINDS_H

#include "ns3/ipv4-header.h"
#include "ns3/packet.h"
#include "ns3/udp-header.h"
#include "ns3/udp-l4-protocol.h"

// The port of data where ns-3's own AODV carries them; the proved router has them in packets of its own.
constexpr uint16_t DATA_PORT = 9;

enum Kind
{
    REQUESTS,
    REPLIES,
    ERRORS,
    HELLOS,
    DATA,
    OTHERS,
    KINDS
};

// The kind of an IPv4 packet. A hello is a reply that nobody asked for, to all neighbours.
inline Kind
KindOf(ns3::Ptr<const ns3::Packet> packet)
{
    ns3::Ptr<ns3::Packet> rest = packet->Copy();
    ns3::Ipv4Header ip;
    ns3::UdpHeader udp;
    rest->RemoveHeader(ip);
    if (ip.GetProtocol() != ns3::UdpL4Protocol::PROT_NUMBER || !rest->RemoveHeader(udp))
    {
        return OTHERS;
    }
    uint8_t type = 0;
    rest->CopyData(&type, 1);
    if (udp.GetDestinationPort() == DATA_PORT || type == 16)
    {
        return DATA;
    }
    switch (type)
    {
    case 1:
        return REQUESTS;
    case 2:
        return ip.GetDestination().IsBroadcast() || ip.GetTtl() == 1 ? HELLOS : REPLIES;
    case 3:
        return ERRORS;
    default:
        return OTHERS;
    }
}
#endif
