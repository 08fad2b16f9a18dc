// The bytes of packets, as docs/FORMATS.md has them, where an application has to look at them.
#ifndef LIBAODV_PACKETS_H
#define LIBAODV_PACKETS_H

#include "aodv.hpp"

#include "ns3/packet.h"

namespace ns3
{
namespace libaodv
{

// Byte 0 of a packet.
constexpr uint8_t REQUEST = 1;
constexpr uint8_t REPLY = 2;
constexpr uint8_t DATA = 16;
// A data packet has its destination behind its type, and the datum behind its originator.
constexpr std::size_t DEST_AT = 4;
constexpr std::size_t DATUM_AT = 12;

inline uint32_t
NumberAt(const ::aodv::Bytes& packet, std::size_t at)
{
    return uint32_t(packet[at]) << 24 | uint32_t(packet[at + 1]) << 16 |
           uint32_t(packet[at + 2]) << 8 | uint32_t(packet[at + 3]);
}

inline Ptr<Packet>
PacketOf(const ::aodv::Bytes& bytes)
{
    return Create<Packet>(bytes.data(), bytes.size());
}

inline ::aodv::Bytes
BytesOf(Ptr<const Packet> packet)
{
    ::aodv::Bytes bytes(packet->GetSize());
    packet->CopyData(bytes.data(), bytes.size());
    return bytes;
}

} // namespace libaodv
} // namespace ns3
#endif
