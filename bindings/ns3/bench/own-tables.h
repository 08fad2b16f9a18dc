// Reads the routing tables of ns-3's own AODV, which has no reader but one that prints them as text: the friends of
// an explicit instantiation may name private members.
#ifndef LIBAODV_OWN_TABLES_H
#define LIBAODV_OWN_TABLES_H

#include "ns3/aodv-routing-protocol.h"

#include <map>

template <class Tag, typename Tag::Member member>
struct Named
{
    friend typename Tag::Member
    MemberOf(Tag)
    {
        return member;
    }
};

struct TableOfProtocol
{
    using Member = ns3::aodv::RoutingTable ns3::aodv::RoutingProtocol::*;
    friend Member MemberOf(TableOfProtocol);
};

struct EntriesOfTable
{
    using Member = std::map<ns3::Ipv4Address, ns3::aodv::RoutingTableEntry> ns3::aodv::RoutingTable::*;
    friend Member MemberOf(EntriesOfTable);
};

template struct Named<TableOfProtocol, &ns3::aodv::RoutingProtocol::m_routingTable>;
template struct Named<EntriesOfTable, &ns3::aodv::RoutingTable::m_ipv4AddressEntry>;

// The entries of a node's table. One whose time is over is still there, and isn't used.
inline const std::map<ns3::Ipv4Address, ns3::aodv::RoutingTableEntry>&
EntriesOf(const ns3::aodv::RoutingProtocol& protocol)
{
    return protocol.*MemberOf(TableOfProtocol()).*MemberOf(EntriesOfTable());
}
#endif
