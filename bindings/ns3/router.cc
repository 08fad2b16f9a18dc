#include "router.h"

#include "packets.h"

#include "ns3/boolean.h"
#include "ns3/enum.h"
#include "ns3/inet-socket-address.h"
#include "ns3/ipv4.h"
#include "ns3/log.h"
#include "ns3/node.h"
#include "ns3/pointer.h"
#include "ns3/simulator.h"
#include "ns3/string.h"
#include "ns3/udp-socket-factory.h"
#include "ns3/uinteger.h"

#include <algorithm>

namespace ns3
{
namespace libaodv
{

NS_LOG_COMPONENT_DEFINE("LibaodvRouter");
NS_OBJECT_ENSURE_REGISTERED(Router);

namespace
{

// So many data on their way are kept, to be sent again where they fail.
constexpr std::size_t MOST_FLIGHTS = 1024;
// The time between two repeats is doubled so often at most.
constexpr uint32_t MOST_DOUBLINGS = 16;

} // namespace

TypeId
Router::GetTypeId()
{
    static TypeId tid =
        TypeId("ns3::libaodv::Router")
            .SetParent<Application>()
            .SetGroupName("Applications")
            .AddConstructor<Router>()
            .AddAttribute("Port",
                          "The UDP port of all routers of the mesh.",
                          UintegerValue(654),
                          MakeUintegerAccessor(&Router::m_port),
                          MakeUintegerChecker<uint16_t>(1))
            .AddAttribute("Variant",
                          "The variant of the protocol, the same at all routers of the mesh.",
                          EnumValue(AODV_BASE),
                          MakeEnumAccessor(&Router::m_variant),
                          MakeEnumChecker(AODV_BASE, "base", AODV_NUMBER, "number", AODV_REPLY,
                                          "reply", AODV_ERROR, "error"))
            .AddAttribute("FirstNumber",
                          "The first sequence number.",
                          UintegerValue(1),
                          MakeUintegerAccessor(&Router::m_first),
                          MakeUintegerChecker<uint32_t>(1))
            .AddAttribute("NearByHearing",
                          "Whether a neighbour is near from the moment in which it is heard; else "
                          "only LinkUp and LinkDown say who is near.",
                          BooleanValue(true),
                          MakeBooleanAccessor(&Router::m_nearByHearing),
                          MakeBooleanChecker())
            .AddAttribute("Jitter",
                          "The seconds that a broadcast waits, so that neighbours that answer the "
                          "same packet don't send at the same time.",
                          StringValue("ns3::UniformRandomVariable[Min=0|Max=0.01]"),
                          MakePointerAccessor(&Router::m_jitter),
                          MakePointerChecker<RandomVariableStream>())
            .AddAttribute("Repeats",
                          "How often a request that has found nothing is cast again; routers that "
                          "hear it again cast their answers again. 0 is never.",
                          UintegerValue(0),
                          MakeUintegerAccessor(&Router::m_repeats),
                          MakeUintegerChecker<uint32_t>())
            .AddAttribute("RepeatAfter",
                          "The time from a request to its first repeat, doubled for each further "
                          "one: at least twice the time in which a request goes through the mesh.",
                          TimeValue(Seconds(1)),
                          MakeTimeAccessor(&Router::m_repeatAfter),
                          MakeTimeChecker(MilliSeconds(1)))
            .AddTraceSource("Cast",
                            "A packet is cast to a neighbour, or to all: 255.255.255.255.",
                            MakeTraceSourceAccessor(&Router::m_castTrace),
                            "ns3::libaodv::Router::CastCallback")
            .AddTraceSource("Delivered",
                            "A datum has come to this node, which is its destination.",
                            MakeTraceSourceAccessor(&Router::m_deliveredTrace),
                            "ns3::libaodv::Router::PacketCallback")
            .AddTraceSource("Lost",
                            "A datum was dropped here.",
                            MakeTraceSourceAccessor(&Router::m_lostTrace),
                            "ns3::libaodv::Router::PacketCallback")
            .AddTraceSource("Refused",
                            "What was heard comes from no node of the mesh, can't be read, or names "
                            "a stranger.",
                            MakeTraceSourceAccessor(&Router::m_refusedTrace),
                            "ns3::libaodv::Router::CastCallback")
            .AddTraceSource("Repeated",
                            "A request, or what was cast for one, is cast again.",
                            MakeTraceSourceAccessor(&Router::m_repeatedTrace),
                            "ns3::libaodv::Router::PacketCallback")
            .AddTraceSource("Broken",
                            "The routes by this neighbour are gone.",
                            MakeTraceSourceAccessor(&Router::m_brokenTrace),
                            "ns3::libaodv::Router::NeighbourCallback")
            .AddTraceSource("Acted",
                            "A turn, a send or a request is done, and the table may have changed.",
                            MakeTraceSourceAccessor(&Router::m_actedTrace),
                            "ns3::libaodv::Router::ActedCallback");
    return tid;
}

void
Router::SetMesh(const std::vector<Ipv4Address>& mesh)
{
    m_mesh.clear();
    for (Ipv4Address it : mesh)
    {
        m_mesh.push_back(it.Get());
    }
    std::sort(m_mesh.begin(), m_mesh.end());
}

bool
Router::IsPeer(Addr node) const
{
    return node != m_me && std::binary_search(m_mesh.begin(), m_mesh.end(), node);
}

bool
Router::IsNear(Addr node) const
{
    return std::binary_search(m_near.begin(), m_near.end(), node);
}

// The node's own address is the one of the mesh that an interface of it has.
void
Router::StartApplication()
{
    Ptr<Ipv4> ipv4 = GetNode()->GetObject<Ipv4>();
    const auto own = std::find_if(m_mesh.begin(), m_mesh.end(), [ipv4](Addr it) {
        return ipv4->GetInterfaceForAddress(Ipv4Address(it)) >= 0;
    });
    NS_ABORT_MSG_IF(own == m_mesh.end(), "no interface of the node has an address of the mesh");
    m_me = *own;
    m_router.emplace(m_mesh, m_me, m_first, static_cast<::aodv::Variant>(m_variant));
    m_socket = Socket::CreateSocket(GetNode(), UdpSocketFactory::GetTypeId());
    m_socket->SetAllowBroadcast(true);
    m_socket->Bind(InetSocketAddress(Ipv4Address::GetAny(), m_port));
    m_socket->SetRecvCallback(MakeCallback(&Router::Receive, this));
}

void
Router::StopApplication()
{
    for (auto& [dest, asked] : m_asked)
    {
        asked.next.Cancel();
    }
    if (m_socket)
    {
        m_socket->Close();
        m_socket = nullptr;
    }
}

void
Router::DoDispose()
{
    StopApplication();
    m_router.reset();
    Application::DoDispose();
}

int64_t
Router::AssignStreams(int64_t stream)
{
    m_jitter->SetStream(stream);
    return 1;
}

std::optional<aodv_row>
Router::GetRoute(Ipv4Address dest)
{
    return m_router ? m_router->entry(dest.Get()) : std::nullopt;
}

std::size_t
Router::GetWaiting(Ipv4Address dest)
{
    return m_router ? m_router->waiting(dest.Get()) : 0;
}

// ---- what the router does

bool
Router::Send(Ipv4Address dest, Ptr<const Packet> datum)
{
    const Addr to = dest.Get();
    const Bytes body = BytesOf(datum);
    if (!m_socket || !(to == m_me || IsPeer(to)) || body.empty() || body.size() > AODV_LONGEST_DATUM)
    {
        return false;
    }
    m_router->give(to, {reinterpret_cast<const char*>(body.data()), body.size()});
    Turn(0, {});
    Act();
    // Where all repeats of the request are spent, a further datum begins them anew.
    if (auto it = m_asked.find(to); it != m_asked.end() && !it->second.next.IsRunning())
    {
        it->second.repeats = 0;
        Repeat(to);
    }
    return true;
}

void
Router::Receive(Ptr<Socket> socket)
{
    Address sender;
    while (Ptr<Packet> packet = socket->RecvFrom(sender))
    {
        const Ipv4Address from = InetSocketAddress::ConvertFrom(sender).GetIpv4();
        if (IsPeer(from.Get()))
        {
            Hear(from.Get(), BytesOf(packet));
        }
        else if (from.Get() != m_me)
        {
            m_refusedTrace(packet, from);
        }
    }
}

void
Router::Hear(Addr from, const Bytes& packet)
{
    if (m_nearByHearing)
    {
        LinkUp(Ipv4Address(from));
    }
    m_router->hear(from, packet);
    if (!Turn(from, packet))
    {
        Again(packet);
    }
    Act();
}

// Takes the one item of the inbox, and answers whether something was cast for it.
bool
Router::Turn(Addr from, const Bytes& heard)
{
    try
    {
        const ::aodv::Outcome out = m_router->turn(m_near);
        Report(out);
        Cast(out, from);
        const bool is_answer = out.cast() == ::aodv::Cast::one || out.cast() == ::aodv::Cast::all;
        if (m_repeats > 0 && is_answer)
        {
            m_answers.Keep(heard, PacketOf(out.packet()), out.to().empty() ? 0 : out.to()[0]);
        }
        return out.cast() != ::aodv::Cast::nothing;
    }
    catch (const ::aodv::Refused& why)
    {
        if (why.code() != AODV_MALFORMED && why.code() != AODV_NAMES_STRANGER)
        {
            throw;
        }
        m_refusedTrace(PacketOf(heard), Ipv4Address(from));
        return false;
    }
}

// Sends what has a route, and asks for one for what has none.
void
Router::Act()
{
    for (auto dests = m_router->sendable(); !dests.empty(); dests = m_router->sendable())
    {
        const ::aodv::Outcome out = m_router->send(m_near, dests.front());
        Report(out);
        Cast(out, 0);
    }
    for (Addr dest : m_router->askable())
    {
        Ask(dest);
    }
}

void
Router::Report(const ::aodv::Outcome& out)
{
    if (out.delivered())
    {
        m_deliveredTrace(PacketOf(out.body()));
    }
    if (out.lost())
    {
        m_lostTrace(PacketOf(out.body()));
    }
    if (const auto next = out.broken())
    {
        NS_LOG_LOGIC("the link to " << Ipv4Address(*next) << " is broken");
        m_brokenTrace(Ipv4Address(*next));
    }
    m_actedTrace();
}

// Casts the packet, if there is one. A datum that came from the neighbour `from` may have to be heard again.
void
Router::Cast(const ::aodv::Outcome& out, Addr from)
{
    const Bytes bytes = out.packet();
    if (out.cast() == ::aodv::Cast::nothing)
    {
        return;
    }
    Ptr<Packet> packet = PacketOf(bytes);
    if (out.cast() == ::aodv::Cast::all)
    {
        Transmit(packet, 0);
    }
    for (Addr to : out.to())
    {
        if (m_feedback && bytes[0] == DATA)
        {
            m_flights[{packet->GetUid(), to}] = {from, bytes};
            if (m_flights.size() > MOST_FLIGHTS)
            {
                m_flights.erase(m_flights.begin());
            }
        }
        Transmit(packet, to);
    }
}

void
Router::Transmit(Ptr<Packet> packet, Addr to)
{
    if (to == 0)
    {
        Simulator::Schedule(Seconds(m_jitter->GetValue()), &Router::Broadcast, this, packet);
        return;
    }
    m_castTrace(packet, Ipv4Address(to));
    m_socket->SendTo(packet->Copy(), 0, InetSocketAddress(Ipv4Address(to), m_port));
}

void
Router::Broadcast(Ptr<Packet> packet)
{
    if (m_socket)
    {
        m_castTrace(packet, Ipv4Address::GetBroadcast());
        m_socket->SendTo(packet->Copy(), 0, InetSocketAddress(Ipv4Address::GetBroadcast(), m_port));
    }
}

// ---- the link layer's feedback

void
Router::LinkUp(Ipv4Address neighbour)
{
    if (!IsNear(neighbour.Get()))
    {
        m_near.push_back(neighbour.Get());
        std::sort(m_near.begin(), m_near.end());
    }
}

void
Router::LinkDown(Ipv4Address neighbour)
{
    m_near.erase(std::remove(m_near.begin(), m_near.end(), neighbour.Get()), m_near.end());
}

void
Router::ListenTo(Ptr<WifiNetDevice> device)
{
    m_feedback = Create<Feedback>(device, m_port, MakeCallback(&Router::Over, this));
}

void
Router::Over(uint64_t uid, Ipv4Address neighbour, bool is_unreached)
{
    const auto flight = m_flights.find({uid, neighbour.Get()});
    if (is_unreached)
    {
        LinkDown(neighbour);
        if (flight != m_flights.end())
        {
            Simulator::ScheduleNow(&Router::FailAgain, this, flight->second);
        }
    }
    if (flight != m_flights.end())
    {
        m_flights.erase(flight);
    }
}

// The router does again what has failed, and finds that the next hop isn't near: a datum of this node waits for
// another route, and of one from a neighbour those who used the route are told.
void
Router::FailAgain(const Flight& flight)
{
    if (!m_socket)
    {
        return;
    }
    if (flight.from != 0)
    {
        m_router->hear(flight.from, flight.packet);
        Turn(flight.from, flight.packet);
    }
    else
    {
        const auto body = reinterpret_cast<const char*>(flight.packet.data()) + DATUM_AT;
        m_router->give(NumberAt(flight.packet, DEST_AT), {body, flight.packet.size() - DATUM_AT});
        Turn(0, {});
    }
    Act();
}

// ---- requests that have found nothing

// A request or a reply has come for which nothing was cast this time. Copies that come soon are those of other
// neighbours; a later one is a repeat, and what was cast for the first may have been lost as well.
void
Router::Again(const Bytes& heard)
{
    const auto answer = m_answers.Again(heard, m_repeatAfter / 2);
    if (answer && (answer->to == 0 || IsNear(answer->to)))
    {
        m_repeatedTrace(answer->packet);
        Transmit(answer->packet, answer->to);
    }
}

void
Router::Ask(Addr dest)
{
    const ::aodv::Outcome out = m_router->ask(dest);
    Report(out);
    Cast(out, 0);
    if (m_repeats == 0)
    {
        return;
    }
    Asked& asked = m_asked[dest];
    asked.next.Cancel();
    asked.packet = PacketOf(out.packet());
    asked.repeats = 0;
    asked.next = Simulator::Schedule(m_repeatAfter, &Router::Repeat, this, dest);
}

void
Router::Repeat(Addr dest)
{
    Asked& asked = m_asked.at(dest);
    const auto route = m_router->entry(dest);
    if (m_router->waiting(dest) == 0 || (route && route->valid))
    {
        m_asked.erase(dest);
        return;
    }
    if (asked.repeats == m_repeats)
    {
        return;
    }
    m_repeatedTrace(asked.packet);
    Transmit(asked.packet, 0);
    asked.repeats++;
    const int64_t times = int64_t(1) << std::min(asked.repeats, MOST_DOUBLINGS);
    asked.next = Simulator::Schedule(m_repeatAfter * times, &Router::Repeat, this, dest);
}

} // namespace libaodv
} // namespace ns3
