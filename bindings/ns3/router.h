// A proved AODV router as an application of ns-3, one on each node of the mesh: it carries data of 1 to 512 bytes
// over UDP. docs/EMBEDDING.md says what is proved of it, and what the program owes.
#ifndef LIBAODV_ROUTER_H
#define LIBAODV_ROUTER_H

#include "answers.h"
#include "aodv.hpp"
#include "feedback.h"

#include "ns3/application.h"
#include "ns3/event-id.h"
#include "ns3/ipv4-address.h"
#include "ns3/nstime.h"
#include "ns3/packet.h"
#include "ns3/random-variable-stream.h"
#include "ns3/socket.h"
#include "ns3/traced-callback.h"
#include "ns3/wifi-net-device.h"

#include <map>
#include <optional>
#include <vector>

namespace ns3
{
namespace libaodv
{

// It acts where something is heard or given, where a frame has failed, and where a request is to be repeated, and has
// no other timer: by default there is none at all. Want of memory, and a counter at its greatest value, end the
// simulation by the exception aodv::Refused.
class Router : public Application
{
  public:
    static TypeId GetTypeId();

    // The addresses of the whole mesh, at most 200, the node's own among them: the same for each node of it.
    // To be called before the application starts.
    void SetMesh(const std::vector<Ipv4Address>& mesh);

    // Gives the router a datum of 1 to 512 bytes for a node of the mesh. It answers false where the datum is
    // refused: before the start, or for its length or its destination.
    bool Send(Ipv4Address dest, Ptr<const Packet> datum);

    // From now on a unicast to this neighbour would arrive, or would not. With the attribute NearByHearing a
    // neighbour is near, too, from the moment in which something is heard of it.
    void LinkUp(Ipv4Address neighbour);
    void LinkDown(Ipv4Address neighbour);

    // Takes the feedback of a device of this node: where its MAC, or ARP, gives up on a unicast, the neighbour
    // is no longer near, and the router finds the link broken.
    void ListenTo(Ptr<WifiNetDevice> device);

    // The entry of the routing table, and how many data wait for a route.
    std::optional<aodv_row> GetRoute(Ipv4Address dest);
    std::size_t GetWaiting(Ipv4Address dest);

    // Fixes the stream of the random delays; returns how many streams are used.
    int64_t AssignStreams(int64_t stream);

    typedef void (*PacketCallback)(Ptr<const Packet> packet);
    typedef void (*CastCallback)(Ptr<const Packet> packet, Ipv4Address to);
    typedef void (*NeighbourCallback)(Ipv4Address neighbour);
    typedef void (*ActedCallback)();

  protected:
    void DoDispose() override;

  private:
    using Addr = ::aodv::Addr;
    using Bytes = ::aodv::Bytes;

    // A data packet on its way to a neighbour, and the neighbour that it came from: 0 where it began here.
    struct Flight
    {
        Addr from;
        Bytes packet;
    };

    // A request of this node, and how often it was repeated.
    struct Asked
    {
        Ptr<Packet> packet;
        uint32_t repeats;
        EventId next;
    };

    void StartApplication() override;
    void StopApplication() override;

    void Receive(Ptr<Socket> socket);
    void Hear(Addr from, const Bytes& packet);
    bool Turn(Addr from, const Bytes& heard);
    void Act();
    void Report(const ::aodv::Outcome& out);
    void Cast(const ::aodv::Outcome& out, Addr from);
    void Transmit(Ptr<Packet> packet, Addr to);
    void Broadcast(Ptr<Packet> packet);

    bool IsPeer(Addr node) const;
    bool IsNear(Addr node) const;
    void Over(uint64_t uid, Ipv4Address neighbour, bool is_unreached);
    void FailAgain(const Flight& flight);

    void Again(const Bytes& heard);
    void Ask(Addr dest);
    void Repeat(Addr dest);

    std::vector<Addr> m_mesh;
    Addr m_me{0};
    std::optional<::aodv::Router> m_router;
    std::vector<Addr> m_near;
    Ptr<Socket> m_socket;
    Ptr<Feedback> m_feedback;
    std::map<std::pair<uint64_t, Addr>, Flight> m_flights;
    Answers m_answers;
    std::map<Addr, Asked> m_asked;

    uint16_t m_port;
    uint32_t m_variant;
    uint32_t m_first;
    bool m_nearByHearing;
    Ptr<RandomVariableStream> m_jitter;
    uint32_t m_repeats;
    Time m_repeatAfter;

    TracedCallback<Ptr<const Packet>, Ipv4Address> m_castTrace;
    TracedCallback<Ptr<const Packet>> m_deliveredTrace;
    TracedCallback<Ptr<const Packet>> m_lostTrace;
    TracedCallback<Ptr<const Packet>, Ipv4Address> m_refusedTrace;
    TracedCallback<Ptr<const Packet>> m_repeatedTrace;
    TracedCallback<Ipv4Address> m_brokenTrace;
    TracedCallback<> m_actedTrace;
};

} // namespace libaodv
} // namespace ns3
#endif
