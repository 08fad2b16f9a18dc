// examples/late-reply.mesh, played by the AODV model of the simulator ns-3: the same six nodes, links, data
// and losses, and the reply that is held up in the air. It prints by which node 10.0.0.2 and 10.0.0.3 go to
// 10.0.0.6, before that reply comes and after it. checks/simulator builds and runs it.
#include "ns3/aodv-module.h"
#include "ns3/core-module.h"
#include "ns3/internet-module.h"
#include "ns3/network-module.h"

#include <iostream>
#include <set>
#include <sstream>
#include <vector>

using namespace ns3;

namespace
{

// Types of AODV's packets; 0 stands for all other packets.
constexpr uint8_t REQUEST = 1;
constexpr uint8_t REPLY = 2;

// Links that come and go, requests that are lost, and replies that are held up. Nodes count from 1, as the
// last number of their addresses.
class Air : public SimpleChannel
{
  public:
    void Add(Ptr<SimpleNetDevice> device) override
    {
        SimpleChannel::Add(device);
        m_devices.push_back(device);
    }

    void Send(Ptr<Packet> packet,
              uint16_t protocol,
              Mac48Address to,
              Mac48Address from,
              Ptr<SimpleNetDevice> sender) override
    {
        const int x = NodeOf(sender);
        const uint8_t type = TypeOf(packet, protocol);
        for (const auto& device : m_devices)
        {
            const int y = NodeOf(device);
            if (!links.count(std::minmax(x, y)) || (type == REQUEST && lost.count({x, y})))
            {
                continue;
            }
            const Time delay = type == REPLY ? MilliSeconds(500) : MicroSeconds(10);
            Simulator::ScheduleWithContext(device->GetNode()->GetId(),
                                           delay,
                                           &SimpleNetDevice::Receive,
                                           device,
                                           packet->Copy(),
                                           protocol,
                                           to,
                                           from);
        }
    }

    std::set<std::pair<int, int>> links; // the lesser node first
    std::set<std::pair<int, int>> lost;  // requests of the first do not come to the second

  private:
    static int NodeOf(Ptr<SimpleNetDevice> device)
    {
        return device->GetNode()->GetId() + 1;
    }

    static uint8_t TypeOf(Ptr<const Packet> packet, uint16_t protocol)
    {
        Ptr<Packet> rest = packet->Copy();
        Ipv4Header ip;
        UdpHeader udp;
        uint8_t type = 0;
        if (protocol != Ipv4L3Protocol::PROT_NUMBER || !rest->RemoveHeader(ip) ||
            ip.GetProtocol() != UdpL4Protocol::PROT_NUMBER || !rest->RemoveHeader(udp) ||
            udp.GetDestinationPort() != aodv::RoutingProtocol::AODV_PORT)
        {
            return 0;
        }
        rest->CopyData(&type, 1);
        return type;
    }

    std::vector<Ptr<SimpleNetDevice>> m_devices;
};

std::string
NameOf(int node)
{
    return "10.0.0." + std::to_string(node);
}

// A datum of one node for another.
void
Give(NodeContainer nodes, int from, int to)
{
    Ptr<Socket> socket = Socket::CreateSocket(nodes.Get(from - 1), UdpSocketFactory::GetTypeId());
    socket->SendTo(Create<Packet>(5), 0, InetSocketAddress(Ipv4Address(NameOf(to).c_str()), 9));
}

// Prints the next hop of a node's valid route to 10.0.0.6.
void
Show(NodeContainer nodes, int node)
{
    std::stringstream table;
    Ptr<Ipv4RoutingProtocol> routes = nodes.Get(node - 1)->GetObject<Ipv4>()->GetRoutingProtocol();
    routes->PrintRoutingTable(Create<OutputStreamWrapper>(&table));
    for (std::string line; std::getline(table, line);)
    {
        std::istringstream words(line);
        std::string dest, next, own, flag;
        if (words >> dest >> next >> own >> flag && dest == NameOf(6) && flag == "UP")
        {
            std::cout << "  " << NameOf(node) << " goes to " << dest << " by " << next << "\n";
        }
    }
}

} // namespace

int
main()
{
    NodeContainer nodes(6);
    Ptr<Air> air = CreateObject<Air>();
    NetDeviceContainer devices;
    for (uint32_t i = 0; i < nodes.GetN(); i++)
    {
        Ptr<SimpleNetDevice> device = CreateObject<SimpleNetDevice>();
        device->SetAddress(Mac48Address::Allocate());
        device->SetChannel(air);
        nodes.Get(i)->AddDevice(device);
        devices.Add(device);
    }
    // Nothing is sent but what the schedule asks for: no hellos, no second reply to the destination, and no
    // request that goes a part of the way first.
    AodvHelper aodv;
    aodv.Set("EnableHello", BooleanValue(false));
    aodv.Set("GratuitousReply", BooleanValue(false));
    aodv.Set("TtlStart", UintegerValue(10));
    InternetStackHelper internet;
    internet.SetRoutingHelper(aodv);
    internet.Install(nodes);
    Ipv4AddressHelper("10.0.0.0", "255.255.255.0").Assign(devices);

    // 10.0.0.6 asks for 10.0.0.1; the nodes up to 10.0.0.3 learn routes back to it.
    air->links = {{1, 2}, {2, 3}, {3, 4}, {4, 5}, {5, 6}};
    air->lost = {{5, 6}, {4, 5}, {3, 2}, {3, 4}};
    Simulator::Schedule(Seconds(1.0), &Give, nodes, 6, 1);
    // 10.0.0.2 asks for 10.0.0.6, and 10.0.0.3 answers from its table. The reply is held up.
    Simulator::Schedule(Seconds(1.2), [air] { air->lost = {{2, 1}}; });
    Simulator::Schedule(Seconds(1.2), &Give, nodes, 2, 6);
    // 10.0.0.6 comes into range of 10.0.0.2 and asks again. 10.0.0.3 now goes by 10.0.0.2.
    Simulator::Schedule(Seconds(1.4), [air] {
        air->links.insert({2, 6});
        air->lost = {{6, 5}, {2, 1}, {2, 6}, {3, 2}, {3, 4}};
    });
    Simulator::Schedule(Seconds(1.4), &Give, nodes, 6, 4);
    // The reply comes 500 milliseconds after it was sent.
    for (const auto& [at, when] : {std::pair(1.6, "before"), std::pair(1.8, "after")})
    {
        Simulator::Schedule(Seconds(at), [when = when] { std::cout << when << " the reply\n"; });
        Simulator::Schedule(Seconds(at), &Show, nodes, 2);
        Simulator::Schedule(Seconds(at), &Show, nodes, 3);
    }
    Simulator::Stop(Seconds(1.9));
    Simulator::Run();
    Simulator::Destroy();
    return 0;
}
