// A datum goes down a line of five nodes over 802.11b, each of which hears only its neighbours.
#include "router.h"

#include "ns3/core-module.h"
#include "ns3/internet-module.h"
#include "ns3/mobility-module.h"
#include "ns3/network-module.h"
#include "ns3/wifi-module.h"

#include <iostream>

using namespace ns3;

namespace
{

// Nodes stand 50 m apart, and hear one another up to 60 m.
NetDeviceContainer
MakeDevices(NodeContainer nodes)
{
    MobilityHelper mobility;
    mobility.SetPositionAllocator("ns3::GridPositionAllocator", "DeltaX", DoubleValue(50));
    mobility.SetMobilityModel("ns3::ConstantPositionMobilityModel");
    mobility.Install(nodes);
    YansWifiChannelHelper channel;
    channel.SetPropagationDelay("ns3::ConstantSpeedPropagationDelayModel");
    channel.AddPropagationLoss("ns3::RangePropagationLossModel", "MaxRange", DoubleValue(60));
    YansWifiPhyHelper phy;
    phy.SetChannel(channel.Create());
    WifiMacHelper mac;
    mac.SetType("ns3::AdhocWifiMac");
    WifiHelper wifi;
    wifi.SetStandard(WIFI_STANDARD_80211b);
    return wifi.Install(phy, mac, nodes);
}

void
Delivered(Ipv4Address node, Ptr<const Packet> datum)
{
    std::string body(datum->GetSize(), ' ');
    datum->CopyData(reinterpret_cast<uint8_t*>(body.data()), body.size());
    std::cout << node << " has \"" << body << "\"\n";
}

void
Give(Ptr<libaodv::Router> router, Ipv4Address dest, const std::string& body)
{
    router->Send(dest, Create<Packet>(reinterpret_cast<const uint8_t*>(body.data()), body.size()));
}

} // namespace

int
main(int argc, char** argv)
{
    CommandLine(__FILE__).Parse(argc, argv);
    NodeContainer nodes(5);
    NetDeviceContainer devices = MakeDevices(nodes);
    InternetStackHelper internet;
    internet.Install(nodes);
    auto interfaces = Ipv4AddressHelper("10.0.0.0", "255.255.255.0").Assign(devices);

    std::vector<Ipv4Address> mesh;
    for (uint32_t i = 0; i < nodes.GetN(); i++)
    {
        mesh.push_back(interfaces.GetAddress(i));
    }
    std::vector<Ptr<libaodv::Router>> routers;
    for (uint32_t i = 0; i < nodes.GetN(); i++)
    {
        auto router = CreateObjectWithAttributes<libaodv::Router>("Repeats", UintegerValue(3));
        router->SetMesh(mesh);
        router->TraceConnectWithoutContext("Delivered", MakeCallback(&Delivered).Bind(mesh[i]));
        nodes.Get(i)->AddApplication(router);
        router->ListenTo(DynamicCast<WifiNetDevice>(devices.Get(i)));
        routers.push_back(router);
    }
    Simulator::Schedule(Seconds(1), &Give, routers.front(), mesh.back(), "hello");
    Simulator::Stop(Seconds(20));
    Simulator::Run();
    Simulator::Destroy();
    return 0;
}
