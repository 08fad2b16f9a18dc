// A job, done by the proved router or by ns-3's own AODV, over a graph or over 802.11b: what was delivered, what was
// sent for it, and whether the tables of all nodes had a cycle at some instant. `table` makes a table of such runs.
#include "../graph-channel.h"
#include "../router.h"
#include "cycles.h"
#include "job.h"
#include "kinds.h"
#include "own-tables.h"

#include "ns3/aodv-module.h"
#include "ns3/core-module.h"
#include "ns3/internet-module.h"
#include "ns3/mobility-module.h"
#include "ns3/network-module.h"
#include "ns3/wifi-module.h"

#include <cstring>
#include <ctime>
#include <iostream>
#include <memory>
#include <set>

using namespace ns3;

namespace
{

constexpr uint32_t DATUM_LENGTH = 64;
constexpr double IN_RANGE = 60; // dB
constexpr double OUT_OF_RANGE = 400;
constexpr double LOSS = 0.2; // of frames, where the net is lossy

struct Options
{
    std::string job;
    std::string net{"graph"};
    std::string router{"proved"};
    uint32_t repeats{0};
    Time after{Seconds(1)};
    uint32_t run{1};
    bool look{true};
    Time begin{Seconds(1)};
    Time gap{MilliSeconds(50)};
    Time tail{Seconds(20)};
};

class Bench
{
  public:
    explicit Bench(const Options& options);
    void Run();
    void Print() const;

  private:
    void MakeGraph();
    void MakeWifi();
    void MakeLossy();
    void MakeOwn();
    void MakeProved();
    void Count(NodeContainer nodes);
    void Plan();
    void Watch();

    void SetLink(JobLine line);
    void Give(JobLine line, uint32_t number);
    void Delivered(std::size_t node, Ptr<const Packet> datum);
    void DeliveredTo(std::size_t node, Ptr<Socket> socket);
    bool IsJoined(std::size_t a, std::size_t b) const;
    std::size_t Waiting() const;
    bool ReadRow(std::size_t node, Cycles::Row& row);
    int ReadNext(std::size_t node, std::size_t dest) const;
    int IndexOf(Ipv4Address node) const;

    Options m_options;
    Job m_job;
    bool m_isOwn;
    NodeContainer m_nodes;
    NetDeviceContainer m_devices;
    Ptr<libaodv::GraphChannel> m_graph;
    Ptr<MatrixPropagationLossModel> m_loss;
    std::vector<Ipv4Address> m_mesh;
    std::vector<Ptr<libaodv::Router>> m_routers;
    std::vector<bool> m_acted;
    std::vector<Ptr<ns3::aodv::RoutingProtocol>> m_own;
    std::vector<Ptr<Socket>> m_sockets;
    std::vector<std::set<std::size_t>> m_links;
    std::vector<std::size_t> m_dests;
    std::set<uint32_t> m_delivered;
    uint32_t m_joined{0};
    uint64_t m_packets[KINDS]{};
    uint64_t m_repeated{0};
    uint64_t m_lost{0};
    double m_seconds{0};
    std::unique_ptr<Cycles> m_cycles;
};

Bench::Bench(const Options& options)
    : m_options(options),
      m_job(ReadJob(options.job)),
      m_isOwn(options.router == "own"),
      m_links(m_job.nodes)
{
    RngSeedManager::SetRun(options.run);
    if (options.look)
    {
        Watch();
    }
    m_nodes.Create(m_job.nodes);
    options.net == "graph" ? MakeGraph() : MakeWifi();
    InternetStackHelper internet;
    internet.SetIpv6StackInstall(false);
    if (m_isOwn)
    {
        internet.SetRoutingHelper(AodvHelper());
    }
    internet.Install(m_nodes);
    auto interfaces = Ipv4AddressHelper("10.0.0.0", "255.255.255.0").Assign(m_devices);
    for (std::size_t i = 0; i < m_job.nodes; i++)
    {
        m_mesh.push_back(interfaces.GetAddress(i));
    }
    m_isOwn ? MakeOwn() : MakeProved();
    Count(m_nodes);
    Plan();
}

void
Bench::MakeGraph()
{
    m_graph = CreateObject<libaodv::GraphChannel>();
    for (std::size_t i = 0; i < m_job.nodes; i++)
    {
        Ptr<SimpleNetDevice> device = CreateObject<SimpleNetDevice>();
        device->SetAddress(Mac48Address::Allocate());
        device->SetChannel(m_graph);
        m_nodes.Get(i)->AddDevice(device);
        m_devices.Add(device);
    }
}

// 802.11b, ad hoc: two nodes hear each other well, or not at all.
void
Bench::MakeWifi()
{
    MobilityHelper mobility;
    mobility.SetMobilityModel("ns3::ConstantPositionMobilityModel");
    mobility.Install(m_nodes);
    m_loss = CreateObject<MatrixPropagationLossModel>();
    m_loss->SetDefaultLoss(OUT_OF_RANGE);
    Ptr<YansWifiChannel> channel = CreateObject<YansWifiChannel>();
    channel->SetPropagationLossModel(m_loss);
    channel->SetPropagationDelayModel(CreateObject<ConstantSpeedPropagationDelayModel>());
    YansWifiPhyHelper phy;
    phy.SetChannel(channel);
    WifiHelper wifi;
    wifi.SetStandard(WIFI_STANDARD_80211b);
    const StringValue mode("DsssRate11Mbps");
    wifi.SetRemoteStationManager("ns3::ConstantRateWifiManager",
                                 "DataMode",
                                 mode,
                                 "ControlMode",
                                 mode,
                                 "NonUnicastMode",
                                 mode);
    WifiMacHelper mac;
    mac.SetType("ns3::AdhocWifiMac");
    m_devices = wifi.Install(phy, mac, m_nodes);
    if (m_options.net == "lossy")
    {
        MakeLossy();
    }
}

// Each receiver loses a frame with this probability, whatever frame it is. The MAC sends a unicast again, and no
// broadcast.
void
Bench::MakeLossy()
{
    for (auto it = m_devices.Begin(); it != m_devices.End(); it++)
    {
        auto loss = CreateObjectWithAttributes<RateErrorModel>("ErrorUnit",
                                                               EnumValue(RateErrorModel::ERROR_UNIT_PACKET),
                                                               "ErrorRate",
                                                               DoubleValue(LOSS));
        DynamicCast<WifiNetDevice>(*it)->GetPhy()->SetPostReceptionErrorModel(loss);
    }
}

// ns-3's own AODV, with its default parameters, carries UDP.
void
Bench::MakeOwn()
{
    for (std::size_t i = 0; i < m_job.nodes; i++)
    {
        auto socket = Socket::CreateSocket(m_nodes.Get(i), UdpSocketFactory::GetTypeId());
        socket->Bind(InetSocketAddress(Ipv4Address::GetAny(), DATA_PORT));
        socket->SetRecvCallback([this, i](Ptr<Socket> it) { DeliveredTo(i, it); });
        m_sockets.push_back(socket);
        auto routing = m_nodes.Get(i)->GetObject<Ipv4>()->GetRoutingProtocol();
        m_own.push_back(DynamicCast<ns3::aodv::RoutingProtocol>(routing));
    }
}

void
Bench::MakeProved()
{
    m_acted.resize(m_job.nodes);
    for (std::size_t i = 0; i < m_job.nodes; i++)
    {
        Ptr<libaodv::Router> router = CreateObject<libaodv::Router>();
        router->SetMesh(m_mesh);
        router->SetAttribute("Repeats", UintegerValue(m_options.repeats));
        router->SetAttribute("RepeatAfter", TimeValue(m_options.after));
        router->SetAttribute("NearByHearing", BooleanValue(!m_graph));
        router->TraceConnectWithoutContext("Acted", Callback<void>([this, i] { m_acted[i] = true; }));
        router->TraceConnectWithoutContext(
            "Delivered",
            Callback<void, Ptr<const Packet>>([this, i](Ptr<const Packet> it) { Delivered(i, it); }));
        router->TraceConnectWithoutContext(
            "Repeated",
            Callback<void, Ptr<const Packet>>([this](Ptr<const Packet>) { m_repeated++; }));
        router->TraceConnectWithoutContext(
            "Lost",
            Callback<void, Ptr<const Packet>>([this](Ptr<const Packet>) { m_lost++; }));
        m_nodes.Get(i)->AddApplication(router);
        if (auto device = DynamicCast<WifiNetDevice>(m_devices.Get(i)))
        {
            router->ListenTo(device);
        }
        m_routers.push_back(router);
    }
}

// Each IPv4 packet that a node hands to its device is counted, each hop of a datum too.
void
Bench::Count(NodeContainer nodes)
{
    Callback<void, Ptr<const Packet>, Ptr<Ipv4>, uint32_t> count(
        [this](Ptr<const Packet> packet, Ptr<Ipv4>, uint32_t interface) {
            if (interface != 0) // the loopback
            {
                m_packets[KindOf(packet)]++;
            }
        });
    for (auto it = nodes.Begin(); it != nodes.End(); it++)
    {
        (*it)->GetObject<Ipv4L3Protocol>()->TraceConnectWithoutContext("Tx", count);
    }
}

void
Bench::Plan()
{
    for (const JobLine& line : m_job.start)
    {
        SetLink(line);
    }
    Time at = m_options.begin;
    for (const JobLine& line : m_job.rest)
    {
        const uint32_t node = m_nodes.Get(line.a)->GetId();
        if (line.word == "data")
        {
            Simulator::ScheduleWithContext(node, at, &Bench::Give, this, line, m_dests.size());
            m_dests.push_back(line.b);
        }
        else
        {
            Simulator::ScheduleWithContext(node, at, &Bench::SetLink, this, line);
        }
        at += m_options.gap;
    }
    Simulator::Stop(at + m_options.tail);
}

void
Bench::Watch()
{
    m_cycles = std::make_unique<Cycles>(
        m_job.nodes,
        [this](std::size_t node, Cycles::Row& row) { return ReadRow(node, row); },
        [this](std::size_t node, std::size_t dest) { return ReadNext(node, dest); });
    Ptr<WatchedSimulator> simulator = CreateObject<WatchedSimulator>();
    simulator->after = [this](std::size_t node) { m_cycles->Look(node); };
    Simulator::SetImplementation(simulator);
}

// The addresses follow one another.
int
Bench::IndexOf(Ipv4Address node) const
{
    const uint32_t index = node.Get() - m_mesh[0].Get();
    return index < m_job.nodes ? int(index) : Cycles::NONE;
}

bool
IsUsed(const ns3::aodv::RoutingTableEntry& entry)
{
    return entry.GetFlag() == ns3::aodv::VALID && !entry.GetLifeTime().IsNegative();
}

bool
Bench::ReadRow(std::size_t node, Cycles::Row& row)
{
    if (m_isOwn)
    {
        row.assign(m_job.nodes, Cycles::NONE);
        for (const auto& [dest, entry] : EntriesOf(*m_own[node]))
        {
            const int index = IndexOf(dest);
            if (index != Cycles::NONE && IsUsed(entry))
            {
                row[index] = IndexOf(entry.GetNextHop());
            }
        }
        return true;
    }
    const bool has_acted = m_acted[node];
    m_acted[node] = false;
    for (std::size_t dest = 0; has_acted && dest < m_job.nodes; dest++)
    {
        row[dest] = ReadNext(node, dest);
    }
    return has_acted;
}

int
Bench::ReadNext(std::size_t node, std::size_t dest) const
{
    const Ipv4Address to = m_mesh[dest];
    if (m_isOwn)
    {
        const auto& entries = EntriesOf(*m_own[node]);
        const auto it = entries.find(to);
        return it != entries.end() && IsUsed(it->second) ? IndexOf(it->second.GetNextHop())
                                                         : Cycles::NONE;
    }
    const auto route = m_routers[node]->GetRoute(to);
    return route && route->valid ? IndexOf(Ipv4Address(route->next)) : Cycles::NONE;
}

void
Bench::SetLink(JobLine line)
{
    const bool is_up = line.word == "link";
    for (const auto& [from, to] : {std::pair(line.a, line.b), std::pair(line.b, line.a)})
    {
        is_up ? void(m_links[from].insert(to)) : void(m_links[from].erase(to));
        if (m_graph && !m_isOwn)
        {
            const Ipv4Address neighbour = m_mesh[to];
            is_up ? m_routers[from]->LinkUp(neighbour) : m_routers[from]->LinkDown(neighbour);
        }
    }
    if (m_graph)
    {
        m_graph->SetLink(line.a, line.b, is_up);
        return;
    }
    m_loss->SetLoss(m_nodes.Get(line.a)->GetObject<MobilityModel>(),
                    m_nodes.Get(line.b)->GetObject<MobilityModel>(),
                    is_up ? IN_RANGE : OUT_OF_RANGE);
}

// A datum holds its number, by which a second copy is known.
void
Bench::Give(JobLine line, uint32_t number)
{
    uint8_t body[DATUM_LENGTH]{};
    std::memcpy(body, &number, sizeof number);
    Ptr<Packet> datum = Create<Packet>(body, sizeof body);
    const Ipv4Address dest = m_mesh[line.b];
    m_joined += IsJoined(line.a, line.b);
    if (m_isOwn)
    {
        m_sockets[line.a]->SendTo(datum, 0, InetSocketAddress(dest, DATA_PORT));
    }
    else
    {
        m_routers[line.a]->Send(dest, datum);
    }
}

void
Bench::Delivered(std::size_t node, Ptr<const Packet> datum)
{
    uint32_t number = 0;
    datum->CopyData(reinterpret_cast<uint8_t*>(&number), sizeof number);
    NS_ABORT_UNLESS(datum->GetSize() == DATUM_LENGTH && m_dests.at(number) == node);
    m_delivered.insert(number);
}

void
Bench::DeliveredTo(std::size_t node, Ptr<Socket> socket)
{
    Address from;
    while (Ptr<Packet> datum = socket->RecvFrom(from))
    {
        Delivered(node, datum);
    }
}

// Whether links lead from one node to the other now.
bool
Bench::IsJoined(std::size_t a, std::size_t b) const
{
    std::set<std::size_t> seen{a};
    std::vector<std::size_t> next{a};
    while (!next.empty())
    {
        const std::size_t at = next.back();
        next.pop_back();
        for (std::size_t to : m_links[at])
        {
            if (seen.insert(to).second)
            {
                next.push_back(to);
            }
        }
    }
    return seen.count(b) > 0;
}

// How many data wait for a route in all proved routers.
std::size_t
Bench::Waiting() const
{
    std::size_t count = 0;
    for (const auto& router : m_routers)
    {
        for (Ipv4Address dest : m_mesh)
        {
            count += router->GetWaiting(dest);
        }
    }
    return count;
}

void
Bench::Run()
{
    const std::clock_t began = std::clock();
    Simulator::Run();
    m_seconds = double(std::clock() - began) / CLOCKS_PER_SEC;
}

void
Bench::Print() const
{
    const char* const names[] = {"requests", "replies", "errors", "hellos", "data", "others"};
    uint64_t packets = 0;
    std::cout << "offered " << m_dests.size() << " joined " << m_joined << " delivered "
              << m_delivered.size();
    for (std::size_t kind = 0; kind < KINDS; kind++)
    {
        std::cout << " " << names[kind] << " " << m_packets[kind];
        packets += m_packets[kind];
    }
    std::cout << " packets " << packets << " repeated " << m_repeated << " lost " << m_lost
              << " waiting " << Waiting() << " events "
              << Simulator::GetEventCount() << " seconds " << m_seconds;
    if (m_cycles)
    {
        std::cout << " looks " << m_cycles->looks << " with_cycle " << m_cycles->with_cycle
                  << " cycles " << m_cycles->cycles;
    }
    std::cout << std::endl;
}

} // namespace

int
main(int argc, char** argv)
{
    Options options;
    CommandLine words(__FILE__);
    words.AddValue("job", "the file of the job", options.job);
    words.AddValue("net", "graph, wifi, or lossy: wifi that loses frames", options.net);
    words.AddValue("router", "proved, or own for ns-3's own AODV", options.router);
    words.AddValue("repeats", "how often a request that finds nothing is repeated", options.repeats);
    words.AddValue("after", "the time to the first repeat", options.after);
    words.AddValue("run", "which run of the random numbers", options.run);
    words.AddValue("look", "whether cycles are looked for", options.look);
    words.AddValue("gap", "the time between two lines of the job", options.gap);
    words.AddValue("tail", "the time after the last line", options.tail);
    words.Parse(argc, argv);
    Bench bench(options);
    bench.Run();
    bench.Print();
    Simulator::Destroy();
    return 0;
}
