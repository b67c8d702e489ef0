// Sends a train through a queue of ns-3.37 that is served at a rate. tools/beside/ns3 compiles and calls it.
//   codel BW TARGET_US INTERVAL_US SIZE COUNT GAP_NS   CoDelQueueDisc before a server of our own, which rounds up
//                                                      once in a busy period, as a pipe does
//   device BW SIZE COUNT GAP_NS                        PointToPointNetDevice, whose server is ns-3's own
// It prints 'finish NS PACKET' and 'drop NS PACKET CAUSE'.
#include "ns3/core-module.h"
#include "ns3/network-module.h"
#include "ns3/point-to-point-module.h"
#include "ns3/traffic-control-module.h"

#include <cstdio>
#include <map>
#include <string>

using namespace ns3;

namespace
{
std::map<uint64_t, uint64_t> numbers;

// An item of a queue disc: a packet without headers, which can't be marked.
class Held : public QueueDiscItem
{
  public:
    explicit Held(Ptr<Packet> packet)
        : QueueDiscItem(packet, Address(), 0)
    {
    }

    void AddHeader() override
    {
    }

    bool Mark() override
    {
        return false;
    }
};

long long
Moment()
{
    return Simulator::Now().GetNanoSeconds();
}

void
Finished(Ptr<const Packet> packet)
{
    std::printf("finish %lld %llu\n", Moment(), (unsigned long long)numbers[packet->GetUid()]);
}

void
Dropped(Ptr<const QueueDiscItem> item, const char* why)
{
    const bool isCodel = std::string(why).rfind("Target", 0) == 0;
    std::printf("drop %lld %llu %s\n",
                Moment(),
                (unsigned long long)numbers[item->GetPacket()->GetUid()],
                isCodel ? "codel" : "full");
}

// Serves one queue disc: the k-th finish of a busy period is ceil(8 * 10^9 * sizes / rate) ns after the period's start.
struct Server
{
    Ptr<QueueDisc> queue;
    uint64_t rate = 0;
    bool isBusy = false;
    int64_t begin = 0;
    uint64_t bytes = 0;

    void Serve(bool isFresh)
    {
        Ptr<QueueDiscItem> item = queue->Dequeue();
        isBusy = item != nullptr;
        if (!isBusy)
        {
            return;
        }
        if (isFresh)
        {
            begin = Moment();
            bytes = 0;
        }
        bytes += item->GetSize();
        const unsigned __int128 bits = (unsigned __int128)8000000000ULL * bytes;
        const int64_t finish = begin + (int64_t)((bits + rate - 1) / rate);
        Simulator::Schedule(NanoSeconds(finish - Moment()), &Server::Finish, this, item);
    }

    void Finish(Ptr<QueueDiscItem> item)
    {
        Finished(item->GetPacket());
        Serve(false);
    }

    void Arrive(Ptr<Packet> packet)
    {
        queue->Enqueue(Create<Held>(packet));
        if (!isBusy)
        {
            Serve(true);
        }
    }

    // A finish at the same time comes first.
    void Come(Ptr<Packet> packet)
    {
        Simulator::ScheduleNow(&Server::Arrive, this, packet);
    }
};

Server server;
Ptr<NetDevice> device;
Address peer;

void
Send(Ptr<Packet> packet)
{
    device->Send(packet, peer, 0x0800);
}

void
RunCodel(char** words)
{
    auto codel = CreateObject<CoDelQueueDisc>();
    codel->SetAttribute("Target", StringValue(std::string(words[3]) + "us"));
    codel->SetAttribute("Interval", StringValue(std::string(words[4]) + "us"));
    codel->SetAttribute("MinBytes", UintegerValue(1500));
    codel->SetAttribute("MaxSize", StringValue("1000p"));
    codel->Initialize();
    codel->TraceConnectWithoutContext("DropBeforeEnqueue", MakeCallback(&Dropped));
    codel->TraceConnectWithoutContext("DropAfterDequeue", MakeCallback(&Dropped));
    server.queue = codel;
    server.rate = std::stoull(words[2]);
}

void
RunDevice(char** words)
{
    NodeContainer nodes;
    nodes.Create(2);
    PointToPointHelper helper;
    helper.SetDeviceAttribute("DataRate", StringValue(std::string(words[2]) + "bps"));
    helper.SetQueue("ns3::DropTailQueue", "MaxSize", StringValue("1000p"));
    NetDeviceContainer devices = helper.Install(nodes);
    device = devices.Get(0);
    peer = devices.Get(1)->GetAddress();
    device->TraceConnectWithoutContext("PhyTxEnd", MakeCallback(&Finished));
}
} // namespace

int
main(int count, char** words)
{
    const bool isCodel = count == 8 && std::string(words[1]) == "codel";
    if (!isCodel && !(count == 6 && std::string(words[1]) == "device"))
    {
        return 2;
    }
    isCodel ? RunCodel(words) : RunDevice(words);
    char** train = words + (isCodel ? 5 : 3);
    // A device adds two bytes of its own header.
    const uint32_t size = std::stoul(train[0]) - (isCodel ? 0 : 2);
    const uint64_t packets = std::stoull(train[1]);
    const int64_t gap = std::stoll(train[2]);
    for (uint64_t number = 0; number < packets; number++)
    {
        Ptr<Packet> packet = Create<Packet>(size);
        numbers[packet->GetUid()] = number;
        if (isCodel)
        {
            Simulator::Schedule(NanoSeconds(gap * number), &Server::Come, &server, packet);
        }
        else
        {
            Simulator::Schedule(NanoSeconds(gap * number), &Send, packet);
        }
    }
    Simulator::Run();
    server.queue = nullptr;
    device = nullptr;
    Simulator::Destroy();
    return 0;
}
