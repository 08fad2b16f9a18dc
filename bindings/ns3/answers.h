// What a router has cast for the requests and replies that it heard, to be cast again where these come again.
#ifndef LIBAODV_ANSWERS_H
#define LIBAODV_ANSWERS_H

#include "aodv.hpp"

#include "ns3/nstime.h"
#include "ns3/packet.h"

#include <map>
#include <optional>
#include <tuple>

namespace ns3
{
namespace libaodv
{

// It keeps the answers that were cast last, so many that the requests of a large mesh have room.
class Answers
{
  public:
    // A packet that was cast to one neighbour, or to all, where `to` is 0.
    struct Answer
    {
        Ptr<Packet> packet;
        ::aodv::Addr to;
        Time last;
    };

    // Keeps what was cast now for a request or a reply.
    void Keep(const ::aodv::Bytes& heard, Ptr<Packet> packet, ::aodv::Addr to);
    // What was cast for an earlier copy of what is heard, where that was at least so long ago; from now on it counts
    // as cast now.
    const Answer* Again(const ::aodv::Bytes& heard, Time quiet);

  private:
    // The type of a message, and the numbers by which all copies of it are known.
    using Key = std::tuple<uint8_t, uint32_t, uint32_t, uint32_t>;

    static std::optional<Key> KeyOf(const ::aodv::Bytes& packet);

    std::map<Key, Answer> m_answers;
};

} // namespace libaodv
} // namespace ns3
#endif
