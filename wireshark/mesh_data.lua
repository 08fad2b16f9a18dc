-- Data packets of mesh, as `mesh capture` has them, for Wireshark and tshark: UDP port 49654, laid out as docs/FORMATS.md
-- says. Copy this file to a folder of Lua plugins (Help, About Wireshark, Folders), or name it in a call:
--
--     tshark -X lua_script:wireshark/mesh_data.lua -r run.pcap -Y meshdata -T fields -e meshdata.originator -e meshdata.text
--
-- Its fields are meshdata.destination, .originator, .body and .text; what isn't printable is a point in .text.

local DATA, HEADER, MOST, PORT = 16, 12, 512, 49654

local data = Proto("meshdata", "Data of a mesh")
local destination = ProtoField.ipv4("meshdata.destination", "Destination")
local originator = ProtoField.ipv4("meshdata.originator", "Originator")
local reserved = ProtoField.uint24("meshdata.reserved", "Reserved", base.HEX)
local body = ProtoField.bytes("meshdata.body", "Body")
local text = ProtoField.string("meshdata.text", "Text")
data.fields = { destination, originator, reserved, body, text }

-- A packet of another layout is left to others.
function data.dissector(packet, info, tree)
  local length = packet:reported_length_remaining()
  if packet:len() < length or length <= HEADER or length > HEADER + MOST or packet(0, 1):uint() ~= DATA then
    return 0
  end
  local said = packet(HEADER):raw():gsub("[^ -~]", ".")
  local part = tree:add(data, packet(), "Data of a mesh")
  part:add(reserved, packet(1, 3))
  part:add(destination, packet(4, 4))
  part:add(originator, packet(8, 4))
  part:add(body, packet(HEADER))
  part:add(text, packet(HEADER), said)
  info.cols.protocol = "MESH"
  info.cols.info = string.format("Data for %s of %s: %s", packet(4, 4):ipv4(), packet(8, 4):ipv4(), said)
  return length
end

DissectorTable.get("udp.port"):add(PORT, data)
