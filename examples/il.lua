-- IL, the Internet Link protocol of Plan 9 (IP protocol 40), for Wireshark and tshark:
--     tshark -X lua_script:examples/il.lua -r FILE.pcap
-- Shows all fields of the header, checks length and sum, counts ids from the start of their sender, numbers the conversations,
-- and hands the text to the dissector of 9P if its first bytes are those of a 9P message.
local il = Proto("il", "Internet Link")

local HEADER = 18
local DATA, DATAQUERY, QUERY, STATE, CLOSE, SYNC = 1, 2, 4, 5, 6, 0
local TYPES = {
  [SYNC] = "sync", [DATA] = "data", [DATAQUERY] = "dataquery", [3] = "ack", [QUERY] = "query", [STATE] = "state", [CLOSE] = "close",
}
local SUMS = { [0] = "Bad", [1] = "Good", [2] = "Unverified" }
local BAD, GOOD, UNVERIFIED = 0, 1, 2
local NINEP = { port = 564, header = 7, first = 100, last = 127, unused = 106 }

local field = {
  sum = ProtoField.uint16("il.checksum", "Checksum", base.HEX),
  status = ProtoField.uint8("il.checksum.status", "Checksum status", base.DEC, SUMS),
  length = ProtoField.uint16("il.length", "Length", base.DEC, nil, nil, "Bytes of header and text"),
  kind = ProtoField.uint8("il.type", "Type", base.DEC, TYPES),
  spec = ProtoField.uint8("il.spec", "Spec", base.DEC),
  meaning = ProtoField.string("il.spec.meaning", "Meaning of spec"),
  source = ProtoField.uint16("il.srcport", "Source port"),
  target = ProtoField.uint16("il.dstport", "Destination port"),
  port = ProtoField.uint16("il.port", "Source or destination port"),
  id = ProtoField.uint32("il.id", "Id"),
  ack = ProtoField.uint32("il.ack", "Ack"),
  relative_id = ProtoField.uint32("il.id.relative", "Relative id", base.DEC, nil, nil, "Counted from the id of the sender's sync"),
  relative_ack = ProtoField.uint32("il.ack.relative", "Relative ack", base.DEC, nil, nil, "Counted from the id of the receiver's sync"),
  stream = ProtoField.uint32("il.stream", "Conversation"),
  text = ProtoField.bytes("il.text", "Text"),
  text_length = ProtoField.uint32("il.text.length", "Text length"),
}
il.fields = field

local function warning(name, text, group, severity)
  return ProtoExpert.new("il." .. name, text, group, severity)
end
local expert = {
  short = warning("short", "The packet is shorter than the header", expert.group.MALFORMED, expert.severity.ERROR),
  length = warning("length.bad", "The length is not that of the packet", expert.group.MALFORMED, expert.severity.ERROR),
  sum = warning("checksum.bad", "The checksum is wrong", expert.group.CHECKSUM, expert.severity.ERROR),
  kind = warning("type.unknown", "No such type", expert.group.MALFORMED, expert.severity.ERROR),
  text = warning("text.unexpected", "A packet of this type has no text", expert.group.PROTOCOL, expert.severity.WARN),
  refused = warning("refused", "The call is refused", expert.group.SEQUENCE, expert.severity.NOTE),
  resent = warning("resent", "The message is sent again", expert.group.SEQUENCE, expert.severity.NOTE),
}
il.experts = expert

il.prefs.sums = Pref.bool("Check sums", true, "Compare each checksum with that of the bytes")
il.prefs.relative = Pref.bool("Relative ids", true, "Show ids from the start of their sender in the column Info")
il.prefs.ninep = Pref.bool("9P in IL", true, "Show the text as 9P if its first bytes are those of a 9P message")

-- The last conversation between two ends: its number, and the id of each end's sync. Wireshark shows a packet many times, in any
-- order, so `places` has what was found out when it read the packet.
local last, places, count

function il.init()
  last, places, count = {}, {}, 0
end

-- The two ends of a packet, and one name for both directions.
local function ends_of(pinfo, source, target)
  local from, to = tostring(pinfo.net_src) .. "!" .. source, tostring(pinfo.net_dst) .. "!" .. target
  return from, to, from < to and from .. " " .. to or to .. " " .. from
end

-- A sync with another id than the one before begins a new conversation between the same ends.
local function begins_anew(talk, from, kind, id)
  return kind == SYNC and talk.start[from] ~= nil and talk.start[from] ~= id
end

-- How far a number is behind a start, if that is known.
local function relative(number, start)
  return start and (number - start) % 4294967296
end

-- The conversation of a packet, and its relative ids. The first sync of a call has the ack 0, which counts from nothing.
local function place_of(pinfo, packet)
  local from, to, name = ends_of(pinfo, packet.source, packet.target)
  local talk = last[name]
  if not talk or begins_anew(talk, from, packet.kind, packet.id) then
    talk = { number = count, start = {} }
    count, last[name] = count + 1, talk
  end
  if packet.kind == SYNC then talk.start[from] = packet.id end
  local acks = packet.kind ~= SYNC or packet.ack ~= 0
  return {
    stream = talk.number,
    relative_id = relative(packet.id, talk.start[from]),
    relative_ack = acks and relative(packet.ack, talk.start[to]) or nil,
  }
end

-- The ones' complement sum of the 16-bit words of the first bytes, which is 65535 if the sum in them is right.
local function sum_of(buffer, length)
  local total = 0
  for place = 0, length - 2, 2 do total = total + buffer(place, 2):uint() end
  if length % 2 == 1 then total = total + buffer(length - 1, 1):uint() * 256 end
  while total > 65535 do total = total % 65536 + math.floor(total / 65536) end
  return total
end

local function status_of(buffer, length)
  if not il.prefs.sums or length < HEADER or buffer:len() < length then return UNVERIFIED end
  return sum_of(buffer, length) == 65535 and GOOD or BAD
end

local function meaning_of(kind, spec)
  if kind == CLOSE and spec == 1 then return "the call is refused" end
  if kind == QUERY or kind == STATE then return "number of the query" end
  return spec == 0 and "none" or "unknown"
end

-- Whether a text begins as a 9P message does: its size in 4 bytes, the lowest first, and a type.
local function is_ninep(text)
  if text:len() < NINEP.header then return false end
  local kind = text(4, 1):uint()
  return text(0, 4):le_uint() == text:reported_len() and kind >= NINEP.first and kind <= NINEP.last and kind ~= NINEP.unused
end

local function add_text(text, pinfo, tree, root)
  local ninep = DissectorTable.get("tcp.port"):get_dissector(NINEP.port)
  if il.prefs.ninep and ninep and is_ninep(text) then
    local info = tostring(pinfo.cols.info)
    ninep:call(text, pinfo, root)
    pinfo.cols.protocol = "IL/9P"
    pinfo.cols.info:prepend(info .. " | ")
  else
    tree:add(field.text, text())
  end
end

-- The fields of the header, with what is known of each.
local function add_header(buffer, tree, status, known, place)
  local sum = tree:add(field.sum, buffer(0, 2))
  sum:add(field.status, status):set_generated()
  if status == BAD then sum:add_proto_expert_info(expert.sum) end
  local length = tree:add(field.length, buffer(2, 2))
  if known.length ~= buffer:reported_len() then length:add_proto_expert_info(expert.length) end
  local kind = tree:add(field.kind, buffer(4, 1))
  if not TYPES[known.kind] then kind:add_proto_expert_info(expert.kind) end
  if known.kind == DATAQUERY then kind:add_proto_expert_info(expert.resent) end
  local spec = tree:add(field.spec, buffer(5, 1))
  spec:add(field.meaning, meaning_of(known.kind, known.spec)):set_generated()
  if known.kind == CLOSE and known.spec == 1 then spec:add_proto_expert_info(expert.refused) end
  tree:add(field.source, buffer(6, 2))
  tree:add(field.target, buffer(8, 2))
  for _, at in ipairs({ 6, 8 }) do tree:add(field.port, buffer(at, 2)):set_hidden() end
  local id, ack = tree:add(field.id, buffer(10, 4)), tree:add(field.ack, buffer(14, 4))
  if place.relative_id then id:add(field.relative_id, place.relative_id):set_generated() end
  if place.relative_ack then ack:add(field.relative_ack, place.relative_ack):set_generated() end
  tree:add(field.stream, place.stream):set_generated()
  tree:add(field.text_length, known.text_length):set_generated()
end

local function info_of(known, place, status)
  local shown = il.prefs.relative and place or {}
  local id, ack = shown.relative_id or known.id, shown.relative_ack or known.ack
  local name = TYPES[known.kind] or "type " .. known.kind
  local refused = known.kind == CLOSE and known.spec == 1 and " (refused)" or ""
  return string.format("%d → %d %s%s id=%d ack=%d len=%d%s", known.source, known.target, name, refused, id, ack, known.text_length,
    status == BAD and " [bad checksum]" or "")
end

function il.dissector(buffer, pinfo, root)
  pinfo.cols.protocol = "IL"
  local tree = root:add(il, buffer())
  if buffer:len() < HEADER then
    pinfo.cols.info = "IL packet without a whole header"
    tree:add_proto_expert_info(expert.short)
    return
  end
  local known = {
    length = buffer(2, 2):uint(), kind = buffer(4, 1):uint(), spec = buffer(5, 1):uint(), source = buffer(6, 2):uint(),
    target = buffer(8, 2):uint(), id = buffer(10, 4):uint(), ack = buffer(14, 4):uint(), text_length = buffer:reported_len() - HEADER,
  }
  local place = places[pinfo.number] or place_of(pinfo, known)
  places[pinfo.number] = place
  pinfo.src_port, pinfo.dst_port = known.source, known.target
  local status = status_of(buffer, known.length)
  tree:append_text(string.format(", %d → %d, %s", known.source, known.target, TYPES[known.kind] or "unknown type"))
  add_header(buffer, tree, status, known, place)
  pinfo.cols.info = info_of(known, place, status)
  if known.text_length == 0 then return end
  if known.kind ~= DATA and known.kind ~= DATAQUERY then tree:add_proto_expert_info(expert.text) end
  if buffer:len() > HEADER then add_text(buffer(HEADER):tvb(), pinfo, tree, root) end
end

DissectorTable.get("ip.proto"):add(40, il)
