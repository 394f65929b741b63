-- A Wireshark dissector of the protocol between two neighbouring stations, by docs/PROTOCOL.md.
--
--     wireshark -X lua_script:examples/rly.lua
--     tshark -X lua_script:examples/rly.lua -o rly.ports:7010-7041 -i lo -Y rly
--
-- It shows each packet of the UDP ports that the preference `rly.ports` names. Of all other ports it shows those packets that begin
-- with the mark and the version, unless another dissector has the port. A packet that is no message gets an error, which says the
-- first fault by the page's table. Packets of the ports in `rly.keys`, such as 7010,7020-7021, end with the tag of a link's key: its
-- 16 bytes are shown apart from the message, and what the message says isn't judged by them. examples/check_dissector tries this script.

local rly = Proto("rly", "Hop protocol of rly")

local MARK, VERSION = 0x524c, 1
local HEAD, LONGEST_PAYLOAD, TAG = 8, 8192, 16
local DATA, CUSTODY, REFUSED, LIMITED, HEARD = 1, 2, 3, 4, 5
local KINDS = {
    [DATA] = "Data",
    [CUSTODY] = "Custody",
    [REFUSED] = "Refused",
    [LIMITED] = "Data with a limit",
    [HEARD] = "Heard",
}
-- The length of each kind's messages, without a payload.
local LENGTHS = { [DATA] = 18, [CUSTODY] = 16, [REFUSED] = 17, [LIMITED] = 23, [HEARD] = 24 }
-- The numbers that a Heard has a bit for.
local PLACES = 64

-- What `rly` tells a peer station: in words, and as the text that follows the number in a line of `rly`.
local REFUSALS = {
    [1] = "no such peer",
    [2] = "no such hop",
    [3] = "a bad moment",
    [5] = "too long",
    [6] = "full",
    [15] = "spent",
}
local TEXTS = { [1] = "nopeer", [2] = "nohop", [3] = "badmoment", [5] = "toolong", [6] = "full", [15] = "spent" }

-- The faults in the page's order, each with its number. The first that a packet has is the one that counts.
local FAULTS = {
    { "fewer than 8 bytes", 40 },
    { "it doesn't begin with 524c", 42 },
    { "another version", 43 },
    { "another kind", 44 },
    { "from or to station 0", 45 },
    { "fewer bytes than the kind has without a payload", 40 },
    { "a Data of kind 04 whose limit is 0", 44 },
    { "a Data whose length is above 8,192", 41 },
    { "fewer bytes of payload than the length says", 40 },
    { "bytes after the end", 41 },
}
-- The faults of a packet that has too few bytes.
local TOO_FEW = { [1] = true, [6] = true, [9] = true }
-- Stands in the place of a fault where what has to be read isn't there, though it was sent.
local CUT = "cut"

local fault_texts = {}
for row, fault in ipairs(FAULTS) do
    fault_texts[row] = fault[1]
end

local fields = {
    mark = ProtoField.uint16("rly.mark", "Mark", base.HEX),
    version = ProtoField.uint8("rly.version", "Version"),
    kind = ProtoField.uint8("rly.kind", "Kind", base.DEC, KINDS),
    from = ProtoField.uint16("rly.from", "From station"),
    to = ProtoField.uint16("rly.to", "To station"),
    number = ProtoField.uint64("rly.number", "Custody number"),
    limit = ProtoField.uint64("rly.limit", "Age limit in microseconds"),
    length = ProtoField.uint16("rly.length", "Length of the payload"),
    payload = ProtoField.bytes("rly.payload", "Payload"),
    destination = ProtoField.uint16("rly.destination", "Destination station, where relays forward it"),
    refusal = ProtoField.uint8("rly.refusal", "Refusal", base.DEC, REFUSALS),
    refusal_text = ProtoField.string("rly.refusal.text", "Text of the refusal"),
    bits = ProtoField.uint64("rly.bits", "Bits of the 64 numbers after it", base.HEX),
    heard = ProtoField.string("rly.heard", "Numbers whose bits are set"),
    rest = ProtoField.bytes("rly.rest", "Not read"),
    tag = ProtoField.bytes("rly.tag", "Tag of the link's key"),
    fault = ProtoField.uint8("rly.fault", "Fault", base.DEC, fault_texts),
    fault_number = ProtoField.uint8("rly.fault.number", "Number of the fault"),
}
rly.fields = fields

local no_message = ProtoExpert.new("rly.no_message", "No message", expert.group.MALFORMED, expert.severity.ERROR)
local is_cut = ProtoExpert.new("rly.cut", "Cut short", expert.group.UNDECODED, expert.severity.NOTE)
rly.experts = { no_message, is_cut }

-- Reads and shows the head. Answers its first fault and how many bytes were read, and puts what it says into `message`.
local function read_head(packet, tree, message)
    if message.size < HEAD then
        return 1, 0
    end
    if packet:len() < HEAD then
        return CUT, 0
    end
    tree:add(fields.mark, packet(0, 2))
    if packet(0, 2):uint() ~= MARK then
        return 2, 2
    end
    tree:add(fields.version, packet(2, 1))
    if packet(2, 1):uint() ~= VERSION then
        return 3, 3
    end
    message.kind, message.from, message.to = packet(3, 1):uint(), packet(4, 2):uint(), packet(6, 2):uint()
    tree:add(fields.kind, packet(3, 1))
    tree:add(fields.from, packet(4, 2))
    tree:add(fields.to, packet(6, 2))
    if LENGTHS[message.kind] == nil then
        return 4, HEAD
    end
    if message.from == 0 or message.to == 0 then
        return 5, HEAD
    end
    return nil, HEAD
end

-- Shows a payload, as much of it as the capture has, and the destination in its first two bytes.
local function show_payload(packet, tree, message, at)
    local captured = math.min(message.length, packet:len() - at)
    if captured == 0 then
        return
    end
    local item = tree:add(fields.payload, packet(at, captured))
    if captured >= 2 then
        message.destination = packet(at, 2):uint()
        item:add(fields.destination, packet(at, 2))
    end
end

-- The numbers whose bits a Heard has set, as ranges. The first bit is that of the number after the last one that is kept.
local function heard_numbers(packet)
    local last, ranges, first = packet(8, 8):uint64(), {}, nil
    for place = 0, PLACES do
        local is_set = place < PLACES and packet(16, 8):bitfield(place, 1) == 1
        if is_set and not first then
            first = place
        elseif first and not is_set then
            local from, to = tostring(last + (first + 1)), tostring(last + place)
            table.insert(ranges, from == to and from or from .. "-" .. to)
            first = nil
        end
    end
    return #ranges > 0 and table.concat(ranges, ", ") or "none"
end

-- Reads and shows what follows the head, as `read_head` does.
local function read_body(packet, tree, message)
    local size, fixed = message.size, LENGTHS[message.kind]
    if size < fixed then
        return 6, HEAD
    end
    if packet:len() < fixed then
        return CUT, HEAD
    end
    message.number = tostring(packet(8, 8):uint64())
    tree:add(fields.number, packet(8, 8))
    message.length = 0
    if message.kind == REFUSED then
        message.refusal = packet(16, 1):uint()
        local item = tree:add(fields.refusal, packet(16, 1))
        if TEXTS[message.refusal] then
            item:add(fields.refusal_text, packet(16, 1), TEXTS[message.refusal]):set_generated()
        end
    elseif message.kind == HEARD then
        message.heard = heard_numbers(packet)
        tree:add(fields.bits, packet(16, 8))
        tree:add(fields.heard, packet(16, 8), message.heard):set_generated()
    elseif message.kind == DATA or message.kind == LIMITED then
        if message.kind == LIMITED then
            message.limit = tostring(packet(16, 5):uint64())
            tree:add(fields.limit, packet(16, 5))
            if message.limit == "0" then
                return 7, fixed - 2
            end
        end
        message.length = packet(fixed - 2, 2):uint()
        tree:add(fields.length, packet(fixed - 2, 2))
        if message.length > LONGEST_PAYLOAD then
            return 8, fixed
        end
        if size < fixed + message.length then
            return 9, fixed
        end
        show_payload(packet, tree, message, fixed)
    end
    local read = fixed + message.length
    if size > read then
        return 10, read
    end
    return nil, read
end

-- A message in a line.
local function line_of(message)
    local kind = KINDS[message.kind == LIMITED and DATA or message.kind]
    local line = message.from .. " to " .. message.to .. ": " .. kind .. " " .. message.number
    if message.kind == REFUSED then
        local words = REFUSALS[message.refusal]
        return line .. ", " .. (words and words .. " (" .. message.refusal .. ")" or message.refusal)
    end
    if message.kind == CUSTODY then
        return line
    end
    if message.kind == HEARD then
        return line .. ", and after it " .. message.heard
    end
    if message.number == "0" then
        line = line .. ", which asks for the last number"
    end
    line = line .. ", " .. message.length .. (message.length == 1 and " byte" or " bytes")
    if message.destination then
        line = line .. " for station " .. message.destination
    end
    return message.limit and line .. ", limit " .. message.limit or line
end

-- Shows the bytes from `at` on, which were not read.
local function show_rest(packet, tree, at)
    if at < packet:len() then
        tree:add(fields.rest, packet(at))
    end
end

local function show_fault(packet, tree, fault, at)
    local text, number = FAULTS[fault][1], FAULTS[fault][2]
    local line = "No message: " .. text .. " (" .. number .. ")"
    show_rest(packet, tree, at)
    tree:add(fields.fault, fault):set_generated()
    tree:add(fields.fault_number, number):set_generated()
    tree:add_proto_expert_info(no_message, line)
    return line
end

-- Shows what a packet is that has so many bytes without a tag, and answers it in a line.
local function show(packet, tree, size, is_quoted)
    local message = { size = size }
    local fault, at = read_head(packet, tree, message)
    if not fault then
        fault, at = read_body(packet, tree, message)
    end
    if is_quoted and TOO_FEW[fault] then
        fault = CUT
        tree:add_proto_expert_info(is_cut, "An error of ICMP may quote only a prefix")
    elseif packet:len() < size then
        tree:add_proto_expert_info(is_cut, "The capture has " .. packet:len() .. " of " .. size .. " bytes")
    end
    if fault == CUT then
        show_rest(packet, tree, at)
        return "Cut short"
    end
    return fault and show_fault(packet, tree, fault, at) or line_of(message)
end

-- The ports of links with a key, as pairs of the first and the last.
local keyed = {}

local function has_key(port)
    for _, range in ipairs(keyed) do
        if range[1] <= port and port <= range[2] then
            return true
        end
    end
    return false
end

-- Takes the tag off a packet of a link with a key. Answers the rest, and how many bytes that has.
local function without_tag(packet, tree, pinfo)
    local size = packet:reported_len()
    if size < TAG or not (has_key(pinfo.src_port) or has_key(pinfo.dst_port)) then
        return packet, size
    end
    local rest = math.min(packet:len(), size - TAG)
    if rest < packet:len() then
        tree:add(fields.tag, packet(rest))
    end
    -- A packet that is a tag alone has no message in front of it.
    return rest > 0 and packet(0, rest):tvb() or ByteArray.new():tvb("no message"), size - TAG
end

function rly.dissector(packet, pinfo, root)
    local tree = root:add(rly, packet())
    local message, size = without_tag(packet, tree, pinfo)
    local line = show(message, tree, size, pinfo.in_error_pkt)
    pinfo.cols.protocol = "rly"
    pinfo.cols.info = line
    tree:append_text(", " .. line)
    return packet:len()
end

rly:register_heuristic("udp", function(packet, pinfo, root)
    if packet:len() < 3 or packet(0, 2):uint() ~= MARK or packet(2, 1):uint() ~= VERSION then
        return false
    end
    rly.dissector(packet, pinfo, root)
    return true
end)

local udp = DissectorTable.get("udp.port")
udp:add_for_decode_as(rly)
rly.prefs.ports = Pref.range("UDP ports", "", "The ports of links, such as 7010-7041: each packet of theirs is shown", 65535)

rly.prefs.keys = Pref.range("UDP ports of links with a key", "", "Packets of these ports end with a tag of 16 bytes", 65535)

-- The ports that this dissector has.
local ports = ""
function rly.prefs_changed()
    keyed = {}
    for first, last in rly.prefs.keys:gmatch("(%d+)%-?(%d*)") do
        table.insert(keyed, { tonumber(first), tonumber(last ~= "" and last or first) })
    end
    if ports ~= "" then
        udp:remove(ports, rly)
    end
    ports = rly.prefs.ports
    if ports ~= "" then
        udp:add(ports, rly)
    end
end
