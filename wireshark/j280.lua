-- A dissector for ITU-T J.280 (03/2013) with the layouts of document 01 and 02, on TCP port 5168, and on others where a connection looks
-- like it. Messages of any segmentation; every field; result codes in words; each request tied to its response, in order; what is odd as
-- expert information.
--   tshark -X lua_script:wireshark/j280.lua -r capture.pcap          or copy it to Wireshark's folder of personal Lua plugins
-- `desk pcap` makes captures of recordings. tools/dissector.sh holds the fields to those of `desk list`.

local j280 = Proto("j280", "ITU-T J.280 Splicing API")

local messages = {
    [0] = "General_Response", "Init_Request", "Init_Response", "ExtendedData_Request", "ExtendedData_Response", "Alive_Request",
    "Alive_Response", "Splice_Request", "Splice_Response", "SpliceComplete_Response", "GetConfig_Request", "GetConfig_Response",
    "Cue_Request", "Cue_Response",
    "Abort_Request", "Abort_Response", "TearDownFeed_Request", "TearDownFeed_Response",
}

-- Appendix I
local results = {
    [100] = "Successful Response", [101] = "Unknown Failure", [102] = "Invalid Version", [103] = "Access Denied",
    [104] = "Invalid/Unknown ChannelName", [105] = "Invalid Physical Connection", [106] = "No Configuration Found",
    [107] = "Invalid Configuration", [108] = "Splice Failed - Unknown Failure", [109] = "Splice Collision",
    [110] = "No Insertion Channel Found", [111] = "No Primary Channel Found", [112] = "Splice_Request Was Too Late",
    [113] = "No Splice Point Was Found", [114] = "Splice Queue Full", [115] = "Session Playback Suspect", [116] = "Insertion Aborted",
    [117] = "Invalid Cue Message", [118] = "Splicing Device Does Not Exist", [119] = "Init_Request Refused", [120] = "Unknown MessageID",
    [121] = "Invalid SessionID", [122] = "Session Did Not Complete", [123] = "Invalid Request Message data( )",
    [124] = "Descriptor Not Implemented", [125] = "Channel Override", [126] = "Insertion Channel Started Early",
    [127] = "Playback Rate Below Threshold", [128] = "PMT changed", [129] = "Invalid message size", [130] = "Invalid message syntax",
    [131] = "Port Collision Error", [132] = "Splice Failed - EAS active", [133] = "Insertion Component Not Found",
    [134] = "Resources Not Available", [135] = "Component Mismatch", [0xFFFF] = "a request",
}

local states = { [0] = "no output", "primary channel", "insertion" }
local flags = { [0] = "Splice_in", "Splice_out" }

local f = {}

-- number(NAME, BYTES, WORDS): a field of this many bytes, by its name in J.280
local function number(name, bytes, words)
    local kinds = { [1] = ProtoField.uint8, [2] = ProtoField.uint16, [4] = ProtoField.uint32 }
    f[name] = kinds[bytes]("j280." .. name, name, base.DEC, words)
end

f.MessageID = ProtoField.uint16("j280.MessageID", "MessageID", base.HEX, messages)
number("MessageSize", 2)
number("Result", 2, results)
f.Result_Extension = ProtoField.uint16("j280.Result_Extension", "Result_Extension", base.HEX)
for _, name in ipairs { "SessionID", "PriorSession", "ExtendedDataType", "Duration", "SpliceEventID", "PostBlack", "PIDCount", "Bitrate",
    "PlayedDuration", "Seconds", "MicroSeconds", "AvgBitrate", "MaxBitrate", "MinBitrate" } do
    number(name, 4)
end
for _, name in ipairs { "Revision_Num", "Length", "Chassis", "Card", "Port", "Logical_Multiplex_Type", "PcrPID", "PID", "StreamType",
    "HResolution", "VResolution" } do
    number(name, 2)
end
for _, name in ipairs { "AccessType", "OverridePlaying", "ReturnToPriorChannel" } do
    number(name, 1)
end
number("State", 4, states)
number("ServiceID", 2)
number("EndResult", 2, results)
number("SpliceTypeFlag", 1, flags)
number("stream_Length", 1)
for _, name in ipairs { "ChannelName", "SplicerName" } do
    f[name] = ProtoField.string("j280." .. name, name)
end
for _, name in ipairs { "descriptors", "Hardware_Config", "Logical_Multiplex", "TS_program_map_section", "splice_info_section", "data" } do
    f[name] = ProtoField.bytes("j280." .. name, name)
end
f.time = ProtoField.absolute_time("j280.time", "time", base.UTC)
f.response_in = ProtoField.framenum("j280.response_in", "Response in", base.NONE, frametype.RESPONSE)
f.request_in = ProtoField.framenum("j280.request_in", "Request in", base.NONE, frametype.REQUEST)
j280.fields = f

local group, severity = expert.group, expert.severity
local unreadable = ProtoExpert.new("j280.unreadable", "The data are not as J.280 and 01 lay them out", group.MALFORMED, severity.WARN)
local oversize = ProtoExpert.new("j280.oversize", "MessageSize above 4088: no message begins behind it", group.PROTOCOL, severity.ERROR)
local unknown = ProtoExpert.new("j280.unknown", "No MessageID of J.280", group.PROTOCOL, severity.WARN)
local refused = ProtoExpert.new("j280.refused", "A result other than 100", group.RESPONSE_CODE, severity.NOTE)
local without = ProtoExpert.new("j280.unasked", "An answer, and no request that waits for it", group.SEQUENCE, severity.WARN)
j280.experts = { unreadable, oversize, unknown, refused, without }

-- A walk over a message's data: each step gives nil behind the end, and then nothing more is read.
local Walk = {}
Walk.__index = Walk

function Walk:take(bytes)
    if self.at + bytes > self.tvb:len() then
        self.cut = true
        return nil
    end
    local part = self.tvb(self.at, bytes)
    self.at = self.at + bytes
    return part
end

function Walk:number(name, bytes)
    local part = not self.cut and self:take(bytes)
    if not part then return nil end
    self.tree:add(f[name], part)
    return part:uint()
end

function Walk:name(name)
    local part = not self.cut and self:take(32)
    -- up to its first zero; a name may have none
    if part then self.tree:add(f[name], part, part:bytes():raw():match("^[^%z]*")) end
end

function Walk:time()
    local part = not self.cut and self:take(8)
    if not part then return end
    local seconds, micros = part(0, 4):uint(), part(4, 4):uint()
    local tree = self.tree:add(f.time, part, NSTime.new(seconds, micros < 1000000 and micros * 1000 or 0))
    if seconds == 0xFFFFFFFF and micros == 0xFFFFFFFF then tree:append_text(" (none)") end
    tree:add(f.Seconds, part(0, 4))
    tree:add(f.MicroSeconds, part(4, 4))
end

function Walk:left(name)
    local bytes = self.tvb:len() - self.at
    if not self.cut and bytes > 0 then self.tree:add(f[name], self:take(bytes)) end
end

-- a section, and its fields by Wireshark's own dissector of SCTE 35 (which writes its own words into the columns)
local known, scte35 = pcall(Dissector.get, "scte35")

function Walk:section()
    local first = self.at
    self:left("splice_info_section")
    if self.cut or self.at == first or not (known and scte35) then return end
    local info = tostring(self.pinfo.cols.info)
    pcall(function() scte35:call(self.tvb(first, self.at - first):tvb(), self.pinfo, self.tree) end)
    self.pinfo.cols.info:set(info)
end

function Walk:hardware()
    if self.cut or self.at == self.tvb:len() then return end
    local length = self:number("Length", 2)
    local last = self.at + (length or 0)
    -- document 02, CR 6: kept and given back whatever its Length
    if not self.cut and length < 8 then
        local part = self:take(length)
        if part and length > 0 then self.tree:add(f.Hardware_Config, part) end
        return
    end
    for _, name in ipairs { "Chassis", "Card", "Port", "Logical_Multiplex_Type" } do self:number(name, 2) end
    if self.cut or last < self.at or last > self.tvb:len() then
        self.cut = true
    elseif last > self.at then
        self.tree:add(f.Logical_Multiplex, self:take(last - self.at))
    end
end

-- document 02, CR 8: the card's own descriptor of an ended session, with its end's result; any other as bytes
function Walk:ended()
    if self.cut or self.tvb:len() - self.at ~= 16 or self.tvb(self.at, 6):bytes() ~= ByteArray.new("010E43415244") then
        self:left("descriptors")
        return
    end
    self:take(6)
    self:number("SpliceEventID", 4)
    self:number("EndResult", 2)
    self:number("PlayedDuration", 4)
end

-- splice_elementary_stream( ), Table 8-6: Length counts the whole structure
function Walk:stream()
    local first = self.at
    local length = self:number("stream_Length", 1)
    self:number("PID", 2)
    self:number("StreamType", 2)
    for _, name in ipairs { "AvgBitrate", "MaxBitrate", "MinBitrate" } do self:number(name, 4) end
    for _, name in ipairs { "HResolution", "VResolution" } do self:number(name, 2) end
    if self.cut or length < 21 or first + length > self.tvb:len() then
        self.cut = true
    elseif length > 21 then
        self.tree:add(f.descriptors, self:take(length - 21))
    end
end

function Walk:splice()
    self:number("SessionID", 4)
    self:number("PriorSession", 4)
    self:time()
    if self:number("ServiceID", 2) == 0xFFFF then
        self:number("PcrPID", 2)
        local count = self:number("PIDCount", 4) or 0
        while count > 0 and not self.cut do
            self:stream()
            count = count - 1
        end
    end
    for _, name in ipairs { "Duration", "SpliceEventID", "PostBlack" } do self:number(name, 4) end
    for _, name in ipairs { "AccessType", "OverridePlaying", "ReturnToPriorChannel" } do self:number(name, 1) end
    self:left("descriptors")
end

local layouts = {
    [0x0001] = function(w) w:number("Revision_Num", 2) w:name("ChannelName") w:name("SplicerName") w:hardware() w:left("descriptors") end,
    [0x0002] = function(w) w:number("Revision_Num", 2) w:name("ChannelName") end,
    [0x0003] = function(w) w:number("SessionID", 4) w:number("ExtendedDataType", 4) end,
    [0x0004] = function(w) w:number("SessionID", 4) w:ended() end,
    [0x0005] = function(w) w:time() end,
    [0x0006] = function(w) w:number("State", 4) w:number("SessionID", 4) w:time() end,
    [0x0007] = function(w) w:splice() end,
    [0x0008] = function(w) w:number("SessionID", 4) end,
    [0x0009] = function(w) w:number("SessionID", 4) w:number("SpliceTypeFlag", 1) w:number("Bitrate", 4) w:number("PlayedDuration", 4) end,
    [0x000B] = function(w) w:name("ChannelName") w:hardware() w:left("TS_program_map_section") end,
    [0x000C] = function(w) w:time() w:section() end,
    [0x000E] = function(w) w:number("SessionID", 4) end,
    [0x000F] = function(w) w:number("SessionID", 4) end,
}

-- messages that have data; without any they are not as laid out
local needs = {}
for id in pairs(layouts) do needs[id] = true end

-- Requests and responses of a TCP stream. A splicer answers each message of a connection in its turn, so the oldest that waits is the one
-- that is answered. asked: the server's that wait for an answer; cued: the splicer's Cue_Requests; held: SessionIDs that were accepted and
-- have not ended.
local streams, tied, made, unasked = {}, {}, {}, {}
local stream_of, again = Field.new("tcp.stream"), Field.new("tcp.analysis.retransmission")

function j280.init()
    streams, tied, made, unasked = {}, {}, {}, {}
end

local PORT = 5168
local answers = {
    [0x0001] = 0x0002, [0x0003] = 0x0004, [0x0005] = 0x0006, [0x0007] = 0x0008, [0x000A] = 0x000B, [0x000C] = 0x000D, [0x000E] = 0x000F,
    [0x0010] = 0x0011,
}
local by_session = { [0x0003] = true, [0x0004] = true, [0x0007] = true, [0x0008] = true, [0x0009] = true, [0x000E] = true, [0x000F] = true }
-- a Splice_Response with one of these may be an end, and no answer
local ends = { [109] = true, [116] = true, [125] = true }
local is_answer = { [0x0000] = true }
for _, answer in pairs(answers) do is_answer[answer] = true end

local function stream(pinfo)
    local number = stream_of().value
    local port = (pinfo.src_port == PORT or pinfo.dst_port == PORT) and PORT or nil
    streams[number] = streams[number] or { asked = {}, cued = {}, held = {}, over = {}, port = port }
    return streams[number]
end

-- from_server(STATE, PINFO, ID): by the splicer's port; on a port that is not known, by the first message that only one side sends
local function from_server(state, pinfo, id)
    if not state.port and id ~= 0x0000 and messages[id] then
        local asks = id == 0x000D or id ~= 0x000C and answers[id] ~= nil
        state.port = asks and pinfo.dst_port or pinfo.src_port
    end
    return pinfo.dst_port == state.port
end

-- one message: its own key, frame, ID, result and SessionID
local function told(tvb, pinfo, place)
    local id = tvb(0, 2):uint()
    local session = by_session[id] and tvb:len() >= 12 and tvb(2, 2):uint() >= 4 and tvb(8, 4):uint() or nil
    local flag = id == 0x0009 and tvb:len() >= 13 and tvb(12, 1):uint() or nil
    return { own = pinfo.number .. "/" .. place, frame = pinfo.number, id = id, result = tvb(4, 2):uint(), session = session, flag = flag,
        over = tvb(2, 2):uint() > 4088 }
end

local function tie(request, answer)
    tied[answer.own], tied[request.own] = request.frame, answer.frame
end

-- fits(REQUEST, ANSWER): a General_Response answers any; a Cue_Response that comes before Init is answered with 103, and never else
local function fits(request, answer)
    if answer.id == 0x0000 then return not request.quiet or answer.result == 103 end
    return not request.quiet and answers[request.id] == answer.id and request.session == answer.session
end

-- taken(LIST, ANSWER, FIRST): the first that fits; what waited before it was never answered. With FIRST only the oldest may fit
local function taken(list, answer, first)
    for at, request in ipairs(list) do
        if fits(request, answer) then
            for _ = 1, at do table.remove(list, 1) end
            return request
        end
        if first and not request.quiet then return nil end
    end
end

local function of_server(state, one)
    if one.id == 0x0000 or one.id == 0x000D then
        local cue = table.remove(state.cued, 1)
        if cue then tie(cue, one) else unasked[one.own] = one.id == 0x000D end
        if one.id == 0x0000 or state.ready then return end
        one.quiet = true
    end
    if not one.over then table.insert(state.asked, one) end
end

local function of_splicer(state, one)
    if one.id == 0x000C then return table.insert(state.cued, one) end
    if one.id == 0x0009 and (one.flag == 1 or one.result ~= 100) then state.held[one.session or 0] = nil end
    -- 117 tells of a cue
    if not is_answer[one.id] or one.id == 0x0000 and one.result == 117 then return end
    local may_end = one.id == 0x0008 and ends[one.result]
    local request = not (may_end and state.held[one.session]) and taken(state.asked, one, may_end or one.id == 0x0000)
    if request then tie(request, one) else unasked[one.own] = not may_end end
    if one.id == 0x0008 and one.session and (request or may_end) then state.held[one.session] = one.result == 100 or nil end
    if one.id == 0x0002 and one.result == 100 then state.ready = true end
end

-- once for each message, in the order of the capture; what was sent again is no second message
local function heard(state, pinfo, one)
    if made[one.own] then return end
    made[one.own] = true
    if again() then return end
    local handled = from_server(state, pinfo, one.id) and of_server or of_splicer
    handled(state, one)
    if one.over then state.over[pinfo.src_port] = state.over[pinfo.src_port] or pinfo.number end
end

-- the place of a message in its frame: TCP hands over the rest of one and what is behind it apart
local function placed(pinfo)
    local place = (tonumber(pinfo.private.j280_place) or 0) + 1
    pinfo.private.j280_place = tostring(place)
    return place
end

local function said(pinfo, place, words)
    pinfo.cols.protocol = "J.280"
    if place == 1 then pinfo.cols.info:set(words) else pinfo.cols.info:append(", " .. words) end
end

-- experts(TREE, ONE): what a reader should look at
local function judged(tree, one)
    if one.over then tree:add_proto_expert_info(oversize) end
    if not messages[one.id] then tree:add_proto_expert_info(unknown) end
    if unasked[one.own] then tree:add_proto_expert_info(without) end
    if answers[one.id] or one.result == 100 or not messages[one.id] then return end
    local words = results[one.result] and one.result ~= 0xFFFF and results[one.result] or "no result code of J.280"
    tree:add_proto_expert_info(refused, string.format("Result %d: %s", one.result, words))
end

local function in_words(one)
    local words = messages[one.id] or string.format("message 0x%04X", one.id)
    local meaning = results[one.result] or "no result code of J.280"
    if one.result ~= 0xFFFF then words = words .. string.format(" %d (%s)", one.result, meaning) end
    if one.session then words = words .. string.format(one.session == 0xFFFFFFFF and " SessionID 0x%X" or " SessionID %d", one.session) end
    return one.over and words .. " MessageSize above 4088" or words
end

-- less than a header, where TCP cannot wait for more
local function cut(tvb, pinfo, root)
    local tree = root:add(j280, tvb(), "J.280, a header that is cut")
    tree:add(f.data, tvb())
    tree:add_proto_expert_info(unreadable)
    said(pinfo, placed(pinfo), "a header that is cut")
    return tvb:len()
end

local function message(tvb, pinfo, root)
    if tvb:len() < 8 then return cut(tvb, pinfo, root) end
    local state, place = stream(pinfo), placed(pinfo)
    local one = told(tvb, pinfo, place)
    heard(state, pinfo, one)
    local words = in_words(one)
    local tree = root:add(j280, tvb(), "J.280 " .. words)
    tree:add(f.MessageID, tvb(0, 2))
    tree:add(f.MessageSize, tvb(2, 2))
    tree:add(f.Result, tvb(4, 2))
    tree:add(f.Result_Extension, tvb(6, 2))
    said(pinfo, place, words)
    if tvb:len() > 8 then
        local walk = setmetatable({ tvb = tvb(8):tvb(), at = 0, tree = tree, cut = false, pinfo = pinfo }, Walk)
        local layout = not one.over and layouts[one.id] or function(w) w:left("data") end
        layout(walk)
        if walk.cut or walk.at < walk.tvb:len() then tree:add_proto_expert_info(unreadable) end
    elseif needs[one.id] then
        tree:add_proto_expert_info(unreadable)
    end
    local other = tied[one.own]
    if other then tree:add(is_answer[one.id] and f.request_in or f.response_in, other):set_generated() end
    judged(tree, one)
    return tvb:len()
end

-- behind a MessageSize above 4,088 no message begins: its header is shown, and the rest as bytes
local function length(tvb, pinfo, offset)
    if tvb:len() - offset < 8 then return 8 end
    local size = tvb(offset + 2, 2):uint()
    return size > 4088 and tvb:len() - offset or 8 + size
end

function j280.dissector(tvb, pinfo, root)
    local over = stream(pinfo).over[pinfo.src_port]
    if over and over < pinfo.number then
        local tree = root:add(j280, tvb(), "J.280, behind a MessageSize above 4088")
        tree:add(f.data, tvb())
        tree:add_proto_expert_info(oversize)
        said(pinfo, placed(pinfo), "behind a MessageSize above 4088")
        return tvb:len()
    end
    dissect_tcp_pdus(tvb, root, 8, length, message)
    return tvb:len()
end

-- Other ports: a segment that begins with a header of J.280: a known ID, the size that its layout has, and Result fields as a request or a
-- response has them.
local sizes = {
    [0x0000] = { 0, 0 }, [0x0001] = { 66, 4088 }, [0x0002] = { 34, 34 }, [0x0003] = { 8, 8 }, [0x0004] = { 4, 4088 },
    [0x0005] = { 8, 8 }, [0x0006] = { 16, 16 }, [0x0007] = { 33, 4088 }, [0x0008] = { 4, 4 }, [0x0009] = { 13, 13 },
    [0x000A] = { 0, 0 }, [0x000B] = { 32, 4088 }, [0x000C] = { 28, 4088 }, [0x000D] = { 0, 0 }, [0x000E] = { 4, 4 },
    [0x000F] = { 4, 4 }, [0x0010] = { 0, 4088 }, [0x0011] = { 0, 4088 },
}

local function looks(tvb, pinfo, root)
    if tvb:len() < 8 then return false end
    local id, size, result = tvb(0, 2):uint(), tvb(2, 2):uint(), tvb(4, 2):uint()
    local range = sizes[id]
    if not range or size < range[1] or size > range[2] or tvb(6, 2):uint() ~= 0xFFFF then return false end
    local good = result >= 100 and result <= 135
    if answers[id] then good = result == 0xFFFF end
    if not good then return false end
    pinfo.conversation = j280
    j280.dissector(tvb, pinfo, root)
    return true
end

DissectorTable.get("tcp.port"):add(PORT, j280)
j280:register_heuristic("tcp", looks)
