"""Whole PFCP messages: such as a careful sender makes, and damaged ones. Used by peers/generate.

Every function is given the generator's random numbers as `r`. A message has a header with the right length field, and then
its IEs. Values are plausible: documentation addresses, names, times of these years. What they mean isn't compared.

Types are the standard's numbers. Those without a function that says their name:

    20 Source Interface         24 Application ID            25 Gate Status              26 MBR, 27 GBR
    28 QER Correlation ID       29 Precedence                30 Transport Level Marking  31 Volume Threshold
    32 Time Threshold           33 Monitoring Time           34 Subsequent Volume Th.    36 Inactivity Detection Time
    37 Reporting Triggers       39 Report Type               42 Destination Interface    44 Apply Action
    45 DL Data Service Info.    46 DL Data Notif. Delay      49 PFCPSMReq-Flags          50 PFCPSRRsp-Flags
    52 Sequence Number          53 Metric                    55 Timer                    56 PDR ID
    59 PFD Context              62 Measurement Method        63 Usage Report Trigger     64 Measurement Period
    65 FQ-CSID                  66 Volume Measurement        67 Duration Measurement     68 Application Detection Info.
    69, 70 Time of First, Last  71 Quota Holding Time        72 Dropped DL Traffic Th.   73 Volume Quota, 74 Time Quota
    75 Start Time, 76 End Time  81 URR ID, 82 Linked URR ID  83 Downlink Data Report     88 BAR ID
    90 Usage Information        94 Packet Rate               95 Outer Header Removal     97 DL Flow Level Marking
    99 Error Indication Report  100 Measurement Info.        101 Node Report Type        102 User Plane Path Failure
    103 Remote GTP-U Peer       104 UR-SEQN                  106, 107 Predefined Rules   108 FAR ID, 109 QER ID
    110 OCI Flags               111 Association Release      112 Graceful Release        113 PDN Type
    117 UP Inactivity Timer     123 RQI, 124 QFI             125 Query URR Reference     126 Additional Usage Reports
    131 Traffic Endpoint ID     133 MAC Address              134 C-TAG, 136 Ethertype    138, 139 Ethernet Filter
    140 Buffering Packets       142 Ethernet PDU Session     153 Framed-Route            157 Averaging Window
    158 Paging Policy           160 3GPP Interface Type      178 Alternative SMF Address 257 S-NSSAI
"""
import struct


# ---------------------------------------------------------------- IEs

def ie(kind, payload):
    return struct.pack("!HH", kind, len(payload)) + payload


def group(kind, *parts):
    return ie(kind, b"".join(parts))


def byte(kind, value):
    return ie(kind, bytes([value]))


def short(kind, value):
    return ie(kind, struct.pack("!H", value))


def long(kind, value):
    return ie(kind, struct.pack("!I", value))


def vendor(kind, enterprise, data):
    """A vendor's IE: the top bit of its type is set, and the enterprise number counts in its length."""
    return ie(0x8000 | kind, struct.pack("!H", enterprise) + data)


def maybe(r, n, *parts):
    """The parts, one time in n."""
    return b"".join(parts) if r.below(n) == 0 else b""


def labels(name):
    return b"".join(bytes([len(part)]) + part for part in name.split(b"."))


def counted(text):
    return struct.pack("!H", len(text)) + text


# ---------------------------------------------------------------- values

NETWORKS = [(192, 0, 2), (198, 51, 100), (203, 0, 113)]
NAMES = [b"internet", b"ims", b"iot.example", b"access", b"core", b"n6-lan", b"mnc001.mcc001.gprs", b"corp.example.net"]
HOSTS = [b"smf1.example.net", b"upf-a.core.example", b"upf2.mnc001.mcc001.3gppnetwork.org", b"cp"]
FLOWS = [b"permit out ip from any to assigned", b"permit out udp from 198.51.100.0/24 5060 to assigned",
         b"permit out tcp from 203.0.113.7 443 to assigned", b"permit out 17 from 2001:db8::/32 to assigned 4000-4100"]
URLS = [b"http://example.com/", b"https://video.example.net/live", b"http://example.org/a?b=c"]
RULES = [b"default", b"gold-service", b"block-p2p", b"zero-rated"]
# Enterprise numbers; of these tshark knows IEs of 18681 alone.
ENTERPRISES = [9, 193, 637, 2011, 10415, 18681, 28458, 65535]


def ipv4(r):
    return bytes(r.pick(NETWORKS)) + bytes([1 + r.below(254)])


def ipv6(r):
    return bytes.fromhex("20010DB8") + r.bytes(4) + bytes(6) + r.bytes(2)


def addresses(r, four, six):
    return (ipv4(r) if four else b"") + (ipv6(r) if six else b"")


def time(r):
    """Seconds since 1900, from 2023 on."""
    return 0xE7600000 + r.below(0x5000000)


def some(r, most, one):
    """From 0 to `most` of what `one` makes, few more often than many."""
    return b"".join(one(r) for _ in range(r.below(1 + r.below(1 + most))))


# ---------------------------------------------------------------- IEs with fields of their own

def node_id(r):
    form = r.below(4)
    if form < 2:
        return ie(60, b"\0" + ipv4(r))
    return ie(60, b"\1" + ipv6(r) if form == 2 else b"\2" + labels(r.pick(HOSTS)))


def f_seid(r):
    flags = r.pick([1, 2, 2, 3])
    return ie(57, bytes([flags]) + r.bytes(8) + addresses(r, flags & 2, flags & 1))


def f_teid(r):
    flags = r.pick([1, 1, 1, 2, 3, 5, 6, 7, 13, 15])
    if flags & 4:
        return ie(21, bytes([flags]) + (r.bytes(1) if flags & 8 else b""))
    return ie(21, bytes([flags]) + r.bytes(4) + addresses(r, flags & 1, flags & 2))


def ue_ip_address(r):
    flags = r.pick([0x02, 0x02, 0x01, 0x03, 0x09, 0x10, 0x41])
    last = {0x09: bytes([8]), 0x41: bytes([56])}.get(flags, b"")
    return ie(93, bytes([flags | r.below(2) << 2]) + addresses(r, flags & 2, flags & 1) + last)


def outer_header_creation(r):
    flags = r.pick([0x01, 0x01, 0x01, 0x02, 0x03, 0x04, 0x08, 0x10])
    teid = r.bytes(4) if flags & 3 else b""
    port = struct.pack("!H", 2152) if flags & 12 else b""
    return ie(84, bytes([flags, 0]) + teid + addresses(r, flags & 0x15, flags & 0x2A) + port)


def recovery_time_stamp(r):
    return long(96, time(r))


def network_instance(r):
    name = r.pick(NAMES)
    return ie(22, labels(name) if r.below(2) else name)


def forwarding_policy(r):
    name = r.pick(RULES)
    return ie(41, bytes([len(name)]) + name)


def sdf_filter(r):
    flags = r.pick([1, 1, 1, 3, 5, 17, 16])
    parts = [(1, counted(r.pick(FLOWS))), (2, b"\x20\xFC"), (4, r.bytes(4)), (8, b"\0\1\2"), (16, b"\0\0\0\7")]
    return ie(23, bytes([flags, 0]) + b"".join(data for bit, data in parts if flags & bit))


def volumes(r, kind, bits=3):
    """Thresholds, quotas and measurements: a byte that says which of several 8-byte numbers follow."""
    flags = 1 + r.below((1 << bits) - 1)
    return ie(kind, bytes([flags]) + b"".join(bytes(4) + r.bytes(4) for _ in range(bin(flags).count("1"))))


def rates(r, kind):
    return ie(kind, b"".join(r.below(1 << 24).to_bytes(5, "big") for _ in range(2)))


def failed_rule(r):
    kind, width = r.pick([(0, 2), (1, 4), (2, 4), (3, 4), (4, 1)])
    return ie(114, bytes([kind]) + (1 + r.below(99)).to_bytes(width, "big"))


def redirect(r):
    return ie(38, b"\2" + counted(r.pick(URLS)))


def header_enrichment():
    return ie(98, b"\0" + b"\6X-Test" + b"\3abc")


def user_id(r):
    imsi = bytes.fromhex("00011032547698F1")
    return ie(141, b"\1" + bytes([len(imsi)]) + imsi) if r.below(2) else ie(141, b"\x08\x0Cue@localhost")


def trace():
    """A network's code, the trace's number, then events, depth, interfaces and an address, three of them with their lengths."""
    return ie(152, bytes.fromhex("00F110" "000001" "0102" "03" "0101" "04C0000209"))


def up_ip_resource(r):
    """User Plane IP Resource Information, with a TEID range, a network instance and a source interface or without."""
    v4v6, range_bits = 1 + r.below(3), r.pick([0, 0, 2, 4])
    instance, source = r.below(2), r.below(2)
    first = source << 6 | instance << 5 | range_bits << 2 | v4v6
    teids = bytes([r.below(1 << range_bits) << (8 - range_bits)]) if range_bits else b""
    name = labels(r.pick(NAMES)) if instance else b""
    return ie(116, bytes([first]) + teids + addresses(r, v4v6 & 1, v4v6 & 2) + name + (bytes([r.below(3)]) if source else b""))


def up_features(r):
    return ie(43, r.bytes(r.pick([2, 4, 6])))


def cp_features(r):
    return byte(89, r.below(16))


def cause(r):
    return byte(19, r.pick([1, 1, 1, 1, 64, 65, 66, 69, 73, 77]))


def offending(r):
    return short(40, r.pick([57, 60, 21, 108, 3]))


def load_control(r):
    return group(51, long(52, r.below(1000)), byte(53, r.below(101)))


def overload_control(r):
    return group(54, long(52, r.below(1000)), byte(53, r.below(101)), byte(55, 0x20 | r.below(31)), maybe(r, 2, byte(110, 1)))


def source_ip_address(r):
    return ie(192, b"\2" + ipv4(r))


def extension(r):
    """What a sender of a later release or of a vendor adds: a type that isn't known to all, or a vendor's."""
    form = r.below(4)
    if form == 0:
        return ie(321 + r.below(60), r.bytes(1 + r.below(12)))
    if form == 1:
        return vendor(2, 18681, b"build-" + str(1000 + r.below(9000)).encode())
    return vendor(1 + r.below(300), r.pick([e for e in ENTERPRISES if e != 18681]), r.bytes(1 + r.below(16)))


# ---------------------------------------------------------------- groups

def pdi(r):
    parts = [byte(20, r.below(4)), maybe(r, 2, f_teid(r)), maybe(r, 2, network_instance(r)), maybe(r, 2, ue_ip_address(r)),
             maybe(r, 6, byte(131, 1 + r.below(9))), maybe(r, 3, sdf_filter(r)), maybe(r, 8, ie(24, b"app-" + r.pick(RULES))),
             maybe(r, 12, byte(142, 1), ethernet_filter(r)), maybe(r, 3, byte(124, 1 + r.below(63))),
             maybe(r, 12, ie(153, b"198.51.100.0/24 0.0.0.0 1")), maybe(r, 6, byte(160, 11))]
    return group(2, *parts)


def ethernet_filter(r):
    return group(132, long(138, 1 + r.below(99)), maybe(r, 2, byte(139, 1)), ie(133, b"\1" + bytes([2, 0]) + r.bytes(4)),
                 short(136, 0x0800), maybe(r, 2, ie(134, b"\7\x10\x64")))


def rule_links(r):
    """The rules that a PDR points at."""
    return long(108, 1 + r.below(99)) + some(r, 3, lambda r: long(81, 1 + r.below(99))) + \
        some(r, 2, lambda r: long(109, 1 + r.below(99))) + maybe(r, 8, ie(106, r.pick(RULES)))


def create_pdr(r):
    return group(1, short(56, 1 + r.below(999)), long(29, r.below(256)), pdi(r), maybe(r, 2, byte(95, r.below(2))),
                 rule_links(r), maybe(r, 12, extension(r)))


def update_pdr(r):
    return group(9, short(56, 1 + r.below(999)), maybe(r, 2, byte(95, 0)), maybe(r, 2, long(29, r.below(256))),
                 maybe(r, 3, pdi(r)), rule_links(r), maybe(r, 6, ie(107, r.pick(RULES))))


def forwarding(r, kind=4):
    """Forwarding Parameters; in the update of them a network instance or policy of length 0 takes it away."""
    instance = ie(22, b"") if kind == 11 and r.below(6) == 0 else network_instance(r)
    policy = ie(41, b"") if kind == 11 and r.below(3) == 0 else forwarding_policy(r)
    return group(kind, byte(42, r.below(5)), maybe(r, 2, instance), maybe(r, 10, redirect(r)),
                 maybe(r, 2, outer_header_creation(r)), maybe(r, 8, ie(30, b"\x20\xFC")), maybe(r, 8, policy),
                 maybe(r, 12, header_enrichment()), maybe(r, 8, byte(131, 1 + r.below(9))))


def duplicating(r):
    return group(5, byte(42, 4), outer_header_creation(r))


def create_far(r):
    return group(3, long(108, 1 + r.below(99)), byte(44, r.pick([1, 2, 2, 2, 4, 12])), maybe(r, 1 + r.below(2), forwarding(r)),
                 maybe(r, 10, duplicating(r)), maybe(r, 6, byte(88, 1 + r.below(4))))


def update_far(r):
    return group(10, long(108, 1 + r.below(99)), maybe(r, 2, byte(44, r.pick([1, 2, 2, 12]))),
                 maybe(r, 2, forwarding(r, 11)), maybe(r, 8, byte(88, 1 + r.below(4))))


def urr(r, kind):
    """Create URR, and the update of one."""
    parts = [long(81, 1 + r.below(99)), byte(62, 1 + r.below(7)), ie(37, bytes([1 + r.below(255), r.below(64)])),
             maybe(r, 2, long(64, 60 * (1 + r.below(60)))), maybe(r, 2, volumes(r, 31)), maybe(r, 4, volumes(r, 73)),
             maybe(r, 3, long(32, 60 * (1 + r.below(600)))), maybe(r, 6, long(74, 3600)), maybe(r, 6, long(71, 300)),
             maybe(r, 12, ie(72, b"\1" + bytes(7) + r.bytes(1))), maybe(r, 8, long(33, time(r))), maybe(r, 12, volumes(r, 34)),
             maybe(r, 10, long(36, 120)), maybe(r, 8, long(82, 1 + r.below(99))), maybe(r, 4, byte(100, r.below(16)))]
    return group(kind, *parts)


def qer(r, kind):
    """Create QER, and the update of one."""
    parts = [long(109, 1 + r.below(99)), maybe(r, 6, long(28, r.below(1000))), byte(25, r.below(2) * 5),
             maybe(r, 2, rates(r, 26)), maybe(r, 3, rates(r, 27)), maybe(r, 10, ie(94, b"\3\0\0\x64\0\0\x64")),
             maybe(r, 8, ie(97, b"\1\x20\xFC")), maybe(r, 2, byte(124, 1 + r.below(63))),
             maybe(r, 5, byte(123, 1)), maybe(r, 10, long(157, 2000)), maybe(r, 10, byte(158, r.below(8)))]
    return group(kind, *parts)


def bar(r, kind):
    return group(kind, byte(88, 1 + r.below(4)), byte(46, r.below(20)), maybe(r, 2, byte(140, 1 + r.below(50))))


def traffic_endpoint(r, kind):
    return group(kind, byte(131, 1 + r.below(9)), f_teid(r), maybe(r, 2, network_instance(r)), maybe(r, 2, ue_ip_address(r)))


def removed(kind, inner, width):
    """Remove PDR and its fellows: a group with the rule's number."""
    return lambda r: group(kind, ie(inner, (1 + r.below(99)).to_bytes(width, "big")))


def usage_report(r, kind):
    parts = [long(81, 1 + r.below(99)), long(104, r.below(1000)), ie(63, bytes([1 << r.below(8), r.below(2) << 3])),
             maybe(r, 2, long(75, time(r)), long(76, time(r))), maybe(r, 1 + r.below(2), volumes(r, 66)),
             maybe(r, 2, long(67, r.below(86400))), maybe(r, 10, group(68, ie(24, b"app-" + r.pick(RULES)))),
             maybe(r, 8, ue_ip_address(r)), maybe(r, 4, long(69, time(r)), long(70, time(r))), maybe(r, 6, byte(90, 1))]
    return group(kind, *parts)


def pfd_contents(r):
    flags = r.pick([1, 1, 2, 4, 3, 5, 7, 8, 20, 33])
    parts = [(1, r.pick(FLOWS)), (2, r.pick(URLS)), (4, r.pick(HOSTS)), (8, b"custom"), (16, b"dns")]
    listed = counted(counted(r.pick(FLOWS)) + counted(r.pick(FLOWS))) if flags & 32 else b""
    return ie(61, bytes([flags, 0]) + b"".join(counted(text) for bit, text in parts if flags & bit) + listed)


def application_pfds(r):
    contexts = b"".join(group(59, *[pfd_contents(r) for _ in range(1 + r.below(3))]) for _ in range(1 + r.below(2)))
    return group(58, ie(24, b"app-" + str(r.below(1000)).encode()), contexts)


# ---------------------------------------------------------------- the bodies of messages

def heartbeat_request(r, size):
    return recovery_time_stamp(r) + maybe(r, 3, source_ip_address(r))


def heartbeat_response(r, size):
    return recovery_time_stamp(r)


def pfd_management_request(r, size):
    return b"".join(application_pfds(r) for _ in range(size)) + maybe(r, 8, node_id(r))


def short_response(r, size):
    return cause(r) + maybe(r, 4, offending(r)) + maybe(r, 4, node_id(r))


def setup(r, size):
    resources = b"".join(up_ip_resource(r) for _ in range(r.below(1 + size)))
    return recovery_time_stamp(r) + (up_features(r) + resources if r.below(2) else cp_features(r)) + \
        maybe(r, 8, ie(178, b"\2" + ipv4(r)))


def setup_request(r, size):
    return node_id(r) + setup(r, size)


def setup_response(r, size):
    return node_id(r) + cause(r) + setup(r, size)


def update_request(r, size):
    return node_id(r) + maybe(r, 2, up_features(r)) + maybe(r, 4, cp_features(r)) + \
        maybe(r, 4, byte(111, 1), byte(112, 0x21)) + b"".join(up_ip_resource(r) for _ in range(r.below(1 + size)))


def node_response(r, size):
    return node_id(r) + cause(r) + maybe(r, 4, up_features(r))


def node_alone(r, size):
    return node_id(r)


def node_report(r, size):
    peer = ie(103, b"\2" + ipv4(r)) if r.below(2) else ie(103, b"\1" + ipv6(r))
    return node_id(r) + byte(101, 1) + group(102, peer)


def node_set(r, size):
    """A Session Set Deletion Request: a node and its sets of sessions."""
    return node_id(r) + maybe(r, 2, ie(65, b"\2" + ipv4(r) + r.bytes(4)))


def apn(r):
    """APN/DNN, at times of length 0."""
    return ie(159, labels(r.pick(NAMES)) if r.below(6) else b"")


def flow_rules(r, flow, ue, name):
    """A flow's rules in both directions, from the access with its tunnel to the core and back, and its rates."""
    up, down, qfi = 2 * flow - 1, 2 * flow, byte(124, flow)
    number, links = long(109, flow), long(81, 1) + long(109, flow)
    traffic = sdf_filter(r) if flow > 1 else b""
    tunnel, peer = ie(21, b"\1" + r.bytes(4) + ipv4(r)), ie(84, b"\1\0" + r.bytes(4) + ipv4(r))
    from_access = group(2, byte(20, 0), tunnel, ie(22, name), ie(93, b"\2" + ue), traffic, qfi)
    from_core = group(2, byte(20, 1), ie(22, name), ie(93, b"\6" + ue), traffic)
    pdrs = group(1, short(56, up), long(29, 255 - flow), from_access, byte(95, 0), long(108, up), links) + \
        group(1, short(56, down), long(29, 255 - flow), from_core, long(108, down), links)
    fars = group(3, long(108, up), byte(44, 2), group(4, byte(42, 1), ie(22, name))) + \
        group(3, long(108, down), byte(44, 2), group(4, byte(42, 0), peer))
    return pdrs, fars, group(7, number, byte(25, 0), rates(r, 26), qfi)


def session(r, size):
    """A Session Establishment Request whose rules belong together, as most are."""
    ue, name = ipv4(r), labels(r.pick(NAMES))
    pdrs, fars, qers = zip(*[flow_rules(r, flow, ue, name) for flow in range(1, 1 + size)])
    usage = group(6, long(81, 1), byte(62, 2), ie(37, b"\2\0"), volumes(r, 31))
    return node_id(r) + f_seid(r) + b"".join(pdrs + fars) + usage + b"".join(qers) + byte(113, 1) + maybe(r, 3, ie(159, name))


def establishment_request(r, size):
    makers = [create_pdr, create_far, lambda r: urr(r, 6), lambda r: qer(r, 7)]
    rules = b"".join(create_pdr(r) + create_far(r) if i == 0 else r.pick(makers)(r) for i in range(size))
    return node_id(r) + f_seid(r) + rules + maybe(r, 5, bar(r, 85)) + maybe(r, 8, traffic_endpoint(r, 127)) + \
        maybe(r, 2, byte(113, r.pick([1, 2, 3, 5]))) + maybe(r, 4, long(117, 600)) + maybe(r, 6, user_id(r)) + \
        maybe(r, 12, trace()) + maybe(r, 4, apn(r)) + maybe(r, 8, ie(257, b"\1\0\0\1"))


def establishment_response(r, size):
    created = b"".join(group(8, short(56, 1 + r.below(999)), f_teid(r)) for _ in range(size))
    good = f_seid(r) + created + maybe(r, 5, load_control(r)) + maybe(r, 10, overload_control(r))
    return node_id(r) + (byte(19, 1) + good if r.below(5) else byte(19, 73) + maybe(r, 2, offending(r)) + failed_rule(r))


def modification_request(r, size):
    makers = [create_pdr, create_far, update_pdr, update_far, update_far, lambda r: urr(r, 13), lambda r: qer(r, 14),
              removed(15, 56, 2), removed(16, 108, 4), removed(17, 81, 4), removed(18, 109, 4), removed(77, 81, 4),
              lambda r: bar(r, 86), removed(87, 88, 1), lambda r: traffic_endpoint(r, 129), removed(130, 131, 1)]
    return maybe(r, 6, f_seid(r)) + b"".join(r.pick(makers)(r) for _ in range(size)) + \
        maybe(r, 3, byte(49, r.pick([1, 2, 4]))) + maybe(r, 6, long(125, r.below(1000))) + maybe(r, 8, long(117, 600))


def modification_response(r, size):
    reports = b"".join(usage_report(r, 78) for _ in range(r.below(1 + size)))
    return cause(r) + maybe(r, 6, offending(r)) + maybe(r, 4, group(8, short(56, 1), f_teid(r))) + \
        maybe(r, 6, load_control(r)) + reports + maybe(r, 8, failed_rule(r)) + maybe(r, 6, short(126, 0x8000 | r.below(9)))


def nothing(r, size):
    return b""


def deletion_response(r, size):
    return cause(r) + maybe(r, 8, overload_control(r)) + b"".join(usage_report(r, 79) for _ in range(r.below(1 + size)))


def report_request(r, size):
    """What is reported is what the bits of the Report Type say."""
    kinds = r.pick([1, 2, 2, 4, 8, 3])
    data = group(83, short(56, 1 + r.below(99)), maybe(r, 2, ie(45, b"\3\x09\x05"))) if kinds & 1 else b""
    usage = b"".join(usage_report(r, 80) for _ in range(size)) if kinds & 2 else b""
    error = group(99, ie(21, b"\1" + r.bytes(4) + ipv4(r))) if kinds & 4 else b""
    return byte(39, kinds) + data + usage + error + maybe(r, 8, load_control(r))


def report_response(r, size):
    return cause(r) + maybe(r, 4, bar(r, 12)) + maybe(r, 4, byte(50, 1))


# A message's type, what makes its body, how many of them there are, and the size of the largest.
KINDS = [(1, heartbeat_request, 12, 1), (2, heartbeat_response, 10, 1), (3, pfd_management_request, 40, 12),
         (4, short_response, 12, 1), (5, setup_request, 36, 8), (6, setup_response, 36, 8), (7, update_request, 30, 6),
         (8, node_response, 16, 1), (9, node_alone, 10, 1), (10, node_response, 12, 1), (12, node_report, 12, 1),
         (13, node_response, 8, 1), (14, node_set, 8, 1), (15, node_response, 8, 1), (50, session, 60, 4),
         (50, establishment_request, 110, 16), (51, establishment_response, 60, 10), (52, modification_request, 110, 16),
         (53, modification_response, 50, 6), (54, nothing, 8, 1), (55, deletion_response, 36, 6), (56, report_request, 50, 6),
         (57, report_response, 20, 1)]
# The large ones, of up to some 60 IEs.
LARGE = [(3, pfd_management_request, [16, 30]), (50, establishment_request, [20, 34, 48, 56]),
         (51, establishment_response, [25, 57]), (52, modification_request, [22, 36, 50, 60]),
         (53, modification_response, [40, 60]), (56, report_request, [24, 58])]
# How many messages of a careful sender there are; they are the last lines of the list.
CAREFUL = sum(count for _, _, count, _ in KINDS) + sum(len(sizes) for _, _, sizes in LARGE)


def message(r, kind, body):
    """The header and the body: with an SEID for sessions, now and then with a priority."""
    session = kind >= 50
    priority = 0x10 * r.below(16) if session and r.below(8) == 0 else None
    seid = (bytes(8) if kind == 50 else r.bytes(8)) if session else b""
    rest = seid + r.bytes(3) + bytes([priority or 0]) + body
    return struct.pack("!BBH", 0x20 | session | (priority is not None) << 1, kind, len(rest)) + rest


def extended(r, body):
    """Most bodies as they are, others with such IEs in front or behind that not every reader knows."""
    added = maybe(r, 6, extension(r)) + maybe(r, 8, extension(r))
    return body + added if r.below(3) else added + body


def good(r):
    for kind, maker, count, size in KINDS:
        for _ in range(count):
            yield message(r, kind, extended(r, maker(r, 1 + r.below(1 + r.below(size)))))
    for kind, maker, sizes in LARGE:
        for size in sizes:
            yield message(r, kind, extended(r, maker(r, size)))


# ---------------------------------------------------------------- damaged messages

# The smallest bodies of points that are known: one IE; lengths of zero; a vendor's lengths; cut ones; other insides; ends of
# ranges.
KNOWN = """
- 00600004E9A7D100 003C000500C0000201 01410001FF
00160000 00290000 009F0000 00130000 00000000 001300000013000101
80010000 800100000009 8001000000090013000101 800100010009 8001000100097F 800100020009 8002000248F9 8001000300097F
80010003 8001000300 800100030009 00 0013 001300 00130001 00130002FF 001300010100 001300010100600000
00130003010000 00600003E9A7D1 003C000200C0 00030006006C00020001 00010008003800020001001D
80000002FFFF 80000004000000FF FFFF0004FFFF0102 7FFF000101 0000000101
"""


def known():
    """Each behind the header of an Association Update Request."""
    for digits in KNOWN.split():
        body = b"" if digits == "-" else bytes.fromhex(digits)
        yield struct.pack("!BBHI", 0x20, 7, 4 + len(body), 0x100) + body


# IEs that may stand before and behind a damaged one.
PLAIN = [cause, node_id, f_seid, recovery_time_stamp, cp_features, create_far, f_teid, offending]


def beside(r, most=2):
    return b"".join(r.pick(PLAIN)(r) for _ in range(1 + r.below(most)))


def at_each_end(r, one):
    """An IE by itself, first, in the middle and last."""
    yield one
    yield one + beside(r)
    yield beside(r) + one + beside(r)
    yield beside(r) + one


def without_payload(r):
    """Lengths of zero: types that may have one, and others; and a vendor's lengths that are too small or just enough."""
    for kind in [22, 41, 159, 19, 44, 96, 57, 60, 3, 0, 350, 32767]:
        yield from at_each_end(r, ie(kind, b""))
    yield ie(19, b"") + ie(60, b"") + beside(r)
    yield ie(22, b"") + ie(159, b"") + beside(r)
    for length in (0, 1, 2):
        for enterprise in (9, 18681, 65535):
            yield from at_each_end(r, struct.pack("!HHH", 0x8001 + r.below(9), length, enterprise))


def cut(r):
    """The last IE cut everywhere, bytes behind that are no IE, and lengths past the end."""
    lasts = [cause(r), node_id(r), vendor(7, 9, r.bytes(4)), create_far(r), ie(340, r.bytes(3))]
    for last in lasts:
        for n in range(1, min(len(last), 16)):
            yield maybe(r, 2, beside(r)) + last[:n]
    for n in (1, 2, 3):
        for tail in (bytes(n), b"\xFF" * n, r.bytes(n)):
            yield beside(r) + tail
    for length in (0, 1, 2, 3, 200):
        for n in (0, 1):
            yield maybe(r, 2, beside(r)) + struct.pack("!HH", 0x8003, length) + bytes(n)
    for length in (20, 255, 4096, 65535):
        yield beside(r) + struct.pack("!HH", r.pick([19, 60, 3, 345]), length) + r.bytes(r.below(12))


def other_inside(r):
    """Payloads that their type doesn't fit: too short, too long, or a length that takes in the IEs behind."""
    shorts = [ie(60, b"\0\xC0"), ie(96, b"\xE9\xA7\xD1"), ie(57, b"\2\0\0"), ie(21, b"\1\0\0\0\7\xC0"), ie(108, b"\0\1"),
              group(3, long(108, 1), ie(44, b"\2")[:3]), group(3, ie(108, b"\0\1")), group(1, short(56, 1), b"\0\x1D")]
    longs = [ie(19, b"\1\0\0"), ie(104, bytes(6)), ie(40, b"\0\x3C\0"), ie(52, bytes(7)), ie(60, b"\0" + ipv4(r) + b"\1\2"),
             ie(96, struct.pack("!I", time(r)) + beside(r)), ie(19, b"\1" + beside(r))]
    for one in shorts + longs:
        yield from at_each_end(r, one)


def edges(r):
    """Types and enterprise numbers at the ends of their ranges, and bodies without an IE."""
    for kind in (0, 32767):
        yield from at_each_end(r, ie(kind, r.bytes(2)))
    for kind, enterprise in [(0, 0), (0x7FFF, 65535), (0x7FFF, 0), (22, 65535)]:
        yield from at_each_end(r, vendor(kind, enterprise, r.bytes(2)))


def damaged(r):
    for bodies in (without_payload, cut, other_inside, edges):
        for body in bodies(r):
            yield message(r, r.pick([5, 6, 50, 52, 53]), body)
    for kind in (1, 5, 7, 50, 52, 56):
        yield message(r, kind, b"")
