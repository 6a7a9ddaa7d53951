"""`hart explain --json`: what was heard, and the object of each message and each miss."""

from rows.explain import MESSAGES
from rows import FailedWrite, Read

IDENTIFIES = '"address":"@0","burst":false,"expansion":"","command":0,"command_name":"read unique identifier","data":"",' \
    '"fields":{},"ignored":"","problem":null'
WRITES = '"address":"37420A1B2C","burst":false,"expansion":"","command":19,"command_name":"write final assembly number"'
SEEMS_IDENTIFY = '"seems":{"kind":"request","master":"primary","address":"@0","command":0,"command_name":"read unique identifier"}'
SEEMS_WRITE = '"seems":{"kind":"request","master":"primary","address":"37420A1B2C","command":19,' \
    '"command_name":"write final assembly number"}'
NUMBER = '"data":"012345","fields":{"final_assembly_number":"012345"},"ignored":"","problem":null'


def identify(start, sending=1, master="primary", time="", preambles=2):
    """The object of a request of Command 0 that begins at a place."""
    return (f'{{"type":"message",{time}"start":{start},"stop":{start + 5},"preambles":{preambles},"kind":"request","master":"{master}",'
            f'{IDENTIFIES},"sending":{sending}}}\n')


def write(start, sending):
    """The object of the request of Command 19."""
    return (f'{{"type":"message","start":{start},"stop":{start + 12},"preambles":2,"kind":"request","master":"primary",{WRITES},{NUMBER},'
            f'"sending":{sending}}}\n')


def written(start, answers):
    """The object of the reply to it."""
    return (f'{{"type":"message","start":{start},"stop":{start + 14},"preambles":2,"kind":"reply","master":"primary",{WRITES},'
            '"status":"0040","response_code":0,"response":"success","device_status":["configuration changed"],"communication_faults":null,'
            f'{NUMBER},"answers":{answers}}}\n')


# The members about the status bytes, in the objects of replies without data.
STATUS = {
    "0700": '"response_code":7,"response":"in write protect mode","device_status":[],"communication_faults":null',
    "2000": '"response_code":32,"response":"busy","device_status":[],"communication_faults":null',
    "8800": '"response_code":null,"response":null,"device_status":null,"communication_faults":["longitudinal parity"]',
}


def left(start, status, answers):
    """The object of a reply to it that has only these status bytes."""
    return (f'{{"type":"message","start":{start},"stop":{start + 11},"preambles":2,"kind":"reply","master":"primary",{WRITES},'
            f'"status":"{status}",{STATUS[status]},"data":"","fields":{{}},"ignored":"","problem":null,"answers":{answers}}}\n')


def unlisted(start, status, answers):
    """The object of such a reply that has Command 127."""
    return left(start, status, answers).replace('"command":19,"command_name":"write final assembly number"', '"command":127,"command_name":null')


IDENTIFY = identify(2)
BY_PRIMARY, BY_SECONDARY = "FF FF 02 80 00 00 82 ", "FF FF 02 00 00 00 02 "
WRITE = "FF FF 82 B7 42 0A 1B 2C 13 03 01 23 45 3D "
BUSY, BUSY_ELSEWHERE = "FF FF 86 B7 42 0A 1B 2C 13 02 20 00 7F ", "FF FF 86 B7 42 0A 1B 2D 13 02 20 00 7E "
FAULTY, REFUSED = "FF FF 86 B7 42 0A 1B 2C 13 02 88 00 D7 ", "FF FF 86 B7 42 0A 1B 2C 13 02 07 00 58 "
# In the first two replies the device heard Command 127. The third is of another device.
HEARD_WRONG, BUSY_WRONG = "FF FF 86 B7 42 0A 1B 2C 7F 02 88 00 BB ", "FF FF 86 B7 42 0A 1B 2C 7F 02 20 00 13 "
FAULTY_ELSEWHERE = "FF FF 86 B7 42 0A 1B 2D 13 02 88 00 D6 "
WRITTEN = "FF FF 86 B7 42 0A 1B 2C 13 05 00 40 01 23 45 7F "
# What comes before the data in a reply to Command 12, and in a request of Command 22.
MESSAGE = '{"type":"message","start":2,"stop":37,"preambles":2,"kind":"reply","master":"primary","address":"37420A1B2C","burst":false,' \
    '"expansion":"","command":12,"command_name":"read message","status":"0000","response_code":0,"response":"success","device_status":[],' \
    '"communication_faults":null,'
LONG_TAG = '{"type":"message","start":2,"stop":43,"preambles":2,"kind":"request","master":"primary","address":"37420A1B2C","burst":false,' \
    '"expansion":"","command":22,"command_name":"write long tag",'

# The message with the longest object: a date of quotes, expansion bytes, each bit of the device status, an identity, and the most
# ignored bytes that are possible.
IGNORED = "22" * 231
LONGEST = (
    "@" + '"' * 32 + " FF FF E6 F7 42 0A 1B 2C 55 AA 55 15 FF 00 FF FE 37 42 05 07 01 02 18 00 0A 1B 2C 05 04 00 01 00 00 37 00 37 01"
    + f" {IGNORED} 5D",
    '{"type":"message","time":"' + '\\"' * 32 + '","start":2,"stop":269,"preambles":2,"kind":"reply","master":"primary",'
    '"address":"37420A1B2C","burst":true,"expansion":"55AA55","command":21,'
    '"command_name":"read unique identifier associated with long tag","status":"00FF","response_code":0,"response":"success",'
    '"device_status":["device malfunction","configuration changed","cold start","more status available",'
    '"loop current fixed","loop current saturated","non-primary variable out of limits",'
    '"primary variable out of limits"],'
    f'"communication_faults":null,"data":"FE37420507010218000A1B2C05040001000037003701{IGNORED}","fields":{{"first_byte":254,'
    '"expanded_device_type":"3742","preamble_bytes_of_a_request":5,"protocol_revision":7,"device_revision":1,"software_revision":2,'
    '"hardware_revision_and_signalling_code":"18","flags":"00","device_id":"0A1B2C","preamble_bytes_of_a_response":5,'
    '"greatest_number_of_device_variables":4,"configuration_change_counter":1,"extended_device_status":"00","manufacturer":55,'
    f'"private_label_distributor":55,"device_profile":1}},"ignored":"{IGNORED}","problem":null,"answers":null}}\n',
    "",
)

# What was heard, the objects, and the line of the fault, if there is one.
ROWS = (
    ("", "", ""),
    ("FF FF", "", ""),
    LONGEST,
    (BY_PRIMARY, IDENTIFY, ""),
    # Sendings of the same request are counted separately for each master. Silences and misses neither count nor end the count.
    (
        BY_PRIMARY + BY_SECONDARY + BY_PRIMARY + "/" + BY_PRIMARY + BY_SECONDARY + "FF FF 02 80 00 00 83 " + BY_PRIMARY,
        identify(2) + identify(9, 1, "secondary") + identify(16, 2) + identify(23, 3) + identify(30, 2, "secondary")
        + f'{{"type":"miss","start":37,"place":37,"reason":"bad_check","at":41,"byte":"83","fits":"82",{SEEMS_IDENTIFY}}}\n'
        + identify(44, 4),
        "",
    ),
    # A reply answers the last sending, and a second reply answers nothing. A request after a reply counts as a first sending.
    (
        WRITE + WRITE + WRITTEN + WRITTEN + WRITE + BY_PRIMARY + WRITTEN,
        write(2, 1) + write(16, 2) + written(30, 16) + written(46, "null") + write(62, 1) + identify(76) + written(83, "null"),
        "",
    ),
    # A busy reply to a request leaves it open, and so does a communication-fault reply from its address, whatever command the device heard.
    # A reply of another device, or with another code, does not.
    (
        WRITE + BUSY + WRITE + FAULTY + FAULTY + WRITE + BUSY_ELSEWHERE + WRITE + REFUSED + WRITE,
        write(2, 1) + left(16, "2000", 2) + write(29, 2) + left(43, "8800", 29) + left(56, "8800", "null") + write(69, 3)
        + left(83, "2000", "null").replace("0A1B2C", "0A1B2D") + write(96, 1) + left(110, "0700", 96) + write(123, 1),
        "",
    ),
    (
        WRITE + HEARD_WRONG + WRITE + BUSY_WRONG + WRITE + FAULTY_ELSEWHERE + WRITE,
        write(2, 1) + unlisted(16, "8800", "null") + write(29, 2) + unlisted(43, "2000", "null") + write(56, 1)
        + left(70, "8800", "null").replace("0A1B2C", "0A1B2D") + write(83, 1),
        "",
    ),
    # A request with the burst bit set is a different request, so its sendings are counted anew.
    (
        BY_PRIMARY + "FF FF 02 C0 00 00 C2 " + BY_PRIMARY,
        identify(2) + identify(9).replace('"burst":false', '"burst":true') + identify(16),
        "",
    ),
    # Preamble bytes: some, as many as are never held at once, and those after a check byte FF, a damaged character and a silence.
    ("FF 00" + " FF" * 5 + " 02 80 00 00 82", identify(7, preambles=5), ""),
    ("FF" * 9000 + BY_PRIMARY + "FF" * 300 + BY_PRIMARY, identify(9002, preambles=9002) + identify(9309, 2, preambles=302), ""),
    (
        "FF FF 02 80 7D 00 FF FF FF FF 02 80 00 00 82 FF!40 FF FF FF 02 80 00 00 82 FF/FF FF 02 80 00 00 82",
        identify(2).replace('"command":0,"command_name":"read unique identifier"', '"command":125,"command_name":null')
        + identify(10, preambles=3) + identify(19, 2, preambles=3) + identify(27, 3),
        "",
    ),
    # A date is a string, in which quotes and backslashes are escaped.
    ('@"\\a ' + BY_PRIMARY, identify(2, time='"time":"\\"\\\\a",'), ""),
    ("@a FF FF @b 02 @c 80 00 00 82", identify(2, time='"time":"b",'), ""),
    ("@a FF FF 82 B7/", '{"type":"miss","time":"a","start":2,"place":2,"reason":"ends_before_byte_count","seems":null}\n', ""),
    # Each character of a packed text.
    (
        "FF FF 86 B7 42 0A 1B 2C 0C 1A 00 00 00 10 83 10 51 87 20 92 8B 30 D3 8F 41 14 93 51 55 97 61 96 9B 71 D7 9F 58",
        MESSAGE + '"data":"00108310518720928B30D38F41149351559761969B71D79F","fields":{"message":"@ABCDEFGHIJKLMNOPQRSTUVWXYZ[\\\\]^_"},'
        '"ignored":"","problem":null,"answers":null}\n',
        "",
    ),
    (
        "FF FF 86 B7 42 0A 1B 2C 0C 1A 00 00 82 18 A3 92 59 A7 A2 9A AB B2 DB AF C3 1C B3 D3 5D B7 E3 9E BB F3 DF BF 58",
        MESSAGE + '"data":"8218A39259A7A29AABB2DBAFC31CB3D35DB7E39EBBF3DFBF","fields":{"message":" !\\"#$%&\'()*+,-./0123456789:;<=>?"},'
        '"ignored":"","problem":null,"answers":null}\n',
        "",
    ),
    # A Latin-1 text is written in UTF-8.
    (
        "FF FF 82 B7 42 0A 1B 2C 16 20 A0 A1 A2 A3 A4 A5 A6 A7 A8 A9 AA AB AC AD AE AF B0 B1 B2 B3 B4 B5 B6 B7 B8 B9 BA BB BC BD BE BF 7C",
        LONG_TAG + '"data":"A0A1A2A3A4A5A6A7A8A9AAABACADAEAFB0B1B2B3B4B5B6B7B8B9BABBBCBDBEBF","fields":{"long_tag":"'
        + "".join(map(chr, range(0xA0, 0xC0))) + '"},"ignored":"","problem":null,"sending":1}\n',
        "",
    ),
    (
        "FF FF 82 B7 42 0A 1B 2C 13 03 01!40 23 45 3D",
        f'{{"type":"miss","start":2,"place":2,"reason":"faulty","at":10,"faults":"40",{SEEMS_WRITE}}}\n',
        "",
    ),
    (
        "FF FF 82 B7 42 0A 1B 2C 13 FF 01",
        f'{{"type":"miss","start":2,"place":2,"reason":"missing","count":255,{SEEMS_WRITE}}}\n',
        "",
    ),
    (BY_PRIMARY + "0G", IDENTIFY, "bad hex at 21\n"),
    ("FF FF @ FF", "", "bad hex at 6\n"),
)

# An input after which a read fails.
FAILED_READS = (
    ("", "", "read fault\n"),
    (BY_PRIMARY, IDENTIFY, "read fault\n"),
    (BY_PRIMARY.rstrip(), f'{{"type":"miss","start":2,"place":2,"reason":"missing","count":1,{SEEMS_IDENTIFY}}}\n', "read fault\n"),
)

# What was heard as raw bytes.
RAW_ROWS = (
    (b"", "", ""),
    (bytes.fromhex(BY_PRIMARY * 2), identify(2) + identify(9, 2), ""),
    (b"\xff" * 20000 + bytes.fromhex(BY_PRIMARY), identify(20002, preambles=20002), ""),
    (b"@a /" + bytes.fromhex(BY_PRIMARY), identify(6), ""),
)

ONE_PREAMBLE = f'{{"type":"miss","start":8,"place":8,"reason":"one_preamble",{SEEMS_IDENTIFY}}}\n'

# As in rows.explain.
FAILED_WRITES = (
    FailedWrite(MESSAGES, write=0, reads=21),
    FailedWrite(MESSAGES, write=1, reads=39, written=IDENTIFY),
    FailedWrite(MESSAGES, most_written=1, write=20, reads=21, written=IDENTIFY[:20]),
    FailedWrite("FF FF 82 B7/FF FF FF ", write=0, reads=12),
)

# Like `FAILED_WRITES`, for raw bytes.
RAW_FAILED_WRITES = (
    FailedWrite(bytes.fromhex(MESSAGES), write=0, reads=7),
    FailedWrite(bytes.fromhex(MESSAGES), write=1, reads=13, written=IDENTIFY),
)

# As in rows.explain.
READS = (
    Read(MESSAGES, reads=40, writes=2, written=IDENTIFY + ONE_PREAMBLE),
    Read(MESSAGES, most_read=None, reads=2, writes=1, written=IDENTIFY + ONE_PREAMBLE),
    Read("FF FF 02 80 00 00 82 8G FF FF 02 00 00 00 02 ", fault="bad hex at 21\n", reads=23, writes=1, written=IDENTIFY),
)
