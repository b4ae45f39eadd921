"""The networks of tests/desk_outputs.py as TOML: odd names and scalings, what is refused, and what is worth a look."""

# Names like keywords, with dots, digits and underscores; texts that would end a comment or a string; factors of every kind.
ODD = r'''
title = "Odd */ names /* \"quoted\" ??/ \\ \u202e end"
tick_ms = 0.25
nodes = ["RHFront", "_9box"]

[ipdu."Frame.One"]
comment = "*/ #error /* ??/\n second line \\"
id = 0x1ABCDEF0
extended = true
sender = "RHFront"
receivers = ["_9box"]
size_in_bytes = 8
deadline_ms = 1

[ipdu.struct]
comment = "With no identifier"
sender = "_9box"
receivers = ["RHFront"]
size_in_bytes = 8
transmission_mode = "periodic"
time_period_ms = 0.5
deadline_ms = 0.5
receiver.RHFront = { deadline_ms = 1.5 }

[ipdu.VIN]
id = 0
receivers = ["RHFront", "_9box"]
size_in_bytes = 8

[message.CO2Level]
ipdu = "Frame.One"
start_bit = 0
size_in_bits = 10
signed = true
factor = 0.25
offset = -40
unit = "°C \"\\??=\t\u202e%d"
initial_value = -40.25

[message."Frame.Signal"]
ipdu = "Frame.One"
start_bit = 10
size_in_bits = 32
signed = true
factor = 0.0000001
offset = -180
initial_value_raw = -2147483648

[message.int]
ipdu = "Frame.One"
start_bit = 42
size_in_bits = 1

[message.State]
ipdu = "Frame.One"
start_bit = 43
size_in_bits = 4
signed = true
values = { -1 = "n/a", 0 = "Reserved", 1 = "reserved", 2 = "5 V", 3 = "öffnen", 4 = "%%", -5 = "RESERVED", 300 = "too far", -9 = "too low" }

[message.self]
ipdu = "Frame.One"
start_bit = 47
size_in_bits = 17
factor = 1e3
offset = 1E-3

[message.Falls]
ipdu = "struct"
start_bit = 0
size_in_bits = 8
factor = -0.5
offset = 20
initial_value = 20

[message._1]
ipdu = "struct"
start_bit = 15
size_in_bits = 9
byte_order = "big"
factor = -3

[message.whole__steps_]
ipdu = "struct"
start_bit = 24
size_in_bits = 32
factor = 3
offset = 7

[message.VIN]
comment = "Named like its I-PDU"
ipdu = "VIN"
start_bit = 0
size_in_bits = 32
initial_value_raw = 4294967295
receiver._9box = { initial_value = 5, queue_size = 3 }

[message.radAngle]
ipdu = "VIN"
start_bit = 32
size_in_bits = 16
signed = true
factor = 0.0174532925199433
unit = "rad"

[message.FarOff]
ipdu = "VIN"
start_bit = 48
size_in_bits = 16
factor = 0.000030517578125
offset = 1000000.1
unit = "m"

[message.Inner2Of]
receives = "CO2Level"

[message.match]
node = "_9box"
receives = "self"

[message.Alone]
node = "_9box"
signed = true
factor = 0.1

[message.Tiny]
node = "_9box"
direction = "received"
factor = 1e-28
'''

# A node with nothing at all, and one with an I-PDU and no message.
BARE = '''
tick_ms = 4294967.295
nodes = ["bare", "hears"]

[ipdu.Silent]
receivers = ["hears"]
size_in_bytes = 1
'''

SMALL = '''
title = "Small"
tick_ms = {tick}
nodes = {nodes}

[ipdu.{ipdu}]
id = 1
sender = "{sender}"
size_in_bytes = 8
deadline_ms = {tick}

[message.{first}]
ipdu = "{ipdu}"
start_bit = 0
size_in_bits = 8
factor = {factor}
values = {values}

[message.{second}]
ipdu = "{ipdu}"
start_bit = 8
size_in_bits = 8
'''


def refused_text(tick="10", nodes='["van"]', sender="van", ipdu="Frame", first="Door", second="Other", factor="1", values="{}"):
    return SMALL.format(tick=tick, nodes=nodes, sender=sender, ipdu=ipdu, first=first, second=second, factor=factor, values=values)


# What is changed, and the lines behind the file's name.
REFUSED = [
    ({"first": "FrontDoor", "second": "front_door"}, ["message.front_door: becomes VAN_FRONT_DOOR, and so does message.FrontDoor"]),
    ({"first": "Frame_Signal", "second": "\"Frame.Signal\""}, ["message.Frame.Signal: becomes VAN_FRAME_SIGNAL, and so does message.Frame_Signal"]),
    ({"second": "DoorUnit"}, ["message.DoorUnit: becomes VAN_DOOR_UNIT, and so does message.Door"]),
    ({"first": "Door_bits", "second": "Door"}, ["message.Door: becomes VAN_DOOR_BITS, and so does message.Door_bits"]),
    ({"ipdu": "Door", "second": "IPDU_Door_ID"}, ["message.IPDU_Door_ID: becomes VAN_IPDU_DOOR_ID, and so does ipdu.Door"]),
    ({"values": '{ 1 = "open" }', "second": "DoorOpen"},
     ["message.DoorOpen: becomes VAN_DOOR_OPEN, and so does message.Door.values, 1 = \"open\""]),
    ({"values": '{ 1 = "factor" }'}, ["message.Door.values, 1 = \"factor\": becomes VAN_DOOR_FACTOR, and so does message.Door"]),
    ({"values": '{ 1 = "a", 2 = "a", 3 = "a 1" }'},
     ["message.Door.values, 3 = \"a 1\": becomes VAN_DOOR_A_1, and so does message.Door.values, 1 = \"a\""]),
    ({"first": "Table", "second": "tick_us"}, ["message.Table: becomes VAN_TABLE, and so does what every header has",
                                               "message.tick_us: becomes VAN_TICK_US, and so does what every header has"]),
    ({"first": "_", "second": "Door"}, ["message._: \"_\" has no letter and no digit, so no constant can be named after it"]),
    ({"nodes": '["van", "VAN"]'}, ["nodes: van and VAN both become VAN_ in their headers"]),
    ({"nodes": '["INT32"]', "sender": "INT32", "second": "max"},
     ["nodes: \"INT32\" makes INT32_MAX of message.max, a macro of <stdint.h> or a name of birnenschloss.h"]),
    ({"nodes": '["birnenschloss"]', "sender": "birnenschloss"},
     ["nodes: \"birnenschloss\" makes BIRNENSCHLOSS_H of what every header has, a macro of <stdint.h> or a name of birnenschloss.h"]),
    ({"tick": "0.0005"}, ["tick_ms: is 0.0005; a header gives the tick in whole microseconds, 1 to 4294967295"]),
    ({"tick": "0.0125"}, ["tick_ms: is 0.0125; a header gives the tick in whole microseconds, 1 to 4294967295"]),
    ({"tick": "4294967.296"}, ["tick_ms: is 4294967.296; a header gives the tick in whole microseconds, 1 to 4294967295"]),
]

# Each reason for a look, and beside it what is close to it and right.
WARNED = '''
title = "A title that is far too long for one line of a report, so that it has to go on in a second line, and this one is as long as that, too"
tick_ms = 10
nodes = ["east", "west"]

[ipdu.Late]
sender = "east"
receivers = ["west"]
size_in_bytes = 8
time_period_ms = 100
deadline_ms = 110

[ipdu.Prompt]
sender = "east"
receivers = ["west"]
size_in_bytes = 8
time_period_ms = 100
deadline_ms = 100
receiver.west = { deadline_ms = 100 }

[ipdu.Fine]
sender = "east"
receivers = ["west"]
size_in_bytes = 1
transmission_mode = "mixed"
time_period_ms = 100
deadline_ms = 90
receiver.west = { deadline_ms = 110 }

[message.AName_That_Is_Much_Longer_Than_Any_Name_Of_A_Message_That_A_Person_Would_Choose_And_Longer_Than_A_Line_Of_The_Whole_Report_It_Is_In]
ipdu = "Late"
start_bit = 0
size_in_bits = 4

[message.Shared]
ipdu = "Late"
start_bit = 3
size_in_bits = 4
receiver.west = { filter = "Never" }

[message.Unheard]
ipdu = "Late"
start_bit = 8
size_in_bits = 4
receivers = []
initial_value_raw = 16

[message.Heard]
ipdu = "Late"
start_bit = 12
size_in_bits = 4
receivers = []
initial_value_raw = 15

[message.HeardInside]
receives = "Heard"

[message.Own]
ipdu = "Late"
node = "east"
start_bit = 16
size_in_bits = 4

[message.OwnHeard]
ipdu = "Late"
node = "west"
start_bit = 19
size_in_bits = 1

[ipdu.Paged]
sender = "east"
receivers = ["west"]
size_in_bytes = 4
deadline_ms = 100

[message.Page]
ipdu = "Paged"
start_bit = 0
size_in_bits = 4

[message.First]
ipdu = "Paged"
start_bit = 8
size_in_bits = 8
multiplexor = "Page"
multiplexor_value = 3
receiver.west = { queue_size = 2 }

[message.Other]
ipdu = "Paged"
start_bit = 8
size_in_bits = 8
multiplexor = "Page"
multiplexor_value = 4

[message.AlsoFirst]
ipdu = "Paged"
start_bit = 15
size_in_bits = 2
multiplexor = "Page"
multiplexor_value = 3

[message.InAll]
ipdu = "Paged"
start_bit = 16
size_in_bits = 1

[message.OtherAgain]
node = "west"
receives = "Other"
queue_size = 1

[message.FirstInside]
receives = "First"
queue_size = 1

[message.Cold]
ipdu = "Prompt"
start_bit = 0
size_in_bits = 4
signed = true
initial_value_raw = -9
values = { 7 = "warm", 8 = "hot" }
filter = { algorithm = "MaskedNewEqualsX", mask = 0x10, x = 0x10 }

[message.Cut]
ipdu = "Prompt"
start_bit = 8
size_in_bits = 4
filter = { algorithm = "MaskedNewEqualsX", mask = 0x10, x = 0x10 }

[message.Second]
node = "west"
receives = "Cold"

[message.Third]
node = "west"
receives = "Cold"
filter = { algorithm = "NewIsWithin", min = 8, max = 20 }
'''
LONG = "AName_That_Is_Much_Longer_Than_Any_Name_Of_A_Message_That_A_Person_Would_Choose_And_Longer_Than_A_Line_Of_The_Whole_Report_It_Is_In"
SHARED_PAGES = ["Paged: First and AlsoFirst share bit 15", "Paged: AlsoFirst and InAll share bit 16"]
KINDS = {"east": ["sent in Paged while Page is 3", "sent in Paged while Page is 4"],
         "west": ["received in Paged while Page is 3", "received in Paged while Page is 4"]}
WARNINGS = {
    "east": [
        "Late: its deadline of 110 ms is longer than its period of 100 ms",
        f"Late: {LONG} and Shared share bit 3",
        "Fine: none of the node's messages lies in it",
        *SHARED_PAGES,
        "Unheard: no node receives it",
        "Unheard: its initial value 16 does not fit 4 bits",
        "Cold: its initial value -9 does not fit 4 signed bits",
        "Cold: its named value 8, hot, does not fit 4 signed bits",
        "Cut: no value of 4 bits passes its filter MaskedNewEqualsX (mask 0x10, x 0x10)",
    ],
    "west": [
        "Late: it comes every 100 ms, and there is no deadline for it",
        f"Late: {LONG} and Shared share bit 3",
        "Prompt: its deadline of 100 ms is not longer than the sender's period of 100 ms",
        "Fine: none of the node's messages lies in it",
        *SHARED_PAGES,
        "Shared: its filter is Never, so nothing arrives",
        "First: its queue gets the values of all frames, also of those that do not hold it",
        "OtherAgain: its queue gets the values of all frames, also of those that do not hold it",
        "Second: its initial value -9 does not fit 4 signed bits",
        "Second: its named value 8, hot, does not fit 4 signed bits",
        "Third: its initial value -9 does not fit 4 signed bits",
        "Third: no value of 4 signed bits passes its filter NewIsWithin (min hot, max 20)",
        "Third: its named value 8, hot, does not fit 4 signed bits",
    ],
}
