"""What tests/desk_database.py looks at: TOML files with names that the database does not have. Lines after those of database_cases.TOML, and what is said."""
from database_cases import FRAME, SIGNAL

STATUS = SIGNAL.replace("Signal", "Status")
LINES = [FRAME.replace("Frame", "CargoClimate"), SIGNAL.replace("Signal", "HumFront"), STATUS, FRAME.replace("100 Frame", "101 HvacStatus"), STATUS]
ALONE = 'ipdu = "CargoClimate"\nstart_bit = 8\nsize_in_bits = 8\n'
NO_FRONT = 'the database has no message "HumFornt"; did you mean "HumFront"?'
QUOTES = "a name with a dot is written in quotes"
UNKNOWN_NAMES = [
    ('[message.HumFornt]\nunit = "%"\n', [f"a.toml: message.HumFornt: {NO_FRONT}"]),
    (f"[message.HumFornt]\n{ALONE}", []),
    ('[message.HumFornt]\nreceives = "HumFront"\n', []),
    ('[message.HumFornt]\nnode = "VAN"\n', []),
    ('[message."CargoClimate.HumFornt"]\n',
     ['a.toml: message.CargoClimate.HumFornt: the database has no message "CargoClimate.HumFornt"; did you mean "CargoClimate.HumFront"?']),
    ("[message.Light]\n", ['a.toml: message.Light: the database has no message "Light"']),
    ("[message.Status]\n", ['a.toml: message.Status: stands in several frames: write "CargoClimate.Status" or "HvacStatus.Status"']),
    ('[message."CargoClimate.Status"]\n[message."CargoClimate.HumFront"]\n', []),
    ('[message.CargoClimate.Status]\nunit = "%"\n[message.CargoClimate.HumFront]\n',
     [f'a.toml: message.CargoClimate.Status: {QUOTES}: [message."CargoClimate.Status"]',
      f'a.toml: message.CargoClimate.HumFront: {QUOTES}: [message."CargoClimate.HumFront"]']),
    ("[message.CargoClimate.receiver.CASE]\n",
     ['a.toml: message.CargoClimate: the database has no message "CargoClimate"; did you mean "CargoClimate.Status"?']),
    ("[ipdu.CargoClimat]\n", ['a.toml: ipdu.CargoClimat: the database has no I-PDU "CargoClimat"; did you mean "CargoClimate"?']),
    ("[ipdu.Status]\n", ['a.toml: ipdu.Status: the database has no I-PDU "Status"; did you mean "HvacStatus"?']),
    ("[ipdu.Own]\nsize_in_bytes = 2\n", []),
    ("[ipdu.Own]\n[message.HumFornt]\n[message.Light]\nqueue = 1\n",
     ['a.toml: ipdu.Own: the database has no I-PDU "Own"', f"a.toml: message.HumFornt: {NO_FRONT}",
      'a.toml: message.Light: the database has no message "Light"']),
]

# Of the nodes of a TOML the second and what stands below, and what is said.
UNKNOWN_NODES = [
    ('"CASE"', "", []),
    ('"CAES"', "", ['a.toml: nodes: there is no node "CAES" in a.dbc; did you mean "CASE"?']),
    ('"ROOF", "GATEWY"', "", ['a.toml: nodes: there is no node "ROOF" in a.dbc', 'a.toml: nodes: there is no node "GATEWY" in a.dbc; did you mean "GATEWAY"?']),
    ('"ROOF"', 'outside = ["ROOF"]\n', ['a.toml: nodes: there is no node "ROOF" in a.dbc']),
    ('"ROOF"', '[ipdu.Own]\nsize_in_bytes = 1\nsender = "ROOF"\n', []),
    ('"ROOF"', '[ipdu.HvacStatus]\nreceivers = ["ROOF", "CASE"]\n', []),
    ('"ROOF"', "[ipdu.HvacStatus]\nreceiver.ROOF.deadline_ms = 100\n", []),
    ('"ROOF"', '[ipdu.Own]\nsize_in_bytes = 1\n[message.Bit]\nipdu = "Own"\nstart_bit = 0\nsize_in_bits = 1\nreceivers = ["ROOF"]\n', []),
    ('"ROOF"', '[message.Own]\nnode = "ROOF"\n', []),
    ('"ROOF"', "[message]\nOwn = 3\n[ipdu.HvacStatus]\nreceivers = 3\n", ['a.toml: nodes: there is no node "ROOF" in a.dbc']),
]
