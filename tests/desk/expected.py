"""What a node's header has to say, worked out from the TOML alone, with nothing of tools/desk: for tests/desk_outputs.py."""
import tomllib
from dataclasses import dataclass
from decimal import Decimal
from fractions import Fraction

# The constant of each name, by hand.
NAMES = {
    "van": "VAN", "case": "CASE", "Humidity": "HUMIDITY", "Cargo": "CARGO", "Case": "CASE", "FrontHumidity": "FRONT_HUMIDITY",
    "RearHumidity": "REAR_HUMIDITY", "Door": "DOOR", "CaseLight": "CASE_LIGHT", "Shock": "SHOCK", "WantedHumidity": "WANTED_HUMIDITY",
    "FrontDisplay": "FRONT_DISPLAY", "Freezer": "FREEZER", "FreezerDisplay": "FREEZER_DISPLAY", "CaseFreezer": "CASE_FREEZER",
    "RHFront": "RH_FRONT", "_9box": "N9BOX", "bare": "BARE", "Frame.One": "FRAME_ONE", "struct": "STRUCT", "VIN": "VIN", "CO2Level": "CO2_LEVEL",
    "Frame.Signal": "FRAME_SIGNAL", "int": "INT", "self": "SELF", "_1": "N1", "Falls": "FALLS", "radAngle": "RAD_ANGLE", "whole__steps_": "WHOLE_STEPS",
    "State": "STATE", "Inner2Of": "INNER2_OF", "Alone": "ALONE", "match": "MATCH", "FarOff": "FAR_OFF", "hears": "HEARS", "Silent": "SILENT", "Tiny": "TINY",
}
# The named values that have a constant, by message, by hand.
VALUES = {
    "Door": {"DOOR_CLOSED": 0, "DOOR_OPEN": 1},
    "State": {"STATE_N_A": -1, "STATE_RESERVED_0": 0, "STATE_RESERVED_1": 1,
              "STATE_5_V": 2, "STATE_OFFNEN": 3, "STATE_VALUE_4": 4, "STATE_RESERVED_MINUS_5": -5},
}


@dataclass
class Thing:
    """A message object of a node: number, the section that says what its values mean, its bits, and who has what."""

    number: int
    name: str
    constant: str
    bits: int
    signed: bool
    factor: Fraction
    offset: Fraction
    unit: str
    initial: int

    def least(self):
        return -(1 << self.bits - 1) if self.signed else 0

    def greatest(self):
        return (1 << self.bits - self.signed) - 1


class Expected:
    """A node of a TOML text."""

    def __init__(self, text, node):
        self.data, self.node = tomllib.loads(text, parse_float=Decimal), node
        self.ipdus, self.messages = self.data.get("ipdu", {}), self.data.get("message", {})
        self.own_ipdus = [name for name, ipdu in self.ipdus.items() if node == ipdu.get("sender") or node in self.receivers(ipdu)]
        self.things = []
        for name, message in self.messages.items():
            if self.has(name, message):
                self.things.append(self.thing(name, message))

    @staticmethod
    def receivers(ipdu):
        return ipdu.get("receivers", list(ipdu.get("receiver", {})))

    def sender(self, message):
        return message["node"] if "ipdu" not in message else self.ipdus[message["ipdu"]].get("sender")

    def has(self, name, message):
        if "receives" in message:
            return self.node == message.get("node", self.sender(self.messages[message["receives"]]))
        if "node" in message:
            return self.node == message["node"]
        ipdu = self.ipdus[message["ipdu"]]
        second = any(other.get("receives") == name and other.get("node") == self.node for other in self.messages.values())
        return self.node == ipdu.get("sender") or (self.node in message.get("receivers", self.receivers(ipdu)) and not second)

    def thing(self, name, message):
        of = self.messages[message["receives"]] if "receives" in message else message
        inside = "receives" in message and self.node == self.sender(of)
        factor, offset = Fraction(of.get("factor", 1)), Fraction(of.get("offset", 0))
        initial = 0
        for section in (of, message, message.get("receiver", {}).get(self.node, {})):
            if "initial_value" in section:
                initial = int((Fraction(section["initial_value"]) - offset) / factor)
            initial = section.get("initial_value_raw", initial)
        return Thing(len(self.things), name, NAMES[name], 32 if inside or "ipdu" not in of else of["size_in_bits"], of.get("signed", False), factor, offset,
                     of.get("unit", ""), initial)

    def constants(self):
        """By name: how it is printed, and what is printed."""
        found = {"TICK_US": ("whole", int(Fraction(self.data["tick_ms"]) * 1000))}
        found |= {"IPDUS": ("whole", len(self.own_ipdus)), "OBJECTS": ("whole", len(self.things))}
        for number, name in enumerate(self.own_ipdus):
            ipdu, constant = self.ipdus[name], "IPDU_" + NAMES[name]
            found |= {constant: ("number", number), constant + "_LENGTH": ("whole", ipdu["size_in_bytes"])}
            if "id" in ipdu:
                found |= {constant + "_ID": ("whole", ipdu["id"]), constant + "_EXTENDED": ("whole", int(ipdu.get("extended", False)))}
        for thing in self.things:
            name = thing.constant
            found |= {name: ("number", thing.number), name + "_FACTOR": ("real", float(thing.factor)), name + "_OFFSET": ("real", float(thing.offset)),
                      name + "_UNIT": ("text", thing.unit), name + "_BITS": ("whole", thing.bits), name + "_LEAST": ("whole", thing.least()),
                      name + "_GREATEST": ("whole", thing.greatest()), name + "_INITIAL": ("whole", thing.initial)}
            found |= {value: ("whole", raw) for value, raw in VALUES.get(thing.name, {}).items()}
        return found
