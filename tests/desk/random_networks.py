"""Random networks as TOML files, for tests: I-PDUs of all modes; messages of all sizes, orders and signs, with scalings, queues, filters and multiplexors."""
import random

from desk import bits

NODES = ["VAN", "CASE", "DOOR"]
FACTORS = ["1", "0.1", "0.25", "2", "-0.5", "0.000001", "12345.678"]
OFFSETS = ["0", "-40", "0.5", "1000"]
UNITS = ["", "%", "°C", "lx", "g/m³", "km/h"]
FILTERS = ["", 'filter = "NewIsDifferent"', 'filter = { algorithm = "OneEveryN", period = 3, offset = 1 }', 'filter = "Never"']


def random_message(name, ipdu, length, sender, receivers, for_all):
    """The lines of a message, which has all the receivers or perhaps the first alone or none: it is the sender's own. With the greatest value of its bits."""
    size = random.randint(1, min(32, 8 * length))
    big, signed = random.random() < 0.5, random.random() < 0.5
    start = random.choice([start for start in range(8 * length) if bits.fits(start, size, big, length)])
    lines = [f'[message."{name}"]', f'ipdu = "{ipdu}"', f"start_bit = {start}", f"size_in_bits = {size}", f'byte_order = "{"big" if big else "little"}"']
    lines += [f"signed = {str(signed).lower()}", f"factor = {random.choice(FACTORS)}", f"offset = {random.choice(OFFSETS)}"]
    lines += [f'unit = "{random.choice(UNITS)}"', random.choice(FILTERS)]
    lines.append(f"initial_value_raw = {random.choice([0, random.randint(bits.least(size, signed), bits.greatest(size, signed))])}")
    lines.append(random.choice(["", 'transfer_property = "pending"', 'transfer_property = "triggered"']))
    lines.append(random.choice(["", 'values = { 0 = "off", 1 = "on" }', 'comment = "It says \\"on\\"; or so"']))
    if not for_all and random.random() < 0.15:
        lines.append(f'node = "{sender}"')
    elif receivers:
        lines.append(random.choice(["", f"receiver.{receivers[0]} = {{ queue_size = 3 }}"]))
        lines.append("" if for_all else random.choice(["", f'receivers = ["{receivers[0]}"]']))
    return lines, bits.greatest(size, signed)


def random_ipdu(name, identifier, tick):
    """Its lines, length, sender and receivers."""
    sender = random.choice(NODES)
    receivers = random.sample([node for node in NODES if node != sender], random.randint(0, 2))
    length, extended = random.randint(1, 8), random.random() < 0.3
    mode = random.choice(["direct", "periodic", "mixed"])
    lines = [f"[ipdu.{name}]", f'sender = "{sender}"', f"receivers = {receivers}", f"size_in_bytes = {length}"]
    lines += [f"id = {identifier + (0x18FF0000 if extended else 0)}", f"extended = {str(extended).lower()}"]
    lines += [f'transmission_mode = "{mode}"', f"deadline_ms = {5 * tick}"]
    if mode != "direct":
        lines += [f"time_period_ms = {random.randint(1, 100) * tick}", random.choice(["", f"time_offset_ms = {random.randint(1, 100) * tick}"])]
    if mode != "periodic":
        lines.append(f"minimum_delay_time_ms = {random.randint(0, 20) * tick}")
    return lines, length, sender, receivers


def random_toml():
    """A TOML file. The first messages of its I-PDUs share the name that a DBC gives them; they are the multiplexors of some others."""
    tick = random.choice([1, 5, 10, 0.5])
    lines = [f"tick_ms = {tick}", f"nodes = {NODES}"]
    for number in range(random.randint(1, 6)):
        ipdu, length, sender, receivers = random_ipdu(f"Frame{number}", 0x100 + number, tick)
        first, most = random_message(f"Frame{number}.Shared", f"Frame{number}", length, sender, receivers, True)
        lines += ipdu + first
        for count in range(1, random.randint(1, 6)):
            lines += random_message(f"Signal{number}_{count}", f"Frame{number}", length, sender, receivers, False)[0]
            if random.random() < 0.3:
                lines += [f'multiplexor = "Frame{number}.Shared"', f"multiplexor_value = {random.randint(0, most)}"]
    return "\n".join(lines) + "\n"
