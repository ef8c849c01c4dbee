"""A certificate of what a live network says: the data sets that linuxptp's `pmc` shows, of several devices."""

import re
from dataclasses import dataclass, field
from typing import Iterator

from .documents import End, read_text
from .plans import clock_of
from .refusal import Refused

DATA_SETS = ("DEFAULT_DATA_SET", "CURRENT_DATA_SET", "PARENT_DATA_SET", "PORT_DATA_SET")
_RESPONSE = re.compile(r"\s*(?P<port>\S+) seq \d+ RESPONSE MANAGEMENT (?P<data_set>\S+)\s*")
_ROLES = {
    "MASTER": "master",
    "GRAND_MASTER": "master",
    "PRE_MASTER": "master",
    "SLAVE": "slave",
    "UNCALIBRATED": "slave",
    "PASSIVE": "passive",
    "DISABLED": "disabled",
    "FAULTY": "disabled",
    "INITIALIZING": "disabled",
    "LISTENING": "disabled",
}


@dataclass
class Device:
    """What a device says: its data sets, and those of its ports by number."""

    clock: str
    data_sets: dict[str, dict[str, str]] = field(default_factory=dict)
    ports: dict[int, dict[str, str]] = field(default_factory=dict)

    def value(self, data_set: str, name: str) -> str:
        """A member of a data set."""
        try:
            return self.data_sets[data_set][name]
        except KeyError:
            raise Refused(f"{self.clock} doesn't tell {name} of its {data_set}") from None

    def whole(self, data_set: str, name: str) -> int:
        """A member that is a number, decimal or hexadecimal."""
        try:
            return int(self.value(data_set, name), 0)
        except ValueError:
            raise Refused(f"{self.clock}: {name} of its {data_set} isn't a whole number") from None


def read(paths: list[str]) -> list[Device]:
    """The devices that answer in the files, by rising clock; of answers of one kind by one device the last counts."""
    devices: dict[str, Device] = {}
    for path in paths:
        for port, data_set, members in _responses(path):
            device = devices.setdefault(port.clock, Device(port.clock))
            if data_set == "PORT_DATA_SET":
                device.ports[port.port] = members
            else:
                device.data_sets[data_set] = members
    if not devices:
        raise Refused("no response of pmc in " + ", ".join(paths))
    return [devices[clock] for clock in sorted(devices)]


def _responses(path: str) -> Iterator[tuple[End, str, dict[str, str]]]:
    """Each response to one of the four questions: the port that sent it, the data set, and its members."""
    members: dict[str, str] | None = None
    for number, line in enumerate(read_text(path).splitlines(), 1):
        if found := _RESPONSE.fullmatch(line):
            port, members = _port(found["port"], f"{path}: line {number}"), {}
            if found["data_set"] in DATA_SETS:
                yield port, found["data_set"], members
        elif line.startswith("sending:"):
            members = None
        elif members is not None and len(words := line.split()) == 2:
            members[words[0]] = words[1]


def _port(text: str, source: str) -> End:
    """A port as linuxptp spells it: 001b21.fffe.000001-1."""
    spelled, _, number = text.rpartition("-")
    clock = clock_of(spelled)
    if clock is None or not re.fullmatch(r"[0-9]+", number):
        raise Refused(f"{source}: {text} isn't a port")
    return End(clock, int(number))


def certificate(devices: list[Device]) -> str:
    """The certificate of what the devices say."""
    lines = ["gptp-certificate 1"]
    for device in devices:
        lines += _system(device)
    return "\n".join([*lines, "end", ""])


def _system(device: Device) -> Iterator[str]:
    """The lines of a device and of its ports."""
    steps = device.whole("CURRENT_DATA_SET", "stepsRemoved")
    roles = {number: _role(device, number) for number in sorted(device.ports)}
    wanted = device.whole("DEFAULT_DATA_SET", "numberPorts")
    if list(roles) != list(range(1, wanted + 1)):
        raise Refused(f"{device.clock} tells the PORT_DATA_SET of {len(roles)} of its {wanted} ports")
    yield f"system {device.clock} root {_root(device)} steps {steps} parent {_parent(device, steps, roles)}"
    for number, role in roles.items():
        yield f"port {device.clock} {number} {role}"


def _role(device: Device, number: int) -> str:
    """A port's role by its portState."""
    state = device.ports[number].get("portState", "none")
    if state not in _ROLES:
        raise Refused(f"{device.clock}: port {number} has the portState {state}")
    return _ROLES[state]


def _root(device: Device) -> str:
    """The systemIdentity of the grandmaster."""
    name = "PARENT_DATA_SET"
    widths = (
        ("grandmasterPriority1", 2),
        ("gm.ClockClass", 2),
        ("gm.ClockAccuracy", 2),
        ("gm.OffsetScaledLogVariance", 4),
        ("grandmasterPriority2", 2),
    )
    clock = clock_of(device.value(name, "grandmasterIdentity"))
    if clock is None:
        raise Refused(f"{device.clock}: its grandmasterIdentity isn't a clock")
    return "".join(f"{device.whole(name, member):0{width}x}" for member, width in widths) + clock


def _parent(device: Device, steps: int, roles: dict[int, str]) -> str:
    """The own Slave port and the parent's port; none at a device that is the grandmaster."""
    parent = _port(device.value("PARENT_DATA_SET", "parentPortIdentity"), device.clock)
    if parent.clock == device.clock and steps == 0:
        return "none"
    slaves = [number for number, role in roles.items() if role == "slave"]
    if len(slaves) != 1:
        raise Refused(f"{device.clock} follows {parent.clock} and has {len(slaves)} Slave ports")
    return f"{slaves[0]} {parent.clock} {parent.port}"
