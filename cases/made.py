"""The files in made/ that cases name: long ones, which a few lines tell."""
from pathlib import Path

EXAMPLES = Path(__file__).resolve().parent.parent / "examples"

# sections of networks: Syncs are rare; a bridge keeps a Sync for 10 ms
RARE_SYNCS = "sync = 4\n"
SLOW_BRIDGES = "residence = 10_000_000\n"

# as inexact as a calm document can be
INEXACT = """announce = 2
pdelay = 2
sync = 1
threshold = 1_000_000_000
turnaround = 1_000_000_000
residence = 1_000_000_000
"""

# frequent messages
FREQUENT = """announce = -4
sync = -2
pdelay = -4
lost = 1
residence = 1_000_000
"""

# the drift of the fastest clock
FASTEST = 219_902_325


def clock(number):
    return f"{number:016x}"


def identity(number):
    """With all defaults."""
    return f"f6f8fe436af8{number:016x}"


def link(a, a_port, b, b_port, least, most):
    ends = f'a = "{clock(a)}"\na_port = {a_port}\nb = "{clock(b)}"\nb_port = {b_port}\n'
    return f"[[link]]\n{ends}min = {least}\nmax = {most}\n"


def line(systems, network=RARE_SYNCS, least=500, most=500, drift=None):
    """Systems in a line, with clocks from 1, over links of these delays. Their clocks drift either way in turn."""
    text = f"version = 1\n[network]\n{network}"
    for number in range(1, systems + 1):
        text += f'[[system]]\nclock = "{clock(number)}"\nports = 2\n'
        if drift is not None:
            text += f"drift = {drift if number % 2 == 0 else -drift}\n"
    for number in range(1, systems):
        text += link(number, 2, number + 1, 1, least, most)
    return text


def star():
    """A system with sixteen ports, each joined to a system of its own: with clocks from 1, that in the middle first."""
    text = "version = 1\n"
    for number in range(1, 18):
        text += f'[[system]]\nclock = "{clock(number)}"\nports = {16 if number == 1 else 1}\n'
    return text + "".join(link(1, port, port + 1, 1, 500, 500) for port in range(1, 17))


def line_that_breaks():
    """257 systems, of which the one with clock 255 fails at 10 s."""
    return f'{line(257)}[[event]]\nat = 10000000000\nkind = "fail"\nclock = "{clock(255)}"\n'


def vehicle():
    """The example."""
    return (EXAMPLES / "vehicle.toml").read_text()


def vehicle_with_clocks(goes_on):
    """The example with clocks that drift, and that of the gateway 2 ms ahead; all systems may go on with their time."""
    text, systems = vehicle().split("[[system]]\n", 1)[0], vehicle().split("[[system]]\n")[1:]
    for system, millionths in zip(systems, (-10, 30, -50, 80, -90, 60), strict=True):
        phase = "phase = 2_000_000\n" if millionths == 30 else ""
        continues = "continues = true\n" if goes_on else ""
        text += f"[[system]]\n{phase}drift = {2_199_023 * millionths}\n{continues}{system}"
    return text


def vehicle_with_timeout():
    """The example, where what a Slave port holds lapses after three sync intervals without time."""
    return vehicle().replace("\ntimeout = 3", "\nsync_timeout = 3\ntimeout = 3", 1)


def root(number, first_role):
    """What a system says that follows itself."""
    ports = f"port {clock(number)} 1 {first_role}\nport {clock(number)} 2 master\n"
    return f"system {clock(number)} root {identity(number)} steps 0 parent none\n{ports}"


def follower(number, root_number, second_role="master"):
    """What a system of a line says that follows the one before it."""
    steps = number - root_number
    says = f"system {clock(number)} root {identity(root_number)} steps {steps} parent 1 {clock(number - 1)} 2\n"
    return f"{says}port {clock(number)} 1 slave\nport {clock(number)} 2 {second_role}\n"


def right():
    """The certificate of a line of 300 systems: those from clock 256 on are far."""
    near = "".join(follower(number, 1) for number in range(2, 256))
    far = "".join(f"system {clock(number)} far {number - 1} root {identity(1)}\n" for number in range(256, 301))
    return f"gptp-certificate 2\n{root(1, 'disabled')}{near}{far}end\n"


def said():
    """What the systems of that line say themselves: the one with clock 256 isn't heard, so that the next is a root."""
    near = "".join(follower(number, 1) for number in range(2, 257))
    behind = "".join(follower(number, 257, "disabled" if number == 300 else "master") for number in range(258, 301))
    return f"gptp-certificate 1\n{root(1, 'disabled')}{near}{root(257, 'master')}{behind}end\n"


def other(old, new):
    """The right certificate with another line in place of one."""
    return "".join(f"{new if line == old else line}\n" for line in right().splitlines())


def far(number, steps, root_number=1):
    return f"system {clock(number)} far {steps} root {identity(root_number)}"


def largest():
    """512 systems in a ring, each joined to the four behind it, and a link that goes down and comes up 2,048 times."""
    text = "version = 1\n"
    for number in range(1, 513):
        text += f'[[system]]\nclock = "{clock(number)}"\nports = 8\n'
    for number in range(512):
        for further in range(1, 5):
            text += link(number + 1, further, (number + further) % 512 + 1, further + 4, 500, 500)
    for at in range(1, 4097):
        kind = "link_down" if at % 2 == 1 else "link_up"
        text += f'[[event]]\nat = {at}\nkind = "{kind}"\nclock = "{clock(1)}"\nport = 1\n'
    return text


def largest_linted():
    """All systems have two neighbours or more at each time, and clocks alone decide between them."""
    calm = "".join(f"calm {at} yes bound 3086000000000\n" for at in range(4097))
    return f"chance {identity(1)} {identity(2)}\n{calm}"


def full_of_events(count):
    """Two systems, and so many events by which nothing changes."""
    ends = '[[system]]\nclock = "{}"\nports = 1\n'
    systems = "".join(ends.format(clock(number)) for number in (1, 2))
    event = f'{{at=0,kind="recover",clock="{clock(1)}"}}'
    return f"version = 1\nevent=[{','.join([event] * count)}]\n[network]\n{systems}{link(1, 1, 2, 1, 100, 140)}"


def files():
    """The text of each file, by its name."""
    return {
        "line_of_5.toml": line(5, ""),
        "line_of_9.toml": line(9),
        "line_of_300.toml": line(300),
        "line_of_257_that_breaks.toml": line_that_breaks(),
        "star_of_17.toml": star(),
        "drifting_line_of_3.toml": line(3, SLOW_BRIDGES, drift=-FASTEST),
        "drifting_line_of_65.toml": line(65, SLOW_BRIDGES, 392, 400, FASTEST),
        "steady_line_of_65.toml": line(65, SLOW_BRIDGES, 392, 400, 0),
        "inexact_line_of_512.toml": line(512, INEXACT, 1, 998_000_000, FASTEST),
        "drifting_line_of_31.toml": line(31, FREQUENT, 392, 400, FASTEST),
        "sure_line_of_31.toml": line(31, FREQUENT, 400, 400, -FASTEST),
        "vehicle.toml": vehicle(),
        "vehicle_with_timeout.toml": vehicle_with_timeout(),
        "vehicle_with_clocks.toml": vehicle_with_clocks(False),
        "vehicle_that_goes_on.toml": vehicle_with_clocks(True),
        "right.certificate": right(),
        "step_too_many.certificate": other(far(257, 256), far(257, 257)),
        "step_too_few.certificate": other(far(256, 255), far(256, 254)),
        "other_root.certificate": other(far(300, 299), far(300, 299, 2)),
        "port_of_a_far_system.certificate": other(far(256, 255), far(256, 255) + f"\nport {clock(256)} 1 slave"),
        "version_1.certificate": other("gptp-certificate 2", "gptp-certificate 1"),
        "said.certificate": said(),
        "1048577_zeros": "0" * 1_048_577,
        "1048577_line_feeds": "\n" * 1_048_577,
        "1048580_line_feeds": "\n" * 1_048_580,
        "full_of_events.toml": full_of_events(4093),
        "two_events_left.toml": full_of_events(4094),
        "four_events_left.toml": full_of_events(4092),
        "largest.toml": largest(),
        "largest.linted": largest_linted(),
    }
