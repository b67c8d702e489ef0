"""Reads a hosts file (YAML): Shadow's keys where they mean the same, and lines of a scenario as the network.

Every fault is an `InputError` that begins with FILE:LINE and has the cause and what is expected.
"""
import re
from functools import partial
from pathlib import Path
from typing import Callable, NamedTuple

from dnlab.emulation.experiment import (Ending, Experiment, Host, NetworkLine, Process, Settings, address_of,
                                        date_of, memory_of, positive_time_of, signal_of, time_of,
                                        whole_number, words_of)
from dnlab.emulation.yaml_nodes import Value, root_of

Found = dict[str, Value]


def required(parent: Value, found: Found, key: str, example: str) -> Value:
    """Returns the value of a key that must be there."""
    if key not in found:
        parent.refuse(f"the key {key!r} is missing; expected {key}: {example}")
    return found[key]


def read_in(found: Found, key: str, function: Callable[[str], int], example: str, default: int) -> int:
    """Returns what a function makes of the text of a key, or the default without one."""
    return found[key].read(function, example) if key in found else default


def number_in(found: Found, key: str, least: int, most: int, default: int) -> int:
    """Returns the whole number of a key, or the default without one."""
    return read_in(found, key, partial(whole_number, least, most), str(default), default)


def time_in(found: Found, key: str, default: int) -> int:
    """Returns the time of a key in ns, or the default without one."""
    return read_in(found, key, time_of, "100ms", default)


def folder_of(value: Value, base: Path) -> Path:
    """Returns a folder that exists; a relative name belongs to `base`."""
    path = base / value.text("a folder")
    if not path.is_dir():
        value.refuse(f"{str(path)!r} is not a folder; expected one that exists")
    return path.resolve()


_HOST = {"ip_addr": "10.0.0.1", "processes": "[{path: curl}]", "sysctl": "{}", "setup": "[]"}
_HOST_SHADOW = {
    **dict.fromkeys(("network_node_id", "bandwidth_down", "bandwidth_up"),
                    "remove it, and write pipes and rules below `network`"),
    "host_options": "remove it (each host has a capture; see --help)", "log_level": "remove it",
    "pcap_enabled": "remove it (each host has a capture)",
    "pcap_capture_size": "remove it (captures are whole)",
}
_PROCESS = {
    "path": "curl", "args": "-s http://10.0.1.1/", "environment": "{NAME: value}", "start_time": "1s",
    "shutdown_time": "10s", "shutdown_signal": "SIGTERM", "expected_final_state": "{exited: 0}",
    "user": "nobody",
}
_PROCESS_SHADOW = {"stop_time": "write shutdown_time", "starttime": "write start_time",
                   "stoptime": "write shutdown_time", "quantity": "write a process for each"}
_STATES = "{exited: 0}, {signaled: SIGTERM} or running"
_SETUP = "tc qdisc replace dev eth0 root fq"
_MAX_HOSTS = 250


class Span(NamedTuple):
    """When processes can run: up to `stop` (ns), and each starts up to `jitter` (ns) late."""
    stop: int
    jitter: int


def hosts_in(value: Value, span: Span) -> list[Host]:
    """Returns the hosts of a file, in order."""
    made: list[Host] = []
    first: dict[str, int] = {}
    for key, entry in value.pairs("{server: {ip_addr: 10.0.1.1}}"):
        host = _host(key, entry, span)
        if host.address in first:
            entry.keys(_HOST)["ip_addr"].refuse(
                f"{host.address} is the address of the host on line {first[host.address]} too; expected one"
                " of its own")
        first[host.address] = key.line
        made.append(host)
    if not any(host.processes for host in made):
        value.refuse("no host has a process; expected one at least: processes: [{path: curl}]")
    if len(made) > _MAX_HOSTS:
        value.refuse(f"{len(made)} hosts; expected at most {_MAX_HOSTS}")
    return made


def _host(key: Value, entry: Value, span: Span) -> Host:
    name = str(key.node.value)
    if not re.fullmatch(r"[a-z0-9]([a-z0-9-]{0,61}[a-z0-9])?", name) or name == "localhost":
        key.refuse(f"{name!r} is not a host's name; expected small letters, digits and hyphens, as web-1")
    found = entry.keys(_HOST, _HOST_SHADOW)
    address = required(entry, found, "ip_addr", "10.0.0.1").read(address_of, "10.0.0.1")
    processes = found["processes"].items("[{path: curl}]") if "processes" in found else []
    return Host(key.line, name, address, tuple(_sysctl(found["sysctl"])) if "sysctl" in found else (),
                tuple(_setup(found["setup"])) if "setup" in found else (),
                tuple(_process(it, span) for it in processes))


def _sysctl(value: Value) -> list[tuple[str, str]]:
    made = []
    for key, text in value.pairs("{net.ipv4.tcp_congestion_control: bbr}"):
        name = str(key.node.value)
        if not re.fullmatch(r"[a-z]+([./][A-Za-z0-9_-]+)+", name):
            key.refuse(f"{name!r} is not a name of a sysctl; expected one as net.ipv4.tcp_congestion_control")
        found = text.text("bbr")
        if "\n" in found:
            text.refuse("it has several lines; expected one value")
        made.append((name, found))
    return made


def _setup(value: Value) -> list[str]:
    if value.is_block():
        lines = [line for _, line in value.block_lines("") if line.strip()]
    else:
        lines = [it.text(_SETUP) for it in value.items(f"[{_SETUP}]")]
    for line in lines:
        if not line.strip() or "\n" in line:
            value.refuse(f"{line!r} is not one command line; expected one as {_SETUP}")
    return lines


def _process(value: Value, span: Span) -> Process:
    found = value.keys(_PROCESS, _PROCESS_SHADOW)
    path = required(value, found, "path", "curl").text("curl")
    if not path.strip() or path.endswith("/") or "\n" in path:
        found["path"].refuse(f"{path!r} is not a program; expected a name that PATH has, or a path, as curl"
                             " or /usr/sbin/nginx")
    start, end = _times(value, found, span)
    user = found["user"].text("nobody") if "user" in found else None
    if user is not None and not re.fullmatch(r"[a-z_][a-z0-9_-]{0,31}", user):
        found["user"].refuse(f"{user!r} is not a user's name; expected one of /etc/passwd, as nobody")
    return Process(
        value.line, path, tuple(_arguments(found["args"])) if "args" in found else (),
        tuple(_environment(found["environment"])) if "environment" in found else (), start,
        end if "shutdown_time" in found else None,
        read_in(found, "shutdown_signal", signal_of, "SIGTERM", 15),
        _ending(found["expected_final_state"]) if "expected_final_state" in found else Ending("exited", 0),
        user)


def _times(value: Value, found: Found, span: Span) -> tuple[int, int]:
    """Returns when a process starts and when it is stopped (ns; -1 if it is not)."""
    start, end = time_in(found, "start_time", 0), time_in(found, "shutdown_time", -1)
    latest = start + span.jitter
    if latest > span.stop:
        found.get("start_time", value).refuse(
            f"it starts at {start} ns (with jitter up to {latest}), after stop_time ({span.stop} ns);"
            " expected a start before it")
    if "shutdown_time" in found and not latest <= end <= span.stop:
        found["shutdown_time"].refuse(f"{end} ns is not between the start ({latest} ns) and stop_time"
                                      f" ({span.stop} ns); expected a time between")
    if "shutdown_signal" in found and "shutdown_time" not in found:
        found["shutdown_signal"].refuse("shutdown_signal without shutdown_time; expected both, as"
                                        " shutdown_time: 10s")
    return start, end


def _arguments(value: Value) -> list[str]:
    if value.is_list():
        return [it.text("-s") for it in value.items("[-s]")]
    return [] if value.is_empty() else value.read(words_of, "-s -1")


def _environment(value: Value) -> list[tuple[str, str]]:
    made = []
    for key, text in value.pairs("{NAME: value}"):
        name = str(key.node.value)
        if not re.fullmatch(r"[A-Za-z_][A-Za-z0-9_]*", name):
            key.refuse(f"{name!r} is not a name of a variable; expected letters, digits and _, as HOME")
        made.append((name, "" if text.is_empty() else text.text("a text")))
    return made


def _ending(value: Value) -> Ending:
    if value.is_text():
        if value.text(_STATES) != "running":
            value.refuse(f"{value.text(_STATES)!r} is not a final state; expected {_STATES}")
        return Ending("running")
    if not value.is_mapping() or len(value.pairs(_STATES)) != 1:
        value.refuse(f"it is not one final state; expected {_STATES}")
    found = value.keys({"exited": "0", "signaled": "SIGTERM"})
    if "exited" in found:
        return Ending("exited", found["exited"].read(partial(whole_number, 0, 255), "0"))
    return Ending("signaled", found["signaled"].read(signal_of, "SIGTERM"))


_TOP = {"general": "{stop_time: 15s}", "network": "|", "hosts": "{}", "emulation": "{}", "files": "{}"}
_GENERAL = {"stop_time": "15s", "seed": "1", "steps": "10000000", "template_directory": "inputs"}
_GENERAL_SHADOW = {
    **dict.fromkeys(("parallelism", "heartbeat_interval", "log_level", "progress", "data_directory"),
                    "remove it (the options of tools/hosts are in its --help)"),
    "bootstrap_end_time": "remove it, and give the links their rates from a moment on by lines of `network`",
    "model_unblocked_syscall_latency": "write syscall_cost below `emulation`",
}
_EMULATION = {
    "syscall_cost": "1us", "clock_read": "0ns", "reads": "8", "polls": "6", "start_date": "2027-01-01",
    "memory": "512 MiB", "rootfs": "/srv/bookworm", "limit": "10 min", "jitter": "10ms",
}
# What a run writes into its folder itself.
_OWN_FILES = ("transcript.txt", "report.txt", "summary.json")


def read(path: Path) -> Experiment:
    """Returns the experiment of a file. Raises `InputError` if it is faulty, `OSError` if it cannot be
    read."""
    return experiment_of(path.read_bytes(), str(path), path.parent)


def experiment_of(text: bytes, file: str, folder: Path) -> Experiment:
    """Returns the experiment of a text; relative names in it belong to `folder`."""
    root = root_of(file, text)
    parts = root.keys({**_TOP, **_own_keys(root)})
    for key in "general", "network", "hosts":
        if key not in parts:
            root.refuse(f"the key {key!r} is missing; expected general, network and hosts")
    general = parts["general"].keys(_GENERAL, _GENERAL_SHADOW)
    stop = required(parts["general"], general, "stop_time", "15s").read(positive_time_of, "15s")
    settings = _settings(parts["emulation"], folder) if "emulation" in parts else Settings()
    return Experiment(
        file, stop, number_in(general, "seed", 0, 2**64 - 1, 1), tuple(_network(parts["network"], stop)),
        tuple(hosts_in(parts["hosts"], Span(stop, settings.jitter_ns))),
        number_in(general, "steps", 1, 10**7, 10**7), settings,
        tuple(_files(parts["files"])) if "files" in parts else (),
        folder_of(general["template_directory"], folder) if "template_directory" in general else None)


def _own_keys(root: Value) -> dict[str, str]:
    """Returns the keys that begin with `x-`: as in Shadow's files they are the user's own, for anchors."""
    if not root.is_mapping():
        return {}
    names = [(key, str(key.node.value)) for key, _ in root.pairs("general, network and hosts")]
    for key, name in names:
        if name == "experimental":
            key.refuse("'experimental' is a key of Shadow's files without a meaning here: remove it")
    return {name: "" for _, name in names if name.startswith("x-")}


def _rootfs(value: Value, base: Path) -> Path:
    path = folder_of(value, base)
    if re.search(r"[\s\"]", str(path)):
        value.refuse(f"{str(path)!r} has a space or a quote, which the kernel's command line cannot have;"
                     " expected a name without")
    return path


def _settings(value: Value, base: Path) -> Settings:
    found, usual = value.keys(_EMULATION), Settings()
    limit = read_in(found, "limit", positive_time_of, "10 min", usual.limit_s * 10**9)
    return Settings(
        time_in(found, "syscall_cost", usual.syscall_ns), time_in(found, "clock_read", usual.clock_read_ns),
        number_in(found, "reads", 1, 1000, usual.reads), number_in(found, "polls", 0, 20, usual.polls),
        read_in(found, "start_date", date_of, "2027-01-01", usual.start_date_ns),
        read_in(found, "memory", memory_of, "512 MiB", usual.memory_mib),
        _rootfs(found["rootfs"], base) if "rootfs" in found else None,
        -(-limit // 10**9), time_in(found, "jitter", usual.jitter_ns))


def _files(value: Value) -> list[tuple[str, str]]:
    made = []
    for key, text in value.pairs("{nginx.conf: ..}"):
        name = str(key.node.value)
        parts = Path(name).parts
        if Path(name).is_absolute() or ".." in parts or not parts:
            key.refuse(f"{name!r} is not a name within the output folder; expected one without .. and without"
                       " a / in front")
        if parts[0] == "guest" or name in _OWN_FILES:
            key.refuse(f"{name!r} is a file that a run writes itself; expected another name")
        made.append((name, "" if text.is_empty() else text.text("the text of the file")))
    return made


def _network(value: Value, stop: int) -> list[NetworkLine]:
    if value.is_mapping():
        value.refuse("it has keys, as Shadow's graph; expected lines of a scenario: `network: |`, then"
                     " `@0 pipe 1 config ..`")
    made: list[NetworkLine] = []
    for number, text in value.block_lines("`network: |`, then `@0 pipe 1 config ..`"):
        if not text.strip() or text.split()[0].startswith("#"):
            continue
        line = _network_line(value, number, text)
        if line.moment > stop:
            value.refuse(f"@{line.moment} is after stop_time (@{stop}); expected a moment up to it", number)
        if made and line.moment < made[-1].moment:
            value.refuse(f"@{line.moment} is before @{made[-1].moment} of line {made[-1].line}; expected"
                         " moments in order", number)
        made.append(line)
    if not made:
        value.refuse("it has no lines; expected pipes and rules, as `@0 pipe 1 config bw 10Mbit/s delay 20`")
    return made


def _network_line(value: Value, number: int, text: str) -> NetworkLine:
    """Returns a line of the network; its command is checked later, by `dnlab check`."""
    other = re.search(r"[^ -~]", text)
    if other is not None:
        value.refuse(f"the character {other[0]!r} is not ASCII; expected printable ASCII", number)
    moment, *words = text.split()
    found = re.fullmatch(r"@(0|[1-9][0-9]{0,15})", moment)
    if found is None:
        value.refuse(f"{moment!r} is not a moment; expected @ and a whole number of nanoseconds, as @0 or"
                     " @1500000000", number)
    if words[:1] in (["end"], ["inject"]):
        way = "general.stop_time ends the run" if words[0] == "end" else "programs send the packets"
        value.refuse(f"no `{words[0]}` here: {way}; expected pipe, add, delete, train, flow, stop or"
                     " one_pass", number)
    return NetworkLine(int(found[1]), " ".join(words), number)
