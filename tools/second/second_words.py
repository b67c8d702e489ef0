"""Parts of tools/second/second: the effects of commands, and the report of a text, written from
docs/reference/scenario.md, docs/explanation/rules.md and docs/explanation/order.md."""
from collections import deque
from collections.abc import Callable, Iterator

from second_net import Ends, Flow, Net, Pipe, Source, Train
from second_parts import Sender
from second_text import PLAIN, PROTOCOLS, Config, Rule, number_of

LAST_RULE = 65535

# The time of a command (ns), and its words.
Timed = tuple[int, list[str]]
# Makes a sender from smss, segments, ssthresh, window and the retransmission timeout in ms (None if it is
# adaptive).
NewSender = Callable[[int, int, int, int, int | None], Sender]


def ends_of(words: list[str]) -> Ends:
    """Returns the addresses and ports of both ends, from the first four words."""
    return number_of(words[0]), int(words[1]), number_of(words[2]), int(words[3])


class Experiment(Net):
    """An experiment that runs commands. Each `do_` method returns None, or the code of a refusal, in which
    case it has changed nothing."""

    def __init__(self, seed: int, budget: int, sender: NewSender = Sender, is_traced: bool = False) -> None:
        super().__init__(seed, budget)
        self.new_sender = sender
        # Whether all packets are traced, whatever the commands say.
        self.trace = self.is_traced = int(is_traced)

    def obey(self, index: int, words: list[str]) -> None:
        name = words[0]
        if name == "pipe":
            name = words[1] if words[1] in ("delete", "show") else "config"
            name = "pipe_" + name
        self.lines.append("")
        at = len(self.lines) - 1
        code: int | None = getattr(self, "do_" + name)(words)
        self.lines[at] = f"{self.now} ok {index}" if code is None else f"{self.now} refused {index} {code}"

    def do_add(self, words: list[str]) -> int | None:
        rule = Rule(words, self.adds)
        if not 0 < rule.number < LAST_RULE:
            return 10
        if rule.action == "skipto" and not rule.number < rule.goal() <= LAST_RULE:
            return 11
        if len(self.rules) > 256:
            return 12
        self.adds += 1
        self.rules = sorted([*self.rules, rule], key=lambda each: each.place)
        return None

    def do_delete(self, words: list[str]) -> int | None:
        number = int(words[1])
        if not 0 < number < LAST_RULE:
            return 10
        left = [rule for rule in self.rules if rule.number != number]
        if len(left) == len(self.rules):
            return 13
        self.rules = left
        return None

    def do_pipe_config(self, words: list[str]) -> int | None:
        number, config = int(words[1]), Config(words[3:])
        pipe = self.pipes.get(number)
        if pipe and pipe.instances and config.mask != pipe.config.mask:
            return 21
        if not pipe and len(self.pipes) == 64:
            return 24
        if pipe:
            pipe.configure(config)
        else:
            self.pipes[number] = Pipe(config)
        return None

    def do_pipe_delete(self, words: list[str]) -> int | None:
        pipe = self.pipes.pop(int(words[2]), None)
        if not pipe:
            return 20
        for instance in pipe.instances:
            serving = [instance.serving] if instance.serving else []
            waiting = [packet for packet, _ in instance.waiting]
            for packet in [packet for _, packet in instance.line] + serving + waiting:
                self.drop(packet, "deleted")
        return None

    def do_pipe_show(self, _: list[str]) -> None:
        for number, pipe in sorted(self.pipes.items()):
            self.lines.append(f"pipe {number} {pipe.config.text()}")
            for place, each in enumerate(pipe.instances):
                self.lines.append(f"instance {number}.{place} waiting {len(each.waiting)} bytes {each.bytes} "
                                  f"busy {int(bool(each.serving))} flight {len(each.line)} "
                                  f"drawn {each.drawn}")

    def do_show(self, _: list[str]) -> None:
        self.lines += [rule.text() for rule in self.rules]

    def do_inject(self, words: list[str]) -> None:
        self.make(PROTOCOLS[words[1]], *ends_of(words[2:]), int(words[6]), PLAIN)

    def new_source(self, number: int, source: Source) -> int | None:
        if number in self.sources:
            return 22
        if len(self.sources) == 256:
            return 25
        self.sources[number] = source
        return None

    def do_train(self, words: list[str]) -> int | None:
        return self.new_source(int(words[1]),
                               Train(proto=PROTOCOLS[words[2]], ends=ends_of(words[3:]), size=int(words[7]),
                                                    left=int(words[9]), gap=int(words[11]), next=self.now))

    def do_flow(self, words: list[str]) -> int | None:
        options = dict(zip(words[10::2], words[11::2]))
        rto = options.get("rto", "1000")
        sender = self.new_sender(int(words[7]), int(words[9]), int(options.get("ssthresh", 65535)),
                        int(options.get("window", 65535)), None if rto == "adaptive" else int(rto))
        return self.new_source(int(words[1]),
                               Flow(sender=sender, ends=ends_of(words[2:]), kept=set(), missing=0))

    def do_stop(self, words: list[str]) -> int | None:
        source = self.sources.get(int(words[1]))
        if not source or isinstance(source, Train):
            return 23
        source.sender.is_stopped = True
        return None

    def do_one_pass(self, words: list[str]) -> None:
        self.one_pass = int(words[1])

    def do_trace(self, words: list[str]) -> None:
        self.trace = int(words[1]) or self.is_traced

    def do_end(self, _: list[str]) -> None:
        self.is_over = True

    def run(self, commands: list[Timed], steps: int) -> str:
        """Runs commands, of which the last is `end`. Returns the report, without its heading."""
        todo = deque(enumerate(commands))
        made = 0
        while not self.is_over:
            index, (moment, words) = todo[0]
            event = min(self.dues(), default=None, key=lambda each: each.due)
            if event and event.due < (moment, 0, 0):
                self.now = event.due[0]
                event.call(*event.where)
            else:
                todo.popleft()
                self.now = moment
                self.obey(index, words)
            made += 1
            if made == steps and not self.is_over:
                self.say("spent")
                break
        return "\n".join([*self.lines,
                          " ".join(map(str,
                                       ["counters", self.made, self.delivered, self.held, *self.drops]))])


def report(text: bytes, sender: NewSender = Sender, is_traced: bool = False) -> Iterator[str]:
    """Yields the reports of the experiments of a valid scenario, with senders of this kind; all packets are
    traced on request."""
    experiments: list[tuple[list[str], list[Timed]]] = []
    for line in text.decode().split("\n"):
        words = line.split()
        if not words or words[0].startswith("#"):
            continue
        if words[0] == "experiment":
            experiments.append((words, []))
        else:
            experiments[-1][1].append((int(words[0][1:]), words[1:]))
    for head, commands in experiments:
        steps = int(head[7]) if len(head) > 6 else 10**6
        yield f"experiment {head[1]}\n" + Experiment(int(head[3]), int(head[5]), sender,
                                                     is_traced).run(commands, steps) + "\n"
