"""Closed-loop senders in a session: transfers that wait for one another, requests and answers, web users, and
any number of short flows, each with NewReno (RFC 6582), Reno (RFC 5681) or CUBIC (RFC 9438).

    import dnlab
    from dnlab.senders import Cubic, Network

    with dnlab.live() as session:
        link = session.experiment("chain", seed=1, budget=1000, steps=10**7, show="mine")
        link.command("pipe 1 config bw 10Mbit/s delay 20 queue 50")
        link.command("pipe 2 config delay 20")
        link.command("add 100 pipe 1 ip from 10.0.0.0/24 to 10.0.1.0/24")
        link.command("add 200 pipe 2 ip from 10.0.1.0/24 to 10.0.0.0/24")
        network = Network(link)
        first = network.flow(500_000, Cubic)
        first.then(lambda: network.flow(500_000))      # starts when the first has finished
        network.run()
        print(network.table())                         # a row for each flow

Needs only Python; `table` needs pandas.
"""
from dnlab.senders.flows import Flow
from dnlab.senders.network import Network
from dnlab.senders.network import Arrivals, Chain, Requests, Web
from dnlab.senders.windows import Timeout
from dnlab.senders.windows import Cubic, NewReno, Reno, Window

__all__ = ["Arrivals", "Chain", "Cubic", "Flow", "Network", "NewReno", "Reno", "Requests", "Timeout", "Web",
           "Window"]
