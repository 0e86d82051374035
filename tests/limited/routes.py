"""Long routes, wide networks and searches."""
from functools import partial

from .network import MOST, dotted, found, initiation, message, network, report, reports, request, update
from .scripts import HOPS, LINKS, NODES, Script, chain, limit


def walked(length):
    """A report over a chain of `length` links."""
    script = Script(chain(length))
    links, ends = list(range(length)), (0, length)
    script.does(f"report 1 {reports([report(1, links, ends, bandwidth=1000)])}", "booked")
    script.shows({link: 1000 for link in links}, length)
    return script


@limit("a reported route of 17 links")
def _():
    return walked(17)


@limit("a reported route of 64 links")
def _():
    return walked(HOPS)


def granted(length):
    """An initiation over a chain of `length` links."""
    script = Script(chain(length))
    links, ends = list(range(length)), (0, length)
    text = ",".join(map(str, links))
    script.comes_up(1)
    script.does(f"initiate 1 t1 {dotted(0)} {dotted(length)} 1000 7 0", "asked 1")
    script.does("take", f"job 1 {text}")
    script.does(f"commit 1 {text}", "granted 1", f"out 1 {initiation(1, 't1', ends, links, 1000)}")
    script.shows({link: 1000 for link in links}, length)
    script.does(f"msg 1 {message(3, request(7, ends))}")
    script.does("take", f"job 2 {text}")
    script.does(f"commit 2 {text}", "answered", f"out 1 {found(7, links, 10 * length)}")
    return script


@limit("a granted route of 17 links")
def _():
    return granted(17)


@limit("a granted route of 64 links")
def _():
    return granted(HOPS)


@limit("no route of 65 links")
def _():
    script = Script(chain(HOPS + 1))
    script.comes_up(1)
    script.does(f"initiate 1 t1 {dotted(0)} {dotted(HOPS + 1)} 1000 7 0", "asked 1")
    script.does("take", "job 1 none")
    script.does("commit 1 " + ",".join(map(str, range(HOPS + 1))), "again")
    return script


def shared(parts, length, links):
    """An update that fits only beside its own tunnel, which is held on many links by paths of `length` links."""
    script = Script(chain(links))
    script.comes_up(1)
    for n in range(parts):
        over = range(n * length, (n + 1) * length)
        script.does(f"report 1 {reports([report(n + 1, over, (n * length, links), tunnel=7, bandwidth=600_000)])}", "booked")
    last, start = parts + 1, links - length
    script.does(f"report 1 {reports([report(last, [], (start, links), tunnel=7, bandwidth=MOST, flags=0x09)])}", "booked wants")
    script.does(f"update 1 {last}", "asked 1")
    text = ",".join(map(str, range(start, links)))
    script.does("take", f"job 1 {text}")
    script.does(f"commit 1 {text}", "granted 1", f"out 1 {update(1, last, range(start, links), MOST)}")
    script.shows({link: MOST if link >= start else 600_000 for link in range(links)}, links)
    return script


@limit("own shares on 64 links, by eight paths of eight links")
def _():
    return shared(8, 8, 64)


@limit("own shares on 64 links, by one path of 64 links")
def _():
    return shared(1, 64, 64)


STRIDES = ((1, 10), (2, 25), (3, 40), (4, 60))  # how far a link of the widest network leads, and its metric


def widest():
    """1,024 nodes in a ring, with 4,096 links: of each node one of each stride."""
    return [(n, (n + stride) % NODES, metric) for stride, metric in STRIDES for n in range(NODES)]


def least(links, ends, hops):
    """The least cost of a path of at most `hops` links (Bellman and Ford)."""
    cost = {ends[0]: 0}
    for _ in range(hops):
        after = dict(cost)
        for start, end, metric in links:
            if start in cost and cost[start] + metric < after.get(end, 1 << 60):
                after[end] = cost[start] + metric
        cost = after
    return cost.get(ends[1])


def is_path(links, ends, numbers):
    at = ends[0]
    for number in numbers:
        if links[number][0] != at:
            return False
        at = links[number][1]
    return at == ends[1]


SEARCHES = ((60, 64), (63, 64), (150, 64), (255, 64), (256, 64), (257, 64), (60, 20), (150, 40), (150, 37), (4, 1))


def misses(links, search, answer):
    """What is wrong with the answer to a search from node 0 to a node by at most some number of links."""
    node, hops = search
    numbers = None if answer == "none" else [int(word) for word in answer.split(",")]
    wanted = least(links, (0, node), hops)
    cost = None if numbers is None else sum(links[number][2] for number in numbers)
    if cost != wanted or numbers and (len(numbers) > hops or not is_path(links, (0, node), numbers)):
        return f"to {node} by {hops} links: wanted a path of cost {wanted}, got {answer[:60]}"
    return ""


def judged_by_cost(links, lines):
    """Of several paths of least cost any may be answered."""
    answers = [line.split()[2] for line in lines if line.startswith("job ")]
    if len(answers) != len(SEARCHES):
        return f"{len(answers)} answers to {len(SEARCHES)} searches"
    return next(filter(None, (misses(links, search, answer) for search, answer in zip(SEARCHES, answers))), "")


@limit("searches on 1,024 nodes and 4,096 links, by 64 links at most and by fewer")
def _():
    links = widest()
    script = Script(network(NODES, links))
    script.judge = partial(judged_by_cost, links)
    script.comes_up(1)
    for number, (node, hops) in enumerate(SEARCHES, 1):
        script.does(f"msg 1 {message(3, request(number, (0, node), None if hops == HOPS else hops))}")
        script.does("take")
    return script


@limit("a search for a dearer path of fewer links, on five nodes")
def _():
    links = [(0, 1, 1), (1, 2, 1), (2, 3, 1), (3, 4, 1), (0, 4, 90), (0, 2, 20), (2, 4, 20)]
    script = Script(network(5, links))
    script.comes_up(1)
    for n, (bound, text, cost) in enumerate([(4, "0,1,2,3", 4), (3, "0,1,6", 22), (2, "5,6", 40), (1, "4", 90)], 1):
        script.does(f"msg 1 {message(3, request(n, (0, 4), bound))}")
        script.does("take", f"job {n} {text}")
        numbers = [int(word) for word in text.split(",")]
        script.does(f"commit {n} {text}", "answered", f"out 1 {found(n, numbers, cost)}")
    return script


@limit("a network without links")
def _():
    script = Script(network(2, []))
    script.comes_up(1)
    script.does("book")
    script.does(f"initiate 1 t1 {dotted(0)} {dotted(1)} 1 7 0", "asked 1")
    script.does("take", "job 1 none")
    script.does("commit 1 none", "nopath")
    script.does(f"report 1 {reports([report(1, [0])])}", "booked")
    script.does("book")
    return script


def counted(nodes, links, fault):
    """A number of empty tables, which are counted before they are looked at."""
    script = Script("".join(f"{key} = [{'{},' * count}]\n" for key, count in (("node", nodes), ("link", links)) if count) + "---\n")
    script.fault, script.status = f"te fault {fault}\n", 2
    return script


for nodes, links, fault in ((NODES, 0, 2), (NODES + 1, 0, 8), (0, LINKS, 2), (0, LINKS + 1, 8), (1, LINKS + 1, 8)):
    what = f"tables without a key, {nodes:,} of nodes and {links:,} of links: te fault {fault}"
    limit(what)(partial(counted, nodes, links, fault))
