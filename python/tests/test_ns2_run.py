"""What a run of ns-2 becomes in a sweep: the tables of srm_lab, and a network without nodes that only hand on."""
from ns2_agent import Result, reduced
from ns2_run import losses_of, operations_of, written

from srm_lab import scenario, tree
from srm_lab.link import Link


def test_tables_of_a_run():
    # members 1 and 2 lose number 0, and member 2 loses number 2 as well and lacks it still at the end
    given = scenario.chain(3, delay=10).rounds(2, 0, every=500)
    result = Result([(40, 1, "ask", 0), (60, 0, "answer", 0), (540, 2, "ask", 2)],
                    {(1, 0): (20, 70), (2, 0): (30, 80), (2, 2): (520, None)})
    assert list(losses_of(given, result)) == [
        (1, 0, 0, 0, 20, 70, "50/20"), (2, 0, 0, 0, 30, 80, "50/40"), (2, 0, 0, 2, 520, None, None)]
    assert list(operations_of(given, result)) == [
        (0, 0, 0, 2, 2, 0, 20, 40, 1, 1, 2, "50/40"), (0, 0, 2, 1, 0, 0, 520, 540, 1, 0, None, None)]
    assert written("a,b", [(1, None), (2.5, "3/4")]) == b"a,b\n1,-\n2.5,3/4\n"


def test_nodes_that_only_hand_on_are_left_out():
    # 0 - 1 - 2 with 3 and 4 - 5 at it, and 6 at 1 without a member: members on 0, 3 and 5
    links = [(0, 1, 2), (1, 2, 3), (2, 3, 4), (2, 4, 5), (4, 5, 6), (1, 6, 7)]
    network = tree.Tree(7, tuple(Link.both_ways(*link) for link in links))
    made, hosts, joined = reduced(network, [0, 3, 5])
    assert made.nodes == 4 and joined == {0: 0, 1: 0, 2: 1, 3: 2, 4: 2}
    for source, other, far in ((0, 1, 9), (0, 2, 16), (1, 2, 15)):
        assert made.distances(hosts[source])[hosts[other]] == far


def test_hub_of_a_star_is_kept():
    made, hosts, joined = reduced(tree.star(4, 10), [1, 2, 3])
    assert made.nodes == 4 and made.distances(hosts[0])[hosts[2]] == 20 and sorted(joined) == [0, 1, 2]
