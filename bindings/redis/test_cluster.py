"""A cluster of three nodes: keys go to the nodes that have their slots, summaries of several nodes are combined, and notes are heard at each node."""
import subprocess
import sys
import unittest

import redis
from plain_list import KINDS, value
from servers import Server, TOP, asked, free_port, waited_for

EXAMPLE = TOP / "examples/engines"


def begun():
    """Three nodes of one cluster, each with a third of the slots."""
    nodes = []
    try:
        for _ in range(3):
            nodes.append(Server("--cluster-enabled", "yes", "--cluster-node-timeout", "20000", port=free_port()).start())
        for number, node in enumerate(nodes):
            client = node.client()
            client.execute_command("CLUSTER", "ADDSLOTSRANGE", 16384 * number // 3, 16384 * (number + 1) // 3 - 1)
            client.execute_command("CLUSTER", "MEET", "127.0.0.1", nodes[0].port)
        waited_for(lambda: all(b"cluster_state:ok" in state_of(it) and b"cluster_known_nodes:3" in state_of(it) for it in nodes), "the cluster")
        return nodes
    except BaseException:
        ended(nodes)
        raise


def state_of(node):
    """What a node says of its cluster."""
    client = node.client()
    client.response_callbacks.clear()
    return client.execute_command("CLUSTER", "INFO")


def ended(nodes):
    for node in nodes:
        node.close()


class Cluster(unittest.TestCase):
    @classmethod
    def setUpClass(cls):
        cls.nodes = begun()
        cls.client = redis.RedisCluster(host="127.0.0.1", port=cls.nodes[0].port)

    @classmethod
    def tearDownClass(cls):
        cls.client.close()
        ended(cls.nodes)

    def test_keys_have_their_nodes(self):
        for number in range(30):
            self.client.execute_command("LV.PUSH", f"k{number}", number, 2 * number)
            self.assertEqual(self.client.execute_command("LV.VALUE", f"k{number}", "sum"), [2, 3 * number])
        sizes = [it.client().dbsize() for it in self.nodes]
        self.assertTrue(all(sizes) and sum(sizes) >= 30)
        home = next(it.client() for it in self.nodes if asked(it.client(), "LV.VALUE", "k0", "sum") == [2, 0])
        other = next(it.client() for it in self.nodes if asked(it.client(), "LV.VALUE", "k0", "sum") != [2, 0])
        self.assertIn("MOVED", repr(self.refusal(other, "LV.PUSH", "k0", 1)))
        self.assertIn("CROSSSLOT", repr(self.refusal(home, "LV.MVALUE", "sum", "ALL", "k0", "k1")))
        self.client.execute_command("LV.PUSH", "{k0}b", 7)
        self.assertEqual(asked(home, "LV.MVALUE", "sum", "ALL", "k0", "{k0}b"), [[2, 0], [1, 7]])

    def refusal(self, client, *words):
        with self.assertRaises(redis.ResponseError) as raised:
            client.execute_command(*words)
        return raised.exception

    def test_summaries_of_all_nodes(self):
        elements, summaries = [], []
        for number in range(9):
            part = [(7 * i + number) % 40 - 20 for i in range(10 * number)]
            elements += part
            key = f"part{number}"
            self.client.execute_command("LV.PUSH", key, *(part or [0]))
            if not part:
                self.client.execute_command("LV.POP", key)
            summaries.append(self.client.execute_command("LV.SUMMARY", key))
        plain = self.nodes[2].client()
        combined = plain.execute_command("LV.COMBINE", *summaries)
        combined = dict(zip((it.decode() for it in combined[::2]), combined[1::2]))
        self.assertEqual({kind: combined[kind] for kind in KINDS}, {kind: value(kind, elements) for kind in KINDS})
        self.assertEqual((combined["count"], len(combined["summary"])), (len(elements), 184))
        pairs = [dict(zip(it[::2], it[1::2]))[b"summary"] for it in (plain.execute_command("LV.COMBINE", *summaries[:4]), plain.execute_command("LV.COMBINE", *summaries[4:]))]
        self.assertEqual(plain.execute_command("LV.COMBINE", *pairs), plain.execute_command("LV.COMBINE", *summaries))
        damaged = summaries[5][:50] + bytes([summaries[5][50] ^ 4]) + summaries[5][51:]
        self.assertEqual(asked(plain, "LV.COMBINE", summaries[0], damaged), "!LV110")

    def replica_of(self, key):
        """A fourth node, which follows the node that has a key."""
        master = self.client.get_node_from_key(key).port
        node = Server("--cluster-enabled", "yes", "--cluster-node-timeout", "20000", port=free_port()).start()
        self.addCleanup(node.close)
        client = node.client()
        client.response_callbacks.clear()
        client.execute_command("CLUSTER", "MEET", "127.0.0.1", master)
        known = lambda: next((line.split()[0] for line in client.execute_command("CLUSTER", "NODES").decode().splitlines() if f":{master}@" in line and "handshake" not in line), None)
        waited_for(known, "the master")
        client.execute_command("CLUSTER", "REPLICATE", known())
        waited_for(lambda: b"master_link_status:up" in client.execute_command("INFO", "replication"), "the replica")
        return node

    def test_notes_reach_each_node_once(self):
        nodes = [*self.nodes, self.replica_of("noted")]
        waited_for(lambda: all(b"cluster_known_nodes:4" in state_of(it) for it in nodes), "the fourth node")
        listeners = [it.client().pubsub() for it in nodes]
        for listener in listeners:
            listener.subscribe("livevec:noted")
            self.assertEqual(listener.get_message(timeout=20)["type"], "subscribe")
        self.client.execute_command("LV.PUSH", "noted", 1)
        self.client.execute_command("LV.WATCH", "noted", "all", "sum")
        for last in (2, 3):
            self.client.execute_command("LV.PUSH", "noted", last)
        for listener in listeners:
            self.assertEqual([listener.get_message(timeout=20)["data"] for _ in range(2)], [b"2 all 3", b"3 all 6"])
            self.assertIsNone(listener.get_message(timeout=0.2))
            listener.close()

    def test_the_example(self):
        sizes = ["1000", "0", "500", "2500"]
        port = str(self.nodes[1].port)
        shown, plain = (subprocess.run([sys.executable, EXAMPLE / name, *words], cwd=EXAMPLE, capture_output=True, text=True, timeout=120) for name, words in (("shards_redis.py", [port, *sizes]), ("shards_plain.py", sizes)))
        self.assertEqual((shown.returncode, shown.stdout), (0, plain.stdout), shown.stderr)
        self.assertIn("sum", plain.stdout)


if __name__ == "__main__":
    unittest.main()
