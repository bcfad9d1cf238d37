"""Notes of watches: each change of an answer, or crossing of a bound, is published once, in order, with its edit, by whoever a client is subscribed to."""
import random
import unittest

from plain_list import PlainList, value
from servers import Server, asked, free_port, waited_for

WATCHES = [("total", "sum", ()), ("top", "max", ("LAST", 5)), ("low", "min", ("INDEX", 2, 9)), ("run", "best", ("LAST", 7)), ("map", "affine", ("LAST", 2)), ("state", "automaton", ())]
BOUNDED = [("high", "sum", ("LAST", 3), "ATLEAST", 50), ("deep", "min", (), "ATMOST", -30)]


def in_words(answer):
    return "none" if answer is None else " ".join(map(str, answer)) if isinstance(answer, list) else str(answer)


class Watched:
    """The notes that are due of a list, by plain loops."""

    def __init__(self, plain):
        self.list = plain
        self.last = {name: self.sees(name) for name in self.names()}

    def names(self):
        return [it[0] for it in WATCHES + BOUNDED]

    def sees(self, name):
        """The answer now, or which side of its bound it is on."""
        watch = next(it for it in WATCHES + BOUNDED if it[0] == name)
        form, *numbers = watch[2] or ["ALL"]
        if form == "INDEX":
            lo, hi = (min(max(it, self.list.first), self.list.size) for it in numbers)
            elements = self.list.values[lo - self.list.first : hi - self.list.first]
        else:
            elements, _ = self.list.within((form, *numbers))
        answer = value(watch[1], elements)
        if len(watch) == 3:
            return answer, answer
        return answer, answer is not None and (answer >= watch[4] if watch[3] == "ATLEAST" else answer <= watch[4])

    def notes(self):
        """The notes that are due after an edit, in the order in which watches were made."""
        now = {name: self.sees(name) for name in self.names()}
        due = [f"{self.list.edits} {name} {in_words(now[name][0])}" for name in self.names() if now[name][1] != self.last[name][1]]
        self.last = now
        return due


class Notes(unittest.TestCase):
    def begun(self, client, key):
        """A list with elements, its plain twin, and watches whose replies are its present answers."""
        plain = PlainList(False)
        plain.push(5, -3, 8)
        client.execute_command("LV.PUSH", key, 5, -3, 8)
        for name, kind, window, *bound in WATCHES + BOUNDED:
            now = Watched(plain).sees(name)[0] if name != "low" else 8
            self.assertEqual(asked(client, "LV.WATCH", key, name, kind, *window, *bound), [plain.edits, now])
        return plain

    def edits(self, client, key, plain, watched, count, seed):
        """Makes random edits, and gives the notes of each that are due."""
        rand = random.Random(seed)
        for _ in range(count):
            kind = rand.randrange(6)
            if kind < 3 or len(plain.values) < 3:
                values = [rand.randrange(-60, 60) for _ in range(rand.choice((1, 1, 4)))]
                plain.push(*values)
                client.execute_command("LV.PUSH", key, *values)
            elif kind == 3:
                index, x = rand.randrange(plain.first, plain.size), rand.randrange(-60, 60)
                plain.set(index, x)
                client.execute_command("LV.SET", key, index, x)
            elif kind == 4:
                plain.pop()
                client.execute_command("LV.POP", key)
            else:
                plain.expire("INDEX", plain.first + 1)
                client.execute_command("LV.EXPIRE", key, "INDEX", plain.first)
            yield from watched.notes()

    def heard(self, listener, count):
        """So many messages, and that there are no more."""
        got = []
        while len(got) < count:
            message = listener.get_message(ignore_subscribe_messages=True, timeout=20)
            if message is None:
                break
            got.append(message["data"].decode())
        self.assertIsNone(listener.get_message(ignore_subscribe_messages=True, timeout=0.05))
        return got

    def subscribed(self, client, key):
        listener = client.pubsub()
        listener.subscribe(f"livevec:{key}")
        self.assertEqual(listener.get_message(timeout=20)["type"], "subscribe")
        return listener

    def test_each_change_once_and_in_order(self):
        with Server() as server:
            for seed in range(5):
                client, key = server.client(), f"key {seed}"
                listener = self.subscribed(server.client(), key)
                plain = self.begun(client, key)
                due = list(self.edits(client, key, plain, Watched(plain), 120, seed))
                self.assertGreater(len(due), 100)
                self.assertEqual(self.heard(listener, len(due)), due)
                listener.close()

    def test_watches_survive_and_tell_nothing_anew(self):
        for options in (["--appendonly", "yes"], []):
            with Server(*options) as server:
                client = server.client()
                plain = self.begun(client, "k")
                watched = Watched(plain)
                list(self.edits(client, "k", plain, watched, 30, 7))
                client.save()
                client = server.restart().client()
                listener = self.subscribed(server.client(), "k")
                due = list(self.edits(client, "k", plain, watched, 30, 8))
                self.assertEqual(self.heard(listener, len(due)), due)
                client.rename("k", "other")
                self.assertEqual(self.heard(listener, 0), [])
                listener.close()

    def test_replicas_tell_their_subscribers(self):
        with Server(port=free_port()) as master, Server("--replicaof", "127.0.0.1", str(master.port)) as replica:
            waited_for(lambda: replica.client().info("replication")["master_link_status"] == "up", "the replica")
            listeners = [self.subscribed(it.client(), "k") for it in (master, replica)]
            plain = self.begun(master.client(), "k")
            due = list(self.edits(master.client(), "k", plain, Watched(plain), 60, 3))
            for listener in listeners:
                self.assertEqual(self.heard(listener, len(due)), due)
                listener.close()

    def test_samples_within_a_span(self):
        with Server() as server:
            client = server.client()
            listener = self.subscribed(server.client(), "t")
            client.execute_command("LV.RETAIN", "t", 10)
            client.execute_command("LV.WATCH", "t", "top", "max", "WITHIN", 5)
            client.execute_command("LV.WATCH", "t", "hot", "max", "WITHIN", 5, "ATLEAST", 9)
            for time, x in ((0, 4), (1, 9), (4, 3), (6, 5), (20, 5), (21, 9), (21, 2)):
                client.execute_command("LV.ADD", "t", time, x)
            client.execute_command("LV.UNWATCH", "t", "top")
            client.execute_command("LV.ADD", "t", 40, 1)
            # drops by the retention count as edits: at 20 of the samples up to 10, and at 40 of those up to 30
            wanted = ["1 top 4", "2 top 9", "2 hot 9", "4 top 5", "4 hot 5", "7 top 9", "7 hot 9", "10 hot 1"]
            self.assertEqual(self.heard(listener, len(wanted)), wanted)
            listener.close()


if __name__ == "__main__":
    unittest.main()
