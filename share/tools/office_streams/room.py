"""How many offices a feed has open at once. Who wants one more waits until another ends; one that nobody needs ends then."""
import collections
import threading


class Room:
    def __init__(self, most):
        self.most = most
        self.lock = threading.Lock()
        self.inside, self.wanting = set(), collections.OrderedDict()

    def want(self, replica):
        """Has the replica work as soon as there is room, if it doesn't already."""
        with self.lock:
            if replica not in self.inside:
                self.wanting[replica] = True
                self.let_in()

    def let_in(self):
        while self.wanting and len(self.inside) < self.most:
            replica, _ = self.wanting.popitem(last=False)
            self.inside.add(replica)
            threading.Thread(target=replica.work, daemon=True).start()

    def leave(self, replica):
        with self.lock:
            self.inside.discard(replica)
            self.let_in()

    def forget(self, replica):
        """The replica isn't to begin work. Whether it doesn't work either."""
        with self.lock:
            self.wanting.pop(replica, None)
            return replica not in self.inside

    def is_full(self):
        """Whether somebody waits."""
        return bool(self.wanting)
