"""What the statuses of requests allow of a journal's lines. It knows nothing of answers and changes: a line that it
refuses is not lawful, and one that it takes may be lawful or not."""


class Statuses:
    """The statuses of a block's requests (docs/FORMATS.md, docs/DEFINITIONS.md), and how many are committed."""

    def __init__(self, requests):
        self.status = [("ready", 0)] * requests
        self.worker = [None] * requests
        self.notes = [0] * requests
        self.next_read = [None] * requests  # of the pass that stands
        self.stamped = [False] * requests
        self.front = 0

    def take(self, worker, request, incarnation):
        kind, number = self.status[request]
        if kind != "ready":
            return ["stale"]
        return [f"taken {number}"]

    def running(self, replies, worker, request, incarnation):
        """The replies to an event that the runner of this incarnation alone may make."""
        if self.status[request] != ("executing", incarnation):
            return ["stale"]
        return replies if self.worker[request] == worker else ["not-yours"]

    def replies(self, worker, verb, request, incarnation):
        """The replies that the statuses allow, each by its first word, but for `taken`."""
        if request >= len(self.status):
            return ["stale"]
        if verb == "take":
            return self.take(worker, request, incarnation)
        if verb in ("read", "publish", "giveup"):
            replies = {"read": ["answer", "blocked"], "publish": ["published", "not-yet"], "giveup": ["given"]}[verb]
            return self.running(replies, worker, request, incarnation)
        kind, number = self.status[request]
        if verb == "commit":
            if kind == "committed":
                return ["stale"]
            return ["committed", "not-yet"] if request == self.front and self.stamped[request] else ["not-yet"]
        if (kind, number) != ("executed", incarnation):
            return ["stale"]
        if verb == "begin":
            return ["begun"]
        return ["not-yet"] if self.next_read[request] is None else ["passed", "aborted", "blocked"]

    def end_pass(self, request, stamped=False):
        self.next_read[request], self.stamped[request] = None, stamped

    def change(self, worker, request, reply):
        """The statuses after a reply that they allow."""
        number = self.status[request][1] if request < len(self.status) else None
        if reply == "taken":
            self.status[request], self.worker[request], self.notes[request] = ("executing", number), worker, 0
        elif reply == "answer":
            self.notes[request] += 1
        elif reply == "published":
            self.status[request] = ("executed", number)
            self.end_pass(request)
        elif reply == "begun":
            self.next_read[request], self.stamped[request] = 0, False
            if self.notes[request] == 0:
                self.end_pass(request, stamped=True)
        elif reply == "passed":
            self.next_read[request] += 1
            if self.next_read[request] == self.notes[request]:
                self.end_pass(request, stamped=True)
        elif reply in ("aborted", "given"):
            self.status[request] = ("ready", number + 1)
            self.end_pass(request)
        elif reply == "committed":
            self.status[request] = ("committed", number)
            self.front += 1


def parts(line):
    """Worker, verb, request, incarnation (or nothing) and reply of a line."""
    event, reply = line.rsplit(" > ", 1)
    worker, verb, request, *more = event.split(" ")
    return worker, verb, int(request), int(more[0]) if more else None, reply


def first_refused(lines, requests):
    """The number of the first line, from 1, that the statuses don't allow, or nothing."""
    statuses = Statuses(requests)
    for number, line in enumerate(lines, 1):
        worker, verb, request, incarnation, reply = parts(line)
        word = reply.split(" ")[0]
        if (reply if word == "taken" else word) not in statuses.replies(worker, verb, request, incarnation):
            return number
        statuses.change(worker, request, word)
    return None


def publication(lines, place):
    """The place at which the run is published whose read was answered at this place, or nothing where it is not."""
    _, verb, request, incarnation, reply = parts(lines[place])
    if verb != "read" or not reply.startswith("answer "):
        return None
    last = (("publish", request, incarnation, "published"), ("giveup", request, incarnation, "given"))
    ends = (at for at in range(place, len(lines)) if parts(lines[at])[1:] in last)
    at = next(ends, None)
    return at if at is not None and parts(lines[at])[1] == "publish" else None


def committed(lines):
    return sum(line.endswith(" > committed") for line in lines)
