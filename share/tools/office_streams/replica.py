"""A project's replica on a host: its office, how far that has come in the project's stream, and what waits for it."""
import collections
import json
import pathlib
import signal
import threading
import time

from office_streams import CALLER, FIRST_RULES, NUMBER, REQUEST, RULES, START, Fault, NoStream, engine, hints, offices, say

# Statuses of replies that stand in the record; the two errors aren't recorded, and are the same on each replica.
RECORDED = (200, 403, 404, 409, 422)
FOR_GOOD = RECORDED + (400,)
NUMBER_USED = b'{"error":"number-used"}'
# A request that was published longer ago tells that a replica is late; and for how long behind it no question is answered.
LATE, QUIET = 5.0, 0.3
# Where nothing came for so long behind such a request, nothing was to come: a connection that is lost is told before.
SURE = 30.0
# One that is later still is better taken as a line.
FAR_BEHIND = 30.0
# How long whoever asks a question waits.
PATIENCE = 10.0
# How many messages wait, and of how many bytes, where many lines may be ahead of their answers, and how many are delivered before anything else is
# looked at. As many come beside as are read ahead.
MOST_WAITING, MOST_BYTES, MOST_AT_ONCE = 1024, 4 << 20, 256
# How often a request that was lost for want of memory comes again without another being taken.
TURNS = 40
# Between two tries of a replica that can't go on, at most.
LONGEST_PAUSE = 30.0


class Question:
    """A question that waits for its answer."""

    def __init__(self, target):
        self.target = target
        self.began = time.monotonic()
        self.done = threading.Event()
        self.answer = None

    def settle(self, answer):
        self.answer = answer
        self.done.set()


class Seen:
    """What one attachment to the stream has shown: it begins at the last message that was taken, which is compared, and not behind it."""

    def __init__(self, begin, last):
        self.begin, self.last = begin, last
        self.compared = last is None
        self.heard = time.monotonic()
        self.handle = None


class Replica:
    def __init__(self, words, reader, programs, room, name, tool):
        self.words, self.reader, self.programs, self.room, self.name, self.tool = words, reader, programs, room, name, tool
        self.folder = pathlib.Path(words.folder) / name
        self.store = str(self.folder / "office.db")
        self.hint = hints.Hint(self.store, tool)
        self.lock = threading.Condition()
        self.waiting, self.questions = collections.deque(), collections.deque()
        self.office = self.seen = self.fault = None
        self.begin, self.last, self.rules = 0, None, FIRST_RULES
        # The last message that was taken, of whatever kind.
        self.at = -1
        self.turn = sum(name.encode())
        self.unheard = self.heard = self.taken_now = self.total = 0
        self.pause, self.due = 0.1, 0.0
        self.late_at = self.asked_at = self.used_at = float("-inf")
        self.started = self.held = self.stopping = False
        # Whether the last request was late, and whether it was late when it lost the log, or hasn't had it yet.
        self.is_behind, self.was_late = False, True

    def say(self, text):
        say(self.tool, f"{self.name}: {text}")

    # --- the stream; these are called by the main thread and by the engine's

    def look(self, now, holds=True):
        """What is due: to hold, to begin, to try anew behind a fault, to attach where nothing came for long."""
        if holds:
            self.look_for_hold()
        if self.held or now < self.due:
            return
        if not self.started:
            self.start()
        elif self.seen is None:
            self.attach()
        elif self.words.idle < now - self.seen.heard:
            self.again()

    def look_for_hold(self):
        """A file `hold` in the folder has the office closed and left alone, as long as it is there under the name `held`."""
        hold, held = self.folder / "hold", self.folder / "held"
        if hold.exists():
            self.stop()
            hold.rename(held)
            self.say("held")
        self.held = held.exists()
        if self.held:
            self.due = 0.0
        elif self.stopping:
            self.stopping, self.started = False, False

    def start(self):
        if not self.room.forget(self):
            # The office is closed first, behind a fault.
            return
        try:
            if pathlib.Path(self.store).exists():
                self.hint.look()
            else:
                self.hint = hints.Hint(self.store, self.tool)
            with self.lock:
                self.begin, self.last, self.rules = self.hint.offset, self.hint.number, self.hint.rules
                self.started, self.was_late, self.fault = True, True, None
            self.attach()
        except Fault as fault:
            self.failed(fault)

    def attach(self):
        with self.lock:
            self.drop()
            seen = self.seen = Seen(self.begin, self.last)
            self.turn += 1
        handle = self.reader.attach(self.name, seen.begin, self.turn, lambda it: self.hear(seen, it), lambda why: self.lost(seen, why))
        with self.lock:
            seen.handle = handle
            is_over = self.seen is not seen
        if is_over and handle is not None:
            handle.close()

    def again(self):
        """Attaches anew, at the next node, where nothing came for long: behind a parting a node may know nothing of what the others write, and
        a reader that it forgot is silent for ever. The last message comes again, and tells that the log is still the one."""
        if not self.seen.compared:
            # A node that comes back may be behind the others; all of them are asked.
            self.unheard += 1
            if self.unheard % (2 * len(self.words.log)) == 0:
                threading.Thread(target=self.ask_for_end, args=(self.seen,), daemon=True).start()
        self.let_go()
        self.attach()

    def ask_for_end(self, seen):
        """A log that takes nothing for now, where a disk is full, say, may be silent too. So where it ends is asked before anything is said."""
        try:
            ends = self.reader.end(self.name)
        except (Fault, *engine(self.words).LOST):
            return
        with self.lock:
            is_behind = 0 <= ends < seen.begin == self.begin and self.unheard
        if is_behind:
            self.failed(Fault(f"the log ends before offset {seen.begin}, which fed this file: it has lost its end, or is another"))

    def let_go(self):
        with self.lock:
            self.note_late()
            seen, self.seen = self.seen, None
            self.drop()
        if seen is not None and seen.handle is not None:
            seen.handle.close()

    def lost(self, seen, why):
        with self.lock:
            if seen is not self.seen:
                return
            self.note_late()
            self.seen = None
            self.pause = 0.1 if self.taken_now else min(self.pause * 2, 3.0)
            self.taken_now = 0
            self.due = time.monotonic() + self.pause
        self.say("the log finds no stream" if isinstance(why, NoStream) else why)

    def hear(self, seen, message):
        with self.lock:
            if seen is not self.seen:
                return
            seen.heard = time.monotonic()
            is_again = not seen.compared
            other = is_again and (message.offset, message.number) != (seen.begin, seen.last)
            if not other:
                seen.compared, self.unheard = True, 0
                self.at = max(self.at, message.offset) if is_again else self.at
                if not is_again or not self.is_old(message):
                    self.waiting.append((message, is_again))
                    self.have_more(message)
                    self.wake()
        if other:
            at = f"the log has {message.number} at offset {message.offset}, where {seen.last} at {seen.begin} fed this file"
            self.failed(Fault(f"{at}: it is another"))

    def have_more(self, message):
        """A replica that catches up by many lines has further messages come while these are taken; the lock is held."""
        self.heard += 1
        if self.heard % max(1, self.words.ahead // 2) == 0 and self.takes_many() and len(self.waiting) < MOST_WAITING:
            if sum(len(it.body) for it, _ in self.waiting) < MOST_BYTES:
                message.tag[0].taken(message)

    def takes_many(self):
        office = self.office
        return isinstance(office, offices.Lines) and 1 < office.window

    def is_old(self, message):
        """Whether nobody waits for the reply any more."""
        return message.sent is None or self.words.answer < time.time() - message.sent

    def failed(self, fault):
        """Tells why this replica doesn't go on, and tries anew in a while."""
        self.let_go()
        with self.lock:
            self.fault, self.started = fault, False
            self.pause = min(max(1.0, self.pause * 2), LONGEST_PAUSE)
            self.due = time.monotonic() + self.pause
            asked, self.questions = self.questions, collections.deque()
            self.lock.notify_all()
        self.say(fault)
        for it in asked:
            it.settle(None)

    def is_at(self, end):
        """Whether all is taken up to this offset."""
        with self.lock:
            seen, is_idle = self.seen, not self.waiting
            return seen is not None and seen.compared and end <= self.at and is_idle and pathlib.Path(self.store).exists()

    def stop(self):
        """Lets the stream go, and waits until the office is closed."""
        with self.lock:
            self.stopping = True
            self.lock.notify_all()
        self.let_go()
        while not self.room.forget(self):
            time.sleep(0.02)

    # --- questions

    def ask(self, question):
        with self.lock:
            if not self.started or self.held or self.stopping:
                question.settle(None)
                return
            self.questions.append(question)
            self.wake()

    def wake(self):
        """Has the worker start, or tells it; the lock is held."""
        if not self.stopping:
            self.room.want(self)
        self.lock.notify_all()

    # --- the office; these are called by the worker, which alone has it

    def work(self):
        """Takes what comes, and answers what is asked, until neither came for long."""
        try:
            while self.step():
                pass
        except Fault as fault:
            self.failed(fault)
        except Exception as why:  # a feed of many projects goes on with the others
            self.failed(Fault(f"{type(why).__name__}: {why}"))
        self.shut()
        self.room.leave(self)
        with self.lock:
            if (self.waiting or self.questions) and not self.stopping and self.fault is None:
                self.wake()

    def step(self):
        messages, questions = self.next()
        if messages is None:
            return False
        if questions:
            self.open(offices.Served)
            for it in questions:
                self.asked_at = time.monotonic()
                it.settle(self.office.ask("GET", it.target))
        if messages:
            self.take(messages)
        return True

    def next(self):
        """What is to be done: messages, and questions where this replica isn't late. None where nothing is, for long."""
        with self.lock:
            self.used_at = time.monotonic()
            while True:
                now = time.monotonic()
                if self.stopping or self.fault is not None:
                    return None, None
                messages = self.messages()
                questions = self.asked(now)
                if messages or questions:
                    return messages, questions
                if (1.0 if self.room.is_full() else self.words.keep) < now - self.used_at:
                    return None, None
                if isinstance(self.office, offices.Served) and 1 < now - self.used_at:
                    self.office.pause()
                self.lock.wait(0.1 if self.questions else 1.0)

    def asked(self, now):
        """The questions that somebody still waits for, where this replica isn't late."""
        while self.questions and PATIENCE < now - self.questions[0].began:
            self.questions.popleft().settle(None)
        if not self.questions or self.is_late(now):
            return []
        found, self.questions = list(self.questions), collections.deque()
        return found

    def messages(self):
        found, most = [], MOST_AT_ONCE if self.takes_many() else self.words.ahead
        while self.waiting and len(found) < most:
            message, is_again = self.waiting.popleft()
            if self.last is None or self.begin < message.offset or is_again:
                found.append(message)
            else:
                message.tag[0].taken(message)
        return found

    def is_late(self, now):
        """Whether there is more in the stream than was taken, for all that is known; then another replica answers questions better. Without the log
        it is as it was when that was lost."""
        if not pathlib.Path(self.store).exists():
            return True
        has_log = self.seen is not None and self.seen.compared
        return now - self.late_at < QUIET if has_log else self.was_late or bool(self.waiting)

    def note_late(self):
        """The log is lost; the lock is held. What was heard of it may still be taken."""
        if self.seen is not None and self.seen.compared:
            self.was_late = self.is_behind and time.monotonic() - self.late_at < SURE

    def drop(self):
        """What was heard and isn't taken is let go, since it comes again; the lock is held."""
        self.was_late = self.was_late or bool(self.waiting)
        self.waiting.clear()

    def take(self, messages):
        requests = []
        for message in messages:
            if message.kind == REQUEST:
                requests.append(message)
                continue
            self.deliver(requests)
            requests = []
            self.begin_office(message) if message.kind == START else self.change_rules(message)
        self.deliver(requests)
        self.at = max(self.at, messages[-1].offset)
        messages[-1].tag[0].taken(messages[-1])

    def program(self, rules, offset):
        if rules not in self.programs:
            raise Fault(f"from offset {offset} on the stream is of the rules {rules}: no --program {rules}=PROGRAM says which program has them")
        return self.programs[rules]

    def begin_office(self, message):
        """Makes the office as the first message says; or tests that the file is the copy which the stream begins with."""
        told = json.loads(message.body)
        rules, is_there = told.get("rules", FIRST_RULES), pathlib.Path(self.store).exists()
        program, _ = self.program(rules, message.offset)
        if "last" in told:
            self.shut()
            if not is_there or hints.number_at(self.store, told["records"]) != told["last"]:
                raise Fault(f"the stream begins with a copy of {told['records']} records, up to {told['last']}, which this file isn't: bring a copy")
        elif not is_there:
            self.folder.mkdir(parents=True, exist_ok=True)
            offices.make(program, self.store, told["manager"])
        if self.last is None:
            self.rules = rules

    def change_rules(self, message):
        """From here on another program takes the requests, on each replica."""
        if message.kind != RULES:
            raise Fault(f"the message at offset {message.offset} is none of ours")
        rules = json.loads(message.body)["rules"]
        if rules == self.rules:
            return
        self.program(rules, message.offset)
        self.shut()
        self.rules = self.hint.rules = rules
        self.hint.write()
        self.say(f"goes on by the rules {rules} from offset {message.offset} on")

    def deliver(self, messages):
        """Delivers until there are replies for good. Nothing behind a message is taken before it."""
        turn = 0
        messages = [self.ours(it) for it in messages]
        while messages:
            self.open(self.kind_for(messages))
            done, status, body = 0, None, b""
            for message, (status, body) in zip(messages, self.office.deliver(messages)):
                if status not in FOR_GOOD:
                    break
                self.taken(message, status, body)
                done += 1
            messages, turn = messages[done:], 1 if done else turn + 1
            if messages:
                self.lost_in_office(messages[0], status, body, turn)

    def lost_in_office(self, message, status, body, turn):
        if status != 503:
            raise Fault(f"the office answers {status} {body.decode(errors='replace')} to offset {message.offset}")
        if TURNS < turn:
            raise Fault(f"no memory for offset {message.offset}")
        self.say(f"no memory for offset {message.offset}: the same again")
        if self.takes_many():
            # Lines that were ahead are let go, with the process, which ended behind the first that it lost.
            self.shut(wanted=(0, 1))
        time.sleep(min(0.05 * 2**turn, 5.0))

    def ours(self, message):
        if not isinstance(message.number, str) or not NUMBER.fullmatch(message.number):
            raise Fault(f"the message at offset {message.offset} is none of ours")
        if not isinstance(message.caller, str) or not CALLER.fullmatch(message.caller):
            raise Fault(f"the message at offset {message.offset} is none of ours")
        if not pathlib.Path(self.store).exists():
            raise Fault(f"the stream begins at offset {message.offset} and not with its start: bring a copy of another replica's file")
        return message

    def taken(self, message, status, body):
        now = time.monotonic()
        self.is_behind = message.sent is None or LATE < time.time() - message.sent
        if self.is_behind:
            self.late_at = now
        with self.lock:
            if self.last is None or self.begin < message.offset:
                self.begin, self.last = message.offset, message.number
        self.taken_now += 1
        self.total += 1
        self.hint.take(message, status in RECORDED and body != NUMBER_USED, self.rules)
        if message.reply_to and not self.is_old(message):
            self.reader.answer(message, status, body, self.words.host)

    def kind_for(self, messages):
        """A served office, where questions came of late, unless much is to be caught up with."""
        sent = messages[0].sent
        is_far = self.words.ahead <= len(messages) and (sent is None or FAR_BEHIND < time.time() - sent)
        if isinstance(self.office, offices.Served):
            return offices.Lines if is_far else offices.Served
        return offices.Served if not is_far and time.monotonic() - self.asked_at < self.words.keep else offices.Lines

    def open(self, kind):
        if isinstance(self.office, kind):
            return
        self.shut()
        program, many = self.program(self.rules, self.begin)
        self.office = offices.opened(kind, program, self.store, many)

    def shut(self, wanted=(0, -signal.SIGTERM)):
        if self.office is not None:
            office, self.office = self.office, None
            status = office.close()
            if status not in wanted:
                self.say(f"the office ended with status {status}")
            if pathlib.Path(self.store).exists():
                self.hint.write()
