"""What clients of a service were answered, and whether a service shows that: no message that was stored is gone unless its removal
was asked for, none that was removed is back, and no unique id is given twice."""

import collections
import re
import threading
import time

from serving import Failed, Lost, Session, check, mailbox, request, stored_in, text_of

# Sizes of messages, in lines of 41 bytes on average.
LINES = (0, 0, 1, 1, 2, 5, 12, 30, 120, 400)
# A clock's ticks and the way to the kernel, in seconds.
SOON = 0.001


class Quit:
    """A QUIT that asks to remove messages: when it was sent, and whether it was answered."""

    def __init__(self, user, uniques):
        self.user, self.uniques, self.sent_at, self.is_answered = user, frozenset(uniques), None, False
        self.is_settled = False


class Told:
    """What clients asked for and were answered, through all lives of a service. A message is known by its marker, which is its key.
    Each client is told what its own thread saw."""

    def __init__(self, users):
        self.lock, self.users = threading.Lock(), users
        # The user to whom a marker was sent, and the marker of a user's unique id, once that is answered.
        self.sent, self.markers = {}, {}
        # The QUITs by the port of their session.
        self.quits, self.faults, self.gone = {}, [], set()

    def __getstate__(self):
        return {name: value for name, value in self.__dict__.items() if name != "lock"}

    def __setstate__(self, state):
        self.__dict__.update(state, lock=threading.Lock())

    def sends(self, user, marker):
        with self.lock:
            self.sent[marker] = user

    def stores(self, user, unique, marker):
        with self.lock:
            known = self.markers.setdefault((user, unique), marker)
            if known != marker:
                self.faults.append(f"unique id {unique} of {user} was given to {known} and to {marker}")

    def of_nobody(self):
        """Where deliveries are noted of which nobody is told."""
        return Told(self.users)

    def unanswered(self):
        known = set(self.markers.values())
        return [(marker, user) for marker, user in self.sent.items() if marker not in known]

    def asks(self, port, user, uniques):
        """A session is about to quit. Returns the QUIT, or None if this port was used before."""
        with self.lock:
            if port in self.quits:
                return None
            self.quits[port] = Quit(user, uniques)
            return self.quits[port]

    def settle(self, shown):
        """A start has shown these unique ids by user. What QUITs that weren't answered have removed is gone from now on, or stays."""
        for it in self.quits.values():
            if it.sent_at and not it.is_answered and not it.is_settled:
                it.is_settled = True
                self.gone |= {(it.user, unique) for unique in it.uniques - shown[it.user]}

    def after_all(self):
        """What must be seen after all that was answered."""
        stored = set(self.markers)
        removed = {(it.user, unique) for it in self.quits.values() if it.is_answered for unique in it.uniques} | self.gone
        doubtful = [it for it in self.quits.values() if it.sent_at and not it.is_answered and not it.is_settled]
        return Seen(self, stored, removed, doubtful)


def deliver(ctl, told, user, marker):
    """Delivers a message under its marker. Returns its unique id, or None if that wasn't answered."""
    told.sends(user, marker)
    text = text_of(marker)
    try:
        said = request(ctl, f"put 0 {user} {len(text)} {marker}", text)
    except OSError as error:
        raise Lost(str(error)) from error
    for unique in stored_in(said, user):
        told.stores(user, unique, marker)
        return unique
    return None


def deliver_file(ctl, told, user, key, count):
    """Delivers a file of so many messages, and returns how many of them were answered."""
    markers = [f"{key}.{number + 1}" for number in range(count)]
    for marker in markers:
        told.sends(user, marker)
    mbox = mailbox(map(text_of, markers))
    try:
        uniques = stored_in(request(ctl, f"deliver 1 {user} {len(mbox)} {key}", mbox), user)
    except OSError as error:
        raise Lost(str(error)) from error
    for marker, unique in zip(markers, uniques):
        told.stores(user, unique, marker)
    return len(uniques)


def remove_some(port, told, user, rng):
    """A session that removes about half of a user's messages."""
    with Session(port, user) as session:
        listed = session.unique_ids()
        numbers = [number for number in range(len(listed)) if rng.random() < 0.5]
        asked = told.asks(session.own_port, user, {listed[number] for number in numbers}) if numbers else None
        if asked:
            session.ask(*(f"DELE {number + 1}" for number in numbers))
            asked.sent_at = time.time() - SOON
        session.ask("QUIT")
        if asked:
            asked.is_answered = True


class Clients:
    """A client for each user, which delivers and removes until it is told to end or the service is lost."""

    def __init__(self, service, told, name, rng, seeds):
        self.service, self.told, self.name = service, told, name
        self.ends, self.is_lost, self.failures, self.turns = threading.Event(), False, [], 0
        self.pauses = []
        self.threads = [threading.Thread(target=self.run, args=(user, rng(seed)), daemon=True) for user, seed in zip(told.users, seeds)]
        for it in self.threads:
            it.start()

    def run(self, user, rng):
        turn = 0
        while not self.ends.is_set():
            turn += 1
            try:
                self.turn(user, f"{self.name}-{user}-{turn}", rng)
                self.turns += 1
            except (Lost, OSError) as error:
                if not self.is_lost:
                    # A roll may cut a session, and have a client wait.
                    self.pauses.append(str(error))
                    time.sleep(0.002)
            except Failed as error:
                if not self.is_lost:
                    self.failures.append(f"client of {user}: {error}")
                return

    def turn(self, user, key, rng):
        kind, lines = rng.randrange(10), rng.choice(LINES)
        if kind < 5:
            deliver(self.service.ctl, self.told, user, f"{key}-{lines}")
        elif kind < 7:
            deliver_file(self.service.ctl, self.told, user, f"{key}-{rng.choice((0, 1, 12, 30))}", rng.choice((2, 4, 12)))
        else:
            remove_some(self.service.port, self.told, user, rng)

    def loses(self):
        """From now on nothing that breaks off is a fault."""
        self.is_lost = True
        self.ends.set()

    def join(self):
        self.ends.set()
        for it in self.threads:
            it.join()
        check(not self.failures, "; ".join(self.failures[:3]))


class Answers:
    """The answers in a recording: the places where they were sent, and what they tell."""

    def __init__(self, told):
        self.told, self.stored, self.removed = told, {}, []

    def take(self, call):
        """A call by which the service sends something to a client."""
        if call.name not in ("sendto", "write"):
            return
        text = b"".join(call.bytes())
        for user, unique in re.findall(rb"op (\S+) \d+/\d+ stored (\d+)\n", text):
            self.stored.setdefault((user.decode(), int(unique)), call.begin)
        if b"+OK signing off\r\n" in text and (asked := self.told.quits.get(call.peer())):
            self.removed.append((call.begin, asked))

    def at(self, cut, moment):
        """What must be seen of a disk after a cut, which was at this moment."""
        stored = {it for it, place in self.stored.items() if place <= cut}
        answered = {asked for place, asked in self.removed if place <= cut}
        removed = {(asked.user, unique) for asked in answered for unique in asked.uniques}
        others = [it for it in self.told.quits.values() if it not in answered and it.sent_at and it.sent_at <= moment]
        return Seen(self.told, stored, removed, others)


class Seen:
    """What a service must show: messages that were stored, those that were removed, and QUITs that removed all they marked or
    nothing."""

    def __init__(self, told, stored, removed, doubtful):
        self.told, self.stored, self.removed, self.doubtful = told, stored, removed, doubtful
        # Where the deliveries after it are noted: by nobody, if the service that is seen isn't gone on with.
        self.next_told, self.shown, self.given = told.of_nobody(), {}, stored

    def faults(self, service, rng, again=1, next_key="next"):
        """What a service shows wrongly, by kind. Then some messages come again under their keys, and each user gets a new one."""
        faults = collections.defaultdict(list)
        for user in self.told.users:
            with Session(service.port, user) as session:
                listed = session.unique_ids()
                markers = session.markers(len(listed))
                session.ask("QUIT")
            self.judge(user, listed, markers, faults)
        known = sorted(it for it in self.stored if it in self.told.markers)
        for user, unique in rng.sample(known, min(again, len(known))):
            marker = self.told.markers[user, unique]
            found = deliver(service.ctl, self.told.of_nobody(), user, marker)
            if found != unique:
                faults["lost"].append(f"the key {marker} of {user} had {unique}, and has {found}")
        for user in self.told.users:
            self.judge_next(user, deliver(service.ctl, self.next_told, user, f"{next_key}-{user}-0"), faults)
        return faults

    def judge(self, user, listed, markers, faults):
        """Judges the messages that a user is shown."""
        here = self.shown[user] = set(listed)
        maybe = set().union(*(it.uniques for it in self.doubtful if it.user == user))
        stored = {unique for name, unique in self.stored if name == user}
        removed = {unique for name, unique in self.removed if name == user}
        if lost := stored - removed - maybe - here:
            faults["lost"].append(f"{user} lacks {sorted(lost)}, and has {sorted(here)}")
        if back := removed & here:
            faults["back"].append(f"{user} has the removed {sorted(back)}")
        if len(here) < len(listed) or len(set(markers)) < len(markers):
            faults["twice"].append(f"{user} has {listed}, {markers}")
        for unique, marker in zip(listed, markers):
            told = self.told.markers.get((user, unique), marker) if unique in stored else marker
            if told != marker or self.told.sent.get(marker) != user:
                faults["twice"].append(f"unique id {unique} of {user} has {marker}, and had {told}, sent to {self.told.sent.get(marker)}")
        for it in self.doubtful:
            left = it.uniques & here
            # (another QUIT that wasn't answered may have removed some of them)
            others = set().union(*(other.uniques for other in self.doubtful if other is not it and other.user == user))
            if it.user == user and left and it.uniques - here - removed - others and left - others:
                faults["lost"].append(f"a QUIT of {user} that marked {sorted(it.uniques)} left {sorted(left)}")

    def judge_next(self, user, unique, faults):
        """Judges the unique id of a new message."""
        most = max((number for name, number in self.given if name == user), default=0)
        if unique is None or unique <= most:
            faults["twice"].append(f"{user}'s next message gets {unique}, and {most} was given")
