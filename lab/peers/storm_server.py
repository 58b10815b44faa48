"""A RADIUS server for honest subscribers and for others: it lets the honest ones in by their password, says to the others what it likes, sends
mangled copies of each reply before it, and compares each Stop with what went."""

import hashlib
import socket
import time

from peers import radius_packets
from peers.customers import FRONT, PASSWORD
from peers.mangling import mangled
from peers.radius_packets import ACCESS_ACCEPT, ACCESS_CHALLENGE, ACCESS_REJECT, FRAMED, FRAMED_POOL

HONEST_NET = bytes([10, 9])


def unlike(copy, octets):
    """Whether a copy is not the message itself, with or without padding behind it."""
    return copy[:len(octets)] != octets


def proves(request):
    try:
        return radius_packets.proves(request, PASSWORD)
    except KeyError:
        return False


def honest_reply(request):
    return radius_packets.answer(request, ACCESS_ACCEPT, FRAMED, (FRAMED_POOL, b"honest"))


def signed_reply(code, request, body):
    """A reply with these octets as its attributes, signed whatever they are."""
    front = bytes([code, request.identifier]) + (20 + len(body)).to_bytes(2, "big")
    return front + hashlib.md5(front + request.authenticator + body + radius_packets.SECRET).digest() + body


class StormServer:
    """What a storm does as the RADIUS server."""

    def customer_of(self, name):
        """The honest subscriber that logs in, or has logged in, by this name, or None."""
        return next((it for it in (*self.customers, *self.callers) if it.name.encode() == name), None)

    def hear_request(self, octets):
        request = radius_packets.read(octets)
        said = dict(request.attributes)
        name = said.get(radius_packets.USER_NAME, b"")
        customer = self.customer_of(name)
        if name.startswith(FRONT):
            is_right = customer and customer.phase == "logging in" and proves(request)
            reply = honest_reply(request) if is_right else radius_packets.answer(request, ACCESS_REJECT)
        else:
            customer, reply = None, self.reply_to_intruder(request)
        for _ in range(self.chance.choice((0, 1, 3))):
            way, copy = mangled(self.chance, "auth", reply, self.store.any(self.chance, "auth"))
            if unlike(copy, reply):
                stranger = self.chance.random() < 0.2
                self.hurl("auth", "wrong" if stranger else "right", self.auth_stranger if stranger else self.lab.radius, copy, way)
        self.hurl("auth", "wrong", self.auth_stranger, reply, "as it is")
        # It waits a step or two, but not where those take seconds: the gateway waits for it no longer than half a minute.
        self.replies.append((self.steps + self.chance.choice((0, 0, 1, 2)) * (self.pace < 1), reply, customer))

    def reply_to_intruder(self, request):
        chance, luck = self.chance, self.chance.random()
        pool = (FRAMED_POOL, b"main")
        if luck < 0.6:
            return radius_packets.answer(request, ACCESS_ACCEPT, FRAMED, pool)
        if luck < 0.7:
            code = chance.choice((ACCESS_REJECT, ACCESS_CHALLENGE, ACCESS_REJECT, 2, 5, 3, 11, 12))
            return radius_packets.answer(request, code, (radius_packets.REPLY_MESSAGE, b"go away"))
        attributes = [(8, bytes([10, 0, 0, chance.randrange(3, 99)])), (25, bytes(40)), (25, b"c" * 253), (27, bytes(3) + b"\3"), (28, bytes(3) + b"\2"), (11, b"slow"), (85, bytes(3) + b"\x3c"), pool]
        body = radius_packets.answer(request, ACCESS_ACCEPT, FRAMED, *chance.sample(attributes, chance.randint(0, 5)))[20:-18]
        if luck > 0.85:
            _, body = mangled(chance, "attributes", body, self.store.any(chance, "auth")[20:])
        if b"\x08\x06" + HONEST_NET in body or b"honest" in body:
            body = b""
        return signed_reply(ACCESS_ACCEPT, request, body[:4000])

    def send_replies(self):
        """Sends the replies whose step has come."""
        due, self.replies = [it for it in self.replies if it[0] <= self.steps], [it for it in self.replies if it[0] > self.steps]
        for _, reply, customer in due:
            if customer:
                customer.is_accepted = True
            self.store.keep("auth", reply)
            self.put(self.lab.radius, reply, "auth")
            if self.chance.random() < 0.2:
                self.hurl("auth", "right", self.lab.radius, reply, "again")

    def hear_record(self, octets):
        record = radius_packets.read(octets)
        if not radius_packets.is_digest(octets):
            self.found(f"a record has a wrong Request Authenticator: {octets.hex()}")
        reply = radius_packets.acknowledgement(record)
        for _ in range(self.chance.choice((0, 1, 2))):
            way, copy = mangled(self.chance, "acct", reply, self.store.any(self.chance, "acct"))
            if unlike(copy, reply):
                self.hurl("acct", "right", self.lab.accounting, copy, way)
        self.book(record)
        is_again = self.withheld.pop(octets, None)
        # One that was acknowledged may have been sent again before that was heard.
        if octets not in self.acknowledged and is_again is None and self.chance.random() < 0.01:
            self.withheld[octets] = time.monotonic()
            self.hurl("acct", "wrong", self.stranger, reply, "as it is")
            return
        self.asked_again += is_again is not None
        self.acknowledged.add(octets)
        self.store.keep("acct", reply)
        self.put(self.lab.accounting, reply, "acct")

    def book(self, record):
        said = dict(record.attributes)
        sid, status = said[radius_packets.ACCT_SESSION_ID], radius_packets.value(record, radius_packets.ACCT_STATUS_TYPE)
        name, address = said.get(radius_packets.USER_NAME, b""), said[radius_packets.FRAMED_IP_ADDRESS]
        if status == 1 and sid not in self.starts and sid not in self.stops:
            self.starts[sid] = address
            self.live[sid] = name
        if status != 2 or sid in self.stops:
            return
        self.live.pop(sid, None)
        self.starts.pop(sid, None)
        octets = [(int.from_bytes(said[giga], "big") << 32) + int.from_bytes(said[low], "big") for giga, low in ((52, 42), (53, 43))]
        self.stops[sid] = tuple(octets)
        went = self.sums.pop(address, [0, 0])
        if octets != went:
            self.found(f"the Stop of {name!r} at {socket.inet_ntoa(address)} says {octets}, and {went} went")
        if name.startswith(FRONT):
            customer = self.customer_of(name)
            if customer is None or customer.phase != "leaving":
                self.found(f"a Stop of {name!r} came, which did not end its session")
            else:
                customer.stop = record
