"""What `console` is to print for a script: a second implementation, from the rules of docs/ and of the crates' specs/ alone.

usage: python3 tools/console_model.py <crates/console/stdin | diff - crates/console/stdout
"""
import sys

# AES-128 and AES-CMAC, from their standards.

def xtime(a):
    a <<= 1
    return (a ^ 0x11B) if a & 0x100 else a

def mul(a, b):
    r = 0
    while b:
        if b & 1:
            r ^= a
        a = xtime(a)
        b >>= 1
    return r

def make_sbox():
    box = []
    for x in range(256):
        inv = next((y for y in range(256) if mul(x, y) == 1), 0)
        r = 0
        for i in range(8):
            bit = (inv >> i) ^ (inv >> ((i + 4) % 8)) ^ (inv >> ((i + 5) % 8)) ^ (inv >> ((i + 6) % 8)) ^ (inv >> ((i + 7) % 8)) ^ (0x63 >> i)
            r |= (bit & 1) << i
        box.append(r)
    return box

SBOX = make_sbox()

def expand(key):
    w = [list(key[4 * i:4 * i + 4]) for i in range(4)]
    rcon = 1
    for i in range(4, 44):
        t = list(w[i - 1])
        if i % 4 == 0:
            t = [SBOX[b] for b in t[1:] + t[:1]]
            t[0] ^= rcon
            rcon = xtime(rcon)
        w.append([a ^ b for a, b in zip(w[i - 4], t)])
    return [sum(w[4 * r:4 * r + 4], []) for r in range(11)]

def aes(key, block):
    keys = expand(key)
    s = [a ^ b for a, b in zip(block, keys[0])]
    for r in range(1, 11):
        s = [SBOX[b] for b in s]
        s = [s[(i + 4 * (i % 4)) % 16] for i in range(16)]
        if r < 10:
            t = []
            for c in range(4):
                col = s[4 * c:4 * c + 4]
                for i in range(4):
                    t.append(mul(col[i], 2) ^ mul(col[(i + 1) % 4], 3) ^ col[(i + 2) % 4] ^ col[(i + 3) % 4])
            s = t
        s = [a ^ b for a, b in zip(s, keys[r])]
    return bytes(s)

def xor(a, b):
    return bytes(x ^ y for x, y in zip(a, b))

def double(block):
    n = int.from_bytes(block, 'big') << 1
    if n >> 128:
        n = (n & ((1 << 128) - 1)) ^ 0x87
    return n.to_bytes(16, 'big')

def cmac(key, text):
    k1 = double(aes(key, bytes(16)))
    k2 = double(k1)
    blocks = [text[i:i + 16] for i in range(0, len(text), 16)] or [b'']
    last = blocks.pop()
    if len(last) == 16:
        last = xor(last, k1)
    else:
        last = xor(last + b'\x80' + bytes(15 - len(last)), k2)
    x = bytes(16)
    for b in blocks:
        x = aes(key, xor(x, b))
    return aes(key, xor(x, last))

# Suites.

SENDER, RECIPIENT = 1, 2
SECRET, LINK = 1, 2

class Bench:
    pid, check_length, overhead, first, last = 0xF0, 4, 6, 0, 65535
    def secret(root, role, seed, offer):
        return xor(seed, offer)
    def check(value, role):
        return bytes([role]) + value[:3]
    def link(value):
        return bytes(b ^ 0x5A for b in value)
    def stream(value, role, number, n):
        return bytes(value[i % 16] for i in range(n))
    def field(value, body):
        return bytes([sum(body) % 256])

class Keyed:
    pid, check_length, overhead, first, last = 0xF1, 8, 13, 0, 16777215
    def secret(root, role, seed, offer):
        return cmac(root, seed + offer if role == SENDER else offer + seed)
    def check(value, role):
        return cmac(value, bytes([role]) + bytes(15))[:8]
    def link(value):
        return cmac(value, bytes([3] * 16))
    def stream(value, role, number, n):
        key = cmac(value, bytes([5] * 16))
        out = b''
        for j in range((n + 15) // 16):
            out += aes(key, bytes([role]) + number.to_bytes(4, 'big') + bytes(7) + j.to_bytes(4, 'big'))
        return out[:n]
    def field(value, body):
        return cmac(cmac(value, bytes([4] * 16)), body)[:8]

KINDS = {'bench': Bench, 'keyed': Keyed}

class Suite:
    def __init__(self, kind, root, last):
        self.kind, self.root, self.last, self.newest, self.live = kind, root, last, 0, {}
    def spent(self):
        return len(self.live) >= 2 or self.newest == self.last
    def put(self, kind, value):
        self.newest += 1
        self.live[self.newest] = (kind, value)
        return self.newest
    def seal(self, key, role, number, plain):
        value = self.live[key][1]
        body = bytes([role]) + number.to_bytes(4, 'big') + xor(plain, self.kind.stream(value, role, number, len(plain)))
        return body + self.kind.field(value, body)
    def open(self, key, payload):
        value = self.live[key][1]
        if len(payload) < self.kind.overhead or payload[0] not in (SENDER, RECIPIENT):
            return None
        n = self.kind.overhead - 5
        body, field = payload[:-n], payload[-n:]
        if self.kind.field(value, body) != field:
            return None
        role, number, masked = body[0], int.from_bytes(body[1:5], 'big'), body[5:]
        return role, number, xor(masked, self.kind.stream(value, role, number, len(masked)))

# The entity.

IDLE, SELECT, EST_SENDER, EST_RECIPIENT, CONF_SSE, CONF_SCH = range(6)
ACT_REQ, ACT_RES, VFY_REQ, VFY_RES, ENC, TMN, ERROR = 0, 1, 2, 3, 4, 6, 15

class Refused(Exception):
    pass

class Fault(Exception):
    def __init__(self, code, place):
        self.code, self.place = code, place

class Entity:
    def __init__(self, suite):
        self.suite, self.state, self.service, self.role = suite, IDLE, 0, SENDER
        self.clear()
    def clear(self):
        self.seed, self.number, self.held, self.secret, self.link = bytes(16), 0, b'', 0, 0
    def frame_of(self, service, message, payload):
        return bytes([service << 4 | message]) + payload
    def end(self):
        gone = (self.link, self.secret)
        for key in gone:
            self.suite.live.pop(key, None)
        self.state = IDLE
        self.clear()
        return gone
    # each call answers confirmation, bytes, made, destroyed, fault
    def invoke(self, service, pid, seed, room):
        if room < 255: raise Refused(1)
        if len(seed) != 16: raise Refused(2)
        if self.state != IDLE: raise Refused(5)
        if pid != self.suite.kind.pid: raise Refused(6)
        self.state, self.service, self.role, self.seed = SELECT, service, SENDER, seed
        return 0, self.frame_of(service, ACT_REQ, bytes([pid]) + seed), 0, (0, 0), None
    def send(self, plain, room):
        if room < 255: raise Refused(1)
        if self.state != CONF_SCH: raise Refused(5)
        if not 1 <= len(plain) <= 200: raise Refused(7)
        if self.number >= self.suite.kind.last: raise Refused(8)
        self.number += 1
        return 2, self.frame_of(1, ENC, self.suite.seal(self.link, self.role, self.number, plain)), 0, (0, 0), None
    def data(self, room):
        if self.state != CONF_SCH: raise Refused(5)
        if not self.held: raise Refused(9)
        if room < len(self.held): raise Refused(10)
        data, self.held = self.held, b''
        return 0, data, 0, (0, 0), None
    def reveal(self, room):
        if self.state != CONF_SSE: raise Refused(5)
        if room < 16: raise Refused(10)
        return 0, self.suite.live[self.secret][1], 0, (0, 0), None
    def terminate(self, room):
        if room < 255: raise Refused(1)
        if self.state not in (CONF_SSE, CONF_SCH): raise Refused(5)
        frame = self.frame_of(self.service, TMN, b'')
        return 4, frame, 0, self.end(), None
    def release(self):
        confirmation = 0 if self.state == IDLE else 4
        return confirmation, b'', 0, self.end(), None
    def frame(self, frame, seed, room):
        if room < 255: raise Refused(1)
        if len(seed) != 16: raise Refused(2)
        if not 1 <= len(frame) <= 255: raise Refused(3)
        sep = frame[0]
        try:
            return self.hear(frame, seed)
        except Fault as f:
            service = (1 if sep >> 4 & 3 == 1 else 0) if self.state == IDLE else self.service
            reply = self.frame_of(service, ERROR, f.code.encode() + b'\0')
            state = self.state
            return 5, reply, 0, self.end(), f'{f.code} place {f.place} state {state} message {sep & 15}'
    def hear(self, frame, seed):
        sep, rest = frame[0], frame[1:]
        service, message = sep >> 4 & 3, sep & 15
        if sep >> 6: raise Fault('C1', 0)
        if service > 1: raise Fault('C2', 0)
        if message not in (ACT_REQ, ACT_RES, VFY_REQ, VFY_RES, ENC, TMN, ERROR): raise Fault('C3', 0)
        if message == ACT_REQ and not rest or message == TMN and rest: raise Fault('C4', 1)
        if self.state == CONF_SCH and message == ENC and service == self.service and self.held: raise Refused(4)
        if message == ERROR:
            return 5, b'', 0, self.end(), None
        steps = {
            (IDLE, ACT_REQ): self.on_act_req, (SELECT, ACT_RES): self.on_act_res, (EST_SENDER, VFY_RES): self.on_vfy_res,
            (EST_RECIPIENT, VFY_REQ): self.on_vfy_req, (CONF_SSE, TMN): self.on_tmn, (CONF_SCH, TMN): self.on_tmn, (CONF_SCH, ENC): self.on_enc,
        }
        step = steps.get((self.state, message))
        if step is None: raise Fault('M1', 0)
        if self.state != IDLE and service != self.service: raise Fault('M2', 0)
        return step(service, rest, seed)
    def agree(self, role, seed, offer):
        if len(offer) != 16: raise Fault('S2', 1)
        if self.suite.spent(): raise Fault('S3', 1)
        self.secret = self.suite.put(SECRET, self.suite.kind.secret(self.suite.root, role, seed, offer))
        return self.secret
    def check(self, role):
        return self.suite.kind.check(self.suite.live[self.secret][1], role)
    def confirm(self):
        if self.service == 0:
            self.state = CONF_SSE
            return 0
        if self.suite.spent(): raise Fault('S3', 1)
        self.link = self.suite.put(LINK, self.suite.kind.link(self.suite.live[self.secret][1]))
        self.number, self.state = self.suite.kind.first, CONF_SCH
        return self.link
    def on_act_req(self, service, rest, seed):
        if rest[0] != self.suite.kind.pid: raise Fault('S1', 1)
        made = self.agree(RECIPIENT, seed, rest[1:])
        self.state, self.service, self.role = EST_RECIPIENT, service, RECIPIENT
        return 0, self.frame_of(service, ACT_RES, seed), made, (0, 0), None
    def on_act_res(self, service, rest, seed):
        made = self.agree(SENDER, self.seed, rest)
        self.state = EST_SENDER
        return 0, self.frame_of(self.service, VFY_REQ, self.check(SENDER)), made, (0, 0), None
    def on_vfy_req(self, service, rest, seed):
        if rest != self.check(SENDER): raise Fault('S4', 1)
        own = self.check(RECIPIENT)
        made = self.confirm()
        return 1, self.frame_of(self.service, VFY_RES, own), made, (0, 0), None
    def on_vfy_res(self, service, rest, seed):
        if rest != self.check(RECIPIENT): raise Fault('S4', 1)
        return 1, b'', self.confirm(), (0, 0), None
    def on_tmn(self, service, rest, seed):
        return 4, b'', 0, self.end(), None
    def on_enc(self, service, rest, seed):
        record = self.suite.open(self.link, rest)
        if record is None: raise Fault('S5', 1)
        role, number, data = record
        if not 1 <= len(data) <= 200: raise Fault('S5', 1)
        if number == self.number:
            return 6, b'', 0, (0, 0), None
        if role == self.role: raise Fault('S5', 1)
        if number != self.number + 1 or number > self.suite.kind.last: raise Fault('Q1', 1)
        self.number, self.held = number, data
        return 3, b'', 0, (0, 0), None

# The console.

def unhex(word):
    return b'' if word == '-' else bytes.fromhex(word)

def dehex(data):
    return data.hex().upper() or '-'

def play(text):
    kind, layers, root, sec = None, [], {'A': bytes(16), 'B': bytes(16)}, {'A': 0x80, 'B': 0x80}
    peers, latest, out = None, {'A': b'', 'B': b''}, []
    for line in text.split('\n'):
        words = line.split()
        if line.startswith('#') or not words:
            continue
        if words[0] == 'suite':
            kind = KINDS[words[1]]
        elif words[0] == 'layer':
            layers.append(32 if words[1] == 'ledger' else int(words[2]))
        elif words[0] == 'root':
            root[words[1]] = unhex(words[2])
        elif words[0] == 'sec':
            sec[words[1]] = unhex(words[2])[0]
        else:
            if peers is None:
                both = sec['A'] & 0x80 and sec['B'] & 0x80
                last = min([4294967295] + layers)
                peers = {p: Entity(Suite(kind, root[p], last)) if both else None for p in 'AB'}
                for p in 'AB':
                    out.append(f'{p} activation: ' + ('agreed' if both else 'refused 11'))
            out.append(call(peers, latest, words))
    return '\n'.join(out) + '\n' if out else ''

def call(peers, latest, words):
    p, what, args = words[0], words[1], words[2:]
    e = peers[p]
    if e is None:
        return f'{p} {what}: no entity'
    if what == 'away':
        link, secret = e.end()
        peers[p] = None
        return f'{p} away: destroyed {link} {secret}'
    room = int(args[-1]) if args else 0
    try:
        if what == 'invoke':
            answer = e.invoke({'sse': 0, 'sch': 1}[args[0]], int(args[1], 16), unhex(args[2]), room)
        elif what == 'send':
            answer = e.send(unhex(args[0]), room)
        elif what == 'data':
            answer = e.data(room)
        elif what == 'secret':
            answer = e.reveal(room)
        elif what == 'terminate':
            answer = e.terminate(room)
        elif what == 'release':
            answer = e.release()
        elif what == 'frame':
            frame = latest['B' if p == 'A' else 'A'] if args[0] == '<' else unhex(args[0])
            answer = e.frame(frame, unhex(args[1]), room)
        confirmation, wrote, made, gone, fault = answer
        if what in ('invoke', 'send', 'terminate', 'frame') and wrote:
            latest[p] = wrote
        said = f'confirmation {confirmation}, wrote {dehex(wrote)}, made {made}, destroyed {gone[0]} {gone[1]}, fault {fault or "none"}'
    except Refused as r:
        said = f'refused {r.args[0]}'
    return f'{p} {what}: {said}; state {e.state}, number {e.number}'

if __name__ == '__main__':
    one, two = bytes([1] * 16), bytes([2] * 16)
    assert aes(bytes(range(16)), bytes.fromhex('00112233445566778899aabbccddeeff')).hex() == '69c4e0d86a7b0430d8cdb78070b4c55a'
    assert Keyed.secret(bytes([7] * 16), SENDER, one, two).hex().upper() == 'F3176947CF173050D4D789EA77E55517'
    sys.stdout.write(play(sys.stdin.read()))
