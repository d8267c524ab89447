"""Puts the records of standard input into a capture, has tshark dissect it, and checks what tshark shows.

What tshark does not notice: AMF0 that is well-formed but of other values than were meant (it and the reader
below then agree); an unknown AMF0 marker outside an object, which it shows as "Unknown", and goes on at the next
byte; a boolean other than 0 and 1; a name twice in an object; an AMF0 message without a value; surplus bytes in
a control message; a user control event's number, for which it has no field; a chunk size of zero. The flags of
a record do not go over the wire, so it does not see them.
"""
import collections, itertools, math, os, re, struct, subprocess, sys
import xml.etree.ElementTree as ET

Record = collections.namedtuple('Record', 'name type time stream body')

# The control messages: the size of the body, and the fields that tshark has for parts of it.
CONTROLS = {
    1: (4, [('rtmpt.scm.chunksize', 0, 4)]),
    4: (6, [('rtmpt.ucm.eventtype', 0, 2)]),
    5: (4, [('rtmpt.scm.was', 0, 4)]),
    6: (5, [('rtmpt.scm.was', 0, 4), ('rtmpt.scm.limittype', 4, 5)]),
}
AMF0_TYPES = (18, 20)
CHUNK_SIZE = 1 << 24  # above any body, so that each message is one chunk
WARNING = 0x600000  # tshark's number for the severity; an error's is greater


# ---- the records ----

def records(lines):
    for line in lines:
        if re.fullmatch(r'time .*|\S+ none', line.strip()):
            continue
        words = re.fullmatch(r'(\S+) (\d+) ((?:[0-9a-f]{2})+)', line.strip())
        if not words or len(words[3]) != 2 * int(words[2]):
            raise ValueError(f'{line.strip()[:40]}: the line is not a name, a count and that many bytes')
        name, rest = words[1], bytes.fromhex(words[3])
        while rest:
            end = 13 + int.from_bytes(rest[1:4], 'big')
            if len(rest) < end:
                raise ValueError(f'{name}: the last record is cut short')
            time, stream = struct.unpack('>II', rest[4:12])
            yield Record(name, rest[0], time, stream, rest[13:end])
            rest = rest[end:]


def amf0(body):
    """The leaves of a body's AMF0 values in order, each as tshark's name for it, its place and its size."""
    leaves, at = [], 0

    def take(field, size):
        nonlocal at
        if len(body) < at + size:
            raise ValueError(f'{field} of size {size} at byte {at} of {len(body)}')
        leaves.append((field, at, size))
        at += size
        return body[at - size:at]

    def string():
        size = int.from_bytes(take('amf.stringlength', 2), 'big')
        if size:  # tshark has no field for an empty string
            take('amf.string', size)

    def value():
        marker = take('amf.amf0_type', 1)[0]
        if marker == 0:
            take('amf.number', 8)
        elif marker == 1:
            take('amf.boolean', 1)
        elif marker == 2:
            string()
        elif marker == 3:
            while body[at:at + 3] != b'\0\0\x09':
                string()
                value()
            take('amf.end_of_object_marker', 3)
        elif marker != 5:
            raise ValueError(f'unknown marker {marker} at byte {at - 1}')

    value()
    while at < len(body):
        value()
    return leaves


# ---- the capture ----

def chunk(record, chunk_stream=3):
    """A record as one chunk of type 0."""
    header = bytes([chunk_stream]) + min(record.time, 0xFFFFFF).to_bytes(3, 'big')
    header += len(record.body).to_bytes(3, 'big') + bytes([record.type]) + struct.pack('<I', record.stream)
    if record.time >= 0xFFFFFF:
        header += struct.pack('>I', record.time)
    return header + record.body


def checksum(data):
    total = sum(struct.unpack(f'>{(len(data) + 1) // 2}H', data + bytes(len(data) % 2)))
    while total >> 16:
        total = (total & 0xFFFF) + (total >> 16)
    return struct.pack('>H', total ^ 0xFFFF)


def connection(number, message):
    """The frames of a connection of its own for a message, so that a chunk size of one record can't spoil the next."""
    client, server = (bytes([10, 1, number >> 8, number & 255]), 40000), (bytes([10, 0, 0, 1]), 1935)
    sent = {client: 0, server: 0}
    frames = []

    def segment(source, target, flags, data=b''):
        tcp = struct.pack('>HHIIBBHHH', source[1], target[1], sent[source], sent[target], 0x50, flags, 65535, 0, 0) + data
        tcp = tcp[:16] + checksum(source[0] + target[0] + struct.pack('>HH', 6, len(tcp)) + tcp) + tcp[18:]
        ip = struct.pack('>BBHHHBBH', 0x45, 0, 20 + len(tcp), 0, 0, 64, 6, 0) + source[0] + target[0]
        ip = ip[:10] + checksum(ip) + ip[12:]
        frames.append(b'\2\0\0\0\0\1\2\0\0\0\0\2\x08\0' + ip + tcp)
        sent[source] += len(data) + (flags >> 1 & 1)  # a SYN counts as a byte

    def send(source, target, data):
        for at in range(0, len(data), 1460):
            segment(source, target, 0x18, data[at:at + 1460])
            segment(target, source, 0x10)

    segment(client, server, 0x02)
    segment(server, client, 0x12)
    segment(client, server, 0x10)
    c1, s1 = (bytes(8) + fill * 1528 for fill in (b'c', b's'))
    send(client, server, b'\3' + c1)
    send(server, client, b'\3' + s1 + c1)
    send(client, server, s1)
    send(server, client, chunk(Record('', 1, 0, 0, struct.pack('>I', CHUNK_SIZE)), 2))
    send(server, client, message)
    return frames


def capture(messages):
    parts = [struct.pack('<IHHiIII', 0xA1B2C3D4, 2, 4, 0, 0, 65535, 1)]
    frames = itertools.chain.from_iterable(connection(*numbered) for numbered in enumerate(messages))
    for time, frame in enumerate(frames):
        parts += [struct.pack('<IIII', time // 1000, time % 1000 * 1000, len(frame), len(frame)), frame]
    return b''.join(parts)


# ---- what tshark shows ----

def dissect(messages):
    """For each message, the packets with data from the server on its connection, as tshark shows them."""
    options = [
        f'rtmpt.max_packet_size:{CHUNK_SIZE + 1}',  # 32768 by default, and tshark takes no chunk size that isn't below
        'rtmpt.desegment:TRUE', 'tcp.desegment_tcp_streams:TRUE', 'tcp.check_checksum:TRUE', 'ip.check_checksum:TRUE',
    ]
    run = subprocess.run(
        ['tshark', '-r', '-', '-T', 'pdml', '-Y', 'tcp.srcport == 1935 && tcp.len > 0'] + [word for option in options for word in ('-o', option)],
        input=capture(messages), stdout=subprocess.PIPE, stderr=subprocess.PIPE, env={**os.environ, 'LC_ALL': 'C'})
    if run.returncode:
        sys.exit('dissect: tshark failed: ' + run.stderr.decode(errors='replace'))
    packets = [[] for _ in messages]
    # tshark lets through what XML forbids: a text's bytes are compared, its characters only where they can be shown
    shown = re.sub('[^\t\n\r -\ud7ff\ue000-\ufffd]', '?', run.stdout.decode('utf-8', 'replace'))
    for packet in ET.fromstring(shown):
        packets[int(named(packet, r'tcp\.stream')[0].get('show'))].append(packet)
    return packets


def named(element, pattern):
    return [found for found in element.iter() if re.fullmatch(pattern, found.get('name', ''))]


def shows(field, data, show):
    """Whether the text that tshark shows for a leaf says what its bytes say."""
    if field == 'amf.number':
        number = struct.unpack('>d', data)[0]
        # tshark shows 15 digits.
        return math.isclose(float(show), number, rel_tol=1e-14) or math.isnan(float(show)) and math.isnan(number)
    if field == 'amf.boolean':
        return show in (('1', 'True') if data[0] else ('0', 'False'))
    if field == 'amf.string':
        text = data.decode(errors='replace')
        # tshark shows other characters in ways of its own.
        return show == text or not text.isprintable() or re.search(r'[\\"\uFFFD]', text) is not None
    if field in ('amf.amf0_type', 'amf.stringlength'):
        return int(show, 0) == int.from_bytes(data, 'big')
    return field == 'amf.end_of_object_marker'


def complaints(record, packets):
    found = []
    for packet in packets:
        marks = [proto for proto in packet if proto.get('name') in ('_ws.malformed', '_ws.short', '_ws.unreassembled')]
        found += [f'tshark says {mark.get("showname")}' for mark in marks]
        for mark in named(packet, r'_ws\.expert'):
            if any(int(severity.get('show')) >= WARNING for severity in named(mark, r'_ws\.expert\.severity')):
                found.append(f'tshark says {mark.get("showname")}')
    messages = [proto for packet in packets for proto in packet.iter('proto') if named(proto, r'rtmpt\.header\.typeid')]
    if len(messages) != 2:
        return found + [f'tshark sees {len(messages)} messages, not the chunk size and the record']
    message = messages[1]
    for field in named(message, r'rtmpt\.(header|scm|ucm)\..*|amf\.amf0_type'):
        if 'Unknown' in field.get('showname'):
            found.append(f'tshark says {field.get("showname")}')

    header = {field.get('name').split('.')[-1]: int(field.get('show'), 0) for field in named(message, r'rtmpt\.header\..*')}
    for part, seen, sent in (
            ('type', header.get('typeid'), record.type), ('stream', header.get('streamid'), record.stream),
            ('time', header.get('ets', header.get('timestamp')), record.time), ('length', header.get('bodysize'), len(record.body))):
        if seen != sent:
            found.append(f'tshark sees {part} {seen}, the record has {sent}')

    shown = [field for field in message if field.get('show') == 'RTMP Body']  # none, if the body is empty
    if ''.join(field.get('value') for field in shown) != record.body.hex():
        found.append('tshark sees another body than the record has')
    if record.type in CONTROLS:
        size, parts = CONTROLS[record.type]
        if len(record.body) != size:
            found.append(f'the body of a control message of type {record.type} has {len(record.body)} bytes')
        for name, start, end in parts:
            numbers = [int(field.get('show'), 0) for field in named(message, re.escape(name))]
            if numbers != [int.from_bytes(record.body[start:end], 'big')]:
                found.append(f'tshark sees {name} {numbers} in the body {record.body.hex()}')
    if record.type not in AMF0_TYPES:
        return found

    try:
        wanted = amf0(record.body)
    except ValueError as error:
        return found + [f'the reader says {error}']
    fields = [field for field in named(message, r'amf\..*') if not len(field)]
    start = int(shown[0].get('pos')) if shown else 0
    leaves = [(field.get('name'), int(field.get('pos')) - start, int(field.get('size'))) for field in fields]
    if leaves != wanted:
        differ = next(pair for pair in itertools.zip_longest(leaves, wanted) if pair[0] != pair[1])
        return found + [f'tshark sees {differ[0]} (name, place, size) where the reader finds {differ[1]}']
    for (name, at, size), field in zip(leaves, fields):
        if not shows(name, record.body[at:at + size], field.get('show')):
            found.append(f'tshark shows {name} at byte {at} as {field.get("show")!r}, its bytes are {record.body[at:at + size].hex()}')
    return found


# ---- the two tasks ----

def check(lines):
    try:
        all_records = list(records(lines))
    except ValueError as error:
        sys.exit(f'dissect: {error}')
    if not all_records:
        sys.exit('dissect: no records')
    wrong = False
    for record, packets in zip(all_records, dissect([chunk(record) for record in all_records])):
        for complaint in complaints(record, packets):
            wrong = True
            print(f'dissect: {record.name}, the record of type {record.type}: {complaint}')
    if wrong:
        sys.exit(1)
    version = re.search(r'\d+(\.\d+)+', subprocess.run(['tshark', '--version'], stdout=subprocess.PIPE, stderr=subprocess.PIPE).stdout.decode())
    names, bodies = {record.name for record in all_records}, sum(record.type in AMF0_TYPES for record in all_records)
    print(f'dissect: {len(all_records)} records of {len(names)} lines, {bodies} with AMF0 bodies; tshark {version.group()} read them all')


def self_test():
    def text(data):
        return struct.pack('>H', len(data)) + data

    def number(value):
        return b'\0' + struct.pack('>d', value)

    body = b'\2' + text(b'onStatus') + number(1) + b'\5\3' + text(b'level') + b'\2' + text(b'status')
    body += text(b'stereo') + b'\1\1' + text(b'rate') + number(29.97) + b'\0\0\x09'
    odd = b'\2' + text(b'') + b'\2' + text(b'n' * 128) + b'\2' + text('na\u00EFve "\\\n'.encode()) + b'\2' + text(b'\xFF\0') + b'\3\0\0\x09\1\0'
    odd += b''.join(map(number, (math.nan, math.inf, -0.0, 1 / 3, 5e-324, 2.0 ** 53 + 2)))
    whole = Record('whole', 20, 7, 1, body)
    cases = []  # a record, what is sent for it, and a part of what must be said of it: nothing, where the record is whole

    def good(name, type, time, stream, body):
        record = Record(name, type, time, stream, body)
        cases.append((record, chunk(record), ''))

    def bad(name, said, body, type=20):
        record = Record(name, type, 7, 1, body)
        cases.append((record, chunk(record), said))

    def astray(name, said, old, new, at=0):
        sent = chunk(whole)
        at = sent.index(old, at)
        cases.append((whole._replace(name=name), sent[:at] + new + sent[at + len(old):], said))

    good('a command', 20, 7, 1, body)
    good('a data message', 18, 0xFFFFFE, 0xFFFFFFFF, body)
    good('odd values', 18, 0xFFFFFF, 1, odd)
    good('a long body', 9, 0xFFFFFFFF, 1, bytes(range(256)) * 300)
    good('an empty body', 8, 0, 1, b'')
    bad('a string length one too long', 'Malformed', body.replace(text(b'status'), b'\0\7status'))
    bad('a string length one too short', 'Malformed', body.replace(text(b'status'), b'\0\5status'))
    bad('a name length one too long', 'Malformed', body.replace(text(b'rate'), b'\0\5rate'))
    bad('a string past the end', 'Malformed', b'\2' + text(b'onStatus') + b'\2\0\4abc')
    bad('a string past the end of a data message', 'Malformed', b'\2' + text(b'onStatus') + b'\2\0\4abc', 18)
    bad('no end mark', 'Malformed', body[:-3])
    bad('half an end mark', 'Malformed', body[:-1])
    bad('no end mark, then a value', 'Malformed', body[:-3] + b'\2' + text(b'abc'))
    bad('an unknown marker', 'AMF0 type: Unknown', body.replace(b'\5\3', b'\x20\3'))
    bad('an unknown marker in an object', 'Malformed', body.replace(b'stereo\1', b'stereo\x20'))
    bad('an unknown marker at the end', 'AMF0 type: Unknown', body + b'\x20')
    bad('a cut number', 'Malformed', body[:15])
    bad('a byte too many', 'Malformed', body + b'\0')
    bad('no value', 'the reader says', b'')
    bad('a short window size', 'Malformed', b'\0\0\1', 5)
    bad('a long window size', 'has 5 bytes', b'\0\0\1\0\0', 5)
    bad('an unknown event', 'Event type: Unknown', b'\x77\0\0\0\0\0', 4)
    bad('an unknown limit', 'Limit type: Unknown', b'\0\0\1\0\x09', 6)
    bad('an unknown type', 'Type ID: Unknown', body, 0x30)
    size = len(body)
    astray('a header length one too long', 'tshark sees 1 messages', bytes([0, 0, size, 20]), bytes([0, 0, size + 1, 20]))
    astray('a header length one too short', 'tshark sees length', bytes([0, 0, size, 20]), bytes([0, 0, size - 1, 20]))
    astray('another type', 'tshark sees type 18', b'\x14', b'\x12', 7)
    astray('the stream the wrong way round', 'tshark sees stream', b'\1\0\0\0', b'\0\0\0\1', 8)
    astray('another time', 'tshark sees time', b'\0\0\7', b'\0\0\6')
    astray('an extended time not sent', 'tshark sees 1 messages', b'\0\0\7', b'\xFF\xFF\xFF')
    astray('another number', 'tshark shows amf.number', number(29.97), number(29.98))
    astray('another string', 'tshark shows amf.string', b'status', b'statua')
    astray('another boolean', 'tshark shows amf.boolean', b'stereo\1\1', b'stereo\1\0')
    astray('another type of value', 'tshark shows amf.amf0_type', b'\5\3', b'\6\3')
    astray('a string for a number', 'where the reader finds', number(29.97), b'\2' + text(b'abcdef'))

    results = [(record.name, complaints(record, packets), said)
               for (record, _, said), packets in zip(cases, dissect([message for _, message, _ in cases]))]
    line = bytes([20]) + size.to_bytes(3, 'big') + struct.pack('>IIB', 7, 1, 3) + body
    for name, count, data, said in (
            ('a line', len(line), line, ''), ('a count one too high', len(line) + 1, line, 'that many bytes'),
            ('a record length one too long', len(line), line[:3] + bytes([size + 1]) + line[4:], 'cut short'),
            ('a record length one too short', len(line), line[:3] + bytes([size - 1]) + line[4:], 'cut short')):
        try:
            read = list(records(['none none', f'whole {count} {data.hex()}', 'time 1 2 3']))
            results.append((name, [] if read == [whole] else [f'other records: {read}'], said))
        except ValueError as error:
            results.append((name, [str(error)], said))

    wrong = 0
    for name, found, said in results:
        right = any(said in complaint for complaint in found) if said else not found
        wrong += not right
        print(f'{name}: {"; ".join(found) or "no complaint"}' + ('' if right else f' -- WRONG, wanted: {said or "no complaint"}'))
    damages = sum(said != '' for _, _, said in results)
    print(f'dissect: {damages} damages and {len(results) - damages} whole records, ' + (f'{wrong} judged wrongly' if wrong else 'each judged rightly'))
    sys.exit(wrong > 0)


if __name__ == '__main__':
    self_test() if sys.argv[1:] == ['--self-test'] else check(sys.stdin)
