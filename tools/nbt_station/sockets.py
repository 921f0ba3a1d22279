"""The sockets of a station: one at its address, and where that is an interface's, one at each address of broadcasts."""
import array
import contextlib
import fcntl
import ipaddress
import socket
import struct

from nbt_pcap.process import Stopped

# How many bytes of payloads may wait, if the system allows as many.
WAITING = 4 << 20
# An address of no host (RFC 5737): the route to it is looked up, and nothing is sent.
ELSEWHERE = ('192.0.2.1', 138)
EVERYWHERE, LIMITED = '0.0.0.0', '255.255.255.255'
# netdevice(7): the requests, how long a struct ifreq is, and how many interfaces there may be.
SIOCGIFCONF, SIOCGIFNETMASK, IFREQ, MOST = 0x8912, 0x891b, 40, 1_024
# socket(7), bpf(2): a filter of one instruction, `ret 0`, by which no packet comes to a socket.
SO_ATTACH_FILTER, NOTHING = 26, array.array('B', struct.pack('HBBI', 0x06, 0, 0, 0))
# No payload has as many bytes.
LONGEST = 65_536


def opened(host, port, device=None):
    """A socket at this address and port, for packets of this device alone where one is given."""
    sock = socket.socket(socket.AF_INET, socket.SOCK_DGRAM)
    try:
        sock.setsockopt(socket.SOL_SOCKET, socket.SO_RCVBUF, WAITING)
        sock.setblocking(False)
        if device is not None:
            sock.setsockopt(socket.SOL_SOCKET, socket.SO_REUSEADDR, 1)
            sock.setsockopt(socket.SOL_SOCKET, socket.SO_BINDTODEVICE, device)
        sock.bind((host, port))
        return sock
    except OSError as error:
        sock.close()
        raise Stopped(3, f'{host}:{port}: {error.strerror}') from error


def waiting(sock):
    """What waits in a socket, to which nothing more comes from here on: each payload, and its sender."""
    sock.setsockopt(socket.SOL_SOCKET, SO_ATTACH_FILTER, struct.pack('HP', 1, NOTHING.buffer_info()[0]))
    with contextlib.suppress(BlockingIOError):
        while True:
            yield sock.recvfrom(LONGEST)


def own_address(sock):
    """The address that a socket is bound to, or that packets elsewhere leave from where it is bound to all."""
    host = sock.getsockname()[0]
    if host != EVERYWHERE:
        return host
    with socket.socket(socket.AF_INET, socket.SOCK_DGRAM) as other:
        try:
            other.connect(ELSEWHERE)
            return other.getsockname()[0]
        except OSError:
            return host


def broadcasts(sock):
    """Sockets for the broadcasts that a socket at one address isn't given, and why others can't be opened."""
    host, port = sock.getsockname()
    opens, faults = [], []
    try:
        addresses = [] if host == EVERYWHERE else broadcast_addresses(sock, ipaddress.IPv4Address(host))
    except OSError as error:
        return [], [f'the interfaces: {error.strerror}']
    for address, device in addresses:
        try:
            opens.append(opened(address, port, device))
        except Stopped as stopped:
            faults.append(str(stopped))
    return opens, faults


def broadcast_addresses(sock, host):
    """The addresses of broadcasts on the network of this address, each with the device; none where it has no broadcasts."""
    fitting = [(network, device) for network, device in networks(sock) if host in network and network.prefixlen < 31]
    if not fitting:
        return []
    network, device = max(fitting, key=lambda each: each[0].prefixlen)
    return [(str(network.broadcast_address), device), (LIMITED, device)]


def networks(sock):
    """The IPv4 networks that this machine's interfaces are in, each with the device."""
    room = array.array('B', bytes(IFREQ * MOST))
    asked = struct.pack('iP', len(room), room.buffer_info()[0])
    length = struct.unpack('iP', fcntl.ioctl(sock, SIOCGIFCONF, asked))[0]
    for at in range(0, length, IFREQ):
        request = room[at:at + IFREQ].tobytes()
        mask = fcntl.ioctl(sock, SIOCGIFNETMASK, request)
        label = request[:16].split(b'\0')[0]
        yield ipaddress.IPv4Network((address_in(request), address_in(mask)), strict=False), label.split(b':')[0]


def address_in(request):
    """The address of a struct ifreq, as a text."""
    return socket.inet_ntoa(request[20:24])
