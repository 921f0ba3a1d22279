"""Debian's packages: that of the program, and those of the library. There is no copyright file: docs/DECISIONS.md says why."""
import gzip
import hashlib
import os
import time

from .common import SECONDS, VERSION, glibc_of, metadata, own, page_of
from .files import TOP, bytes_of, fail, run, text_of


class Deb:
    """A Debian package, in a folder of its own until `made` packs it."""

    def __init__(self, room, name, machine, section, depends, said, more=(), changed='CHANGELOG.md of the sources'):
        self.name, self.machine, self.root = name, machine, os.path.join(room, f'{name}_{machine}')
        self.control = [f'Package: {name}', f'Version: {VERSION}', f'Section: {section}', 'Priority: optional',
                        f'Architecture: {machine}', f'Maintainer: {maintainer()}', f'Depends: {depends}', *more]
        self.said = said
        changes = (f'nbt ({VERSION}) unstable; urgency=medium\n\n  * What changed stands in {changed}.\n\n'
                   f' -- {maintainer()}  {time.strftime("%a, %d %b %Y 00:00:00 +0000", time.gmtime(SECONDS))}\n')
        self.put(f'usr/share/doc/{name}/changelog.gz', gzip.compress(changes.encode(), 9, mtime=0))

    def path(self, place):
        return os.path.join(self.root, place)

    def put(self, place, data, mode=0o644):
        path = self.path(place)
        os.makedirs(os.path.dirname(path), exist_ok=True)
        with open(path, 'wb') as file:
            file.write(data)
        os.chmod(path, mode)

    def link(self, place, target):
        os.symlink(target, self.path(place))

    def made(self, folder):
        """Packs it, and answers the package's path."""
        files = sorted(os.path.relpath(os.path.join(at, name), self.root) for at, _, names in os.walk(f'{self.root}/usr') for name in names)
        size = sum(os.lstat(self.path(name)).st_size for name in files)
        sums = ''.join(f'{hashlib.md5(bytes_of(self.path(name))).hexdigest()}  {name}\n'
                       for name in files if not os.path.islink(self.path(name)))
        self.put('DEBIAN/md5sums', sums.encode())
        control = [*self.control[:6], f'Installed-Size: {size // 1024 + 1}', *self.control[6:], f'Description: {self.said[0]}']
        self.put('DEBIAN/control', '\n'.join([*control, *(f' {line}' for line in self.said[1:]), '']).encode())
        for at, folders, names in os.walk(self.root):
            for each in folders:
                os.chmod(os.path.join(at, each), 0o755)
            for each in folders + names:
                os.utime(os.path.join(at, each), (SECONDS, SECONDS), follow_symlinks=False)
        os.chmod(self.root, 0o755)
        os.utime(self.root, (SECONDS, SECONDS))
        os.makedirs(folder, exist_ok=True)
        path = os.path.join(folder, f'{self.name}_{VERSION}_{self.machine}.deb')
        run('dpkg-deb', '--root-owner-group', '-b', self.root, path)
        return path


def maintainer():
    """Who answers for the packages: who the environment says, or who committed last."""
    return '%s <%s>' % tuple(os.environ.get(name) or run('git', '-C', TOP, 'log', '-1', f'--format={form}').strip()
                             for name, form in (('DEBFULLNAME', '%an'), ('DEBEMAIL', '%ae')))


def program_deb(room, folder, program, look):
    """nbt: the programs, their tools and pages, as make install puts them."""
    for name, path in ('nbt', program), ('nbt-look', look):
        said = run(path, '--version').strip()
        if said != f'{name} {VERSION}':
            fail(f"CHANGELOG.md begins with version '{VERSION}', and the program says '{said}'")
    deb = Deb(room, 'nbt', 'amd64', 'net', f'libc6 (>= {glibc_of(program, look)}), python3', [
        'NetBIOS packets on the command line', 'Shows and builds the packets of NetBIOS over TCP and UDP (RFC 1001, RFC 1002),',
        'puts datagrams together from their fragments, and joins what several taps',
        'heard. It opens no sockets. With it come nbt-look, which says in words what the',
        'packets of a pcap or pcapng file are, tools that read what tshark does, that make',
        'captures from pcap files, and saved tables of captures of any size, and',
        'nbt-station, which opens a socket, and wants the package python3-nbt.'],
        ['Recommends: tshark', 'Suggests: python3-rich, python3-distributed, python3-nbt'], '/usr/share/doc/nbt/CHANGELOG.md')
    run('make', '-s', '-C', TOP, 'install', f'PROGRAM={program}', f'LOOK={look}', f'DESTDIR={deb.root}', 'PREFIX=/usr')
    run('strip', '--strip-unneeded', *(deb.path(f'usr/bin/{name}') for name in ('nbt', 'nbt-look')))
    for name in os.listdir(deb.path('usr/share/man/man1')):
        page = f'usr/share/man/man1/{name}'
        deb.put(f'{page}.gz', gzip.compress(bytes_of(deb.path(page)), 9, mtime=0))
        os.unlink(deb.path(page))
    os.renames(deb.path('usr/share/zsh/site-functions/_nbt'), deb.path('usr/share/zsh/vendor-completions/_nbt'))
    return deb.made(folder)


def library_debs(room, folder, machine, triplet, library, shared):
    """libnbt0 and libnbt-dev."""
    deb = Deb(room, 'libnbt0', machine, 'libs', f'libc6 (>= {glibc_of(shared)})', [
        'NetBIOS packets over TCP and UDP, the library', 'Shows and writes the packets of RFC 1001 and RFC 1002, and puts datagrams',
        'together from their fragments. Its sources are proved.'], ['Multi-Arch: same'])
    deb.put(f'usr/lib/{triplet}/libnbt.so.0', bytes_of(shared))
    deb.put('DEBIAN/shlibs', f'libnbt 0 libnbt0 (>= {VERSION})\n'.encode())
    deb.put('DEBIAN/triggers', b'activate-noawait ldconfig\n')
    deb.made(folder)
    deb = Deb(room, 'libnbt-dev', machine, 'libdevel', f'libnbt0 (= {VERSION})', [
        'NetBIOS packets over TCP and UDP, for programs in C', 'The header, nbt.h, the static library, nbt.pc for pkg-config, and examples.'],
        ['Multi-Arch: same'])
    deb.put('usr/include/nbt.h', bytes_of(f'{TOP}/include/nbt.h'))
    deb.put(f'usr/lib/{triplet}/libnbt.a', bytes_of(os.path.join(library, 'libnbt.a')))
    pc = run(f'{TOP}/tools/pkgconfig', '/usr').replace('${prefix}/lib\n', f'${{prefix}}/lib/{triplet}\n')
    deb.put(f'usr/lib/{triplet}/pkgconfig/nbt.pc', pc.encode())
    deb.link(f'usr/lib/{triplet}/libnbt.so', 'libnbt.so.0')
    for name, data in own('bindings', 'c', suffixes=('.c',)).items():
        deb.put(f'usr/share/doc/libnbt-dev/examples/{name}', data)
    deb.put('usr/share/doc/libnbt-dev/CALLING.md', text_of('docs', 'CALLING.md').encode())
    deb.made(folder)


def python_deb(room, folder):
    """python3-nbt, which finds the library of libnbt0 by the system's loader, on any machine."""
    deb = Deb(room, 'python3-nbt', 'all', 'python', f'python3 (>= 3.10), libnbt0 (>= {VERSION})', [
        'NetBIOS packets over TCP and UDP, for Python', 'The calls of libnbt0: packets, names, saved tables and stations.'])
    for name, data in own('bindings', 'python', 'nbt', suffixes=('.py', 'py.typed')).items():
        deb.put(f'usr/lib/python3/dist-packages/nbt/{name}', data)
    deb.put(f'usr/lib/python3/dist-packages/nbt-{VERSION}.dist-info/METADATA', metadata())
    deb.put('usr/share/doc/python3-nbt/README.md', page_of('Python').encode())
    deb.made(folder)
