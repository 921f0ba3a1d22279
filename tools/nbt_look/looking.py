"""One pass over a capture: from packets to what is printed of them."""
import collections
import gc
import os
import subprocess

from nbt_pcap import arguments as pcap_arguments
from nbt_pcap import tshark
from nbt_pcap.process import Stopped, say
from nbt_pcap.progress import Progress
from nbt_pcap.reasons import CUT
from nbt_shards.programs import BUILT, INSTALLED, local_program

from . import trial
from .filters import Filter
from .frames import FIELDS, STATISTICS, Frames
from .fronts import front_of, malformed_of
from .items import WINDOW, Cut, Ordering, Packet, Segment
from .listing import Listing
from .objects import Objects
from .screen import Screen
from .tally import Tally
from .telling import READ, Telling
from .times import Times
from .whole import Whole, WholeObject


def at_text(options, pipe):
    """Shows a capture that is text; answers the exit status."""
    from nbt_pcap.lines import Refused
    from .texts import batches_of
    look = Look(options)
    left_out = collections.Counter()
    try:
        for items in batches_of(options.file, pipe):
            left_out.update(CUT for each in items if isinstance(each, Cut))
            look.put(items)
        look.finish(left_out)
    except Refused:
        look.finish(left_out)
        raise
    except BaseException:
        look.telling.end()
        raise
    look.end([])
    return look.sink.status


def at_frames(options, settings, errors, pipe, merged):
    """Shows what tshark reads; answers how tshark ended, and the exit status where that was well."""
    look = Look(options)
    frames = Frames(options, look.times)
    child = tshark.start(options, settings, errors, FIELDS, STATISTICS, subprocess.PIPE if pipe else merged and merged.child.stdout)
    if pipe:
        pipe.go_on_to(os.dup(child.stdin.fileno()))
        child.stdin.close()
    progress = Progress(options, child, look.is_silent)
    stopping, listening = tshark.Stopping(child, tshark.ENDING if options.live else ()), tshark.Listening(options, errors)
    try:
        for rows in tshark.rows_of(child.stdout.fileno(), options.live):
            listening.look(rows)
            for row in rows:
                frames.row(row)
            if not rows:
                stopping.insist()
            look.put(frames.taken())
            progress.show(frames.report.frames)
        status = stopping.status()
        frames.finish()
        look.put(frames.taken())
        look.finish(frames.report.left_out)
    except BaseException:
        tshark.end(child)
        look.telling.end()
        raise
    finally:
        progress.erase()
    if merged and not frames.report.frames:
        merged.judge()
    if status == 0 and not options.live and not frames.report.frames:
        raise Stopped(2, ', '.join(map(pcap_arguments.title_of, options.files)) + ': the file holds no packets: it has no frame')
    if frames.report.frames or (options.live and status == 0):
        look.tally.frames, look.tally.without, look.tally.sought = frames.report.frames, frames.without(), frames.sought
        look.end(frames.notes())
    return status, look.sink.status


class Look:
    """What is done with items: each packet is told by nbt, filtered, counted, and shown in its place."""

    def __init__(self, options):
        gc.disable()                 # nothing here has a cycle, and looking for some costs as much as reading objects
        self.options = options
        self.program = program()
        self.at_once = options.live or (options.file == '-' and not options.is_merged)
        self.times = Times(options.time == 'utc')
        self.screen = Screen(options.color)
        self.filter = Filter(options)
        self.tally = Tally()
        self.is_silent = options.summary or options.frame is not None
        self.reads_objects = not (options.json and not self.is_silent and self.filter.is_all)
        self.sink = self.sink_of(options)
        self.ordering = Ordering(self.show, 0 if self.at_once or self.is_silent else WINDOW)
        self.telling = Telling(self.program, self.told)

    def sink_of(self, options):
        if options.frame is not None:
            return (WholeObject if options.json else Whole)(self.screen, self.times, options.frame, self.program)
        if options.summary:
            from .summary import Summary
            return Summary(self.screen, self.times, options, self.program)
        return Objects(self.screen, self.times) if options.json else Listing(self.screen, self.times)

    def put(self, items):
        self.telling.put(items, self.at_once)
        self.screen.flush()

    def told(self, told):
        """Takes an item with what nbt says of it."""
        item, text = told.item, told.text
        if isinstance(item, Segment):
            self.sink.segment(item, self.filter.wants_segment(item))
            return
        self.times.see(item.frame.at)
        if isinstance(item, Packet):
            self.tally.take(text)
        shown = self.shown(told)
        if self.filter.is_all or self.filter.wants(item, shown):
            self.tally.shown += 1
            self.ordering.put(item, shown, text)

    def shown(self, told):
        """The object of an item, with what stands of a front; None stands for what is left out, and for what nobody looks at."""
        fronts = [READ(each)[0] for each in told.fronts]
        question = dict(fronts[1], is_filled=told.filled) if len(fronts) > 1 else None
        if isinstance(told.item, Cut):
            return front_of(told.item, fronts[0], question)
        if isinstance(told.item, Packet) and (fronts or self.reads_objects):
            shown = READ(told.text)[0]
            return malformed_of(shown, fronts[0], question) if fronts else shown
        return None

    def show(self, item, shown, text):
        if self.sink.number not in (None, item.frame.number):
            return
        if isinstance(item, Packet):
            self.sink.packet(item, shown, text)
        elif isinstance(item, Cut):
            self.sink.cut(item, shown)
        else:
            self.sink.left_out(item)

    def finish(self, left_out):
        """Shows the rest, and what is known once all is seen."""
        self.left_out = left_out
        self.telling.finish()
        self.ordering.finish()
        self.screen.flush()

    def end(self, notes):
        """The last lines."""
        self.sink.finish(self.tally, self.left_out)
        lines = []
        if self.options.frame is None and not self.options.tables:
            lines = [self.tally.text(self.left_out, self.filter.is_all), *self.tally.notes(self.filter.is_all), *notes]
        if not self.tally.shown:
            lines += self.filter.notes()
        if not self.options.json:
            for each in lines:
                self.screen.line(each)
        self.screen.flush()
        if self.options.json and not self.options.quiet:
            for each in lines:
                say(each, name=False)


def program():
    """Where nbt is. One on PATH has to be the one that goes with this tool."""
    try:
        found = local_program(None)
    except Stopped as why:
        raise Stopped(3, "nbt isn't there: the package nbt installs it; from the sources, make build builds it") from why
    if found not in map(os.path.abspath, (BUILT, INSTALLED)):
        trial.judge(found)
    return found
