"""The limits of include/nbt.h, as the tools have them."""
import os
import sys

sys.path.append(os.path.join(os.path.dirname(os.path.abspath(__file__)), '..', '..', 'tools'))
from nbt_pcap.header import INPUT, KEPT_FOR, KEYS, LINE_ROOM, MOST_BODY, MOST_DATAGRAM, MOST_KEYS, MOST_LINE, MOST_NAMES
