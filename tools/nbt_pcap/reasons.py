"""Why something of a frame is left out, in words."""

CUT = 'cut by the snap length'
SHORT = 'shorter than its headers say'
BAD_LENGTH = 'a length that the packet lacks'
UNPAIRED = 'headers that do not pair'
STOPPED = 'where tshark stopped'
FRAGMENTS = 'fragments of IP that come late or differ'
NO_START = 'of a TCP stream whose start is missing'
GAP = 'after a gap in TCP'
NO_PACKET = 'where no session packet begins'
NO_REST = 'a session packet whose rest is missing'
RESET = 'with RST'
DIFFERING = 'sent again with other bytes'
# Of fragments that nothing completes.
FRAGMENTS_MISSING = 'fragments of IP whose others are missing'
FRAGMENTS_CUT = 'fragments of IP that are cut themselves'
FRAGMENTS_UNKNOWN = 'fragments of IP without the one that has the ports'
