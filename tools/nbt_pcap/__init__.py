"""What nbt-cap2pcap is made of, and nbt-look-tshark reads with: packets of a pcap file or a network, and lines of captures."""
