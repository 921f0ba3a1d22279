"""What nbt-look-tshark is made of, over nbt_pcap. Of what tools/making/scripts.py lists the page's modules are made, too."""
