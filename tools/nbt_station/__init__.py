"""What nbt-station is made of, besides its command line and its loop."""
