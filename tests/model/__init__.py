"""The formats in Python: a slow model, written from RFC 1002 and the pages alone, beside which the program and the libraries are run.

It shares no code with them, and nothing of it is taken from what they print. `names` are read and written, `packets` read field by
field, and their `rdata`; what of a packet is shown is made of its fields: `objects`, and of these `text` and `phrases`; `values` for
callers of the libraries. `captures` have lines, `tables` what fragments say together, and `reports` what a station says of them;
`fragments` are those of IP, `connections` of TCP, and `traffic` is
what the frames of a capture bring, by `frames`."""
