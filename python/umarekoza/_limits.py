"""The limits of documents 01 and 02, and how long lent buffers have to be at most."""

# What a caller meets: bytes of a text, bytes of a line without its LF, fields, bytes of a packet.
TEXT_MOST = 16384
LINE_MOST = 1024
FIELDS_MOST = 128
PACKET_MOST = 8191

# A run of so many numbers, and an output of so many bytes for a table or for a listing, is always enough.
RUN_MOST = 512
TABLE_MOST = 54582
LISTING_MOST = 7947

# What is kept of a text between its pieces takes a state of so many bytes.
STATE_BYTES = 70411
