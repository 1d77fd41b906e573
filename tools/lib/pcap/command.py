"""The command `pcap`."""

import os

from pcap.captures import NANO, capture_of
from reading.ending import Options, must_be_new
from reading.files import MOST_PACKET, Folder, Refused, shown_name
from reading.writing import Outputs

MAGIC = 0xA1B23C4D  # of nanoseconds
MOST_SECONDS = (1 << 32) - 1


def options_of(words):
    parser = Options(prog="pcap", description="Makes a capture that the program takes of a pcapng, or of a pcap of any byte order and resolution: link type, packets and stamps stay.")
    parser.add_argument("input", metavar="IN", help="the capture")
    parser.add_argument("output", metavar="OUT", help="the pcap that is written, little-endian with nanoseconds; packets of 0 bytes are left out")
    parser.add_argument("--overwrite", action="store_true", help="an OUT that is there is replaced")
    return parser.parse_args(words)


def main(words):
    options, folder = options_of(words), Folder(None, os.getcwd())
    capture = capture_of(options.input, folder.content(options.input))
    must_be_new(options.output, options.output, options.overwrite)
    packets = [packet for packet in capture.packets if packet.data]
    for number, packet in enumerate(packets):
        if len(packet.data) > MOST_PACKET:
            raise Refused("%s: packet %d has %d bytes, and the program takes at most %d" % (shown_name(options.input), number, len(packet.data), MOST_PACKET))
    with Outputs() as outputs:
        file = outputs.open(options.output)
        file.write(numbers(MAGIC) + (2).to_bytes(2, "little") + (4).to_bytes(2, "little") + numbers(0, 0, MOST_PACKET, capture.link))
        for packet in packets:
            seconds, part = divmod(packet.nanoseconds, NANO)
            file.write(numbers(min(seconds, MOST_SECONDS), part, len(packet.data), len(packet.data)) + packet.data)
    print("%s packets=%d empty=%d link=%d" % (options.output, len(packets), len(capture.packets) - len(packets), capture.link))
    return 0


def numbers(*values):
    return b"".join(value.to_bytes(4, "little") for value in values)
