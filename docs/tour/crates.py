"""Draws the layers of the crates, with those that a maintainer opens first.

A box has its crates to open first as lines, and all its crates as its title, which a viewer shows over it. checks/house.sh compares the
boxes with crates.txt: no crate uses one of a higher box.
"""

from picture.svg import COLOURS, Picture

WIDTH, HEIGHT = 960, 618
GREEN, BLUE, YELLOW, GREY = ("#1e8449", "#e9f7ef"), (COLOURS["sync"], "#eaf1f8"), ("#b7950b", "#fef9e7"), (COLOURS["note"], "#f4f6f7")
BOLD, FIXED = ' font-weight="bold"', ' font-family="monospace" font-weight="bold"'
# What is said of a crate begins so far right of its name, or in a narrow box so far below it; and a line is so high.
RIGHT, BELOW, LINE = 138, 15, 18
# Each box: x, y, width, height, colours, its name, its crates to open first with what they are opened for, and its other crates.
BOXES = [
    (12, 12, 460, 64, GREY, "Program", [("interlaken", "run, its contract, the commands' meanings")], "interlaken_main"),
    (488, 12, 460, 64, GREY, "C library", [("interlaken_c", "the exports"), ("c_receiver", "a handle, as the other five")],
     "c_plan c_parts c_bits live_receiver c_transmitter c_damage c_inspector c_checker c_gatherer"),
    (12, 88, 936, 64, BLUE, "Commands", [("link_commands", "link, and the delivery theorem"), ("stream_commands", "burst and send, the shape of all commands")],
     "join_commands receive_commands gather_commands case_commands lane_commands damage_commands inspect_commands check_commands listing_commands "
     "duplex_commands oob_commands resend_commands receipts lane_receipts command_words gathered_laws"),
    (12, 164, 936, 64, BLUE, "What commands share", [("run_shell", "outputs and statuses"), ("link_reports", "each printed line, each table")], "run_stops plan_inputs"),
    (12, 240, 226, 128, GREEN, "Sending end", [("burst_scheduler", "whose turn it is, bursts"), ("tx_end", "words to lanes")], "tx_words live_stream live_lanes live_end"),
    (250, 240, 226, 128, GREEN, "The way between", [("link_replay", "damage of lanes, accidents"), ("link_laws", "delivery, of bits")], "lane_damage retransmit duplex oob_flow"),
    (488, 240, 226, 128, GREEN, "Receiving end", [("lane_lock", "locks, found and lost"), ("rx_end", "bytes of lanes to events"), ("reassembly", "fault spans and packets")],
     "rx_front deskew live_checker lane_events live_inspector lane_words live_gatherer fault_spans event_model"),
    (726, 240, 222, 128, BLUE, "Files and rows", [("link_plan", "the rows of plans"), ("lk_outside", "files and output"), ("word_rules", "the rules of check")],
     "pcap_files csv_rows plan_errors duplex_plan resend_events link_cases words_files word_text rule_laws"),
    (12, 380, 936, 46, YELLOW, "Laws on both ends", [("delivery_laws", "packets that meet no fault span arrive")], "duplex_model"),
    (12, 438, 460, 100, YELLOW, "Definitions", [("stream_model", "what is sent"), ("receive_model", "what is received"), ("lane_model", "what a lane carries"),
                                                ("lock_model", "when a lane is locked")], "epoch_model"),
    (488, 438, 460, 100, GREEN, "Codecs", [("control_words", "control words and their CRC24"), ("metaframe", "framing, Diagnostic words"), ("coding_67b", "codes and bits")],
     "lk_crc crc32_runs calendar scrambler58 lane_striper phase_finder"),
    (12, 550, 936, 46, GREY, "Base", [("lk_base", "words, places, limits")], "word_list lk_index_lists cell_pool report_model"),
]


def draw_box(picture, x, y, width, height, colours, name, first, others):
    edge, fill = colours
    picture.box(x - 1, y - 1, width + 2, height + 2, edge)
    picture.box(x, y, width, height, fill, " ".join([crate for crate, _ in first] + others.split()), "crates")
    picture.text(x + 10, y + 18, name, edge, more=BOLD)
    is_narrow = width < 400
    for place, (crate, text) in enumerate(first):
        top = y + 36 + place * (2 * LINE - 4 if is_narrow else LINE)
        picture.text(x + 10, top, crate, more=FIXED)
        picture.text(x + 10 + (0 if is_narrow else RIGHT), top + (BELOW if is_narrow else 0), text, COLOURS["note"])


def draw(folder, path):
    picture = Picture(WIDTH, HEIGHT)
    for box in BOXES:
        draw_box(picture, *box)
    picture.text(12, 612, "A box only uses boxes below it or beside it. Yellow: definitions and laws; green: the link; blue: files and commands. "
                          "crates.txt and CRATES have all crates.", COLOURS["note"], more=' font-size="11.5"')
    picture.save(path)
