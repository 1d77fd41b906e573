"""Pictures of lanes, streams and queues, from the files that the program reads and writes.

The pictures are made by the project's own `Picture`, which writes SVG elements one by one, and by no plotting library: what is drawn
are boxes in rows with texts of the project's own, of which such a library would make nothing shorter, texts stay texts that can be
searched, the same files give the same bytes on each machine, and nothing has to be installed.
"""
