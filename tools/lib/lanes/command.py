"""The command `lanes`."""

from lanes.adapt import adapt_lanes
from lanes.adapt_options import ADAPT, adapt_settings_of
from lanes.exports import export_lanes
from lanes.imports import import_dumps
from lanes.options import settings_of


def main(words):
    if words[:1] == [ADAPT]:
        for line in adapt_lanes(adapt_settings_of(words[1:])):
            print(line)
        return 0
    settings = settings_of(words)
    for line in export_lanes(settings) if settings.is_export else import_dumps(settings):
        print(line)
    return 0
