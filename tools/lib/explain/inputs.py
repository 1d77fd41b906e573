"""What each command takes and reads, in the program's order, so that the first refusal here is the program's."""

from explain.commands import listed
from reading.files import Refused
from reading.plans import ROWS_LIMIT, Events, Flow, Local, Plan, Schedule, Settings
from reading.rows import Fault, KeyMissing, RowRefused

CAPTURES_LIMIT, LANE_LIMIT, DAMAGED_LIMIT, SAMPLES_LIMIT, LISTING_LIMIT = 1 << 28, 1 << 32, 1 << 28, 1 << 22, 1 << 28


class Inputs:
    """The inputs of a command, read up to the first that is refused: `refused`, or None. What was read before it is there. The data
    files (captures, words, lanes, samples) are only read on request."""

    def __init__(self, folder, command, name, has_data):
        self.folder, self.command, self.name, self.has_data = folder, command, name, has_data
        self.plan = self.settings = self.schedule = self.flow = self.local = self.refused = None
        self.room = CAPTURES_LIMIT
        try:
            COMMANDS[command].read(self)
        except Refused as refused:
            self.refused = refused

    def read_plan(self, make=Plan):
        """The command's own plan or settings."""
        try:
            return make(self.folder, self.name)
        except Refused as refused:
            refused.is_plan = True
            raise

    def take_plan(self):
        self.plan = self.read_plan()

    def named(self, file, row, read):
        """What a call reads of a file that a row names."""
        try:
            return read()
        except Refused as refused:
            refused.named_by = file, row
            raise

    def take_captures(self, file, rows, most):
        for row, _, capture in rows:
            if self.has_data and capture is not None:
                self.named(file, row, lambda name=capture: self.folder.packets(name, most, self.room))
                self.room -= self.folder.size(capture)

    def take_sources(self):
        """The captures, the flow file and the local file of the plan."""
        plan = self.plan
        self.take_captures(plan, plan.many["channel"], plan.max_packet)
        self.flow = self.named(plan, plan.places.get("flow"), lambda: Flow(self.folder, plan))
        self.local = self.named(plan, plan.places.get("local"), lambda: Local(self.folder, plan))

    def take_plan_and_sources(self):
        self.take_plan()
        self.take_sources()

    def take_burst(self):
        if self.name.endswith(".plan"):
            self.take_plan_and_sources()
        elif self.has_data:
            self.folder.packets(self.name, room=CAPTURES_LIMIT)

    def take_join(self):
        if self.name.endswith(".plan"):
            self.take_plan()
        if self.has_data:
            self.folder.words_bytes(self.plan.out + ".words" if self.plan else self.name)

    def take_stripe(self):
        self.take_plan()
        if self.has_data:
            self.folder.words_bytes(self.plan.out + ".words", has_bad=False)

    def take_check(self):
        self.take_plan()
        self.flow = self.named(self.plan, self.plan.places.get("flow"), lambda: Flow(self.folder, self.plan))
        if self.has_data:
            self.folder.words_bytes(self.plan.out + ".words")

    def take_lanes(self, most):
        """The lanes, of which it is asked here whether they are there."""
        for lane in range(self.plan.lanes if self.has_data else 0):
            self.folder.must_have("%s.lane.%d" % (self.plan.out, lane), most)

    def take_receive(self):
        self.take_plan()
        self.take_lanes(LANE_LIMIT)

    def take_schedule(self):
        self.schedule = self.named(self.plan, self.plan.places.get("schedule"), lambda: Schedule(self.folder, self.plan))

    def take_link(self):
        self.take_plan_and_sources()
        self.take_schedule()

    def take_damage(self):
        self.take_plan()
        self.take_schedule()
        self.take_lanes(DAMAGED_LIMIT)

    def take_duplex(self):
        self.settings = settings = self.read_plan(Settings)
        self.plan = self.named(settings, settings.places["plan"], lambda: Plan(self.folder, settings.plan))
        try:
            settings.must_fit(self.plan)
        except Refused as refused:
            refused.is_plan = True
            raise
        self.take_captures(self.plan, self.plan.many["channel"], self.plan.max_packet)
        self.take_captures(settings, settings.many["back"], self.plan.max_packet)

    def take_oobwrite(self):
        self.take_plan()
        self.local = self.named(self.plan, self.plan.places.get("local"), lambda: Local(self.folder, self.plan))

    def take_oobread(self):
        self.take_plan()
        self.must_name("oob", "oobread")
        name = self.plan.oob
        if not self.has_data:
            return
        data = self.named(self.plan, self.plan.places["oob"], lambda: self.folder.content(name, SAMPLES_LIMIT))
        wrong = data.translate(None, bytes(range(8)))
        if wrong:
            at = data.index(wrong[:1])
            raise Refused("%s: sample at %d: byte %d is %d, and a sample is below 8: bit 0 clock, bit 1 data, bit 2 sync" % (name, at, at, data[at]), name, "sample at %d" % at)

    def must_name(self, key, command):
        if key not in self.plan.places:
            missing = KeyMissing(self.name, key, "no row `%s`, which `%s` needs" % (key, command))
            missing.is_plan = True
            raise missing

    def take_resend(self):
        self.take_plan()
        self.must_name("events", "resend")
        if self.plan.wide:
            clash = RowRefused(self.name, self.plan.places["wide"], Fault("clash", 1, "wide: `resend` takes no plan with wide,1"))
            clash.is_plan = True
            raise clash
        self.take_sources()
        self.named(self.plan, self.plan.places["events"], lambda: Events(self.folder, self.plan))

    def take_list(self):
        self.folder.must_have(self.name, ROWS_LIMIT)
        if self.has_data and self.name.endswith(".words"):
            self.folder.words_bytes(self.name)

    def take_assemble(self):
        self.folder.must_have(self.name, LISTING_LIMIT)

    def take_nothing(self):
        pass


class Command:
    """A command: the words after it, what it takes, and how its inputs are read."""

    def __init__(self, listed, read):
        self.words, self.takes, self.read = listed.words, listed.takes, read


READERS = {
    "burst": Inputs.take_burst,
    "join": Inputs.take_join,
    "send": Inputs.take_plan_and_sources,
    "receive": Inputs.take_receive,
    "gather": Inputs.take_receive,
    "inspect": Inputs.take_receive,
    "link": Inputs.take_link,
    "generate": Inputs.take_nothing,
    "duplex": Inputs.take_duplex,
    "oobwrite": Inputs.take_oobwrite,
    "oobread": Inputs.take_oobread,
    "resend": Inputs.take_resend,
    "stripe": Inputs.take_stripe,
    "damage": Inputs.take_damage,
    "check": Inputs.take_check,
    "list": Inputs.take_list,
    "assemble": Inputs.take_assemble,
}
COMMANDS = {name: Command(row, READERS[name]) for name, row in listed().items()}
