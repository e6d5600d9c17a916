"""What a service tells of its opening, and what it has counted, by its socket and by `jnl stat`."""

from program_rows import record_of, wants, wants_run, Ended

BLOCKS = 600
HELLO = record_of("0 2", {})
# A commit that waits, of the first bit; one that compares it with 0; and a scan of its block.
COMMIT = record_of("1 1 1 1 0 514 0 1 0x01000000", {})
CONFLICT = record_of("1 0 1 0 0 514 0 1 0", {})
# The answer to a hello in version 2, but for the number of the opening (docs/PROTOCOL.md).
BEFORE_NUMBER = record_of("0 0 2 0 600", {})
BEHIND_NUMBER = record_of("257 128 4 0 513 32768 0 514 1 0 515 1024 0 531 32768", {})


def served(room):
    """A service of a disk, which is made where there is none."""
    if not room.path("disk").exists():
        wants_run(room.run(["jnl", "create", "disk", "--blocks", str(BLOCKS)]), Ended(b"", b"", 0))
    return room.start(["jnl", "serve", "disk", "--socket", "s"])


def opening_of(service):
    """The number of the opening, and wants what stands around it."""
    service.send(HELLO)
    told = service.connection.receive()
    front, behind = len(BEFORE_NUMBER), len(BEFORE_NUMBER) + 8
    wants("what a hello is told", told[:front] + told[behind:], BEFORE_NUMBER + BEHIND_NUMBER)
    return told[front:behind]


def stop(room, service):
    wants_run(room.run(["jnl", "stop", "--socket", "s"]), Ended(b"", b"", 0))
    service.ended()


def stat(room, *words):
    """The lines of `jnl stat`, by their names."""
    ended = room.run(["jnl", "stat", "--socket", "s", *words])
    wants("the status and the faults of jnl stat", (ended.status, ended.faults), (0, b""))
    lines = [line for line in ended.output.decode().splitlines() if not line.startswith("#")]
    return dict(line.rsplit(" ", 1) for line in lines)


def each_opening_has_a_number_of_its_own(room):
    """Of one service it is the same on each connection."""
    found = []
    for _ in range(4):
        service = served(room)
        found.append(opening_of(service))
        service.hang_up()
        wants("the number on another connection", opening_of(service), found[-1])
        wants("the number that is printed", stat(room)["opening"], found[-1].hex())
        stop(room, service)
    wants("how many numbers there are", len(set(found)), 4)


def a_service_counts(room):
    """Two commits of which each is synced, a conflict, and two connections."""
    service = served(room)
    before = stat(room)
    service.send(COMMIT, COMMIT, CONFLICT)
    for status in (0, 0, 64):
        wants("the status of a commit", service.connection.receive()[:4], status.to_bytes(4, "big"))
    after, metrics = stat(room), stat(room, "--prometheus")
    more = {name: int(after[name]) - int(before[name]) for name in after if name != "opening"}
    names = ("commits", "stable_commits", "conflicts", "connections", "log_positions", "waits_for_room")
    wants("what was counted", [more[name] for name in names], [2, 2, 1, 2, 0, 0])
    wants("whether syncs were", more["syncs"] >= 1 and int(after["syncs"]) >= more["syncs"], True)
    wants("the groups before, and whether each of the two commits is in one", (before["groups"], 1 <= more["groups"] <= 2), ("0", True))
    wants("the metric of commits", metrics["jnl_commits_total"], after["commits"])
    for name in ("sync", "group"):
        buckets = metrics[f'jnl_{name}_microseconds_bucket{{le="+Inf"}}']
        wants(f"all {name}s of the histogram", buckets, metrics[f"jnl_{name}s_total"])
    service.hang_up()
    stop(room, service)
