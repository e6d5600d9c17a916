"""The records of clients/port.examples, which docs/PROTOCOL.md explains, as a service answers them."""

from pathlib import Path

from program_rows import Ended, record_of, wants, wants_run

EXAMPLES = Path(__file__).resolve().parents[2] / "clients" / "port.examples"
# A commit that waits. With its mark the commit of the examples has place 3.
FIRST = record_of("1 1 1 1 0 515 0 128 0*32", {})
HELLO, COUNTERS = record_of("0 2", {}), record_of("6", {})
# Where the number of the opening stands in the answer to a hello, and the first counter in that of counters.
NUMBER, COUNTER = slice(20, 28), slice(12, 24)


def examples():
    """The records of the file in order, each with its sign and without its length."""
    signs, texts = [], []
    for line in EXAMPLES.read_text().splitlines():
        if line[:1] in ("<", ">"):
            signs.append(line[0])
            texts.append("")
        if line[:1] in ("<", ">", " "):
            texts[-1] += line[1:]
    records = [bytes.fromhex(text) for text in texts]
    wants("the lengths of the examples", [int.from_bytes(it[:4], "big") for it in records], [len(it) - 4 for it in records])
    return list(zip(signs, [it[4:] for it in records]))


def look_at_answer(request, answer, came):
    """The number of the opening is random, and a service counts more than the example has."""
    if request == HELLO:
        came = came[:NUMBER.start] + answer[NUMBER] + came[NUMBER.stop:]
    if request == COUNTERS:
        came, answer = came[:8] + came[COUNTER], answer[:8] + answer[COUNTER]
    wants(f"the answer to {request.hex(' ')}", came, answer)


# Of `jnl::serving::serve`, `journal_records::read_request`: the examples of the protocol.
def the_examples_of_the_protocol_are_answered(room):
    wants_run(room.run(["jnl", "create", "disk", "--blocks", "600"]), Ended(b"", b"", 0))
    service = room.start(["jnl", "serve", "disk", "--socket", "s"])
    service.send(FIRST)
    wants("the first commit", service.connection.receive()[:4], bytes(4))
    records = examples()
    wants("requests and answers in turn", [sign for sign, _ in records], [">", "<"] * (len(records) // 2))
    for (_, request), (_, answer) in zip(records[::2], records[1::2]):
        service.send(request)
        look_at_answer(request, answer, service.connection.receive())
    service.hang_up()
    wants_run(room.run(["jnl", "stop", "--socket", "s"]), Ended(b"", b"", 0))
    wants_run(service.ended(), Ended(b"stopped\n", b"", 0))
