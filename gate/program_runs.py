"""The runs of the program to which memory is refused: what goes in, and what comes out."""
import hashlib

from checks import BUNDLES, EMPTY, ENTRY, ROOT, bytes_of, canonical, frame, named, program, replies_of
from refusals import Ended, Run, run_once

OUT_OF_MEMORY = Ended(1, b"", b"fault 22\n")
# What fills no store; without memory for the words the line of the fault stands by itself.
NO_DUMP = f"{ROOT}/gate/bundles/relationships"
BAD_DUMP, BAD_DUMP_WORDS = b"fault 63 0\n", f'the dump "{NO_DUMP}" is empty, or not a dump\n'.encode()
NO_MEMORY = b"\0\0\0\1\x16"


def session(name, options, rows, tells_each=False):
    """A session of requests and their replies. A request that met a refusal is answered by 22, and the others are
    answered as if it had not been asked; or the session ends by fault 22, and whole replies stand written. If it tells
    each refusal, all is answered only if nothing was refused."""
    words = [program(), "run", *options]
    requests = [frame(request) for request, _ in rows]
    known = {(): [b"".join(frame(it) for it in reply) for _, reply in rows]}

    def answers(left_out):
        if left_out not in known:
            given = b"".join(it for place, it in enumerate(requests) if place not in left_out)
            rest = replies_of(run_once(words, given)[0].out)
            known[left_out] = [NO_MEMORY if place in left_out else next(rest, b"") for place in range(len(rows))]
        return known[left_out]

    def allows(ended, refused):
        is_fault = (ended.status, ended.err) == (1, OUT_OF_MEMORY.err)
        if not is_fault and (ended.status, ended.err) != (0, b""):
            return False
        given = list(replies_of(ended.out))
        left_out = tuple(place for place, reply in enumerate(given) if reply == NO_MEMORY)
        wanted = answers(left_out)[: len(given) if is_fault else len(rows)]
        fewest = 1 if refused and tells_each else 0
        return given == wanted and fewest <= is_fault + len(left_out) <= refused

    return Run(name, words, b"".join(requests), allows)


def command(words, given, is_plain, tells_each=False):
    """A command that out of memory writes nothing but `fault 22`. If it tells each refusal, it ends plainly only if nothing
    was refused."""

    def allows(ended, refused):
        if refused and (tells_each or ended == OUT_OF_MEMORY):
            return ended == OUT_OF_MEMORY
        return is_plain(ended)

    return Run(f"bundled {' '.join(words)}".strip(), [program(), *words], given, allows)


def pieces(word, given, parts):
    """A command that writes a part for each of its input; out of memory it has written the first of them, and `fault 22`."""
    fronts = [b"".join(parts[:size]) for size in range(len(parts) + 1)]

    def allows(ended, refused):
        if refused and (ended.status, ended.err) == (1, OUT_OF_MEMORY.err):
            return ended.out in fronts
        return ended == Ended(0, fronts[-1], b"")

    return Run(f"bundled {word}", [program(), word], given, allows)


def refresh():
    """A refresh of two real bundles. What memory is refused to is not fetched, or it ends the command by fault 22; what
    was sent before is whole."""
    names = ["p521", "withdrawn"]
    words = ["refresh", "--relationships", f"{ROOT}/gate/two.relationships", "--documents", BUNDLES]

    def allows(ended, refused):
        lines = ended.err.decode().splitlines()
        is_fault = lines[-1:] == ["fault 22"]
        said, sent, missed = lines[: len(lines) - is_fault], b"", 0
        for name, line in zip(names, said):
            if line == f"0 {name} sent{' empty' if name == 'withdrawn' else ''} due 300":
                sent += named(b"S", name, canonical(name))
            elif line == f"0 {name} no answer due 300 (out of memory)":
                missed += 1
            else:
                return False
        if ended.out != sent or missed + is_fault > refused or len(said) > len(names) - is_fault:
            return False
        return ended.status == 1 if is_fault else len(said) == len(names) and ended.status == (3 if missed else 0)

    return Run("bundled refresh", [program(), *words, "--now", "0"], b"", allows)


def program_runs():
    empty, entry, real, text = EMPTY, ENTRY, bytes_of(f"{BUNDLES}/rotation.json"), canonical("rotation")
    one_key = b'{"keys":[{"e":"AQAB","kid":"k","kty":"RSA","n":"AQAB","use":"jwt-svid"}]}'
    of_one = b"a" + (1).to_bytes(8, "big")
    all_of_one = [of_one, b"i\x01a" + empty]
    set_and_fetch = [(b"S\x01a" + empty, [b"s"]), (b"F", all_of_one)]
    yield session("a set and a fetch-all", [], set_and_fetch, tells_each=True)
    yield session("a set and a fetch-all, 256 shards", ["--shards", "256"], set_and_fetch, tells_each=True)
    digest = hashlib.sha256(b"".join(map(frame, all_of_one))).digest()
    rows = [set_and_fetch[0], (b"V\x03", [b"v\x03"]), (b"U" + digest, [b"e"]), (b"U" + bytes(32), all_of_one)]
    yield session("a set and two fetch-alls unless a digest is known", [], rows)
    yield session("a real bundle", [], [(b"S\x01a" + real, [b"s"]), (b"G\x01a", [b"f" + text])])
    rows = [(b"S\x01b" + empty, [b"s"]), (b"A\x01b" + entry, [b"p\x00"]), (b"V\x02", [b"v\x02"])]
    rows += [(b"C\x01a\x00" + real, [b"s"]), (b"G\x01b", [b"f" + one_key]), (b"R\x01a", [b"d"])]
    yield session("all kinds of requests", ["--shards", "1"], [*rows, (b"F", [of_one, b"i\x01b" + one_key])])
    names = [b"n%02d" % number for number in range(40)]
    rows = [(b"V\x02", [b"v\x02"]), *((b"C\x03" + name + b"\x00" + empty, [b"s"]) for name in names)]
    of_all = [b"a" + len(names).to_bytes(8, "big"), *(b"i\x03" + name + empty for name in names)]
    yield session("many names", ["--shards", "1"], [*rows, (b"F", of_all)])
    dump = [b"a" + (2).to_bytes(8, "big"), b"i\x01a" + real, b"i\x01b" + empty]
    stream = b"".join(map(frame, [b"V\x02", b"C\x01a\x00" + text, b"C\x01b\x00" + empty]))
    yield command(["migrate"], b"".join(map(frame, dump)), lambda it: it == Ended(0, stream, b""))
    race, lines = ["trace", "--shards", "2", "--rounds", "2"], bytes_of(f"{ROOT}/examples/race.trace")
    yield command(race, bytes_of(f"{ROOT}/examples/race.events"), lambda it: it == Ended(0, lines, b""), tells_each=True)
    words = [b"set a %s\n" % text, b"fetch\n", b"found %s\n" % text, b"stored\n"]
    frames = [frame(it) for it in (b"S\x01a" + text, b"F", b"f" + text, b"s")]
    yield pieces("encode", b"".join(words[:2]), frames[:2])
    yield pieces("encode", f"fetch\nset a @{ROOT}/gate/bundles/rotation.json".encode(), [frame(b"F"), frame(b"S\x01a" + real)])
    yield pieces("decode", b"".join(frames), words)
    told = b"-: bundle of 4 authorities (2 X.509, 2 JWT), sequence 7, refresh hint 300\n"
    of_two = b'{"trust_domains":{"a":%s,"b":%s}}\n' % (text, empty)
    yield command(["map"], b"".join(map(frame, dump)), lambda it: it == Ended(0, of_two, b""))
    requests = b"".join(map(frame, [b"S\x01a" + text, b"S\x01b" + empty]))
    yield pieces("check", real, [told])
    yield command(["import"], of_two, lambda it: it == Ended(0, requests, b""))
    yield command(["pem", "a"], b"".join(map(frame, dump)), lambda it: it.status == 0 and it.out and not it.err)
    yield command(["digest"], b"".join(map(frame, dump)), lambda it: it.status == 0 and it.out and not it.err)
    yield command(["explain", "31"], b"", lambda it: it.status == 0 and it.out and not it.err)
    yield refresh()
    ends = [Ended(1, b"", BAD_DUMP), Ended(1, b"", BAD_DUMP + BAD_DUMP_WORDS)]
    yield command(["serve", "--port", "0", "--load", NO_DUMP], b"", lambda it: it in ends)
    for words in (["--help"], *([it, "--help"] for it in ("run", "trace", "migrate", "refresh")), ["--version"]):
        yield command(words, b"", lambda it: it.status == 0 and it.out and not it.err)
    for words in (["run", "--shards", "0"], ["frames"], []):
        yield command(words, b"", lambda it: it.status == 2 and it.err and not it.out)
