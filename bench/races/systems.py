"""The systems with a race that bench/races/run measures: how each is built, started, called by clients, and driven by hand.

Commands are of bash, in an empty folder. TOP is the repository and HERE this folder.
"""
from dataclasses import dataclass, field

NAMES, COUNTER = "$TOP/tests/bursts/names.model", "$TOP/examples/counter.model"


@dataclass
class System:
    """A system. Without a server it is in its client."""

    what: str
    model: str
    client: str
    loop: str  # drives the case that races, for as many seconds as the last word says
    builds: list
    needs: list
    server: str = ""  # a port follows
    jittered: str = ""  # what `pst jitter` starts in place of the server or the client, if it is another program
    options: list = field(default_factory=list)


def of_server(what, server, needs, build="", model=NAMES, case="names"):
    """Returns a system that is a server, with the client and the loop of all servers."""
    builds = [f"g++ -O2 -pthread -o {name} $HERE/{name}.cpp" for name in ("client", "loop")]
    return System(what, model, "./client", f"./loop {case}", [*builds, build or ":"], ["g++", *needs], server=server)


GO_SOURCES = "mkdir go && cp $HERE/counter.go $TOP/examples/clients/go/{pst.go,go.mod} go"
GO_POINTS = 'cd go && go run "$($TOP/pst jitter --hooks)/overlay.go" points . && go build -overlay points/overlay.json -o ../counter-points .'

SYSTEMS = [
    of_server("Rust server: two sections of a `Mutex`", "./names_rs", ["rustc"], "rustc -O --edition 2021 -o names_rs $HERE/names.rs"),
    of_server("C++ server: `release` of a lease in two sections", "./lease", [], "g++ -O2 -pthread -o lease $HERE/lease.cpp", "$HERE/lease.model", "lease"),
    System(
        "C++ object: a cache filled beside a `set`", "$TOP/tests/jitter/cache.model", "./cache", "./cache_loop",
        ["g++ -O2 -pthread -o cache $TOP/tests/jitter/cache.cpp", "g++ -O2 -pthread -o cache_loop $HERE/cache_loop.cpp"], ["g++"], options=["--shared"],
    ),
    System(
        "Go object: `Load`, then `Store` of an atomic", COUNTER, "./counter", "./counter",
        [GO_SOURCES, "cd go && go build -o ../counter .", GO_POINTS], ["go"], jittered="./counter-points", options=["--shared"],
    ),
    of_server("Java server: `get`, then `put` of a concurrent map", "java -cp . NamesServer", ["javac"], "javac -d . $HERE/NamesServer.java"),
    of_server("Ruby server: two sections of a `Mutex`", "ruby $HERE/names.rb", ["ruby"]),
    of_server("Python server: looks, then stores", "python3 $HERE/names.py", []),
    of_server("Node server: `readFile`, then `writeFile`", "env FOLDER=$PWD node $HERE/count.js", ["node"], "", COUNTER, "counter"),
    System(
        "SQLite: `select`, then `update`", COUNTER, "python3 $TOP/examples/clients/sqlite_counter.py --racy", "python3 $HERE/sqlite_loop.py loop.db", [], [],
    ),
]
