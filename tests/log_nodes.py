"""Three nodes of a replicated log on this machine's loopback, for tests: started, stopped, killed and looked at by their process ids.

RabbitMQ's and NATS's, with the configurations of share/streams as they stand; what is written otherwise is names, folders and ports, each of
which has to find its place. All ports are from `base` on: 130 of them.
"""
import contextlib
import os
import pathlib
import re
import shutil
import signal
import socket
import ssl
import subprocess
import sys
import time
import types

TOP = pathlib.Path(__file__).resolve().parent.parent
STREAMS = TOP / "share" / "streams"
TOOLS = TOP / "share" / "tools"
# Debian's packages for Python are this one's.
PYTHON = "/usr/bin/python3"
HOST = "127.0.0.1"
NAMES = ("a", "b", "c")
BASE, PORT = 25600, 20400
COOKIE = "OFFICETESTS"
RABBITMQ = pathlib.Path("/usr/lib/rabbitmq/bin")
USER, PASSWORD = "office", "swordfish"
# What the user of doors and feeds may, as the page says.
RIGHTS = re.search(r"set_permissions office '(.*)' '(.*)' '(.*)'", (TOP / "docs" / "SCALING.md").read_text()).groups()
LOOPBACK = ["-kernel", "inet_dist_use_interface", "{127,0,0,1}"]
# A node of Erlang that says of each line `NODE EXPRESSION` what that node says the expression is.
ASKER = """
Ask = fun(Again) ->
  case io:get_line("") of
    eof -> halt();
    Line ->
      [Node, Text] = string:split(string:trim(Line), " "),
      {ok, Tokens, _} = erl_scan:string(Text),
      {ok, Expressions} = erl_parse:parse_exprs(Tokens),
      io:format("~0p~n", [rpc:call(list_to_atom(Node), erl_eval, exprs, [Expressions, []], 60000)]),
      Again(Again)
  end
end, Ask(Ask)."""


def add_words(parser):
    """The words that say which ports are taken; two that run at a time take others."""
    parser.add_argument("--base", type=int, default=BASE, metavar="P", help=f"the first of the nodes' 130 ports [default: {BASE}]")
    parser.add_argument("--port", type=int, default=PORT, metavar="P", help=f"the first of 35 ports of doors and feeds [default: {PORT}]")


def replaced(text, words):
    for old, new in words.items():
        if old not in text:
            raise SystemExit(f"a configuration has no {old!r} any more")
        text = text.replace(old, str(new))
    return text


def answers(port):
    try:
        socket.create_connection((HOST, port), 1).close()
        return True
    except OSError:
        return False


def authority(folder):
    """A certificate of our own, and one for the nodes that it has signed."""
    folder.mkdir(parents=True, exist_ok=True)
    key, subject = ["-newkey", "ec", "-pkeyopt", "ec_paramgen_curve:P-256", "-nodes", "-days", "2"], ["-subj"]

    def openssl(*words):
        subprocess.run(["openssl", *map(str, words)], check=True, capture_output=True)

    openssl("req", "-x509", *key, *subject, "/CN=authority", "-keyout", folder / "authority.key", "-out", folder / "authority.pem")
    openssl("req", *key, *subject, "/CN=localhost", "-keyout", folder / "node.key", "-out", folder / "node.csr")
    (folder / "names").write_text("subjectAltName=DNS:localhost,IP:127.0.0.1\n")
    signed = ["-CA", folder / "authority.pem", "-CAkey", folder / "authority.key", "-CAcreateserial", "-days", "2", "-extfile", folder / "names"]
    openssl("x509", "-req", "-in", folder / "node.csr", *signed, "-out", folder / "node.pem")


def takes(port, room, has_certificate, greets):
    """Whether a port takes who comes by TLS, with a certificate of the authority or with none, and shows one itself. One that greets says a line
    in the clear first."""
    context = ssl.create_default_context(cafile=room / "authority.pem")
    if has_certificate:
        context.load_cert_chain(room / "node.pem", room / "node.key")
    try:
        with socket.create_connection((HOST, port), 10) as plain:
            while greets and plain.recv(1) not in b"\n":
                pass
            with context.wrap_socket(plain, server_hostname=HOST) as it:
                # Who misses a certificate says so behind the handshake.
                it.settimeout(2)
                with contextlib.suppress(TimeoutError):
                    return it.recv(1) != b""
        return True
    except OSError:
        return False


def said_in_clear(port, text):
    """What a port says to these bytes within a moment."""
    found = b""
    with contextlib.suppress(OSError), socket.create_connection((HOST, port), 10) as it:
        it.sendall(text)
        it.settimeout(2)
        while part := it.recv(4096):
            found += part
    return found


class Nodes:
    """What both kinds have in common."""

    engine = None
    # Whether a node greets clients in the clear before TLS begins, and what it says to one that it takes so.
    greets, welcome = False, None

    def __init__(self, folder, base=BASE, tls=False):
        self.folder, self.base, self.tls = pathlib.Path(folder).resolve(), base, tls
        self.folder.mkdir(parents=True, exist_ok=True)
        self.running = {}
        if tls:
            authority(self.folder / "tls")

    def port(self, name):
        return self.base + 10 + NAMES.index(name)

    @property
    def log(self):
        return ",".join(f"{HOST}:{self.port(name)}" for name in NAMES)

    @property
    def trusted(self):
        """The authority's certificate, where there is TLS."""
        return str(self.folder / "tls" / "authority.pem") if self.tls else None

    def words(self):
        """What tells a tool where the log is."""
        return ["--engine", self.engine, "--log", self.log, *(["--authority", self.trusted] if self.tls else [])]

    def data(self, name):
        return self.folder / name / "data"

    def start_all(self):
        """Of nodes that are new the first is started before the others: who finds one there joins it at once."""
        is_new = not self.data(NAMES[0]).exists()
        self.start(NAMES[0])
        if is_new:
            self.wait(NAMES[0])
        for name in NAMES[1:]:
            self.start(name)
        self.wait_for_all()
        self.sign_in(is_new)

    def sign_in(self, is_new):
        """Has the tools sign in as doors and feeds do."""

    def wait(self, name, seconds=1800):
        """Waits until the node takes connections; how long that took."""
        began = time.monotonic()
        while time.monotonic() - began < seconds:
            if answers(self.port(name)):
                return time.monotonic() - began
            if self.running[name].poll() is not None:
                raise RuntimeError(f"node {name} ended: {self.folder / name / 'out'}")
            time.sleep(0.2)
        raise TimeoutError(f"node {name} doesn't take connections")

    def kill(self, name, how=signal.SIGKILL):
        """Ends the node's program, as a failed machine would, and waits for that."""
        # A node that fell by itself has no process, and no file that tells it.
        with contextlib.suppress(ProcessLookupError, FileNotFoundError):
            os.kill(self.pid(name), how)
        try:
            self.running[name].wait(120)
        except subprocess.TimeoutExpired:
            os.killpg(self.running[name].pid, signal.SIGKILL)
            self.running[name].wait(60)

    def asks_nodes_for_certificates(self):
        """Whether the ports between nodes take who has a certificate, and nobody else."""
        room, ports = self.folder / "tls", [self.base + 20 + it for it in range(len(NAMES))]
        return all(takes(it, room, True, False) and not takes(it, room, False, False) for it in ports)

    def takes_clients_by_tls(self):
        """Whether each node shows clients a certificate of the authority, and takes none without TLS."""
        room, ports = self.folder / "tls", [self.port(name) for name in NAMES]
        return all(takes(it, room, False, self.greets) for it in ports) and not any(self.welcome in self.in_clear(name) for name in NAMES)

    def memory(self, name):
        """The node's resident memory, in bytes."""
        return memory_of(self.pid(name))

    def disk(self, name):
        out = subprocess.run(["du", "-s", "--block-size=1", str(self.data(name))], capture_output=True, text=True, check=False)
        return int(out.stdout.split()[0])

    def files(self, name):
        return len(os.listdir(f"/proc/{self.pid(name)}/fd"))

    def seconds(self, name):
        """The processor time that the node has had."""
        return seconds_of(self.pid(name))

    def stop(self):
        for name, it in self.running.items():
            if it.poll() is None:
                try:
                    os.kill(self.pid(name), signal.SIGCONT)
                    os.kill(self.pid(name), signal.SIGTERM)
                except (OSError, ValueError):
                    it.terminate()
        for it in self.running.values():
            try:
                it.wait(60)
            except subprocess.TimeoutExpired:
                os.killpg(it.pid, signal.SIGKILL)


def memory_of(pid):
    for line in pathlib.Path(f"/proc/{pid}/status").read_text().splitlines():
        if line.startswith("VmRSS"):
            return int(line.split()[1]) * 1024
    return 0


def seconds_of(pid):
    words = pathlib.Path(f"/proc/{pid}/stat").read_text().rsplit(")", 1)[1].split()
    return (int(words[11]) + int(words[12])) / os.sysconf("SC_CLK_TCK")


class RabbitNodes(Nodes):
    engine = "rabbitmq"
    welcome = b"PLAIN"

    def __init__(self, folder, base=BASE, tls=False, schedulers=2):
        super().__init__(folder, base, tls)
        self.schedulers = schedulers
        self.epmd = self.asker = None

    def environment(self, name):
        home = self.folder / name
        # No busy waiting: three nodes share this machine with all else.
        few = f"+S {self.schedulers}:{self.schedulers} +sbwt none +sbwtdcpu none +sbwtdio none {' '.join(LOOPBACK)}"
        found = {
            "PATH": "/usr/sbin:/usr/bin:/sbin:/bin",
            "HOME": str(home),
            "LANG": "C.UTF-8",
            "ERL_EPMD_PORT": str(self.base),
            "ERL_EPMD_ADDRESS": HOST,
            "RABBITMQ_NODENAME": f"{name}@localhost",
            "RABBITMQ_DIST_PORT": str(self.base + 20 + NAMES.index(name)),
            "RABBITMQ_MNESIA_BASE": str(self.data(name)),
            "RABBITMQ_LOG_BASE": str(home / "log"),
            "RABBITMQ_CONFIG_FILE": str(home / "rabbitmq"),
            "RABBITMQ_ADVANCED_CONFIG_FILE": str(home / "advanced.config"),
            "RABBITMQ_CONFIG_FILES": str(home / "conf.d"),
            "RABBITMQ_ENABLED_PLUGINS_FILE": str(home / "plugins"),
            "RABBITMQ_PID_FILE": str(home / "pid"),
            "RABBITMQ_CTL_DIST_PORT_MIN": str(self.base + 95),
            "RABBITMQ_CTL_DIST_PORT_MAX": str(self.base + 125),
            "RABBITMQ_SERVER_ADDITIONAL_ERL_ARGS": few,
        }
        if self.tls:
            found["RABBITMQ_SERVER_ADDITIONAL_ERL_ARGS"] += " " + " ".join(map(str, self.over_tls(name)))
        return found

    def over_tls(self, name):
        """The words by which a node talks to others by TLS."""
        return ["-pa", ssl_folder(), "-proto_dist", "inet_tls", "-ssl_dist_optfile", self.folder / name / "inter-node-tls.config"]

    def prepare(self, name):
        home = self.folder / name
        for part in (self.data(name), home / "log", home / "conf.d"):
            part.mkdir(parents=True, exist_ok=True)
        cookie = home / ".erlang.cookie"
        if not cookie.exists():
            cookie.write_text(COOKIE)
            cookie.chmod(0o400)
        words = {f"@NODE{place}@": f"{other}@localhost" for place, other in enumerate(NAMES, 1)}
        text = replaced((STREAMS / "rabbitmq.conf").read_text(), {**words, "@ADDRESS@": HOST, "@PORT@": self.port(name)})
        (home / "rabbitmq.conf").write_text(text)
        ports = {"{6000, 6500}": f"{{{self.base + 30}, {self.base + 90}}}"}
        paths = {"/etc/rabbitmq/": f"{self.folder / 'tls'}/"}
        advanced = STREAMS / ("advanced-tls.config" if self.tls else "advanced.config")
        (home / "advanced.config").write_text(replaced(advanced.read_text(), {**ports, **paths} if self.tls else ports))
        if self.tls:
            text = replaced((STREAMS / "inter-node-tls.config").read_text(), paths)
            (home / "inter-node-tls.config").write_text(text)
            text = replaced((STREAMS / "tls.conf").read_text(), {**paths, "@ADDRESS@": HOST, "@PORT@": self.port(name)})
            (home / "conf.d" / "tls.conf").write_text(text)
        (home / "plugins").write_text("[].\n")

    def start_epmd(self):
        if self.epmd is None:
            words = ["epmd", "-port", str(self.base), "-address", HOST]
            quiet = {"stdout": subprocess.DEVNULL, "stderr": subprocess.DEVNULL}
            self.epmd = subprocess.Popen(words, env={"PATH": "/usr/bin:/bin"}, start_new_session=True, **quiet)
            for _ in range(100):
                if answers(self.base):
                    return
                time.sleep(0.1)

    def start(self, name):
        self.start_epmd()
        self.prepare(name)
        with open(self.folder / name / "out", "ab") as out:
            words = ["/bin/sh", str(RABBITMQ / "rabbitmq-server")]
            self.running[name] = subprocess.Popen(
                words, env=self.environment(name), stdin=subprocess.DEVNULL, stdout=out, stderr=out, start_new_session=True, cwd=self.folder
            )

    def pid(self, name):
        """The process of the node's own program."""
        return int((self.folder / name / "pid").read_text())

    def told(self, name, expression):
        """What a node says an expression of Erlang is. rabbitmqctl would say it too, and takes seconds to start. Over TLS a node of our own asks."""
        if self.tls:
            return self.asked_over_tls(name, expression)
        words = ["erl_call", "-c", COOKIE, "-address", f"{HOST}:{self.base + 20 + NAMES.index(name)}", "-e"]
        done = subprocess.run(words, env=self.environment(name), input=expression + "\n", capture_output=True, text=True, timeout=600, check=False)
        return done.stdout

    def asked_over_tls(self, name, expression):
        if self.asker is None:
            words = ["erl", "-noshell", "-hidden", "-sname", "asker@localhost", "-setcookie", COOKIE, *LOOPBACK, "-eval", ASKER]
            words = list(map(str, words + self.over_tls(name)))
            self.asker = subprocess.Popen(words, env=self.environment(name), stdin=subprocess.PIPE, stdout=subprocess.PIPE, text=True)
        self.asker.stdin.write(f"{name}@localhost {expression}\n")
        self.asker.stdin.flush()
        return self.asker.stdout.readline()

    def is_shut_in(self):
        """Whether nodes talk to each other, and replicate streams, by TLS with a certificate of the authority alone, and take clients by TLS alone."""
        transport = self.told(NAMES[0], "application:get_env(osiris, replication_transport).")
        return "ssl" in transport and self.asks_nodes_for_certificates() and self.takes_clients_by_tls()

    def in_clear(self, name):
        """What a node says to a client that comes without TLS."""
        return said_in_clear(self.port(name), b"AMQP\x00\x00\x09\x01")

    def sign_in(self, is_new):
        if is_new:
            made = self.told(NAMES[0], f'rabbit_auth_backend_internal:add_user(<<"{USER}">>, <<"{PASSWORD}">>, <<"tests">>).')
            rights = ", ".join(f'<<"{it}">>' for it in RIGHTS)
            may = self.told(NAMES[0], f'rabbit_auth_backend_internal:set_permissions(<<"{USER}">>, <<"/">>, {rights}, <<"tests">>).')
            if "ok" not in made or "ok" not in may:
                raise RuntimeError(f"no user: {made} {may}")
        os.environ["OFFICE_LOG_LOGIN"] = f"{USER}:{PASSWORD}"

    def set_disk_limit(self, name, size):
        """How many bytes a node's disk has to have free, or the log takes nothing."""
        return self.told(name, f"rabbit_disk_monitor:set_disk_free_limit({size}).")

    def wait_for_all(self, seconds=1800):
        """Waits until all have joined: a stream that is made before that has no replica on the others."""
        for name in NAMES:
            self.wait(name)
        end = time.monotonic() + seconds
        while not all(self.told(name, "rabbit_nodes:all_running().").count("@localhost") == len(NAMES) for name in NAMES):
            if end < time.monotonic():
                raise TimeoutError("the nodes haven't joined")
            time.sleep(0.5)

    def leaders(self):
        """How many streams each node leads."""
        other = next(name for name in NAMES if self.running[name].poll() is None)
        told = self.told(other, "[node(amqqueue:get_pid(It)) || It <- rabbit_amqqueue:list()].")
        return {name: told.count(f"{name}@localhost") for name in NAMES}

    def stop(self):
        super().stop()
        if self.asker is not None:
            self.asker.stdin.close()
            self.asker.wait(10)
        if self.epmd is not None:
            self.epmd.terminate()
            self.epmd.wait(10)


def ssl_folder():
    """Where Erlang's TLS is."""
    return next(pathlib.Path("/usr/lib/erlang/lib").glob("ssl-*/ebin"))


class NatsNodes(Nodes):
    engine = "nats"
    greets, welcome = True, b"PONG"

    def start(self, name):
        home = self.folder / name
        self.data(name).mkdir(parents=True, exist_ok=True)
        place = NAMES.index(name)
        routes = ", ".join(f"nats://{HOST}:{self.base + 20 + it}" for it in range(len(NAMES)))
        words = {"@NAME@": name, "@ADDRESS@": HOST, "@PORT@": self.port(name), "@FOLDER@": self.data(name)}
        words.update({"@ROUTE@": self.base + 20 + place, "@ROUTES@": routes, **({"/etc/nats/": f"{self.folder / 'tls'}/"} if self.tls else {})})
        text = replaced((STREAMS / ("nats-tls.conf" if self.tls else "nats.conf")).read_text(), words)
        (home / "nats.conf").write_text(text)
        program = shutil.which("nats-server", path="/usr/sbin:/usr/bin")
        with open(home / "out", "ab") as out:
            words = [program, "-c", str(home / "nats.conf")]
            self.running[name] = subprocess.Popen(words, stdin=subprocess.DEVNULL, stdout=out, stderr=out, start_new_session=True)

    def pid(self, name):
        return self.running[name].pid

    def wait_for_all(self, seconds=1800):
        for name in NAMES:
            self.wait(name, seconds)
        # The nodes elect a leader of their own before they make streams.
        time.sleep(3)

    def is_shut_in(self):
        """Whether nodes talk to each other by TLS with a certificate of the authority alone, and take clients by TLS alone."""
        return self.asks_nodes_for_certificates() and self.takes_clients_by_tls()

    def in_clear(self, name):
        """What a node says to a client that comes without TLS."""
        return said_in_clear(self.port(name), b"CONNECT {}\r\nPING\r\n")

    def info(self):
        """What the one stream's leader tells of it."""
        nats = engine_of(self)
        connection = nats.connected(tool_words(self))
        try:
            return connection.api(f"STREAM.INFO.{nats.STREAM}")
        finally:
            connection.close()

    def leaders(self):
        leader = self.info()["cluster"].get("leader")
        return {name: int(name == leader) for name in NAMES}


def tool_words(nodes, names=NAMES):
    """What the tools' engines take in the place of words of a command line."""
    sys.path.insert(0, str(TOOLS))
    from office_streams import Node

    return types.SimpleNamespace(
        log=[Node(HOST, nodes.port(name)) for name in names], engine=nodes.engine, authority=nodes.trusted, heartbeat=10, ahead=200, confirm=4.0
    )


def engine_of(nodes):
    """The engine's module, as the tools have it."""
    sys.path.insert(0, str(TOOLS))
    import office_streams

    return office_streams.engine(tool_words(nodes))


def stream_whole(nodes, project, name=NAMES[0], quiet=3.0, seconds=120, tries=5):
    """The messages of a project's stream from its beginning to its end, as one node has them. A busy node may not answer in time."""
    if nodes.engine == "nats":
        return nats_whole(nodes, project, name)
    for _ in range(tries):
        found, lost = read_whole(nodes, project, name, quiet, seconds)
        if not lost:
            return found
    raise RuntimeError(f"{project} at {name}: {lost[0]!r}")


def read_whole(nodes, project, name, quiet, seconds):
    """The same once, and why it was broken off, where it was."""
    reader = engine_of(nodes).Reader(tool_words(nodes, (name,)))
    found, lost = [], []

    def hear(message):
        found.append(message)
        message.tag[0].taken(message)

    reader.attach(project, 0, 0, hear, lost.append)
    began, seen, changed = time.monotonic(), 0, time.monotonic()
    # Each stream has a first message.
    while time.monotonic() - changed < (quiet if found else 20.0) and time.monotonic() - began < seconds and not lost:
        time.sleep(0.1)
        if len(found) != seen:
            seen, changed = len(found), time.monotonic()
    reader.close()
    return found, lost


def nats_whole(nodes, project, name, tries=60):
    """The same of NATS, where a consumer reads at whichever node it is put, and is made again until that is the right one."""
    nats = engine_of(nodes)
    connection = nats.connected(tool_words(nodes))
    config = {"deliver_policy": "all", "filter_subject": f"office.{project}", "ack_policy": "none", "replay_policy": "instant"}
    try:
        for turn in range(tries):
            inbox, found = f"{connection.inbox}.whole{turn}", []
            own = connection.subscribe(inbox, found.append)
            told = {**config, "deliver_subject": inbox, "mem_storage": True, "num_replicas": 1}
            made = connection.api(f"CONSUMER.CREATE.{nats.STREAM}", {"stream_name": nats.STREAM, "config": told}, seconds=30)
            if made.get("cluster", {}).get("leader") == name:
                return [nats.message_of(it, None) for it in settled(found) if not it.status]
            connection.unsubscribe(own)
            connection.api(f"CONSUMER.DELETE.{nats.STREAM}.{made.get('name')}", seconds=30)
    finally:
        connection.close()
    raise RuntimeError(f"{project}: no consumer at {name}")


def settled(found, quiet=2.0):
    """A list, once nothing comes any more."""
    seen, changed = -1, time.monotonic()
    while time.monotonic() - changed < quiet:
        if len(found) != seen:
            seen, changed = len(found), time.monotonic()
        time.sleep(0.1)
    return list(found)


KINDS = {it.engine: it for it in (RabbitNodes, NatsNodes)}
