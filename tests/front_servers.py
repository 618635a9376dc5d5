"""Starts front servers with the configurations of share/front as they stand, on ports of 127.0.0.1 and in a folder of the test's own.

What is written otherwise than shipped is paths, ports and, without TLS, the words for it; each has to find its place.
"""
import contextlib
import os
import pathlib
import shutil
import socket
import subprocess
import time

from looks import HOST, free_port
from patience import seconds

TOP = pathlib.Path(__file__).resolve().parent.parent
FRONT = TOP / "share" / "front"
PROJECT = "example"
SECONDS = seconds(30)
# What a browser says that it takes, where a person opens an address (Firefox, Chromium), and what its scripts and programs say.
OPENED = ["text/html,application/xhtml+xml,application/xml;q=0.9,*/*;q=0.8", "TEXT/HTML", "image/webp, text/html;q=0.5"]
ASKED = [None, "*/*", "application/json", "text/plain"]


def program(name):
    """A server's path: on the path, or where Debian keeps servers; nothing where it isn't installed."""
    return shutil.which(name) or shutil.which(name, path="/usr/sbin:/sbin:/lib/systemd:/usr/lib/systemd")


def replaced(text, words):
    for old, new in words.items():
        if old not in text:
            raise SystemExit(f"a configuration has no {old!r} any more")
        text = text.replace(old, str(new))
    return text


def hashes(passwords, kind):
    """Passwords as crypt(3) keeps them, or Apache for the kind apr1."""
    given = "".join(it + "\n" for it in passwords)
    done = subprocess.run(["openssl", "passwd", f"-{kind}", "-stdin"], input=given, capture_output=True, text=True, check=True)
    return done.stdout.split()


def listening(port, process, seconds=SECONDS):
    end = time.monotonic() + seconds
    while time.monotonic() < end and process.poll() is None:
        with contextlib.suppress(OSError), socket.create_connection((HOST, port)):
            return
        time.sleep(0.02)
    raise SystemExit(f"{process.args[0]} doesn't listen on {port}")


@contextlib.contextmanager
def running(words, **options):
    """A process that is ended behind the block, by its id."""
    with subprocess.Popen([str(it) for it in words], **options) as process:
        try:
            yield process
        finally:
            ended(process)


def ended(process):
    if process.poll() is None:
        process.terminate()
    try:
        process.wait(SECONDS)
    except subprocess.TimeoutExpired:
        process.kill()
        process.wait()


def certificate(folder):
    """A certificate of our own for localhost and for projects' names."""
    subprocess.run(
        ["openssl", "req", "-x509", "-newkey", "ec", "-pkeyopt", "ec_paramgen_curve:P-256", "-nodes", "-days", "2", "-subj", "/CN=localhost"]
        + ["-addext", "subjectAltName=DNS:localhost,DNS:translate.example.org,DNS:*.translate.example.org,IP:127.0.0.1"]
        + ["-keyout", folder / "key.pem", "-out", folder / "certificate.pem"],
        check=True,
        capture_output=True,
    )


BASE = """{user}daemon off;
{modules}pid {folder}/nginx.pid;
error_log {folder}/error.log;
events {{ worker_connections 4096; }}
http {{
  include {types};
  access_log {folder}/access.log;
  client_body_temp_path {folder}/temp/body;
  proxy_temp_path {folder}/temp/proxy;
  fastcgi_temp_path {folder}/temp/fastcgi;
  uwsgi_temp_path {folder}/temp/uwsgi;
  scgi_temp_path {folder}/temp/scgi;
  include conf.d/*.conf;
  include sites-enabled/*;
}}
"""


class Nginx:
    """nginx with the shipped configuration in a folder. `projects` has the passwords of logins for each project; `office` is the address of the
    single project's office, HOST:PORT, where that isn't the socket run/PROJECT.sock in the folder."""

    name = "nginx"

    def __init__(self, folder, projects, page, site="office", managers=("root",), tls=False, office=None):
        beside = pathlib.Path(folder) / "beside"
        self.folder, self.port = pathlib.Path(folder), free_port()
        self.socket, self.log = self.folder / "run" / f"{PROJECT}.sock", self.folder / "access.log"
        for it in ("sites-enabled", "temp", "run"):
            (self.folder / it).mkdir(parents=True)
        for it in ("conf.d", "office"):
            shutil.copytree(FRONT / "nginx" / it, self.folder / it)
        user = "user root;\n" if os.getuid() == 0 else ""
        self.write("nginx.conf", BASE.format(user=user, modules=lua_modules(), folder=self.folder, types=mime_types()))
        self.set_site(site, tls)
        paths = {"/etc/nginx": self.folder, "/usr/local/share/office/web": page, "/run/office-snapshot": beside, "/var/lib/office-page": beside}
        self.rewrite("office/server", paths)
        own = f"unix:{self.folder}/run/$project.sock:$route"
        self.rewrite("office/pass", {"unix:/run/office/$project.sock:$route": f"{office}$route" if office else own})
        with (self.folder / "office" / "managers").open("a") as file:
            file.writelines(f'"{project} {name}" 1;\n' for project in projects for name in managers)
        for project, passwords in projects.items():
            self.add_project(project, passwords)
        certificate(self.folder / "office")

    def set_site(self, site, tls):
        text = (FRONT / "nginx" / "sites-available" / site).read_text()
        words = {"listen 443 ssl http2;": f"listen {HOST}:{self.port}{' ssl http2' if tls else ''};"}
        if site == "office-projects":
            words["/etc/nginx"] = self.folder
        if site == "office-behind":
            words = {"listen unix:/run/office-front/nginx.sock;": f"listen {HOST}:{self.port};", "/var/log/nginx/access.log": self.log}
        self.write(f"sites-enabled/{site}", replaced(text, words))

    def rewrite(self, name, words):
        self.write(name, replaced((self.folder / name).read_text(), words))

    def write(self, name, text):
        (self.folder / name).write_text(text)

    def add_project(self, project, passwords):
        """What a project has: its users, and what its page asks for."""
        own = self.folder / "office" / "projects" / project
        own.mkdir(parents=True, exist_ok=True)
        lines = zip(passwords, hashes(passwords.values(), "apr1"))
        (own / "users").write_text("".join(f"{name}:{it}\n" for name, it in lines))
        (own / "office.json").write_text((FRONT / "nginx" / "office" / "projects" / PROJECT / "office.json").read_text())

    @contextlib.contextmanager
    def serving(self):
        words = [program("nginx"), "-p", self.folder, "-c", self.folder / "nginx.conf", "-e", self.folder / "error.log"]
        with running(words) as process:
            listening(self.port, process)
            yield self


class HAProxy:
    """HAProxy with the shipped configuration of a front in a folder, before the office of one project and a server of the page's files; or,
    `behind` a server that signs people in, with the changes that the configuration names."""

    name = "haproxy"

    def __init__(self, folder, passwords, page_port, managers=("root",), tls=False, behind=False):
        self.folder, self.port = pathlib.Path(folder), free_port()
        self.socket, self.log = self.folder / "run" / f"{PROJECT}.sock", self.folder / "log"
        (self.folder / "run").mkdir(parents=True)
        shutil.copytree(FRONT / "haproxy" / "office", self.folder / "office")
        with (self.folder / "office" / "managers").open("a") as file:
            file.writelines(f"{name}\n" for name in managers)
        certificate(self.folder / "office")
        pem = "".join((self.folder / "office" / it).read_text() for it in ("certificate.pem", "key.pem"))
        (self.folder / "office" / "certificate.pem").write_text(pem)
        shipped = "bind :443 ssl crt /etc/haproxy/office/certificate.pem alpn h2,http/1.1"
        bind = shipped.replace(":443", f"{HOST}:{self.port}", 1) if tls else f"bind {HOST}:{self.port}"
        words = {"  user haproxy\n  group haproxy\n": "", shipped: bind}
        words |= {"unix@/run/office/example.sock": f"unix@{self.socket}", f"{HOST}:8090": f"{HOST}:{page_port}"}
        text = replaced((FRONT / "haproxy" / "office" / "front.cfg").read_text(), words)
        text = replaced(text, {"/etc/haproxy": self.folder})
        (self.folder / "office" / "front.cfg").write_text(signed_in_before(text) if behind else text)
        lines = zip(passwords, hashes(passwords.values(), "1"))
        with (self.folder / "office" / "users.cfg").open("a") as file:
            file.writelines(f"  user {name} password {it}\n" for name, it in lines)

    @contextlib.contextmanager
    def serving(self):
        with self.log.open("w") as log:
            own = self.folder / "office"
            words = [program("haproxy"), "-db", "-f", own / "front.cfg", "-f", own / "users.cfg"]
            with running(words, stdout=log, stderr=log) as process:
                listening(self.port, process)
                yield self


def signed_in_before(text):
    """HAProxy's configuration, changed as it says itself for a header of another server that signs people in."""
    first, last = text.index("  # Who isn't signed in "), text.index("  # The login, in lower case.")
    return text[:first] + replaced(text[last:], {"set-var(txn.caller) http_auth_user,lower": "set-var(txn.caller) req.fhdr(x-forwarded-user),lower"})


class Apache:
    """Apache with the shipped site for OpenID Connect, without TLS, before a front of nginx on a port; `changes` are further words of the site."""

    name = "apache"
    MODULES = ("mpm_event", "authn_core", "authz_core", "authz_user", "alias", "headers", "proxy", "proxy_http", "auth_openidc")

    def __init__(self, folder, provider, secret, nginx_port, **changes):
        self.folder, self.port = pathlib.Path(folder), free_port()
        self.at = f"http://{HOST}:{self.port}"
        shutil.copytree(FRONT / "apache", self.folder)
        self.write("office/secrets.conf", {"OIDCClientSecret CHANGE": f'OIDCClientSecret "{secret}"', "Passphrase CHANGE": "Passphrase of-a-test"})
        words = {
            "*:443": f"{HOST}:{self.port}",
            "ServerName translate.example.org": f"ServerName {HOST}",
            "  SSLEngine on\n": "",
            "  SSLCertificateFile /etc/apache2/office/certificate.pem\n": "",
            "  SSLCertificateKeyFile /etc/apache2/office/key.pem\n": "",
            "OIDCProviderMetadataURL https://login.example.org": f"OIDCProviderMetadataURL {provider}",
            "/etc/apache2": self.folder,
            "logout=https%3A%2F%2Ftranslate.example.org%2F": f"logout=http%3A%2F%2F{HOST}%3A{self.port}%2F",
            "unix:/run/office-front/nginx.sock|http://translate.example.org/": f"http://{HOST}:{nginx_port}/",
        }
        self.write("sites-available/office-oidc.conf", {**words, **changes})
        self.write_base()

    def write(self, name, words):
        path = self.folder / name
        path.write_text(replaced(path.read_text(), words))

    def write_base(self):
        modules = "".join(f"LoadModule {it}_module /usr/lib/apache2/modules/mod_{it}.so\n" for it in self.MODULES)
        user = "User www-data\nGroup www-data\n" if os.getuid() == 0 else ""
        own = f"ServerRoot {self.folder}\nServerName {HOST}\nPidFile {self.folder}/pid\nErrorLog {self.folder}/error.log\nDefaultRuntimeDir {self.folder}\n"
        own += f"Mutex posixsem\nListen {HOST}:{self.port}\n"
        (self.folder / "apache2.conf").write_text(f"{modules}{user}{own}Include {self.folder}/sites-available/office-oidc.conf\n")

    @contextlib.contextmanager
    def serving(self):
        with running([program("apache2"), "-f", self.folder / "apache2.conf", "-DFOREGROUND"]) as process:
            listening(self.port, process)
            yield self


def lua_modules():
    """The lines that load the module of Lua, as libnginx-mod-http-lua has them for Debian's nginx; none where nginx has it built in."""
    files = [pathlib.Path(f"/usr/share/nginx/modules-available/mod-http-{it}.conf") for it in ("ndk", "lua")]
    folder = "/usr/lib/nginx/modules/"
    return "".join(it.read_text().strip().replace(" modules/", f" {folder}") + "\n" for it in files if it.exists())


def mime_types():
    return next(it for it in ("/etc/nginx/mime.types", "/usr/local/etc/nginx/mime.types") if os.path.exists(it))


@contextlib.contextmanager
def door(folder, socket_path, port):
    """The door of office-door@.service: systemd's own proxy behind a socket that it was given."""
    with given_socket(socket_path, [program("systemd-socket-proxyd"), "--connections-max=1024", f"{HOST}:{port}"], folder) as process:
        yield process


@contextlib.contextmanager
def queue(folder, socket_path, port):
    """The door of office-queue@.service: HAProxy behind a socket that it was given."""
    path = pathlib.Path(folder) / "queue.cfg"
    path.write_text(replaced((FRONT / "haproxy" / "office" / "queue.cfg").read_text(), {f"{HOST}:8765": f"{HOST}:{port}"}))
    with given_socket(socket_path, [program("haproxy"), "-db", "-f", path], folder) as process:
        yield process


@contextlib.contextmanager
def given_socket(socket_path, words, folder):
    """A process that has a listening socket as its third file, as systemd gives it one."""
    with socket.socket(socket.AF_UNIX) as it, (pathlib.Path(folder) / "door.log").open("a") as log:
        it.bind(str(socket_path))
        it.listen(4096)
        shell = f'exec 3<&{it.fileno()}; export LISTEN_PID=$$ LISTEN_FDS=1; exec "$@"'
        with running(["bash", "-c", shell, "bash", *words], pass_fds=[it.fileno()], stdout=log, stderr=log) as process:
            with contextlib.suppress(subprocess.TimeoutExpired):
                raise SystemExit(f"{words[0]} ended with status {process.wait(0.2)}")
            yield process
