"""PostgreSQL servers of one's own for the scripts here: in a folder of their own, ended with the script.

The server's programs are copied, so that the extension is installed into the copy and nothing outside of the folder
is written. A server listens on a socket in its folder alone. It doesn't run as root: where the script does, the server
runs as the user postgres.
"""

import os
import pwd
import re
import shutil
import signal
import subprocess
import sys
import tempfile
import time

HERE = os.path.dirname(os.path.abspath(__file__))
PG_CONFIG = os.environ.get("PG_CONFIG", "/usr/lib/postgresql/15/bin/pg_config")


def version():
    """The server's major version."""
    return int(re.match("PostgreSQL ([0-9]+)", config("--version")).group(1))


def missing():
    """What is missing, as the name of a package of Debian, or None."""
    for program, package in (("make", "make"), ("gcc", "gcc"), ("pkg-config", "pkg-config")):
        if not shutil.which(program):
            return package
    if not os.path.exists(PG_CONFIG):
        return "postgresql-15"
    if not os.path.exists(os.path.join(config("--bindir"), "initdb")):
        return "postgresql-%d" % version()
    if not os.path.exists(os.path.join(config("--includedir-server"), "postgres.h")):
        return "postgresql-server-dev-%d" % version()
    return None


def config(option):
    return subprocess.run([PG_CONFIG, option], stdout=subprocess.PIPE, text=True, check=True).stdout.strip()


def end_by_signals():
    """A signal to the script ends it as an exception does, so that the server is ended too."""

    def end(number, _):
        sys.exit(128 + number)

    for number in (signal.SIGINT, signal.SIGTERM, signal.SIGHUP):
        signal.signal(number, end)


class Failed(Exception):
    """A program failed; the text is what it wrote to standard error."""


class Installed:
    """A folder with a copy of the server's programs, and the extension built and installed there."""

    def __init__(self):
        self.folder = tempfile.mkdtemp(prefix="vizhoniku_pg.")
        try:
            self._fill()
        except BaseException:
            self.remove()
            raise

    def _fill(self):
        os.chmod(self.folder, 0o755)
        self.user = {}
        if os.getuid() == 0:
            entry = pwd.getpwnam("postgres")
            self.user = {"user": entry.pw_uid, "group": entry.pw_gid, "extra_groups": []}
        self.bin = self.folder + config("--bindir")
        for option, left_out in (("--bindir", None), ("--pkglibdir", "bitcode"), ("--sharedir", "doc")):
            source = config(option)
            ignore = shutil.ignore_patterns(left_out) if left_out else None
            shutil.copytree(source, self.folder + source, symlinks=True, ignore=ignore)
        build = self.build = os.path.join(self.folder, "build")
        os.mkdir(build)
        for name in os.listdir(HERE):
            if name == "Makefile" or name.endswith((".c", ".h", ".control", ".sql")):
                shutil.copy(os.path.join(HERE, name), build)
        for name in ("sql", "expected"):
            shutil.copytree(os.path.join(HERE, name), os.path.join(build, name))
        command = ["make", "-s", "PG_CONFIG=" + PG_CONFIG, "DESTDIR=" + self.folder,
                   "COPT=-Wextra -Wno-unused-parameter -Werror"]
        run(command, cwd=build)
        run(command + ["install"], cwd=build)

    def remove(self):
        shutil.rmtree(self.folder, ignore_errors=True)


def run(command, text="", **options):
    """What the command writes to standard output. Failed where its status isn't 0."""
    done = subprocess.run(command, input=text, stdout=subprocess.PIPE, stderr=subprocess.PIPE, text=True, **options)
    if done.returncode != 0:
        raise Failed(done.stderr.strip() or "status %d of %s" % (done.returncode, command[0]))
    return done.stdout


class Server:
    """A cluster in a folder of its own below that of the installation, and its server. Where it is a standby of another
    one, it begins as a copy of that one."""

    def __init__(self, installed, name, settings=(), limit=None, encoding="UTF8", locale="C.UTF-8", standby_of=None,
                 environment=None):
        self.installed = installed
        self.folder = os.path.join(installed.folder, name)
        self.limit = limit
        self.environment = dict(os.environ, **(environment or {}))
        self.process = None
        os.mkdir(self.folder, 0o755)
        if installed.user:
            os.chown(self.folder, installed.user["user"], installed.user["group"])
        self.data = os.path.join(self.folder, "data")
        self.log = os.path.join(self.folder, "log")
        if standby_of:
            command = standby_of.client("pg_basebackup", "-D", self.data, "-R", "-c", "fast", "--no-sync")
        else:
            command = [installed.bin + "/initdb", "-D", self.data, "-A", "trust", "-U", "postgres", "-E", encoding,
                       "--locale=" + locale, "--no-sync"]
        run(command, cwd=self.folder, **installed.user)
        with open(os.path.join(self.data, "postgresql.conf"), "a") as out:
            out.write("listen_addresses = ''\nunix_socket_directories = '%s'\nfsync = off\nmax_connections = 30\n"
                      % self.folder)
            for line in settings:
                out.write(line + "\n")

    def start(self):
        command = [self.installed.bin + "/postgres", "-D", self.data]
        if self.limit:
            command = ["/bin/sh", "-c", 'ulimit -v "$0" && exec "$@"', str(self.limit)] + command
        with open(self.log, "a") as log:
            self.process = subprocess.Popen(command, stdin=subprocess.DEVNULL, stdout=log, stderr=log,
                                            cwd=self.folder, start_new_session=True, env=self.environment,
                                            **self.installed.user)
        self.wait()

    def wait(self, seconds=60):
        """Waits until the server answers."""
        end = time.monotonic() + seconds
        while True:
            if self.process.poll() is not None:
                raise Failed("the server ended: " + self.log_end())
            try:
                self.sql("SELECT 1")
                return
            except Failed as failure:
                if time.monotonic() > end:
                    raise Failed("the server doesn't answer: %s\n%s" % (failure, self.log_end()))
            time.sleep(0.1)

    def crash(self):
        """Ends the server at once, with all its processes, as a crash does."""
        self.process.send_signal(signal.SIGQUIT)
        self.process.wait(30)
        self.process = None

    def stop(self):
        if self.process is None:
            return
        for number, seconds in ((signal.SIGINT, 30), (signal.SIGQUIT, 10), (signal.SIGKILL, 10)):
            if self.process.poll() is not None:
                break
            self.process.send_signal(number)
            try:
                self.process.wait(seconds)
            except subprocess.TimeoutExpired:
                pass
        self.process = None

    def log_end(self):
        with open(self.log, errors="replace") as log:
            return log.read()[-2000:]

    def client(self, program, *arguments):
        """The command line of a client, connected to the server."""
        return [self.installed.bin + "/" + program, "-h", self.folder, "-U", "postgres"] + list(arguments)

    def psql(self, *arguments, database="postgres"):
        return self.client("psql", "-X", "-q", "-A", "-t", "-v", "ON_ERROR_STOP=1", "-d", database) + list(arguments)

    def sql(self, text, database="postgres", verbose=False):
        """What the statements answer: rows by lines, columns by bars. Failed with what the server says."""
        arguments = ["-v", "VERBOSITY=verbose"] if verbose else []
        return run(self.psql(*arguments, database=database), text, env=ENVIRONMENT).rstrip("\n")


class Spread:
    """Servers that have the rows of tables between them, and a head that asks them. Each has a database `documents`."""

    def __init__(self, installed, count, settings):
        self.installed = installed
        self.head = Server(installed, "head", settings)
        self.servers = [Server(installed, "s%d" % i, settings) for i in range(count)]

    def start(self):
        for server in (self.head, *self.servers):
            server.start()
            server.sql("CREATE DATABASE documents")

    def stop(self):
        for server in (self.head, *self.servers):
            server.stop()

    def remove(self):
        """Removes what the servers kept, so that others may be made."""
        for server in (self.head, *self.servers):
            shutil.rmtree(server.folder, ignore_errors=True)

    def at_head(self, text):
        return self.head.sql(text, database="documents")

    def at(self, i, text):
        return self.servers[i].sql(text, database="documents")


class Session:
    """A connection that stays open: a psql that is told statements one after the other."""

    MARK = "-- that was it"

    def __init__(self, server, database="postgres"):
        self.process = subprocess.Popen(server.psql("-v", "ON_ERROR_STOP=0", database=database), text=True,
                                        stdin=subprocess.PIPE, stdout=subprocess.PIPE, stderr=subprocess.STDOUT,
                                        env=ENVIRONMENT)

    def send(self, text):
        self.process.stdin.write("%s;\n\\echo %s\n" % (text, self.MARK))
        self.process.stdin.flush()

    def answer(self):
        """What was answered to what was sent, errors among it."""
        lines = []
        while True:
            line = self.process.stdout.readline()
            if line == "":
                raise Failed("the session ended: " + "".join(lines))
            if line == self.MARK + "\n":
                return "".join(lines).rstrip("\n")
            lines.append(line)

    def ask(self, text):
        self.send(text)
        return self.answer()

    def close(self):
        self.process.kill()
        self.process.communicate()


ENVIRONMENT = dict(os.environ, PGCLIENTENCODING="UTF8", LC_ALL="C.UTF-8", PGOPTIONS="")
