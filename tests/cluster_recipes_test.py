"""The recipes for several machines: GNU parallel, also over ssh to this machine, and a job array of Slurm on a cluster of this machine alone."""

import contextlib
import getpass
import os
import pathlib
import shutil
import signal
import socket
import subprocess
import unittest

from recipe_commands import WANTED, commands, draw, verdicts
from recipes_test import RECIPES, RecipesTest, has_command, needs, waited

# Programs of servers are not always on the PATH.
SERVERS = f"{os.environ['PATH']}:/usr/sbin:/sbin"

PARALLEL = "GNU parallel, on one machine or several"

# A server that lets its own user in, by a key, with the programs of the test's folder.
SSHD = """\
ListenAddress 127.0.0.1
Port {port}
HostKey {folder}/host_key
AuthorizedKeysFile {folder}/user_key.pub
PidFile none
StrictModes no
UsePAM no
PasswordAuthentication no
PermitRootLogin prohibit-password
SetEnv PATH={path}
"""

SSH = """\
Host loopback
    HostName 127.0.0.1
    Port {port}
    User {user}
    IdentityFile {folder}/user_key
    IdentitiesOnly yes
    UserKnownHostsFile {folder}/known_hosts
    StrictHostKeyChecking accept-new
    BatchMode yes
"""

SLURM = """\
ClusterName=loopback
SlurmctldHost={host}(127.0.0.1)
SlurmUser=root
AuthType=auth/munge
AuthInfo=socket={folder}/munge.socket
CredType=cred/munge
SlurmctldPort={port}
SlurmdPort={other}
StateSaveLocation={folder}/state
SlurmdSpoolDir={folder}/spool
SlurmctldPidFile={folder}/slurmctld.pid
SlurmdPidFile={folder}/slurmd.pid
ProctrackType=proctrack/pgid
TaskPlugin=task/none
SelectType=select/cons_tres
SelectTypeParameters=CR_CPU
SwitchType=switch/none
MpiDefault=none
NodeName={host} NodeAddr=127.0.0.1 CPUs={processors} State=UNKNOWN
PartitionName=all Nodes={host} Default=YES MaxTime=INFINITE State=UP
"""


def server(name):
    """Where the program of a server is, or None."""
    return shutil.which(name, path=SERVERS)


def needs_servers(*names):
    """A test that is tried where these servers are on the machine."""
    missing = [name for name in names if not server(name)]
    return unittest.skipIf(missing, f"not on this machine: {', '.join(missing)}")


def free_port():
    """A port of the loopback address that nobody uses at the moment."""
    with socket.socket() as bound:
        bound.bind(("127.0.0.1", 0))
        return bound.getsockname()[1]


def answers(port):
    """Whether somebody listens at a port."""
    with contextlib.suppress(OSError), socket.create_connection(("127.0.0.1", port), timeout=1):
        return True
    return False


class ClusterRecipes(RecipesTest):
    """A folder with drawings, and servers that end with the test."""

    def setUp(self):
        super().setUp()
        if not has_command("certify"):
            self.skipTest("the program has no command certify")
        # A server's user must be able to come here, and parallel has settings in the home.
        self.folder.chmod(0o755)
        draw(self.folder)
        self.settings |= {"HOME": str(self.folder), "PATH": f"{self.settings['PATH']}:/usr/sbin:/sbin"}

    def serve(self, *words, **settings):
        """Starts a server in the foreground. What it says is in a file."""
        with open(self.folder / f"{pathlib.Path(words[0]).name}.log", "wb") as log:
            running = subprocess.Popen(words, stdin=subprocess.DEVNULL, stdout=log, stderr=log, env=self.settings | settings)
        self.addCleanup(running.wait, timeout=60)
        self.addCleanup(running.terminate)
        return running

    def log(self, name):
        """What a server said."""
        return (self.folder / f"{name}.log").read_text(encoding="utf-8", errors="replace")

    def write(self, name, text, **values):
        """Writes a file of settings."""
        (self.folder / name).write_text(text.format(folder=self.folder, **values))
        return self.folder / name


def is_gnu_parallel():
    """Whether GNU parallel is on the machine. Another program may go by its name."""
    return bool(shutil.which("parallel")) and b"GNU parallel" in subprocess.run(["parallel", "--version"], capture_output=True, check=False).stdout


@unittest.skipUnless(is_gnu_parallel(), "not on this machine: parallel")
class Parallel(ClusterRecipes):
    """GNU parallel."""

    def setUp(self):
        super().setUp()
        names, self.here, self.elsewhere = commands(PARALLEL)
        self.run_words("sh", "-c", names)

    def test_one_machine(self):
        for _ in range(2):
            # The second time all jobs are done.
            self.run_words("sh", "-c", self.here)
            self.assertEqual(verdicts((self.folder / "certified.jsonl").read_bytes()), WANTED)
        self.assertEqual(len(list((self.folder / "certificates").iterdir())), 4)

    def test_it_goes_on_after_a_break(self):
        # One file a job, and a program that waits at one of them until it is let go.
        (self.folder / "metaplay").rename(self.folder / "program")
        stops = self.folder / "metaplay"
        stops.write_text('#!/bin/sh\ncase $* in *polygons*) [ -e go ] || { echo $$ >waits; exec sleep 60; } ;; esac\nexec ./program "$@"\n')
        stops.chmod(0o755)
        command = self.here.replace("-n 200", "-n 1 -j 2")
        with subprocess.Popen(["sh", "-c", command], cwd=self.folder, env=self.settings, start_new_session=True) as running:
            waits = self.folder / "waits"
            self.assertTrue(waited(lambda: waits.exists() and waits.read_text().endswith("\n")))
            self.assertTrue(waited(lambda: len((self.folder / "certify.log").read_text().splitlines()) > 3))
            os.killpg(running.pid, signal.SIGKILL)
            # A job has a group of its own.
            os.kill(int(waits.read_text()), signal.SIGKILL)
        with contextlib.suppress(FileNotFoundError):
            self.assertNotIn("drawings/below/polygons.emf", verdicts((self.folder / "certified.jsonl").read_bytes()))
        (self.folder / "go").touch()
        self.run_words("sh", "-c", command)
        self.assertEqual(verdicts((self.folder / "certified.jsonl").read_bytes()), WANTED)

    @needs("ssh", "ssh-keygen")
    @needs_servers("sshd")
    def test_several_machines(self):
        port = free_port()
        for key in ("host_key", "user_key"):
            self.run_words("ssh-keygen", "-q", "-t", "ed25519", "-N", "", "-f", key)
        if os.geteuid() == 0:
            # The server of root wants this folder to be there.
            os.makedirs("/run/sshd", mode=0o755, exist_ok=True)
        sshd = self.write("sshd_config", SSHD, port=port, path=self.settings["PATH"])
        ssh = self.write("ssh_config", SSH, port=port, user=getpass.getuser())
        self.serve(server("sshd"), "-D", "-e", "-f", sshd)
        self.assertTrue(waited(lambda: answers(port)), self.log("sshd"))
        (self.folder / "machines").write_text(f"2/ssh -F {ssh} loopback\n")
        command = self.elsewhere.replace("-n 200", "-n 2")
        ended = self.run_words("sh", "-c", command)
        self.assertEqual(verdicts((self.folder / "certified.jsonl").read_bytes()), WANTED, (ended, self.log("sshd")))
        hosts = {line.split("\t")[1] for line in (self.folder / "certify.log").read_text().splitlines()[1:]}
        self.assertEqual(hosts, {f"ssh -F {ssh} loopback"})


@needs("find", "sort", "split", "xargs")
class Slurm(ClusterRecipes):
    """A job array."""

    def setUp(self):
        super().setUp()
        self.run_words("sh", "-c", commands(PARALLEL)[0])
        self.array, self.joined = (block.replace("1-10", "1-3").replace("certify-part 10", "certify-part 3") for block in commands("Slurm"))

    def test_parts_without_slurm(self):
        begun, _, submitted = self.array.partition("sbatch")
        words = submitted.split("'")[1].removeprefix("exec ").split()
        self.run_words("sh", "-c", begun)
        for _ in range(2):
            for task in ("1", "2", "3"):
                self.assertEqual(self.run_words(*words, SLURM_ARRAY_TASK_ID=task, SLURM_CPUS_PER_TASK="2"), (0, b"", b""))
            self.run_words("sh", "-c", self.joined)
            self.assertEqual(verdicts((self.folder / "certified.jsonl").read_bytes()), WANTED)
        self.assertEqual(sorted(path.name for path in (self.folder / "lines").iterdir()), ["1.jsonl", "2.jsonl", "3.jsonl"])
        # A part that isn't complete is no part, and is done anew.
        (self.folder / "lines" / "2.jsonl").unlink()
        self.assertEqual(self.run_words(*words, SLURM_ARRAY_TASK_ID="2", METAPLAY="no-program")[0], 3)
        self.assertFalse((self.folder / "lines" / "2.jsonl").exists())
        self.assertEqual(self.run_words(*words, SLURM_ARRAY_TASK_ID="2")[0], 0)
        self.assertTrue((self.folder / "lines" / "2.jsonl").exists())
        for task in ("0", "4", "x", ""):
            self.assertNotEqual(self.run_words(*words, SLURM_ARRAY_TASK_ID=task)[0], 0)
        self.assertEqual(self.run_words(RECIPES / "certify-part", "1", "names", "lines", "certificates", "64")[0], 2)

    @needs("sbatch", "sinfo")
    @needs_servers("munged", "slurmctld", "slurmd")
    @unittest.skipUnless(os.geteuid() == 0, "slurmd needs root")
    def test_a_cluster_of_this_machine(self):
        host = socket.gethostname().partition(".")[0]
        for name in ("state", "spool"):
            (self.folder / name).mkdir()
        key = self.folder / "munge.key"
        key.write_bytes(os.urandom(1024))
        key.chmod(0o600)
        named = [f"--{kind}={self.folder}/munge.{kind.removesuffix('-file')}" for kind in ("key-file", "pid-file", "seed-file", "log-file", "socket")]
        self.serve(server("munged"), "--foreground", "--force", *named)
        self.assertTrue(waited((self.folder / "munge.socket").exists), self.log("munged"))
        self.write("cgroup.conf", "CgroupPlugin=cgroup/v1\n")
        conf = self.write("slurm.conf", SLURM, host=host, port=free_port(), other=free_port(), processors=os.cpu_count())
        settings = {"SLURM_CONF": str(conf)}
        for name in ("slurmctld", "slurmd"):
            self.serve(server(name), "-D", **settings)
        if not waited(lambda: b" idle " in self.run_words("sinfo", **settings)[1]):
            self.skipTest(f"no cluster starts here: {self.log('slurmctld')[-300:]} {self.log('slurmd')[-300:]}")
        array = self.array.replace("sbatch ", "sbatch --wait ").replace("--cpus-per-task=4", "--cpus-per-task=1")
        ended = self.run_words("sh", "-c", array + self.joined, **settings)
        self.assertEqual(ended[::2], (0, b""))
        self.assertEqual(verdicts((self.folder / "certified.jsonl").read_bytes()), WANTED)
        self.assertEqual([(self.folder / "lines" / f"{task}.txt").read_bytes() for task in (1, 2, 3)], [b""] * 3)


if __name__ == "__main__":
    unittest.main()
