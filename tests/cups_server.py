"""A server of CUPS for a test: its settings, its spool, its log and its only queue are in a folder of the test, and what would go to a printer is a file
there. It is as a user can start it, and looks at no file of the machine's own server."""

import os
import pathlib
import re
import shutil
import subprocess
import time

from recipes_test import RECIPES

# Where Debian has the filters and the helpers of CUPS.
LIBRARY = pathlib.Path("/usr/lib/cups")

# A user's PATH doesn't have all of these folders.
FOLDERS = f"{os.environ['PATH']}:/usr/sbin:{LIBRARY}/filter"

# The programs that a test with a server needs, and where they are.
NEEDED = {name: shutil.which(name, path=FOLDERS) for name in ("cupsd", "pdftopdf", "lp", "lpadmin", "lpstat", "cancel", "pdftoppm")}

MISSING = [name for name, path in NEEDED.items() if not path]

# A printer that takes PDF, with sheets of 595 by 842 points, of which it can't print on 18 at each edge.
PPD = """*PPD-Adobe: "4.3"
*FormatVersion: "4.3"
*FileVersion: "1.0"
*LanguageVersion: English
*LanguageEncoding: ISOLatin1
*PCFileName: "KEEP.PPD"
*Product: "(Keep)"
*PSVersion: "(3010.000) 0"
*Manufacturer: "Nobody"
*ModelName: "Keep"
*ShortNickName: "Keep"
*NickName: "Keep"
*ColorDevice: True
*DefaultColorSpace: RGB
*cupsFilter2: "application/vnd.cups-pdf application/pdf 0 -"
*OpenUI *PageSize/Media Size: PickOne
*OrderDependency: 10 AnySetup *PageSize
*DefaultPageSize: A4
*PageSize A4/A4: "<</PageSize[595 842]>>setpagedevice"
*CloseUI: *PageSize
*OpenUI *PageRegion/Media Size: PickOne
*OrderDependency: 10 AnySetup *PageRegion
*DefaultPageRegion: A4
*PageRegion A4/A4: "<</PageSize[595 842]>>setpagedevice"
*CloseUI: *PageRegion
*DefaultImageableArea: A4
*ImageableArea A4/A4: "18 18 577 824"
*DefaultPaperDimension: A4
*PaperDimension A4/A4: "595 842"
"""

# The way to a printer: it keeps what it gets.
BACKEND = """#!/bin/sh
[ $# -gt 0 ] || exec echo 'direct keep "Unknown" "Keep"'
cat ${{6:+"$6"}} >{0}/out/job-$1
"""

SETTINGS = """LogLevel warn
MaxLogSize 0
Listen {0}/socket
Browsing Off
WebInterface No
<Location />
Allow all
</Location>
<Location /admin>
Allow all
</Location>
<Policy default>
JobPrivateAccess all
JobPrivateValues none
<Limit All>
Allow all
</Limit>
</Policy>
"""

FILES = """ServerRoot {0}/etc
ServerBin {0}/bin
DataDir /usr/share/cups
RequestRoot {0}/spool
TempDir {0}/spool/tmp
CacheDir {0}/cache
StateDir {0}/state
AccessLog {0}/log/access_log
ErrorLog {0}/log/error_log
PageLog {0}/log/page_log
"""


class Server:
    """A running server with the queue `keep`, which has the filter of docs/recipes and this program."""

    def __init__(self, folder, program):
        self.folder = folder
        for name in ("etc", "bin/filter", "bin/backend", "spool/tmp", "cache", "state", "log", "out"):
            (folder / name).mkdir(parents=True, mode=0o755)
        # Root's server has its filters and backends run by another user.
        folder.chmod(0o755)
        (folder / "out").chmod(0o1777)
        shutil.copytree(LIBRARY / "daemon", folder / "bin" / "daemon")
        shutil.copy(NEEDED["pdftopdf"], folder / "bin" / "filter")
        shutil.copy(program, folder / "metaplay")
        filter_text = (RECIPES / "metaplaytopdf").read_text("utf-8").replace("/usr/local/bin/metaplay", f"{folder}/metaplay")
        self.write("bin/filter/metaplaytopdf", filter_text, 0o755)
        self.write("bin/backend/keep", BACKEND.format(folder), 0o755)
        for name in ("metaplay.types", "metaplay.convs"):
            shutil.copy(RECIPES / name, folder / "etc")
        self.write("keep.ppd", PPD)
        self.write("etc/cupsd.conf", SETTINGS.format(folder))
        self.write("etc/cups-files.conf", FILES.format(folder))
        self.settings = os.environ | {"CUPS_SERVER": f"{folder}/socket", "LC_ALL": "C", "TZ": "UTC"}
        words = [NEEDED["cupsd"], "-f", "-c", folder / "etc/cupsd.conf", "-s", folder / "etc/cups-files.conf"]
        self.running = subprocess.Popen(words, stdin=subprocess.DEVNULL, stdout=subprocess.DEVNULL, stderr=subprocess.DEVNULL)

    def write(self, name, text, mode=0o644):
        """Writes a file of the server."""
        (self.folder / name).write_text(text, "utf-8")
        (self.folder / name).chmod(mode)

    def call(self, name, *words, given=None):
        """Whether a command of CUPS is well, and what it says."""
        ended = subprocess.run([NEEDED[name], *words], input=given, capture_output=True, env=self.settings, timeout=60, check=False)
        return ended.returncode == 0, ended.stdout.decode()

    def has_started(self):
        """Whether the server runs, and has its queue, within some seconds."""
        for _ in range(100):
            if self.running.poll() is not None:
                return False
            if self.call("lpstat", "-r")[1].startswith("scheduler is running"):
                return self.call("lpadmin", "-p", "keep", "-E", "-v", "keep:/", "-P", f"{self.folder}/keep.ppd")[0]
            time.sleep(0.1)
        return False

    def stop(self):
        """Removes the queue, and ends the server."""
        self.call("lpadmin", "-x", "keep")
        self.running.terminate()
        self.running.wait(60)

    def send(self, data, *options):
        """Sends a job to the queue, and returns its name."""
        words = [word for option in options for word in ("-o", option)]
        return re.match(r"request id is (keep-\d+) ", self.call("lp", "-d", "keep", *words, given=data)[1])[1]

    def jobs(self, which):
        """What `lpstat -l` says of jobs that are `completed` or `not-completed`: the lines of each one, without the time."""
        lines = self.call("lpstat", "-l", "-W", which)[1].splitlines()
        names = [number for number, line in enumerate(lines) if not line.startswith("\t")] + [len(lines)]
        return {lines[at].split()[0]: [it.strip() for it in lines[at + 1 : end]] for at, end in zip(names, names[1:])}

    def printed(self, job):
        """The file that the printer got."""
        return self.folder / "out" / f"job-{job.partition('-')[2]}"

    def errors(self):
        """The errors in the log of each job."""
        text = (self.folder / "log" / "error_log").read_text("utf-8")
        return re.findall(r"^E \[[^]]*\] \[Job (\d+)\] (.*)$", text, re.M)
