"""The commands of examples/fleet/README.md, as they are, in a copy of the folder."""
import contextlib
import os
import re
import shutil
import signal
import subprocess
import tempfile
import time
from typing import List

from room import FLEET, SECONDS, TOP, Programs, free_port

FENCE = re.compile(r"(?ms)^```sh\n(.*?)^```$")


def commands() -> str:
    """The commands of the page's first section after those that install and build."""
    with open(os.path.join(FLEET, "README.md"), encoding="utf-8") as page:
        section = page.read().partition("\n## Three devices in a minute\n")[2].partition("\n## ")[0]
    return "\n".join(FENCE.findall(section))


def run(programs: Programs) -> List[str]:
    with tempfile.TemporaryDirectory() as folder:
        shutil.copytree(os.path.join(TOP, "examples"), os.path.join(folder, "examples"))
        shutil.copy(programs.live, os.path.join(folder, "fpgad_live"))
        paths, port = os.pathsep.join([folder, os.environ["PATH"]]), str(free_port())
        script = "set -e\n" + commands().replace("7379", port)
        with open(os.path.join(folder, "examples", "fleet", "redis.conf"), "r+", encoding="utf-8") as file:
            text = file.read().replace("7379", port)
            file.seek(0)
            file.write(text)
            file.truncate()
        begun = time.monotonic()
        with open(os.path.join(folder, "out"), "w+", encoding="utf-8") as out:
            shell = subprocess.Popen(["bash", "-c", script], cwd=os.path.join(folder, "examples", "fleet"), stdin=subprocess.DEVNULL,
                                     stdout=out, stderr=subprocess.STDOUT, env=dict(os.environ, PATH=paths), start_new_session=True)
            try:
                status = shell.wait(2 * SECONDS)
            except subprocess.TimeoutExpired:
                status = None
            took = time.monotonic() - begun
            with contextlib.suppress(ProcessLookupError):
                os.killpg(shell.pid, signal.SIGKILL)    # Redis and the connectors, which the page leaves running
            shell.wait()
            out.seek(0)
            said = out.read()
    answered = len(re.findall(r"(?m)^t\d+: status Empty 0$", said))
    print(f"  the page's commands: {answered} tenants answered on three devices after {took:.0f} s")
    if status == 0 and answered == 30 and took < SECONDS:
        return []
    return [f"the page ends with {status} after {took:.0f} s: {said[-400:]}"]
