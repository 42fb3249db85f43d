"""A server of the built program over a directory."""
import subprocess, time


class Server:
    """A server of a disk in a directory, at a port that it chooses. Its standard input is a pipe, unless another program holds one."""

    def __init__(self, program, directory, size="1m", is_held=False):
        self.process = subprocess.Popen([program, "--test", f"--size={size}", directory, "127.0.0.1:0"],
                                        stdin=subprocess.DEVNULL if is_held else subprocess.PIPE, stderr=subprocess.PIPE)
        self.line = self.process.stderr.readline().decode()
        self.port = int(self.line.rsplit(":", 1)[1]) if " at " in self.line else None

    def end(self):
        """Closes its standard input: its status, what stands on standard error then, and how long it took."""
        begun = time.monotonic()
        self.process.stdin.close()
        status = self.process.wait(timeout=60)
        return status, self.process.stderr.read(), time.monotonic() - begun

    def kill(self):
        self.process.kill()
        self.process.wait(timeout=60)
        self.process.stderr.close()
        self.process.stdin.close()
