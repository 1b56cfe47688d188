"""A log on three `ld node`s over loopback, as the scripts beside this file drive it."""
import pathlib, subprocess

import frames

TOP = pathlib.Path(__file__).resolve().parent.parent



def built():
    """The program of this checkout, which is built first where it isn't."""
    subprocess.run([f"{TOP}/ld", "replay"], stdin=open(TOP / "examples/stored-run.schedule"), stdout=subprocess.DEVNULL, check=True)
    return str(TOP / "crates/ld/out/ld")


class Cluster:
    """Three nodes, each a process with a store of its own in the folder."""

    def __init__(self, program, folder, copies=2, peers=None):
        self.config = '{"nodes":[1,2,3],"logs":[{"id":1,"set":[1,2,3],"r":%d}]}' % copies
        self.program, self.folder, self.port = program, folder, frames.free_ports(4)
        self.nodes = []
        for node in (1, 2, 3):
            words = ["--id", str(node), "--config", self.config, "--store", f"{folder}/store{node}", "--register", f"{folder}/register"]
            words += ["--port", str(self.port + node), "--turns", "1000000000", "--format"]
            words += ["--peers", str(peers), "--quiet"] if peers else []
            self.nodes.append(subprocess.Popen([program, "node", *words]))
            frames.Peer(self.port + node).close()

    def run(self, command, *words, **streams):
        every = ["--config", self.config, "--log", "1", "--register", f"{self.folder}/register", "--port", str(self.port), "--rounds", "1000000"]
        return subprocess.run([self.program, command, *every, *words], check=True, **streams)

    def stop(self, node):
        """Kills one node."""
        self.nodes[node - 1].kill()
        self.nodes[node - 1].wait()

    def end(self):
        for node in self.nodes:
            node.kill()
            node.wait()
