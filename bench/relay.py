"""A relay between a client and a node, which counts what goes through it."""
import socket, threading


class Relay:
    """Hands on what a port of its own and a node's port say to each other, frame by frame, and counts them, and the bytes that the node sends."""

    def __init__(self, port, to):
        self.to, self.frames, self.told = to, 0, 0
        self.listener = socket.create_server(("127.0.0.1", port))
        threading.Thread(target=self.accept, daemon=True).start()

    def accept(self):
        while True:
            try:
                near, _ = self.listener.accept()
            except OSError:
                return
            try:
                far = socket.create_connection(("127.0.0.1", self.to))
            except OSError:
                # the node is gone, and so is its peer's connection
                near.close()
                continue
            for one, other, is_node in ((near, far, False), (far, near, True)):
                one.setsockopt(socket.IPPROTO_TCP, socket.TCP_NODELAY, 1)
                threading.Thread(target=self.hand_on, args=(one, other, is_node), daemon=True).start()

    def hand_on(self, one, other, is_node):
        held = bytearray()
        try:
            while piece := one.recv(1 << 18):
                held += piece
                whole = 0
                while len(held) - whole >= 4:
                    end = whole + 4 + int.from_bytes(held[whole : whole + 4], "big")
                    if len(held) < end:
                        break
                    whole, self.frames = end, self.frames + 1
                self.told += whole * is_node
                other.sendall(held[:whole])
                del held[:whole]
            other.shutdown(socket.SHUT_WR)
        except OSError:
            pass

    def close(self):
        self.listener.close()
