"""What bounds a node or a log on this machine, as the scripts beside this file measure it in their own run."""
import os, select, socket, time


def two_syncs(folder, size, seconds):
    """How many records with two syncs each, written straight to a file, the disk takes a second."""
    path = f"{folder}/straight"
    file = os.open(path, os.O_RDWR | os.O_CREAT)
    os.pwrite(file, b"\0", 0)
    os.fsync(file)
    record, at, count, begun = bytes(size + 30), 0, 0, time.monotonic()
    while time.monotonic() - begun < seconds:
        os.pwrite(file, record, at + 1)
        os.fdatasync(file)
        os.pwrite(file, b"\1", at)
        os.fdatasync(file)
        at, count = at + len(record), count + 1
    took = time.monotonic() - begun
    os.close(file)
    os.remove(path)
    return count / took


def whole_frames(held):
    """Takes the frames that are whole out of what is held: how many they are."""
    at = count = 0
    while len(held) - at >= 4:
        end = at + 4 + int.from_bytes(held[at : at + 4], "big")
        if len(held) < end:
            break
        at, count = end, count + 1
    del held[:at]
    return count


def served(folder):
    """A process that listens and has a file of its own: the listener, its port, the process's number, which is 0 in itself, and the file, which only it has."""
    listener = socket.create_server(("127.0.0.1", 0), backlog=128)
    port, child = listener.getsockname()[1], os.fork()
    if child != 0:
        listener.close()
        return None, port, child, None
    file = os.open(f"{folder}/served", os.O_RDWR | os.O_CREAT)
    os.pwrite(file, b"\0", 0)
    os.fsync(file)
    return listener, port, child, file


def serve_straight(folder, size, answer):
    """A process that writes a record with two syncs straight to a file for each frame that it is sent, and then answers: its port, and its number."""
    listener, port, child, file = served(folder)
    if child != 0:
        return port, child
    peer, _ = listener.accept()
    peer.setsockopt(socket.IPPROTO_TCP, socket.TCP_NODELAY, 1)
    record, at, held = bytes(size + 30), 0, bytearray()
    while piece := peer.recv(1 << 18):
        held += piece
        for _ in range(whole_frames(held)):
            os.pwrite(file, record, at + 1)
            os.fdatasync(file)
            os.pwrite(file, b"\1", at)
            os.fdatasync(file)
            peer.sendall(answer)
            at += len(record)
    os._exit(0)


def serve_groups(folder, size, answer):
    """A process that makes the file calls of a node that commits in groups, for the frames of all its peers that are there: its port, and its number."""
    listener, port, child, file = served(folder)
    if child != 0:
        return port, child
    record, at, held = bytes(size + 30), 0, {}
    while True:
        due = []
        for ready in select.select([listener, *held], [], [])[0]:
            if ready is listener:
                peer, _ = listener.accept()
                peer.setsockopt(socket.IPPROTO_TCP, socket.TCP_NODELAY, 1)
                held[peer] = bytearray()
                continue
            piece = ready.recv(1 << 18)
            if not piece:
                del held[ready]
                continue
            held[ready] += piece
            due.append((ready, whole_frames(held[ready])))
        for begun in range(0, sum(count for _, count in due), 128):
            gate = at
            for k in range(min(128, sum(count for _, count in due) - begun)):
                os.pwrite(file, record, at + 1)
                if k > 0:
                    os.pwrite(file, b"\1", at)
                at += len(record)
            os.fdatasync(file)
            os.pwrite(file, b"\1", gate)
            os.fdatasync(file)
        for peer, count in due:
            peer.sendall(answer * count)


def round_trips(seconds):
    """How often a second another process answers a byte over loopback, one byte after the other."""
    listener = socket.create_server(("127.0.0.1", 0))
    child = os.fork()
    if child == 0:
        peer, _ = listener.accept()
        peer.setsockopt(socket.IPPROTO_TCP, socket.TCP_NODELAY, 1)
        while piece := peer.recv(1):
            peer.sendall(piece)
        os._exit(0)
    peer = socket.create_connection(listener.getsockname())
    peer.setsockopt(socket.IPPROTO_TCP, socket.TCP_NODELAY, 1)
    count, begun = 0, time.monotonic()
    while time.monotonic() - begun < seconds:
        peer.sendall(b"x")
        peer.recv(1)
        count += 1
    took = time.monotonic() - begun
    peer.close()
    listener.close()
    os.waitpid(child, 0)
    return count / took
