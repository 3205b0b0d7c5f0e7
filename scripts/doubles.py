"""What stands in a server's place: it listens at a port of its own, and each client that comes is served in a thread."""
import socket
import threading


class Double:
    """Takes clients until it is closed. What it does with each is said by `serve`."""

    def __init__(self):
        self.socket = socket.create_server(("127.0.0.1", 0), backlog=128)
        self.port = self.socket.getsockname()[1]
        threading.Thread(target=self.accept, daemon=True).start()

    def accept(self):
        """Takes clients until the end."""
        while True:
            try:
                client, _ = self.socket.accept()
            except OSError:
                return
            client.setsockopt(socket.IPPROTO_TCP, socket.TCP_NODELAY, 1)
            threading.Thread(target=self.serve, args=(client,), daemon=True).start()

    def serve(self, client):
        """Serves one client to its end."""
        raise NotImplementedError

    def close(self):
        """Takes no client any more."""
        self.socket.close()
