"""The client of examples/clients over TLS: `tls_client.py PORT SERVER FOLDER` counts up a number, over the certificates in the folder."""
import os
import ssl
import sys

from simple_client import Client


class TlsClient(Client):
    """A client with a certificate, of a server that has one with this name. The folder is that of certificates.sh."""

    def __init__(self, port, server, folder, host="127.0.0.1", timeout=30):
        super().__init__(port, host, timeout)
        context = ssl.create_default_context(cafile=os.path.join(folder, "ca.pem"))
        context.load_cert_chain(os.path.join(folder, "client.pem"), os.path.join(folder, "client.key"))
        self.socket = context.wrap_socket(self.socket, server_hostname=server)
        self.replies = self.socket.makefile("rb")


def count_up(store):
    number = int(store.ask("GET", "visits") or b"0") + 1
    store.ask("SET", "visits", number)
    return number


if __name__ == "__main__":
    print(TlsClient(int(sys.argv[1]), sys.argv[2], sys.argv[3]).transact(count_up))
