"""A web application that reserves seats, for Flask: `seats.py ADDRESS PORT`. From a shell:

    curl -d name=ann -H 'Idempotency-Key: 1' http://127.0.0.1:PORT/seats/3B

    GET  /seats          200: each seat, `free` or `taken`, as one state of the store
    POST /seats/SEAT     reserves the seat for the form's `name`; the header `Idempotency-Key` names the request, and is new for each
                         201: it is reserved. 409: it is taken. 404: there is no such seat. 400: no name, or no key.
                         422: the key came before with another seat or name

Whoever repeats a request with its key gets the answer that the first one got, and no second seat. Either may answer also

    503    with Retry-After: the store is full, stopped or not to be reached, or conflicts went on until the deadline. Nothing was
           written
    504    it isn't known whether the seat is reserved: repeat the request with the same key, and tell nobody that it failed

Keys: `seat:SEAT` holds the name, and isn't there while the seat is free. `done:KEY` holds the status that was answered, the seat and the
name; delete it once nobody repeats the request any more.
"""
import sys

import flask
from werkzeug.exceptions import GatewayTimeout, ServiceUnavailable
from werkzeug.serving import make_server

import ssikvd

SEATS = [f"{row}{place}" for row in range(1, 11) for place in "ABCDEF"]
BYTES_MAX = 100    # of a name, and of an idempotency key
CONNECTIONS = 16    # those of all processes together should be at most 64
DEADLINE = 2    # seconds that a visitor waits, before there is a page that says so


def reserve(transaction, seat, name):
    """Reserves the seat, unless it is taken. Gives the status to answer, and what was asked."""
    place = f"seat:{seat}"
    if transaction.get(place) is not None:
        return f"409 {seat} {name}"
    transaction.set(place, name)
    return f"201 {seat} {name}"


def taken(transaction):
    """The seats that are taken."""
    return {key.decode().removeprefix("seat:") for key, _ in transaction.range("seat:", ssikvd.end_of_prefix("seat:"))}


def create_app(store):
    """The application over a store, which the server's threads share: each request has a connection for as long as its transaction runs."""
    app = flask.Flask("seats")
    app.config["MAX_CONTENT_LENGTH"] = 4_096

    @app.get("/seats")
    def list_seats():
        gone = store.transact(taken)
        return {seat: "taken" if seat in gone else "free" for seat in SEATS}

    @app.post("/seats/<seat>")
    def post(seat):
        key, name = flask.request.headers.get("Idempotency-Key", ""), flask.request.form.get("name", "")
        if seat not in SEATS:
            flask.abort(404, "There is no such seat.")
        if not all(1 <= len(text.encode()) <= BYTES_MAX for text in (key, name)):
            flask.abort(400, f"An Idempotency-Key and a name are needed, each of at most {BYTES_MAX} bytes.")
        found = store.once(f"done:{key}", lambda transaction: reserve(transaction, seat, name)).decode()
        status, asked = found.split(" ", 1)
        if asked != f"{seat} {name}":
            flask.abort(422, "This Idempotency-Key came before with another seat or name.")
        if status == "409":
            flask.abort(409, "The seat is taken.")
        return {"seat": seat, "name": name}, 201

    @app.errorhandler(ssikvd.Lost)
    def answer_lost(error):
        app.logger.warning("%s", error)
        return GatewayTimeout("It isn't known whether this was done. Repeat it with the same Idempotency-Key.").get_response()

    @app.errorhandler(ssikvd.Conflict)
    @app.errorhandler(ssikvd.Full)
    @app.errorhandler(ssikvd.Stopped)
    @app.errorhandler(ssikvd.Unreachable)
    def answer_later(error):    # Invalid and Refused are faults of this program: status 500
        app.logger.warning("%s", error)
        return ServiceUnavailable("Nothing was done. Repeat the request later.", retry_after=1).get_response()

    return app


def main():
    """Serves the application to try it. A site gives `create_app` to a WSGI server with threads."""
    address, port = sys.argv[1:]
    with ssikvd.connect(address, connections=CONNECTIONS, connect_timeout=1, reply_timeout=DEADLINE, deadline=DEADLINE) as store:
        server = make_server("127.0.0.1", int(port), create_app(store), threaded=True)
        print(f"listening 127.0.0.1:{server.server_port}", flush=True)
        server.serve_forever()


if __name__ == "__main__":
    try:
        main()
    except ssikvd.Error as error:
        sys.exit(f"seats: {error}")
