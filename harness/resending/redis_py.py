import sys

import redis
from redis.backoff import NoBackoff
from redis.retry import Retry

port, mode, form = int(sys.argv[1]), sys.argv[2], sys.argv[3]
options = {"retry": Retry(NoBackoff(), 0)} if mode == "off" else {}
client = redis.Redis(port=port, single_connection_client=form == "each", **options)
lines = [line.split() for line in sys.stdin]


def show(ask):
    try:
        print("gave", ask())
    except redis.RedisError as error:
        print("raised", error)


if form == "each":
    for line in lines:
        show(lambda: client.execute_command(*line))
else:
    pipe = client.pipeline(transaction=False)
    for line in lines:
        pipe.execute_command(*line)
    show(pipe.execute)
