"""The same client over redis-py (Debian: python3-redis): `over_redis.py PORT FROM TO AMOUNT` moves money as transfer.py does.

redis-py from 6.0 sends a request again, up to three times, where the connection is lost. A COMMIT that is sent again is answered `ERR none`, though the
first one may have been carried out. So retrying is switched off, in a form that 4.0 and later take.
"""
import contextlib
import random
import sys
import time

import redis
from redis.backoff import NoBackoff
from redis.retry import Retry

from transfer import transfer


class OverRedis:
    """One connection of redis-py's. `single_connection_client` keeps every request on it, and nothing is sent twice."""

    def __init__(self, port, host="127.0.0.1"):
        self.redis = redis.Redis(host, port, single_connection_client=True, retry=Retry(NoBackoff(), 0))
        self.redis.response_callbacks.clear()    # those are for Redis's replies: its DEL answers a number, ours OK

    def ask(self, *parts):
        return self.redis.execute_command(*parts)

    def transact(self, work, tries=1_000):
        """Runs work(self) in a transaction until COMMIT is answered a number, and gives what the work gave.

        Raises redis.ConnectionError or redis.TimeoutError where the connection is lost. After a COMMIT its outcome isn't known then.
        """
        for turn in range(tries):
            try:
                self.ask("BEGIN")
                result = work(self)
                self.ask("COMMIT")
                return result
            except redis.ResponseError as refusal:
                if not str(refusal).startswith(("CONFLICT", "FULL transactions")):
                    self.abort()
                    raise
            except BaseException:
                self.abort()
                raise
            time.sleep(random.uniform(0, 0.001 * 2 ** min(turn, 6)))    # so that two do not meet again and again
        raise redis.ResponseError(f"{tries} times in a row")

    def abort(self):
        with contextlib.suppress(redis.RedisError):
            self.ask("ABORT")


if __name__ == "__main__":
    port, source, target, amount = int(sys.argv[1]), sys.argv[2].encode(), sys.argv[3].encode(), int(sys.argv[4])
    moved = OverRedis(port).transact(lambda store: transfer(store, source, target, amount))
    print("moved" if moved else "too little there")
