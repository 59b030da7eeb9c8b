<?php
// A client of ssikvd over phpredis (Debian: php-redis), whose reconnecting is switched off.
declare(strict_types=1);

final class Refused extends Exception {}
final class Lost extends Exception {}

// Runs transactions over one connection. A process of PHP serves one request at a time, so its pool is the number of processes: at most 64.
final class Store
{
    private ?Redis $redis = null;

    public function __construct(private int $port, private string $host = '127.0.0.1') {}

    // The reply to a request: a string, a number, an array, true for OK, or false for a key that is not there.
    public function ask(string ...$parts): mixed
    {
        try {
            $this->redis ??= $this->connect();
            $this->redis->clearLastError();
            $reply = $this->redis->rawCommand(...$parts);
        } catch (RedisException $error) {
            if (preg_match('/^(CONFLICT|FULL|STORE) /', $error->getMessage())) {
                throw new Refused($error->getMessage());
            }
            $this->redis = null;
            throw new Lost($error->getMessage());
        }
        $refusal = $this->redis->getLastError(); // for ERR .. phpredis answers false, as for a key that is not there
        return $refusal === null ? $reply : throw new Refused(preg_replace('/^ERR /', '', $refusal));
    }

    private function connect(): Redis
    {
        $redis = new Redis();
        $redis->connect($this->host, $this->port, 30.0, null, 0, 30.0);
        $redis->setOption(Redis::OPT_MAX_RETRIES, 0); // else it connects anew amid a transaction
        return $redis;
    }

    private function try(callable $work): mixed
    {
        $this->ask('BEGIN');
        try {
            $result = $work($this);
        } catch (Throwable $error) {
            $this->redis = null; // the connection ends, and the transaction with it
            throw $error;
        }
        $this->ask('COMMIT');
        return $result;
    }

    // Runs $work($this) in a transaction until COMMIT is answered a number, and gives what it gave. Lost: if COMMIT was sent, its outcome
    // is unknown.
    public function transact(callable $work, int $tries = 1000): mixed
    {
        for ($turn = 0; $turn < $tries; $turn++) {
            try {
                return $this->try($work);
            } catch (Refused $refusal) {
                if (!preg_match('/^(CONFLICT|FULL transactions)/', $refusal->getMessage())) {
                    throw $refusal;
                }
            }
            $this->wait($turn);
        }
        throw new Refused("$tries times in a row");
    }

    // Runs $work($this) in a transaction that commits once, though connections are lost. Did this call commit it?
    public function once(string $name, callable $work, int $tries = 1000): bool
    {
        for ($turn = 0; $turn < $tries; $turn++) {
            try {
                return $this->transact(function () use ($name, $work) {
                    if ($this->ask('GET', "done:$name") !== false) {
                        return false;
                    }
                    $work($this);
                    $this->ask('SET', "done:$name", '');
                    return true;
                });
            } catch (Lost) {
                $this->wait($turn);
            }
        }
        throw new Lost("$tries connections, one after another");
    }

    // Waits at random, so that two do not meet again and again.
    private function wait(int $turn): void
    {
        usleep(random_int(0, 1000 * 2 ** min($turn, 6)));
    }
}
