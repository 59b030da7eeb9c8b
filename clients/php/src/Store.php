<?php

declare(strict_types=1);

namespace Ssikvd;

/** A pool of connections, each lent for one try of a transaction. */
final class Store
{
    /** @var list<Session> */
    private array $idle = [];
    private int $lent = 0;
    private int $process;
    private bool $isClosed = false;

    /**
     * Connects, and has a PING answered. The address is HOST:PORT; there are at most so many connections, 1 to 64; times are in seconds.
     * Throws Unreachable where no server answers, and Invalid.
     */
    public function __construct(
        private string $address,
        private int $connections = 16,
        private float $connectTimeout = 5,
        private float $replyTimeout = 10,
        private float $deadline = 30,
    ) {
        if (preg_match('/^[^\/]+:(\d{1,5})$/D', $address, $found) !== 1 || (int) $found[1] > 65_535) {
            throw new Invalid("an address is HOST:PORT, this one is $address");
        }
        if ($connections < 1 || $connections > Keys::CONNECTIONS_MAX) {
            throw new Invalid('a pool has 1 to ' . Keys::CONNECTIONS_MAX . ' connections');
        }
        $this->process = getmypid();
        $this->idle[] = new Session($address, $connectTimeout, $replyTimeout);
        $this->idle[0]->ask('PING');
    }

    /**
     * Runs $work(Transaction), commits, and gives what the work gave.
     *
     * The work may run more than once, so it does nothing but read and write through its transaction. What it throws aborts the
     * transaction. No try begins after the deadline, in seconds; then the last try's Conflict, Full or Unreachable is thrown. Throws also
     * Stopped, and Lost. Where all connections are lent, which takes a `transact` inside others, it throws Full at once.
     */
    public function transact(callable $work, ?float $deadline = null): mixed
    {
        $tries = new Tries($deadline ?? $this->deadline);
        while (true) {
            try {
                return $this->try($work);
            } catch (Conflict | Unreachable | Full $error) {
                if ($error instanceof Full && $error->limit() !== 'transactions') {
                    throw $error;
                }
                $tries->wait($error);
            }
        }
    }

    /**
     * Commits the work once for this key, however often it is called, and gives the bytes that the work gave then.
     *
     * The store keeps them as the value of the key. Throws what `transact` throws, and Lost where the outcome of a try isn't known.
     */
    public function once(string $key, callable $work, ?float $deadline = null): string
    {
        $unlessDone = static function (Transaction $transaction) use ($key, $work): string {
            $found = $transaction->get($key);
            if ($found === null) {
                $found = (string) $work($transaction);
                $transaction->set($key, $found);
            }
            return $found;
        };
        $tries = new Tries($deadline ?? $this->deadline);
        for ($lost = null; ;) {
            try {
                return $this->transact($unlessDone, $tries->left());
            } catch (Lost $lost) {
                $tries->wait($lost);
            } catch (\Throwable $error) {
                throw $lost ? new Lost($lost->getMessage() . '; then ' . $error->getMessage(), 0, $error) : $error;
            }
        }
    }

    /** Closes the connections that are idle, and each other one at the end of its transaction. */
    public function close(): void
    {
        [$this->isClosed, $this->idle] = [true, []];
    }

    private function try(callable $work): mixed
    {
        $session = $this->lend();
        $transaction = new Transaction($session);
        $isOpen = false;
        try {
            $session->ask('BEGIN');
            $isOpen = true;
            $result = $work($transaction);
            $isOpen = false;
            $session->commit();
            return $result;
        } finally {
            $transaction->end();
            $this->takeBack($session, $isOpen);
        }
    }

    private function lend(): Session
    {
        if ($this->isClosed) {
            throw new Invalid('the store is closed');
        }
        if ($this->process !== getmypid()) {
            [$this->process, $this->idle, $this->lent] = [getmypid(), [], 0]; // after a fork they are the other process's
        }
        if ($this->lent === $this->connections) {
            throw new Full('FULL connections');
        }
        $session = array_pop($this->idle) ?? new Session($this->address, $this->connectTimeout, $this->replyTimeout);
        $this->lent++;
        return $session;
    }

    /** Keeps the connection, once its transaction has ended. Closes it where a reply is due, and those that are idle with it. */
    private function takeBack(Session $session, bool $isOpen): void
    {
        $this->lent--;
        try {
            if ($isOpen) {
                $session->ask('ABORT');
            }
        } catch (SsikvdException) {
            // it is lost, or the server has ended the transaction
        }
        if ($session->isWhole && !$this->isClosed) {
            $this->idle[] = $session;
        } else {
            $session->close();
            $this->idle = [];
        }
    }
}

/** @internal The tries of one call, none of which begins after its deadline. */
final class Tries
{
    private float $end;
    private int $failed = 0;

    public function __construct(float $seconds)
    {
        $this->end = hrtime(true) + 1e9 * $seconds;
    }

    /** The seconds until the deadline, at least 0. */
    public function left(): float
    {
        return max(0.0, ($this->end - hrtime(true)) / 1e9);
    }

    /** Waits after this error, by chance, so that two don't meet again and again. Throws it where no time is left. */
    public function wait(SsikvdException $error): void
    {
        $microseconds = random_int(0, 1_000 * 2 ** min($this->failed, 6));
        $this->failed++;
        if ($microseconds / 1e6 >= $this->left()) {
            throw $error;
        }
        usleep($microseconds);
    }
}
