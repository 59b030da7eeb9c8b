<?php

declare(strict_types=1);

// The jobs of harness/packages.py: `php harness.php ADDRESS JOB WORDS..`. The workers are processes.

use Ssikvd\{Conflict, Full, Keys, Refused, SsikvdException, Store, Transaction};

require __DIR__ . '/autoload.php';

final class Raised extends Exception {}

function shown(Exception $error): string
{
    return match (true) {
        $error instanceof Conflict => $error->key() !== null ? 'Conflict key ' . bin2hex($error->key()) : 'Conflict pivot ' . $error->pivot(),
        $error instanceof Full => 'Full ' . $error->limit(),
        get_class($error) === Refused::class => "Refused $error->text",
        default => (new ReflectionClass($error))->getShortName(),
    };
}

/** What the steps give as text, or their error. */
function attempt(callable $steps): string
{
    try {
        return (string) $steps();
    } catch (SsikvdException | Raised $error) {
        return shown($error);
    }
}

/** Lets each worker, a process with a store of its own, take its turns; gives what all of them wrote. */
function work(string $address, int $workers, int $times, callable $turn): string
{
    $pipes = [];
    for ($worker = 0; $worker < $workers; $worker++) {
        $pipe = stream_socket_pair(STREAM_PF_UNIX, STREAM_SOCK_STREAM, 0);
        if (pcntl_fork() === 0) {
            $store = new Store($address, deadline: 60);
            for ($number = 0; $number < $times; $number++) {
                fwrite($pipe[1], $turn($store, $worker, $number));
            }
            exit(0);
        }
        fclose($pipe[1]);
        $pipes[] = $pipe[0];
    }
    return implode(array_map(stream_get_contents(...), $pipes));
}

function count_up(string $address, string $name, string $workers, string $times): void
{
    $tries = work($address, (int) $workers, (int) $times, function (Store $store, int $worker, int $number) use ($name): string {
        $tries = '';
        $store->once("$name:$worker:$number", function (Transaction $transaction) use ($name, &$tries): void {
            $tries .= '.';
            $transaction->set($name, (string) ((int) $transaction->get($name) + 1));
        });
        return $tries;
    });
    $count = (new Store($address))->transact(fn (Transaction $transaction) => $transaction->get($name));
    echo "counter $count tries " . strlen($tries) . "\n";
}

function reserve(string $address, string $room, string $workers, string $times): void
{
    echo work($address, (int) $workers, (int) $times, function (Store $store, int $worker, int $number) use ($room): string {
        $start = (13 * $worker + 7 * $number) % 60;
        $end = $start + 1 + ($worker + $number) % 5;
        $value = "$start $worker $number";
        $book = function (Transaction $transaction) use ($room, $start, $end, $value): string {
            foreach ($transaction->range(sprintf('%s:%03d', $room, $start + 1), "$room;", 1) as $found) {
                if ((int) $found < $end) {
                    return 'taken';
                }
            }
            $transaction->set(sprintf('%s:%03d', $room, $end), $value);
            return 'booked';
        };
        return "$worker $number " . $store->once("by:$room:$worker:$number", $book) . "\n";
    });
}

function walk(string $address, string $pairs): void
{
    $store = new Store($address, deadline: 60);
    [$total, $sum, $at] = [0, 0, "\0"];
    while ($at !== null) {
        $found = $store->transact(function (Transaction $transaction) use ($at, $pairs): array {
            $some = [];
            foreach ($transaction->range($at, null, (int) $pairs) as $key => $value) {
                $some[] = [$key, $value];
            }
            return $some;
        });
        foreach ($found as $pair) {
            foreach (unpack('C*', implode($pair)) as $byte) {
                $sum = (31 * $sum + $byte) % 1_000_000_007;
            }
        }
        $total += count($found);
        $at = count($found) === (int) $pairs ? Keys::after(end($found)[0]) : null;
    }
    echo "pairs $total sum $sum\n";
}

function errors(string $address): void
{
    $store = new Store($address);
    $small = new Store($address, connections: 1);
    $works = [
        'overwritten' => function (Transaction $transaction) use ($store): void {
            $transaction->set('k', '1');
            $store->transact(fn (Transaction $other) => $other->set('k', '2'));
        },
        'pivot' => function (Transaction $transaction) use ($store): void {
            $transaction->get('x');
            $transaction->set('y', '1');
            $store->transact(function (Transaction $other): void {
                $other->get('y');
                $other->set('x', '1');
            });
        },
        'writes' => fn (Transaction $transaction) => array_map(fn (int $number) => $transaction->set("w$number", ''), range(0, 64)),
        'marks' => fn (Transaction $transaction) => array_map(fn (int $number) => $transaction->get("m$number"), range(0, 256)),
        'connections' => fn () => $small->transact(fn (Transaction $other) => $other->get('k'), 0),
        'empty key' => fn (Transaction $transaction) => $transaction->get(''),
        'long key' => fn (Transaction $transaction) => $transaction->get(str_repeat('a', 257)),
        'long value' => fn (Transaction $transaction) => $transaction->set('a', str_repeat('a', 16_385)),
        'zero limit' => fn (Transaction $transaction) => $transaction->range('', null, 0)->valid(),
    ];
    foreach ($works as $what => $steps) {
        echo "$what: ", attempt(fn () => ($what === 'connections' ? $small : $store)->transact($steps, 0)), "\n";
    }
    $kept = $store->transact(fn (Transaction $transaction) => $transaction);
    echo 'ended: ', attempt(fn () => $kept->get('k')), "\n";
    echo 'raised: ', attempt(fn () => $store->transact(function (Transaction $transaction): void {
        $transaction->set('raised', '1');
        throw new Raised();
    })), "\n";
    echo 'after it: ', $store->transact(fn (Transaction $transaction) => $transaction->get('raised')) ?? 'none', "\n";
    $store->close();
    echo 'closed: ', attempt(fn () => $store->transact(fn () => null)), "\n";
}

function set_key(string $address, string $key, string $value, string $deadline, string $reply): void
{
    echo attempt(function () use ($address, $key, $value, $deadline, $reply): string {
        $store = new Store($address, deadline: (float) $deadline, replyTimeout: (float) $reply);
        $store->transact(fn (Transaction $transaction) => $transaction->set($key, $value));
        return 'done';
    }), "\n";
}

function once(string $address, string $key, string $deadline, string $reply): void
{
    echo attempt(fn () => (new Store($address, deadline: (float) $deadline, replyTimeout: (float) $reply))->once($key, fn () => 'made')), "\n";
}

[, $address, $job] = $argv;
$jobs = ['count' => 'count_up', 'reserve' => 'reserve', 'walk' => 'walk', 'errors' => 'errors', 'set' => 'set_key', 'once' => 'once'];
$jobs[$job]($address, ...array_slice($argv, 3));
