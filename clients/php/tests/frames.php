<?php

declare(strict_types=1);

// The frames of ../../frames.txt: `php tests/frames.php` ends with status 0 where all hold.

use Ssikvd\{Frames, Keys, Refused, Unreachable};

require __DIR__ . '/../autoload.php';

function bytes(string $word): string
{
    return $word === '-' ? '' : hex2bin($word);
}

function hex(string $data): string
{
    return $data === '' ? '-' : bin2hex($data);
}

/** The rows of a kind, each split at `=`. */
function rows(string $kind): array
{
    $lines = file(__DIR__ . '/../../frames.txt', FILE_IGNORE_NEW_LINES);
    $lines = array_filter($lines, fn (string $line) => str_starts_with($line, "$kind "));
    return array_map(fn (string $line) => explode(' = ', substr($line, strlen($kind) + 1)), $lines);
}

/** A reply in the words of a row. */
function shown(string|int|array|Refused|null $reply): string
{
    return match (true) {
        $reply === null => 'none',
        $reply instanceof Refused => 'refused ' . hex($reply->text),
        is_int($reply) => "number $reply",
        is_array($reply) => implode(' ', ['pairs', ...array_map(hex(...), $reply)]),
        default => hex($reply),
    };
}

function same(mixed $due, mixed $found): void
{
    if ($due !== $found) {
        fwrite(STDERR, 'due is ' . var_export($due, true) . ', found is ' . var_export($found, true) . "\n");
        exit(1);
    }
}

function isRefused(string $data): bool
{
    try {
        Frames::decode($data);
        return false;
    } catch (Unreachable) {
        return true;
    }
}

foreach (rows('request') as [$parts, $frame]) {
    same($frame, hex(Frames::encode(...array_map(bytes(...), explode(' ', $parts)))));
}
foreach (rows('reply') as [$frame, $due]) {
    $data = bytes($frame);
    [$reply, $end] = Frames::decode("$data+OK\r\n");
    same(strlen($data), $end);
    same(preg_replace('/^(done|value) /', '', $due), shown($reply));
    for ($length = 0; $length < strlen($data); $length++) {
        same(null, Frames::decode(substr($data, 0, $length)));
    }
}
foreach ([...array_map(fn (array $row) => bytes($row[0]), rows('bad')), '+' . str_repeat('a', 1_000)] as $data) {
    same(true, isRefused($data));
}
same("a\0", Keys::after('a'));
same(str_repeat('a', 255) . 'b', Keys::after(str_repeat('a', 256)));
same('b', Keys::after('a' . str_repeat("\xff", 255)));
same(null, Keys::after(str_repeat("\xff", 256)));
same('user;', Keys::endOfPrefix('user:'));
same('b', Keys::endOfPrefix("a\xff"));
same(null, Keys::endOfPrefix(''));
same(null, Keys::endOfPrefix("\xff\xff"));
echo "all held\n";
