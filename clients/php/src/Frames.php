<?php

declare(strict_types=1);

namespace Ssikvd;

/** Frames. Nothing here touches a socket. */
final class Frames
{
    private const LINE_MAX = 600;

    /** The request of these parts. */
    public static function encode(string ...$parts): string
    {
        $frame = '*' . count($parts) . "\r\n";
        foreach ($parts as $part) {
            $frame .= '$' . strlen($part) . "\r\n$part\r\n";
        }
        return $frame;
    }

    /**
     * The reply at this place and the place after it; null while it isn't whole. A value and a text are strings, no value is null, a
     * refusal is its exception, pairs are a list of key, value, key, value. Throws Unreachable at bytes that are no reply.
     *
     * @return array{string|int|null|Refused|list<string>, int}|null
     */
    public static function decode(string $data, int $at = 0): ?array
    {
        $found = strpos($data, "\r\n", $at);
        $isLine = $found !== false && $found - $at <= self::LINE_MAX;
        if (!$isLine && strlen($data) - $at <= self::LINE_MAX) {
            return null;
        }
        $line = $isLine ? substr($data, $at, $found - $at) : '';
        [$text, $end] = [substr($line, 1), (int) $found + 2];
        $number = preg_match('/^\d{1,19}$/D', $text) === 1 ? (int) $text : PHP_INT_MAX;
        return match (true) {
            str_starts_with($line, '+') => [$text, $end],
            str_starts_with($line, '-') => [Refused::of($text), $end],
            $line === '$-1' => [null, $end],
            str_starts_with($line, ':') && ctype_digit($text) => [$number, $end],
            str_starts_with($line, '$') && $number <= Keys::VALUE_MAX => self::bulk($data, $end, $number),
            str_starts_with($line, '*') && $number <= 2 * Keys::PAIRS_MAX => self::pairs($data, $end, $number),
            default => throw new Unreachable('this is no reply of ssikvd: ' . addcslashes(substr($data, $at, 60), "\0..\37\177..\377")),
        };
    }

    private static function bulk(string $data, int $at, int $length): ?array
    {
        return strlen($data) >= $at + $length + 2 ? [substr($data, $at, $length), $at + $length + 2] : null;
    }

    private static function pairs(string $data, int $at, int $count): ?array
    {
        for ($parts = []; count($parts) < $count; ) {
            $part = self::decode($data, $at);
            if ($part === null) {
                return null;
            }
            [$parts[], $at] = $part;
        }
        return [$parts, $at];
    }
}

/** Keys, values and limits. All strings are bytes. */
final class Keys
{
    public const KEY_MAX = 256;
    public const VALUE_MAX = 16_384;
    public const WRITES_MAX = 64;
    public const MARKS_MAX = 256;
    public const PAIRS_MAX = 128;
    public const CONNECTIONS_MAX = 64;

    /** The least key above this one; null above the last of all. */
    public static function after(string $key): ?string
    {
        self::checkKey($key);
        return strlen($key) < self::KEY_MAX ? "$key\0" : self::endOfPrefix($key);
    }

    /** The least key above all that begin with the prefix; null where there is none. */
    public static function endOfPrefix(string $prefix): ?string
    {
        self::checkKey($prefix, 0);
        $head = rtrim($prefix, "\xff");
        return $head === '' ? null : substr($head, 0, -1) . chr(ord($head[-1]) + 1);
    }

    /** Throws Invalid unless it is a key, or with least 0 a bound. */
    public static function checkKey(string $key, int $least = 1): void
    {
        if (strlen($key) < $least || strlen($key) > self::KEY_MAX) {
            throw new Invalid('a key has 1 to ' . self::KEY_MAX . ' bytes, this one has ' . strlen($key));
        }
    }
}
