<?php

declare(strict_types=1);

namespace Ssikvd;

/** What this package throws. */
class SsikvdException extends \RuntimeException {}

/** A call that breaks a limit, or comes after the end of its transaction. Nothing was sent. */
final class Invalid extends SsikvdException {}

/** No connection, or one that was lost before COMMIT was sent. Nothing was written. */
final class Unreachable extends SsikvdException {}

/** COMMIT was sent, and its outcome isn't known. `once` with the same key settles it. */
final class Lost extends SsikvdException {}

/** A refusal of the server's, whose words are `text`. */
class Refused extends SsikvdException
{
    final public function __construct(public readonly string $text)
    {
        parent::__construct($text);
    }

    /** The exception of a refusal. */
    public static function of(string $text): self
    {
        return match (true) {
            preg_match('/^CONFLICT (overwritten ([0-9a-f]{2})+|pivot (self|\d+))$/D', $text) === 1 => new Conflict($text),
            preg_match('/^FULL \w+$/D', $text) === 1 => new Full($text),
            $text === 'STORE stopped' => new Stopped($text),
            default => new Refused($text),
        };
    }
}

/** COMMIT met other commits: `key` was overwritten by one, or else `pivot` is 'self' or the number of one. */
final class Conflict extends Refused
{
    public function key(): ?string
    {
        return str_starts_with($this->text, 'CONFLICT overwritten ') ? hex2bin(explode(' ', $this->text)[2]) : null;
    }

    public function pivot(): string|int|null
    {
        [, $kind, $what] = explode(' ', $this->text);
        return $kind !== 'pivot' ? null : ($what === 'self' ? $what : (int) $what);
    }
}

/** There is no room for what `limit` names. */
final class Full extends Refused
{
    /** 'transactions', 'writes', 'marks', 'log', 'numbers', or 'connections', which are the pool's. */
    public function limit(): string
    {
        return explode(' ', $this->text)[1];
    }
}

/** The store was stopped by a fault of its device. Nothing was written. */
final class Stopped extends Refused {}
