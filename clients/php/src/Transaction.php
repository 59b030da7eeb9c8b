<?php

declare(strict_types=1);

namespace Ssikvd;

/** What the work of `transact` reads and writes. Once it has ended, its calls throw Invalid. */
final class Transaction
{
    /** @var array<string, true> */
    private array $written = [];
    /** @var array<string, true> */
    private array $read = [];

    /** What `transact` calls. */
    public function __construct(private ?Session $session)
    {
    }

    /** The value of the key; null where it isn't there. Throws Invalid, Full at the 257th new key, Unreachable. */
    public function get(string $key): ?string
    {
        Keys::checkKey($key);
        if (!isset($this->written[$key]) && !isset($this->read[$key])) {
            if (count($this->read) === Keys::MARKS_MAX) {
                throw new Full('FULL marks');
            }
            $this->read[$key] = true;
        }
        return $this->ask('GET', $key);
    }

    /** Writes the key. Throws Invalid, Full at the 65th key that is written, Unreachable. */
    public function set(string $key, string $value): void
    {
        Keys::checkKey($key);
        if (strlen($value) > Keys::VALUE_MAX) {
            throw new Invalid('a value has at most ' . Keys::VALUE_MAX . ' bytes, this one has ' . strlen($value));
        }
        $this->write('SET', $key, $value);
    }

    /** Deletes the key, whether it is there or not. Throws what `set` throws. */
    public function delete(string $key): void
    {
        Keys::checkKey($key);
        $this->write('DEL', $key);
    }

    /**
     * The pairs with lo <= key < hi by rising key, at most `limit`. They are asked page by page, as they are needed.
     *
     * @return \Generator<string, string>
     */
    public function range(string $lo = '', ?string $hi = null, ?int $limit = null): \Generator
    {
        if ($limit !== null && $limit < 1) {
            throw new Invalid("a limit is at least 1, this one is $limit");
        }
        Keys::checkKey($lo, 0);
        Keys::checkKey($hi ?? '', 0);
        return $this->pages($lo === '' ? "\0" : $lo, $hi ?? '', $limit ?? PHP_INT_MAX);
    }

    /** Lets further calls throw Invalid. */
    public function end(): void
    {
        $this->session = null;
    }

    private function pages(?string $at, string $hi, int $left): \Generator
    {
        while ($at !== null && $left > 0 && ($hi === '' || strcmp($at, $hi) < 0)) {
            $size = min($left, Keys::PAIRS_MAX);
            $page = array_chunk($this->ask('RANGE', $at, $hi, (string) $size), 2);
            foreach ($page as [$key, $value]) {
                yield $key => $value;
            }
            $at = count($page) === $size ? Keys::after($page[$size - 1][0]) : null;
            $left -= $size;
        }
    }

    private function write(string $name, string ...$parts): void
    {
        if (!isset($this->written[$parts[0]]) && count($this->written) === Keys::WRITES_MAX) {
            throw new Full('FULL writes');
        }
        $this->written[$parts[0]] = true;
        $this->ask($name, ...$parts);
    }

    private function ask(string ...$parts): string|array|null
    {
        if ($this->session === null) {
            throw new Invalid('the transaction has ended');
        }
        return $this->session->ask(...$parts);
    }
}
