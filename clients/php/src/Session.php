<?php

declare(strict_types=1);

namespace Ssikvd;

/** @internal One connection. */
final class Session
{
    /** Is no reply due? Else it is of no more use. */
    public bool $isWhole = true;
    /** @var resource */
    private $stream;

    public function __construct(string $address, float $connectTimeout, private float $replyTimeout)
    {
        $context = stream_context_create(['socket' => ['tcp_nodelay' => true]]);
        $stream = @stream_socket_client("tcp://$address", $number, $text, $connectTimeout, STREAM_CLIENT_CONNECT, $context);
        $this->stream = $stream ?: throw new Unreachable($text !== '' ? $text : 'no connection');
    }

    /** Sends one request and gives its reply. Throws its refusal, or Unreachable. */
    public function ask(string ...$parts): string|int|array|null
    {
        $this->isWhole || throw new Unreachable('the connection was lost');
        $this->isWhole = false;
        $end = hrtime(true) + (int) (1e9 * $this->replyTimeout);
        $this->send(Frames::encode(...$parts), $end);
        $reply = $this->receive($end);
        $this->isWhole = true;
        return $reply instanceof Refused ? throw $reply : $reply;
    }

    /** Sends COMMIT. Throws its refusal, Unreachable before it is sent, or Lost where the outcome isn't known. */
    public function commit(): void
    {
        $this->isWhole || throw new Unreachable('the connection was lost');
        try {
            $this->ask('COMMIT');
        } catch (Unreachable $error) {
            throw new Lost('no reply to COMMIT: ' . $error->getMessage(), 0, $error);
        } catch (Refused $refusal) {
            throw $refusal->text === 'STORE fault' ? new Lost($refusal->text, 0, $refusal) : $refusal;
        }
    }

    public function close(): void
    {
        fclose($this->stream);
    }

    private function send(string $frame, int $end): void
    {
        while ($frame !== '') {
            $this->waitUntil($end);
            $sent = @fwrite($this->stream, $frame);
            if ($sent === false || $sent === 0) {
                throw new Unreachable('the connection was lost');
            }
            $frame = substr($frame, $sent);
        }
    }

    private function receive(int $end): string|int|array|Refused|null
    {
        for ($data = ''; ($found = Frames::decode($data)) === null; $data .= $piece) {
            $this->waitUntil($end);
            $piece = @fread($this->stream, 1 << 16);
            if ($piece === false || $piece === '') {
                $isLate = stream_get_meta_data($this->stream)['timed_out'];
                throw new Unreachable($isLate ? 'no reply in time' : 'the server closed the connection: it has ended, or 128 are open');
            }
        }
        return $found[0];
    }

    private function waitUntil(int $end): void
    {
        stream_set_timeout($this->stream, 0, max(1_000, intdiv($end - hrtime(true), 1_000)));
    }
}
