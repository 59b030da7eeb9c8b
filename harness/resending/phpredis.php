<?php
[, $port, $mode, $form] = $argv;
$client = new Redis();
$client->connect('127.0.0.1', (int) $port, 2, null, 0, 2); // both times out after two seconds
if ($mode === 'off') {
    $client->setOption(Redis::OPT_MAX_RETRIES, 0);
}
$lines = array_map(fn ($line) => explode(' ', $line), file('php://stdin', FILE_IGNORE_NEW_LINES));

function show(callable $ask): void
{
    try {
        $reply = $ask();
        echo 'gave ', json_encode($reply), "\n";
    } catch (RedisException $error) {
        echo 'raised ', $error->getMessage(), "\n";
    }
}

if ($form === 'each') {
    foreach ($lines as $line) {
        show(fn () => $client->rawCommand(...$line));
    }
} else {
    show(function () use ($client, $lines) {
        $client->multi(Redis::PIPELINE);
        foreach ($lines as $line) {
            $client->rawCommand(...$line);
        }
        return $client->exec();
    });
}
