<?php
require 'Predis/autoload.php';

[, $port, $mode, $form] = $argv;
$client = new Predis\Client(['host' => '127.0.0.1', 'port' => (int) $port]);
$lines = array_map(fn ($line) => explode(' ', $line), file('php://stdin', FILE_IGNORE_NEW_LINES));

function show(callable $ask): void
{
    try {
        $reply = $ask();
        echo 'gave ', json_encode($reply), "\n";
    } catch (Predis\PredisException $error) {
        echo 'raised ', $error->getMessage(), "\n";
    }
}

if ($form === 'each') {
    foreach ($lines as $line) {
        show(fn () => $client->executeRaw($line));
    }
} else {
    show(fn () => $client->pipeline(function ($pipe) use ($lines) {
        foreach ($lines as $line) {
            $pipe->executeCommand(new Predis\Command\RawCommand($line));
        }
    }));
}
